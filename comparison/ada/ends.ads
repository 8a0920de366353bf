--  How calls end. A body notes an end under the lock of its object, which gives the order. The task that made the call tells
--  the end when it is out of the call, which shows that it was woken, and with what.
with Calls; use Calls;
private with Ada.Containers.Vectors;

package Ends is

   type Kind_Of_End is (Completed, Raised, Cancelled, Program_Error_Raised);

   type Call_End is record
      Number : Positive;
      Kind   : Kind_Of_End;
      Item   : Value := 0;
   end record;

   --  Notes that a body completes the call.
   procedure Complete (Ended : Call);

   --  Notes that a body is about to raise the exception of that number.
   procedure Fail (Ended : Call; Code : Value);

   --  Tells that the call is over: its task says so, or its task was aborted and is gone.
   procedure Tell (Ended : Call_End);

   --  Tells that the aborted task of the call is gone. The end is the one that a body noted, or else that kind.
   procedure Tell_For_Aborted (Number : Positive; Otherwise : Kind_Of_End);

   function Is_Told (Number : Positive) return Boolean;

   --  How many calls are over.
   function Told return Natural;

   --  How many ends are noted or told, and the end at a place in their order.
   function Known return Natural;
   function Known_End (Place : Positive) return Call_End;

private

   package End_Vectors is new Ada.Containers.Vectors (Positive, Call_End);

end Ends;
