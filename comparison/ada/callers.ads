--  The tasks that make the calls: one for each call of an entry, or one for each caller of a scene.
with Ada.Containers.Vectors;
with Calls; use Calls;
with Units; use Units;

package Callers is

   --  Raised if a caller is to make a command while its last call waits.
   Waits : exception;

   --  The following commands are those of the caller with this number, made by a task of its own.
   procedure Act_As (Number : Positive);

   --  The last call of the caller with this number, or 0 if it has made none.
   function Last_Call (Number : Positive) return Natural;

   --  Starts a task that makes the call, which gets the next number, or has the present caller's task make it.
   procedure Start (Object : not null Unit_Access; To : Target; How : Manner; Item : Value);

   --  Runs the procedure, or has the present caller's task run it.
   procedure Run (Object : not null Unit_Access; Item : in out Value);

   --  How many calls have been made.
   function Made return Natural;

   --  Aborts the task that makes the call. A caller's next command gets another task.
   procedure Attempt_To_Cancel (Number : Positive);

   --  Tells the ends of calls whose tasks were aborted and have gone, as these couldn't do so themselves. A call that no body
   --  has ended counts as ended in this way.
   procedure Tell_For_Aborted (Otherwise_Finalized : Boolean);

end Callers;
