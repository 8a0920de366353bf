--  Objects are finalized while calls are queued on them: one that was allocated, and one whose block is left. Some of the
--  calls are timed, and one is the trigger of an asynchronous select. Two of the tasks were aborted before, while their
--  calls were protected against cancellation.
--
--  9.4: when a protected object is finalized, each call that is queued on it raises Program_Error.
--
--  Prints how many calls were served (S), how many raised Program_Error (P), and that all tasks ended.
with Ada.Text_IO; use Ada.Text_IO;
with Ada.Unchecked_Deallocation;

procedure Finalized_With_Queued_Calls is

   protected type Gate is
      entry Pass (1 .. 3);
      entry Without_Abort;
      procedure Open (The_Member : Positive);
      function Waiting return Natural;
   private
      entry Shut;
      Member : Natural := 0;
   end Gate;

   protected body Gate is

      --  Opened for one call.
      entry Pass (for The_Member in 1 .. 3) when Member = The_Member is
      begin
         Member := 0;
      end Pass;

      entry Without_Abort when True is
      begin
         requeue Shut;
      end Without_Abort;

      entry Shut when False is
      begin
         null;
      end Shut;

      procedure Open (The_Member : Positive) is
      begin
         Member := The_Member;
      end Open;

      function Waiting return Natural is
        (Pass (1)'Count + Pass (2)'Count + Pass (3)'Count + Shut'Count);

   end Gate;

   type Manner is (Plain, Timed, Trigger, Protected_One, Aborted_One);

   subtype Caller_Number is Positive range 1 .. 10;

   type Letters is array (Caller_Number) of Character with Atomic_Components;

   Ends : Letters := [others => '-'];

   function How (Number : Caller_Number) return Manner is
     (case Number is
        when 1 .. 4  => Plain,
        when 5 .. 6  => Timed,
        when 7       => Trigger,
        when 8       => Protected_One,
        when 9 .. 10 => Aborted_One);

   type Gate_Pointer is access all Gate;

   task type Caller (Object : not null Gate_Pointer; Number : Caller_Number);

   task body Caller is
      Member : constant Positive := 1 + Number mod 3;
   begin
      case How (Number) is
         when Plain =>
            Object.Pass (Member);
         when Timed =>
            select
               Object.Pass (Member);
            or
               delay 3_600.0;
            end select;
         when Trigger =>
            select
               Object.Pass (Member);
            then abort
               delay 3_600.0;
            end select;
         when Protected_One | Aborted_One =>
            Object.Without_Abort;
      end case;
      Ends (Number) := 'S';
   exception
      when Program_Error =>
         Ends (Number) := 'P';
      when others =>
         Ends (Number) := '?';
   end Caller;

   type Caller_Access is access Caller;

   Callers : array (Caller_Number) of Caller_Access;

   function Number_Of (Letter : Character) return Natural is
      Number : Natural := 0;
   begin
      for Ended of Ends loop
         Number := Number + Boolean'Pos (Ended = Letter);
      end loop;
      return Number;
   end Number_Of;

   procedure Start (Object : not null Gate_Pointer) is
   begin
      Ends := [others => '-'];
      for Number in Callers'Range loop
         Callers (Number) := new Caller (Object, Number);
         while Object.Waiting < Number loop
            delay 0.001;
         end loop;
      end loop;
      for Number in Callers'Range loop
         if How (Number) = Aborted_One then
            abort Callers (Number).all;
         end if;
      end loop;
      delay 0.01;
      Object.Open (1);
      Object.Open (2);
      Put_Line ("waiting" & Object.Waiting'Image);
   end Start;

   procedure Say (What : String) is
   begin
      for Caller of Callers loop
         while not Caller.all'Terminated loop
            delay 0.001;
         end loop;
      end loop;
      Put_Line
        (What & ": S" & Natural'Image (Number_Of ('S')) & ", P" & Natural'Image (Number_Of ('P')) & ", nothing"
         & Natural'Image (Number_Of ('-')));
   end Say;

   procedure Free is new Ada.Unchecked_Deallocation (Gate, Gate_Pointer);

   Allocated : Gate_Pointer := new Gate;

begin
   Start (Allocated);
   Free (Allocated);
   Say ("allocated");
   declare
      In_Block : aliased Gate;
   begin
      Start (In_Block'Unchecked_Access);
   end;
   Say ("in a block");
end Finalized_With_Queued_Calls;
