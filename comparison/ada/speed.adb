--  Times what tasks do over and over with a protected object, as bench_calls does with threads and an object of pobj. Its words
--  are WORK TASKS TURNS, and it writes WORK TASKS DONE NANOSECONDS.
with Ada.Command_Line;
with Ada.Real_Time; use Ada.Real_Time;
with Ada.Synchronous_Barriers;
with Ada.Text_IO;
with Speed_Objects; use Speed_Objects;

procedure Speed is

   type Work is (Proc, Func, Open_Entry, Closed_Entry, Put_Or_Get, Allocate, Meet);

   function Work_Named (Word : String) return Work is
     (if Word = "procedure" then Proc
      elsif Word = "function" then Func
      elsif Word = "entry" then Open_Entry
      elsif Word = "conditional" then Closed_Entry
      elsif Word = "buffer" then Put_Or_Get
      elsif Word = "allocator" then Allocate
      elsif Word = "meeting" then Meet
      else raise Constraint_Error with "no such work: " & Word);

   What  : constant Work := Work_Named (Ada.Command_Line.Argument (1));
   Tasks : constant Positive := Positive'Value (Ada.Command_Line.Argument (2));
   Turns : constant Natural := Natural'Value (Ada.Command_Line.Argument (3));

   --  A level of the trap at which the entries of the family are open.
   Open : constant Value := 3;

   The_Trap      : Trap;
   The_Buffer    : Buffer (4);
   The_Allocator : Allocator (3);
   The_Meeting   : Meeting (Tasks);

   Line : Ada.Synchronous_Barriers.Synchronous_Barrier (Tasks);

   type Lap is record
      Begun, Ended : Time;
      Seen         : Value := 0;
   end record;

   Laps : array (0 .. Tasks - 1) of Lap;

   procedure Work_Once (Number : Natural; Turn : Natural; Seen : in out Value) is
      Item : Value;
   begin
      case What is
         when Proc =>
            Item := Open;
            The_Trap.Set (Item);
         when Func =>
            Item := The_Trap.State;
         when Open_Entry =>
            Item := Value (Turn);
            The_Trap.Wait (1) (Item);
         when Closed_Entry =>
            Item := Value (Turn);
            select
               The_Trap.Wait (1) (Item);
            else
               Item := 0;
            end select;
         when Put_Or_Get =>
            Item := Value (Turn);
            if Number mod 2 = 0 then
               The_Buffer.Put (Item);
            else
               The_Buffer.Get (Item);
            end if;
         when Allocate =>
            Item := Value (1 + (Number + Turn) mod 3);
            The_Allocator.Request (Item);
            The_Allocator.Release (Item);
         when Meet =>
            Item := Value (Turn);
            The_Meeting.Wait (Item);
      end case;
      Seen := Seen + Item;
   end Work_Once;

   task type Worker is
      entry Start (The_Number : Natural);
   end Worker;

   task body Worker is
      Number   : Natural;
      Notified : Boolean;
      Seen     : Value := 0;
      Begun    : Time;
      Level    : Value := Open;
   begin
      accept Start (The_Number : Natural) do
         Number := The_Number;
      end Start;
      if What = Open_Entry then
         The_Trap.Set (Level);
      end if;
      Ada.Synchronous_Barriers.Wait_For_Release (Line, Notified);
      Begun := Clock;
      for Turn in 1 .. Turns loop
         Work_Once (Number, Turn, Seen);
      end loop;
      Laps (Number) := (Begun => Begun, Ended => Clock, Seen => Seen);
   end Worker;

   First, Last : Time;

begin
   declare
      Workers : array (0 .. Tasks - 1) of Worker;
   begin
      for Number in Workers'Range loop
         Workers (Number).Start (Number);
      end loop;
   end;
   First := Laps (0).Begun;
   Last := Laps (0).Ended;
   for Lap of Laps loop
      First := (if Lap.Begun < First then Lap.Begun else First);
      Last := (if Last < Lap.Ended then Lap.Ended else Last);
   end loop;
   Ada.Text_IO.Put_Line
     (Ada.Command_Line.Argument (1) & Positive'Image (Tasks) & Natural'Image (Tasks * Turns)
      & Long_Long_Integer'Image (Long_Long_Integer (To_Duration (Last - First) * 1_000_000_000)));
end Speed;
