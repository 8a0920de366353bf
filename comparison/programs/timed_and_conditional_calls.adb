--  Timed and conditional calls of one entry whose barrier is closed, open, or opened while the call waits, and of entries
--  that requeue them.
--
--  9.7.2: a timed call is cancelled when its time has come and it wasn't selected; one whose time is zero is still made.
--  9.7.3: a conditional call is cancelled unless it is selected at once. 9.5.4: requeued with abort, a call keeps its time;
--  requeued without abort, it is protected against cancellation, and waits as long as it takes.
--
--  Prints what came of each call, and that no cancelled call is left in a queue.
with Ada.Real_Time; use Ada.Real_Time;
with Ada.Text_IO;   use Ada.Text_IO;

procedure Timed_And_Conditional_Calls is

   protected Gate is
      entry Pass;
      entry Pass_With_Abort;
      entry Pass_Without_Abort;
      procedure Open;
      function Waiting return Natural;
   private
      Is_Open : Boolean := False;
   end Gate;

   protected body Gate is

      --  Opened for one call.
      entry Pass when Is_Open is
      begin
         Is_Open := False;
      end Pass;

      entry Pass_With_Abort when True is
      begin
         requeue Pass with abort;
      end Pass_With_Abort;

      entry Pass_Without_Abort when True is
      begin
         requeue Pass;
      end Pass_Without_Abort;

      procedure Open is
      begin
         Is_Open := True;
      end Open;

      function Waiting return Natural is (Pass'Count);

   end Gate;

   --  Opens the gate when a call waits at it and this time has passed.
   task type Opener (Milliseconds : Natural);

   task body Opener is
      From : constant Time := Clock;
   begin
      while Gate.Waiting = 0 or else Clock - From < Ada.Real_Time.Milliseconds (Milliseconds) loop
         delay 0.001;
      end loop;
      Gate.Open;
   end Opener;

   procedure Conditional (What : String) is
   begin
      select
         Gate.Pass;
         Put_Line (What & ": selected");
      else
         Put_Line (What & ": cancelled");
      end select;
   end Conditional;

   procedure Timed (What : String; Limit : Duration) is
      From : constant Time := Clock;
   begin
      select
         Gate.Pass;
         Put_Line (What & ": selected");
      or
         delay Limit;
         Put_Line (What & ": cancelled" & (if To_Duration (Clock - From) < Limit then " too early" else ""));
      end select;
   end Timed;

   procedure Until_Moment (What : String; Limit : Time) is
   begin
      select
         Gate.Pass;
         Put_Line (What & ": selected");
      or
         delay until Limit;
         Put_Line (What & ": cancelled" & (if Clock < Limit then " too early" else ""));
      end select;
   end Until_Moment;

   procedure Requeued_With_Abort (What : String; Limit : Duration) is
   begin
      select
         Gate.Pass_With_Abort;
         Put_Line (What & ": selected");
      or
         delay Limit;
         Put_Line (What & ": cancelled");
      end select;
   end Requeued_With_Abort;

begin
   Conditional ("conditional, closed");
   Timed ("timed, closed", 0.02);
   Timed ("no time, closed", 0.0);
   Timed ("time gone by, closed", -1.0);
   Until_Moment ("moment gone by, closed", Clock - Seconds (1));
   Until_Moment ("until, closed", Clock + Milliseconds (20));
   Gate.Open;
   Conditional ("conditional, open");
   Gate.Open;
   Timed ("timed, open", 1.0);
   Gate.Open;
   Timed ("no time, open", 0.0);
   Gate.Open;
   Until_Moment ("moment gone by, open", Clock - Seconds (1));
   declare
      The_Opener : Opener (0);
   begin
      Timed ("timed, opened later", 60.0);
   end;

   Requeued_With_Abort ("with abort, closed", 0.02);
   Gate.Open;
   Requeued_With_Abort ("with abort, open", 60.0);
   select
      Gate.Pass_With_Abort;
      Put_Line ("conditional, with abort: selected");
   else
      Put_Line ("conditional, with abort: cancelled");
   end select;

   declare
      The_Opener : Opener (60);
      From       : constant Time := Clock;
   begin
      select
         Gate.Pass_Without_Abort;
         Put_Line ("timed, without abort: selected" & (if Clock - From > Milliseconds (10) then " late" else ""));
      or
         delay 0.01;
         Put_Line ("timed, without abort: cancelled");
      end select;
   end;
   declare
      The_Opener : Opener (0);
   begin
      select
         Gate.Pass_Without_Abort;
         Put_Line ("cond., without abort: selected");
      else
         Put_Line ("cond., without abort: cancelled");
      end select;
   end;
   Put_Line ("waiting" & Gate.Waiting'Image);
end Timed_And_Conditional_Calls;
