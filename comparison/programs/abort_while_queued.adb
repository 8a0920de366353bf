--  Tasks are aborted while their calls are queued: three plain calls, three queued by a requeue with abort, and three queued
--  by a requeue without abort.
--
--  9.8: the abort of a task that waits in an entry queue cancels its call. 9.5.4: a call that was requeued without abort is
--  protected against cancellation, so its body runs, and then the task completes: what follows the call isn't carried out.
--  D.4: those that stay keep their order.
--
--  Prints how many wait before and after the aborts, which calls were served in which order, and that all tasks ended while
--  only those that weren't aborted went on.
with Ada.Text_IO; use Ada.Text_IO;

procedure Abort_While_Queued is

   subtype Caller_Number is Positive range 1 .. 3;

   type Manner is (Plain, With_Abort, Without_Abort);

   protected Gate is
      entry Pass (Caller : Caller_Number);
      entry Pass_With_Abort (Caller : Caller_Number);
      entry Pass_Without_Abort (Caller : Caller_Number);
      procedure Open;
      procedure Close;
      procedure Go_On;
      function Waiting return Natural;
      function Order return String;
      function Went_On return Natural;
   private
      Is_Open : Boolean         := False;
      Served  : String (1 .. 3) := [others => ' '];
      Length  : Natural         := 0;
      Number  : Natural         := 0;
   end Gate;

   protected body Gate is

      entry Pass (Caller : Caller_Number) when Is_Open is
      begin
         Length := Length + 1;
         Served (Length) := Character'Val (Character'Pos ('0') + Caller);
      end Pass;

      entry Pass_With_Abort (Caller : Caller_Number) when True is
      begin
         requeue Pass with abort;
      end Pass_With_Abort;

      entry Pass_Without_Abort (Caller : Caller_Number) when True is
      begin
         requeue Pass;
      end Pass_Without_Abort;

      procedure Open is
      begin
         Is_Open := True;
      end Open;

      procedure Close is
      begin
         Is_Open := False;
         Length := 0;
         Number := 0;
      end Close;

      procedure Go_On is
      begin
         Number := Number + 1;
      end Go_On;

      function Waiting return Natural is (Pass'Count);

      function Order return String is (Served (1 .. Length));

      function Went_On return Natural is (Number);

   end Gate;

   procedure Try (How : Manner) is

      task type Caller (Number : Caller_Number);

      task body Caller is
      begin
         case How is
            when Plain =>
               Gate.Pass (Number);
            when With_Abort =>
               Gate.Pass_With_Abort (Number);
            when Without_Abort =>
               Gate.Pass_Without_Abort (Number);
         end case;
         Gate.Go_On;
      end Caller;

      type Caller_Access is access Caller;

      Callers : array (Caller_Number) of Caller_Access;
      Before  : Natural;

   begin
      for Number in Callers'Range loop
         Callers (Number) := new Caller (Number);
         while Gate.Waiting < Number loop
            delay 0.001;
         end loop;
      end loop;
      Before := Gate.Waiting;
      --  The one in the middle, then the first.
      abort Callers (2).all;
      abort Callers (1).all;
      if How = Without_Abort then
         delay 0.02;
      else
         while Gate.Waiting > 1 loop
            delay 0.001;
         end loop;
      end if;
      Put (How'Image & ": waiting" & Before'Image & "," & Gate.Waiting'Image);
      Gate.Open;
      for Caller of Callers loop
         while not Caller.all'Terminated loop
            delay 0.001;
         end loop;
      end loop;
      Put_Line ("; served " & Gate.Order & "; went on" & Gate.Went_On'Image);
      Gate.Close;
   end Try;

begin
   for How in Manner loop
      Try (How);
   end loop;
   Put_Line ("waiting" & Gate.Waiting'Image);
end Abort_While_Queued;
