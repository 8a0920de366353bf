--  Entries whose queues are bounded: one by two calls, and a family by one call for each member.
--
--  D.4: a call or a requeue that would make a queue longer than its bound raises Program_Error, and the queue is as before.
--  GNAT 12 accepts the standard's aspect Max_Entry_Queue_Length but ignores it; its own, Max_Queue_Length, is what counts.
--
--  Prints what calls raise, and how many wait.
with Ada.Text_IO; use Ada.Text_IO;

procedure Max_Queue_Length is

   protected Gate is
      entry Pass with Max_Queue_Length => 2;
      entry Ride (1 .. 2) with Max_Queue_Length => 1;
      entry Through;
      procedure Open;
      procedure Shut;
      function Waiting return Natural;
   private
      Is_Open : Boolean := False;
   end Gate;

   protected body Gate is

      entry Pass when Is_Open is
      begin
         null;
      end Pass;

      entry Ride (for Member in 1 .. 2) when Is_Open is
      begin
         null;
      end Ride;

      entry Through when True is
      begin
         requeue Pass with abort;
      end Through;

      procedure Open is
      begin
         Is_Open := True;
      end Open;

      procedure Shut is
      begin
         Is_Open := False;
      end Shut;

      function Waiting return Natural is (Pass'Count + Ride (1)'Count + Ride (2)'Count);

   end Gate;

   type Way is (Plain, Member_1, Member_2, Requeued);

   procedure Call (The_Way : Way) is
   begin
      case The_Way is
         when Plain =>
            Gate.Pass;
         when Member_1 =>
            Gate.Ride (1);
         when Member_2 =>
            Gate.Ride (2);
         when Requeued =>
            Gate.Through;
      end case;
   end Call;

   task type Caller (The_Way : Way);

   task body Caller is
   begin
      Call (The_Way);
   exception
      when Program_Error =>
         Put_Line ("WRONG: Program_Error");
   end Caller;

   type Caller_Access is access Caller;

   A_Caller : Caller_Access;

   procedure Wait_Too (The_Way : Way) is
      Before : constant Natural := Gate.Waiting;
   begin
      A_Caller := new Caller (The_Way);
      while Gate.Waiting = Before loop
         delay 0.001;
      end loop;
   end Wait_Too;

   procedure Try (The_Way : Way) is
   begin
      Call (The_Way);
      Put_Line (The_Way'Image & ": served");
   exception
      when Program_Error =>
         Put_Line (The_Way'Image & ": Program_Error, waiting" & Gate.Waiting'Image);
   end Try;

begin
   Wait_Too (Plain);
   Wait_Too (Requeued);
   Try (Plain);
   Try (Requeued);
   Wait_Too (Member_1);
   Try (Member_1);
   Wait_Too (Member_2);
   Try (Member_2);

   --  A call that isn't queued doesn't count.
   Gate.Open;
   Put_Line ("opened, waiting" & Gate.Waiting'Image);
   for The_Way in Way loop
      Try (The_Way);
   end loop;
   Gate.Shut;

   --  A place in the queue is free again after a call was cancelled.
   Wait_Too (Plain);
   Wait_Too (Plain);
   abort A_Caller.all;
   while Gate.Waiting > 1 loop
      delay 0.001;
   end loop;
   Wait_Too (Plain);
   Try (Plain);
   Gate.Open;
end Max_Queue_Length;
