--  Asynchronous selects whose trigger is an entry call, or a delay.
--
--  9.7.4: if the trigger's call isn't queued, the abortable part doesn't begin. If the abortable part completes first, an
--  attempt is made to cancel the call. If the call completes first, or the delay expires, the part is aborted. 9.5.4: a call
--  that was requeued without abort is protected against cancellation. 9.8: Finalize is still carried out.
--
--  Prints what happened in each select, and that nothing is left in a queue.
with Ada.Finalization;
with Ada.Real_Time; use Ada.Real_Time;
with Ada.Text_IO;   use Ada.Text_IO;

procedure Asynchronous_Selects is

   protected Gate is
      entry Pass;
      entry Pass_With_Abort;
      entry Pass_Without_Abort;
      entry Pass_By_Force;
      procedure Open;
      function Waiting return Natural;
   private
      Is_Open : Boolean := False;
   end Gate;

   protected body Gate is

      entry Pass when Is_Open is
      begin
         Is_Open := False;
      end Pass;

      entry Pass_With_Abort when True is
      begin
         requeue Pass with abort;
      end Pass_With_Abort;

      entry Pass_Without_Abort when True is
      begin
         requeue Pass;
      end Pass_Without_Abort;

      entry Pass_By_Force when True is
      begin
         raise Constraint_Error;
      end Pass_By_Force;

      procedure Open is
      begin
         Is_Open := True;
      end Open;

      function Waiting return Natural is (Pass'Count);

   end Gate;

   --  Opens the gate this number of times, each time when a call waits at it and some time has passed.
   task type Opener (Times : Positive);

   task body Opener is
   begin
      for Turn in 1 .. Times loop
         while Gate.Waiting = 0 loop
            delay 0.001;
         end loop;
         delay 0.1;
         Gate.Open;
      end loop;
   end Opener;

   type Guard is new Ada.Finalization.Limited_Controlled with null record;

   overriding procedure Finalize (Object : in out Guard);

   overriding procedure Finalize (Object : in out Guard) is
   begin
      Put_Line ("  finalized");
   end Finalize;

   procedure Part_Ends_First is
   begin
      select
         Gate.Pass;
         Put_Line ("  WRONG: triggered");
      then abort
         delay 0.01;
         Put_Line ("  part completes");
      end select;
   end Part_Ends_First;

   procedure Not_Queued is
   begin
      Gate.Open;
      select
         Gate.Pass;
         Put_Line ("  triggered at once");
      then abort
         Put_Line ("  WRONG: part begins");
      end select;
   end Not_Queued;

   procedure Call_Ends_First is
      The_Opener : Opener (1);
   begin
      select
         Gate.Pass;
         Put_Line ("  triggered");
      then abort
         declare
            The_Guard : Guard;
         begin
            Put_Line ("  part begins");
            delay 60.0;
            Put_Line ("  WRONG: part completes");
         end;
      end select;
   end Call_Ends_First;

   procedure Requeued_With_Abort is
      The_Opener : Opener (1);
   begin
      select
         Gate.Pass_With_Abort;
         Put_Line ("  triggered");
      then abort
         Put_Line ("  part begins");
         delay 60.0;
         Put_Line ("  WRONG: part completes");
      end select;
   end Requeued_With_Abort;

   procedure Body_Raises is
   begin
      select
         Gate.Pass_By_Force;
         Put_Line ("  WRONG: triggered");
      then abort
         Put_Line ("  WRONG: part begins");
      end select;
   exception
      when Constraint_Error =>
         Put_Line ("  the call's exception");
   end Body_Raises;

   procedure Part_Raises is
   begin
      select
         Gate.Pass;
         Put_Line ("  WRONG: triggered");
      then abort
         raise Constraint_Error;
      end select;
   exception
      when Constraint_Error =>
         Put_Line ("  the part's exception, waiting" & Gate.Waiting'Image);
   end Part_Raises;

   procedure Delay_Ends_First is
   begin
      select
         delay 0.01;
         Put_Line ("  expired");
      then abort
         declare
            The_Guard : Guard;
         begin
            delay 60.0;
            Put_Line ("  WRONG: part completes");
         end;
      end select;
   end Delay_Ends_First;

   procedure Delay_Ends_Last is
   begin
      select
         delay until Clock + Seconds (60);
         Put_Line ("  WRONG: expired");
      then abort
         delay 0.01;
         Put_Line ("  part completes");
      end select;
   end Delay_Ends_Last;

   procedure Delay_Cuts_A_Call is
   begin
      select
         delay 0.01;
         Put_Line ("  expired, waiting" & Gate.Waiting'Image);
      then abort
         Gate.Pass;
         Put_Line ("  WRONG: served");
      end select;
   end Delay_Cuts_A_Call;

   --  The call in the part is protected against cancellation: the part is aborted only when it was served.
   procedure Delay_Meets_A_Protected_Call is
      The_Opener : Opener (1);
      From       : constant Time := Clock;
   begin
      select
         delay 0.005;
         Put_Line ("  expired" & (if Clock - From < Milliseconds (100) then " TOO EARLY" else " behind the call"));
      then abort
         Gate.Pass_Without_Abort;
         Put_Line ("  WRONG: part goes on");
      end select;
   end Delay_Meets_A_Protected_Call;

   --  Two calls of one task are queued on one entry. The inner one is cancelled, and then the outer one.
   procedure Nested is
   begin
      select
         Gate.Pass;
         Put_Line ("  WRONG: outer triggered");
      then abort
         select
            Gate.Pass;
            Put_Line ("  WRONG: inner triggered");
         then abort
            delay 0.01;
            Put_Line ("  inner part completes, waiting" & Gate.Waiting'Image);
         end select;
         Put_Line ("  outer part completes, waiting" & Gate.Waiting'Image);
      end select;
   end Nested;

begin
   Put_Line ("part ends first");
   Part_Ends_First;
   Put_Line ("not queued");
   Not_Queued;
   Put_Line ("call ends first");
   Call_Ends_First;
   Put_Line ("requeued with abort");
   Requeued_With_Abort;
   Put_Line ("body raises");
   Body_Raises;
   Put_Line ("part raises");
   Part_Raises;
   Put_Line ("delay ends first");
   Delay_Ends_First;
   Put_Line ("delay ends last");
   Delay_Ends_Last;
   Put_Line ("delay cuts a call");
   Delay_Cuts_A_Call;
   Put_Line ("delay meets a protected call");
   Delay_Meets_A_Protected_Call;
   Put_Line ("nested");
   Nested;
   Put_Line ("waiting" & Gate.Waiting'Image);
end Asynchronous_Selects;
