--  Calls wait on Last. A conditional call, which a requeue without abort protected against cancellation, is requeued with
--  abort to Last in the protected action that opens Last.
--
--  9.5.4: a requeue to an entry of the same object adds the call to the queue of the entry, and the protected action goes on.
--  D.4: of one queue the call that came first is selected first. So the conditional call comes after those that wait.
--
--  Prints in which order the calls were served.
with Ada.Text_IO; use Ada.Text_IO;

procedure Conditional_Call_Overtakes is

   protected Relay is
      entry First (Number : Positive);
      entry Between (Number : Positive);
      entry Last (Number : Positive);
      procedure Open;
      function Waiting return Natural;
      function Order return String;
   private
      Is_Open : Boolean          := False;
      Served  : String (1 .. 10) := [others => ' '];
      Length  : Natural          := 0;
   end Relay;

   protected body Relay is

      entry First (Number : Positive) when True is
      begin
         requeue Between;
      end First;

      entry Between (Number : Positive) when Is_Open is
      begin
         requeue Last with abort;
      end Between;

      entry Last (Number : Positive) when Is_Open is
      begin
         Served (Length + 1 .. Length + 2) := Number'Image;
         Length := Length + 2;
      end Last;

      procedure Open is
      begin
         Is_Open := True;
      end Open;

      function Waiting return Natural is (Between'Count + Last'Count);

      function Order return String is (Served (1 .. Length));

   end Relay;

   task type Caller (Number : Positive);

   task body Caller is
   begin
      if Number = 3 then
         select
            Relay.First (Number);
         else
            Put_Line ("WRONG: cancelled");
         end select;
      else
         Relay.Last (Number);
      end if;
   end Caller;

   type Caller_Access is access Caller;

   Callers : array (1 .. 4) of Caller_Access;

begin
   for Number in Callers'Range loop
      Callers (Number) := new Caller (Number);
      while Relay.Waiting < Number loop
         delay 0.001;
      end loop;
   end loop;
   Put_Line ("waiting" & Relay.Waiting'Image);
   Relay.Open;
   Put_Line ("served" & Relay.Order & ", waiting" & Relay.Waiting'Image);
end Conditional_Call_Overtakes;
