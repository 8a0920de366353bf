--  Two calls wait, protected by a requeue without abort: a conditional one, then a simple one. A procedure opens their entry,
--  whose body requeues each with abort: first the conditional one to a closed entry, on which it is cancelled, and then the
--  simple one to an open entry.
--
--  9.5.3: as long as an open entry has a queued call, such a call is selected before the protected action completes. A
--  cancelled call doesn't end that.
--
--  Prints how many calls wait and were served right after the procedure, and what came of the conditional call.
with Ada.Text_IO; use Ada.Text_IO;

procedure Servicing_Ends_Early is

   protected Relay is
      entry First (Number : Positive);
      procedure Open;
      function Waiting return Natural;
      function Served return Natural;
   private
      entry Between (Number : Positive);
      entry Closed_One;
      entry Open_One;
      Is_Open : Boolean := False;
      Bodies  : Natural := 0;
   end Relay;

   protected body Relay is

      entry First (Number : Positive) when True is
      begin
         requeue Between;
      end First;

      entry Between (Number : Positive) when Is_Open is
      begin
         if Number = 1 then
            requeue Closed_One with abort;
         else
            requeue Open_One with abort;
         end if;
      end Between;

      entry Closed_One when False is
      begin
         null;
      end Closed_One;

      entry Open_One when True is
      begin
         Bodies := Bodies + 1;
      end Open_One;

      procedure Open is
      begin
         Is_Open := True;
      end Open;

      function Waiting return Natural is (Between'Count + Closed_One'Count + Open_One'Count);

      function Served return Natural is (Bodies);

   end Relay;

   task type Caller (Number : Positive);

   task body Caller is
   begin
      if Number = 1 then
         select
            Relay.First (Number);
            Put_Line ("WRONG: conditional call selected");
         else
            Put_Line ("conditional call cancelled");
         end select;
      else
         Relay.First (Number);
      end if;
   end Caller;

   type Caller_Access is access Caller;

   Callers : array (1 .. 2) of Caller_Access;

begin
   for Number in Callers'Range loop
      Callers (Number) := new Caller (Number);
      while Relay.Waiting < Number loop
         delay 0.001;
      end loop;
   end loop;
   Put_Line ("waiting" & Relay.Waiting'Image);
   Relay.Open;
   declare
      Waiting : constant Natural := Relay.Waiting;
      Served  : constant Natural := Relay.Served;
   begin
      while not Callers (1).all'Terminated loop
         delay 0.001;
      end loop;
      Put_Line ("waiting" & Waiting'Image & ", served" & Served'Image);
   end;
   --  Another protected action serves what was left.
   Relay.Open;
   Put_Line ("waiting" & Relay.Waiting'Image & ", served" & Relay.Served'Image);
end Servicing_Ends_Early;
