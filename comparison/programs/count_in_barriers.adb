--  Barriers that use Count: a meeting of three, whose callers wait until three are there and then all go; and a pulse, which
--  lets all calls go that wait when it comes, and no later ones.
--
--  9.5.3: a barrier that uses Count is evaluated again when the queue has changed, also when a call was queued or cancelled.
--  9.9: Count is the number of calls in the queue.
--
--  Prints how many wait, and how many were let go, after each step.
with Ada.Text_IO; use Ada.Text_IO;

procedure Count_In_Barriers is

   protected Meeting is
      entry Meet;
      function Waiting return Natural;
      function Gone return Natural;
   private
      Leaving : Boolean := False;
      Number  : Natural := 0;
   end Meeting;

   protected body Meeting is

      entry Meet when Leaving or else Meet'Count = 3 is
      begin
         Leaving := Meet'Count > 0;
         Number := Number + 1;
      end Meet;

      function Waiting return Natural is (Meet'Count);

      function Gone return Natural is (Number);

   end Meeting;

   protected Pulse is
      entry Wait;
      procedure Come;
      function Waiting return Natural;
      function Gone return Natural;
   private
      Is_Coming : Boolean := False;
      Number    : Natural := 0;
   end Pulse;

   protected body Pulse is

      entry Wait when Is_Coming is
      begin
         Is_Coming := Wait'Count > 0;
         Number := Number + 1;
      end Wait;

      procedure Come is
      begin
         Is_Coming := Wait'Count > 0;
      end Come;

      function Waiting return Natural is (Wait'Count);

      function Gone return Natural is (Number);

   end Pulse;

   --  Open while just one call waits: a call that is cancelled may open it.
   protected Last_One is
      entry Stay;
      entry Let_Go;
      function Waiting return Natural;
   private
      Begun : Boolean := False;
   end Last_One;

   protected body Last_One is

      entry Stay when Begun and then Stay'Count = 1 is
      begin
         null;
      end Stay;

      entry Let_Go when Stay'Count = 2 is
      begin
         Begun := True;
      end Let_Go;

      function Waiting return Natural is (Stay'Count);

   end Last_One;

   task type Visitor;

   task body Visitor is
   begin
      Meeting.Meet;
   end Visitor;

   task type Listener;

   task body Listener is
   begin
      Pulse.Wait;
   end Listener;

   task type Stayer;

   task body Stayer is
   begin
      Last_One.Stay;
   end Stayer;

   procedure Say (What : String; Waiting, Gone : Natural) is
   begin
      Put_Line (What & ": waiting" & Waiting'Image & ", gone" & Gone'Image);
   end Say;

   type Visitor_Access is access Visitor;
   type Listener_Access is access Listener;

   A_Visitor  : Visitor_Access with Unreferenced;
   A_Listener : Listener_Access with Unreferenced;

begin
   for Round in 1 .. 2 loop
      for Number in 1 .. 2 loop
         A_Visitor := new Visitor;
         while Meeting.Waiting < Number loop
            delay 0.001;
         end loop;
      end loop;
      Say ("meeting of two", Meeting.Waiting, Meeting.Gone);
      Meeting.Meet;
      Say ("meeting of three", Meeting.Waiting, Meeting.Gone);
   end loop;

   Pulse.Come;
   Say ("pulse for nobody", Pulse.Waiting, Pulse.Gone);
   for Number in 1 .. 4 loop
      A_Listener := new Listener;
      while Pulse.Waiting < Number loop
         delay 0.001;
      end loop;
   end loop;
   select
      Pulse.Wait;
      Put_Line ("WRONG: let go");
   or
      delay 0.01;
   end select;
   Say ("pulse awaited", Pulse.Waiting, Pulse.Gone);
   Pulse.Come;
   Say ("pulse for four", Pulse.Waiting, Pulse.Gone);
   A_Listener := new Listener;
   while Pulse.Waiting < 1 loop
      delay 0.001;
   end loop;
   Say ("behind it", Pulse.Waiting, Pulse.Gone);
   Pulse.Come;
   Say ("pulse for one", Pulse.Waiting, Pulse.Gone);

   --  Two wait; one of them is aborted, and as it leaves, the entry opens for the other.
   declare
      First, Second : Stayer;
   begin
      Last_One.Let_Go;
      abort First;
      while not Second'Terminated loop
         delay 0.001;
      end loop;
   end;
   Put_Line ("last one: waiting" & Last_One.Waiting'Image);
end Count_In_Barriers;
