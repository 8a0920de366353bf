--  Requeues between entries of tasks and of protected objects: from an entry body to an entry of a task, from an accept
--  statement to an entry of an object, there and back again, with and without abort.
--
--  9.5.4: the target of a requeue may be an entry of a task or of a protected object. The requeue completes the body or the
--  accept statement and passes the parameter on, and the caller waits until the last one completes. A timed call that is
--  requeued with abort is cancelled wherever it waits when its time comes.
--
--  Prints what the bodies and accept statements made of the parameter, and that nothing is left in a queue.
with Ada.Text_IO; use Ada.Text_IO;

procedure Requeue_Between_Tasks_And_Objects is

   protected Gate is
      entry Pass (Item : in out Integer);
      entry To_Task (Item : in out Integer);
      entry There_And_Back (Item : in out Integer);
      procedure Open;
      function Waiting return Natural;
   private
      Is_Open : Boolean := False;
   end Gate;

   task Server is
      entry Add (Item : in out Integer);
      entry Add_And_Pass (Item : in out Integer);
      entry Add_And_Pass_With_Abort (Item : in out Integer);
      entry Waiting (Number : out Natural);
      entry Sleep (Limit : Duration);
   end Server;

   protected body Gate is

      --  Opened for one call.
      entry Pass (Item : in out Integer) when Is_Open is
      begin
         Is_Open := False;
         Item := Item * 10;
      end Pass;

      entry To_Task (Item : in out Integer) when True is
      begin
         Item := Item + 2;
         requeue Server.Add;
      end To_Task;

      entry There_And_Back (Item : in out Integer) when True is
      begin
         Item := Item + 2;
         requeue Server.Add_And_Pass with abort;
      end There_And_Back;

      procedure Open is
      begin
         Is_Open := True;
      end Open;

      function Waiting return Natural is (Pass'Count);

   end Gate;

   task body Server is
   begin
      loop
         select
            accept Add (Item : in out Integer) do
               Item := Item + 100;
            end Add;
         or
            accept Add_And_Pass (Item : in out Integer) do
               Item := Item + 3;
               requeue Gate.Pass;
            end Add_And_Pass;
         or
            accept Add_And_Pass_With_Abort (Item : in out Integer) do
               Item := Item + 3;
               requeue Gate.Pass with abort;
            end Add_And_Pass_With_Abort;
         or
            accept Waiting (Number : out Natural) do
               Number := Add'Count + Add_And_Pass'Count;
            end Waiting;
         or
            accept Sleep (Limit : Duration) do
               delay Limit;
            end Sleep;
         or
            terminate;
         end select;
      end loop;
   end Server;

   --  Opens the gate some time after a call waits at it.
   task type Opener (Milliseconds : Natural);

   task body Opener is
   begin
      while Gate.Waiting = 0 loop
         delay 0.001;
      end loop;
      delay Milliseconds * 0.001;
      Gate.Open;
   end Opener;

   procedure Say (What : String; Item : Integer) is
      Left : Natural;
   begin
      Server.Waiting (Left);
      Put_Line (What & ":" & Item'Image & ", waiting" & Gate.Waiting'Image & "," & Left'Image);
   end Say;

   Item : Integer := 1;

begin
   Gate.To_Task (Item);
   Say ("object to task", Item);

   Item := 1;
   declare
      The_Opener : Opener (1);
   begin
      Server.Add_And_Pass (Item);
   end;
   Say ("task to object, closed", Item);

   Item := 1;
   Gate.Open;
   Server.Add_And_Pass (Item);
   Say ("task to object, open", Item);

   Item := 1;
   declare
      The_Opener : Opener (1);
   begin
      Gate.There_And_Back (Item);
   end;
   Say ("object, task, object", Item);

   --  A call that a task requeued without abort waits beyond its time.
   Item := 1;
   declare
      The_Opener : Opener (300);
   begin
      select
         Server.Add_And_Pass (Item);
      or
         delay 0.1;
         Put_Line ("WRONG: cancelled");
      end select;
   end;
   Say ("timed, without abort", Item);

   Item := 1;
   select
      Server.Add_And_Pass_With_Abort (Item);
      Put_Line ("WRONG: selected");
   or
      delay 0.01;
   end select;
   Say ("timed, with abort", Item);

   --  The call waits at the task, which sleeps.
   declare
      task Nurse;

      task body Nurse is
      begin
         Server.Sleep (0.4);
      end Nurse;
   begin
      delay 0.02;
      Item := 1;
      select
         Gate.There_And_Back (Item);
         Put_Line ("WRONG: selected");
      or
         delay 0.01;
      end select;
   end;
   Say ("timed, at the task", Item);
end Requeue_Between_Tasks_And_Objects;
