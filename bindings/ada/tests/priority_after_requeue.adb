--  A task that has requeued the call of a more urgent one to another task gets its own priority back (D.1), whatever the
--  priority of that other task. A queue under Priority_Queuing (D.4) shows it.

pragma Queuing_Policy (Priority_Queuing);

with Ada.Text_IO; use Ada.Text_IO;

procedure Priority_After_Requeue with Priority => 15 is

   protected P is
      entry Wait (Name : String);
      procedure Open;
      function Waiting return Natural;
   private
      Is_Open : Boolean := False;
   end P;

   protected body P is
      entry Wait (Name : String) when Is_Open is
      begin
         Put_Line (Name);
      end Wait;

      procedure Open is
      begin
         Is_Open := True;
      end Open;

      function Waiting return Natural is (Wait'Count);
   end P;

   task Urgent with Priority => 20 is
      entry Serve;
   end Urgent;

   task body Urgent is
   begin
      accept Serve do
         delay 0.01;
      end Serve;
   end Urgent;

   task Passes_On with Priority => 3 is
      entry Serve;
   end Passes_On;

   task body Passes_On is
   begin
      accept Serve do
         requeue Urgent.Serve;
      end Serve;

      P.Wait ("priority 3");
   end Passes_On;

   task Middle with Priority => 10 is
      entry Go;
   end Middle;

   task body Middle is
   begin
      accept Go;
      P.Wait ("priority 10");
   end Middle;

begin
   delay 0.05;
   Passes_On.Serve;

   while P.Waiting = 0 loop
      delay 0.001;
   end loop;

   Middle.Go;

   while P.Waiting = 1 loop
      delay 0.001;
   end loop;

   P.Open;
end Priority_After_Requeue;
