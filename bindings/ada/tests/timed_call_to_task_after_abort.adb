--  A timed call in Finalize is queued on an object, its task is aborted, and the call is requeued with abort to a task that
--  doesn't accept it yet. The abort doesn't affect it, and its time hasn't come, so it is queued and accepted later (9.5.4,
--  9.8).

with Ada.Finalization;
with Ada.Text_IO; use Ada.Text_IO;

procedure Timed_Call_To_Task_After_Abort is

   task Server is
      entry Start;
      entry Serve (Is_Served : in out Boolean);
   end Server;

   protected P is
      entry Call (Is_Served : in out Boolean);
      procedure Open;
      function Waiting return Natural;
   private
      Is_Open : Boolean := False;
   end P;

   protected body P is
      entry Call (Is_Served : in out Boolean) when Is_Open is
      begin
         requeue Server.Serve with abort;
      end Call;

      procedure Open is
      begin
         Is_Open := True;
      end Open;

      function Waiting return Natural is (Call'Count);
   end P;

   task body Server is
   begin
      accept Start;
      select
         accept Serve (Is_Served : in out Boolean) do
            Is_Served := True;
         end Serve;
      or
         delay 0.5;
         Put_Line ("wrong: the call is gone");
      end select;
   end Server;

   type Guard is new Ada.Finalization.Limited_Controlled with null record;

   overriding procedure Finalize (Object : in out Guard);

   overriding procedure Finalize (Object : in out Guard) is
      Is_Served : Boolean := False;
   begin
      select
         P.Call (Is_Served);
         Put_Line (if Is_Served then "served" else "wrong: not served");
      or
         delay 10.0;
         Put_Line ("wrong: its time came");
      end select;
   end Finalize;

   task T;

   task body T is
      G : Guard;
      pragma Unreferenced (G);
   begin
      null;
   end T;

begin
   while P.Waiting = 0 loop
      delay 0.001;
   end loop;

   delay 0.01;
   abort T;
   P.Open;
   delay 0.05;
   Server.Start;
end Timed_Call_To_Task_After_Abort;
