--  A timed call in Finalize is requeued without abort to a task, and its time comes: it isn't cancelled, and is accepted
--  later (9.5.4, 9.7.2).

with Ada.Finalization;
with Ada.Text_IO; use Ada.Text_IO;

procedure Expired_On_Task is

   task Server is
      entry Start;
      entry Serve (Is_Served : in out Boolean);
   end Server;

   protected P is
      entry Call (Is_Served : in out Boolean);
   end P;

   protected body P is
      entry Call (Is_Served : in out Boolean) when True is
      begin
         requeue Server.Serve;
      end Call;
   end P;

   task body Server is
   begin
      accept Start;
      select
         accept Serve (Is_Served : in out Boolean) do
            Is_Served := True;
         end Serve;
      or
         delay 0.5;
         Put_Line ("wrong: the call is gone");
      end select;
   end Server;

   type Guard is new Ada.Finalization.Limited_Controlled with null record;

   overriding procedure Finalize (Object : in out Guard);

   overriding procedure Finalize (Object : in out Guard) is
      Is_Served : Boolean := False;
   begin
      select
         P.Call (Is_Served);
         Put_Line (if Is_Served then "served" else "wrong: not served");
      or
         delay 0.02;
         Put_Line ("wrong: its time came");
      end select;
   end Finalize;

   task T;

   task body T is
      G : Guard;
      pragma Unreferenced (G);
   begin
      null;
   end T;

begin
   delay 0.1;
   Server.Start;
end Expired_On_Task;
