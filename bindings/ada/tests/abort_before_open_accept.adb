--  A call is requeued without abort within its object, its caller is aborted, and then the call is requeued with abort to a
--  task that waits to accept it: it is cancelled, not accepted (9.5.4, 9.8).

with Ada.Text_IO; use Ada.Text_IO;
with GNAT.OS_Lib;

procedure Abort_Before_Open_Accept is

   Is_Accepted : Boolean := False;
   pragma Atomic (Is_Accepted);

   task Server is
      entry Serve;
   end Server;

   protected P is
      entry Call;
      entry Second;
      procedure Open;
      function Waiting return Natural;
   private
      Is_Open : Boolean := False;
   end P;

   protected body P is
      entry Call when True is
      begin
         requeue Second;
      end Call;

      entry Second when Is_Open is
      begin
         requeue Server.Serve with abort;
      end Second;

      procedure Open is
      begin
         Is_Open := True;
      end Open;

      function Waiting return Natural is (Second'Count);
   end P;

   task body Server is
   begin
      accept Serve do
         Is_Accepted := True;
      end Serve;
   end Server;

   task Caller;

   task body Caller is
   begin
      P.Call;
   end Caller;

begin
   while P.Waiting = 0 loop
      delay 0.001;
   end loop;

   abort Caller;
   delay 0.05;
   P.Open;

   for Try in 1 .. 2_000 loop
      exit when Caller'Terminated;
      delay 0.005;
   end loop;

   Put_Line (if Caller'Terminated then "terminated" else "wrong: waits");
   Put_Line (if Is_Accepted then "wrong: accepted" else "not accepted");
   GNAT.OS_Lib.OS_Exit (0);
end Abort_Before_Open_Accept;
