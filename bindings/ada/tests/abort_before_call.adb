--  A task is aborted while it computes, and then calls an entry. The call is requeued without abort, and later with abort
--  to a closed entry: there it is cancelled (9.5.4, 9.8).

with Ada.Text_IO; use Ada.Text_IO;
with GNAT.OS_Lib;

procedure Abort_Before_Call is

   protected P is
      entry First;
      entry Second;
      entry Third;
      procedure Open_Second;
      function On_Second return Natural;
      function On_Third return Natural;
   private
      Is_Open : Boolean := False;
   end P;

   protected body P is
      entry First when True is
      begin
         requeue Second;
      end First;

      entry Second when Is_Open is
      begin
         requeue Third with abort;
      end Second;

      entry Third when False is
      begin
         null;
      end Third;

      procedure Open_Second is
      begin
         Is_Open := True;
      end Open_Second;

      function On_Second return Natural is (Second'Count);
      function On_Third return Natural is (Third'Count);
   end P;

   Computes, Is_Aborted : Boolean := False;
   pragma Atomic (Computes);
   pragma Atomic (Is_Aborted);

   task T;

   task body T is
   begin
      Computes := True;

      while not Is_Aborted loop
         null;
      end loop;

      P.First;
      Put_Line ("wrong: goes on");
   end T;

begin
   while not Computes loop
      delay 0.001;
   end loop;

   abort T;
   Is_Aborted := True;

   for Try in 1 .. 2_000 loop
      exit when P.On_Second > 0 or else T'Terminated;
      delay 0.005;
   end loop;

   P.Open_Second;

   for Try in 1 .. 2_000 loop
      exit when T'Terminated;
      delay 0.005;
   end loop;

   Put_Line (if T'Terminated then "terminated"
             else "wrong: waits on Third:" & P.On_Third'Image);
   GNAT.OS_Lib.OS_Exit (0);
end Abort_Before_Call;
