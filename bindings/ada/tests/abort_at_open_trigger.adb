--  A task is aborted while it computes, and then enters a select whose trigger calls an open entry. It ends there, or at the
--  next point at which an abort completes, and doesn't go on (9.7.4, 9.8).

with Ada.Calendar; use Ada.Calendar;
with Ada.Text_IO;  use Ada.Text_IO;
with GNAT.OS_Lib;

procedure Abort_At_Open_Trigger is

   protected P is
      entry Call;
      entry Never;
   end P;

   protected body P is
      entry Call when True is
      begin
         null;
      end Call;

      entry Never when False is
      begin
         null;
      end Never;
   end P;

   Computes, Is_Aborted : Boolean := False;
   pragma Atomic (Computes);
   pragma Atomic (Is_Aborted);

   task T;

   task body T is
      Start : Time;
   begin
      Computes := True;

      while not Is_Aborted loop
         null;
      end loop;

      select
         P.Call;
      then abort
         null;
      end select;

      Put_Line ("wrong: goes on behind the select");
      Start := Clock;
      delay 0.3;
      Put_Line ("wrong: goes on behind a delay"
                & (if Clock - Start < 0.2 then ", which didn't wait"
                   else ""));
      P.Never;
      Put_Line ("wrong: a closed entry returned");
   end T;

begin
   while not Computes loop
      delay 0.001;
   end loop;

   abort T;
   Is_Aborted := True;

   for Try in 1 .. 2_000 loop
      exit when T'Terminated;
      delay 0.005;
   end loop;

   Put_Line (if T'Terminated then "terminated" else "wrong: still there");
   GNAT.OS_Lib.OS_Exit (0);
end Abort_At_Open_Trigger;
