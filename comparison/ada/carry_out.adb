--  Carries out the script on standard input by a protected object of GNAT, and writes what `pobj run` writes. The word of the
--  command line is the step of time, in milliseconds, that a task is given to take note of something. The status is 0 at the
--  end, and 3 if the lines before a tick took longer than planned: then a longer step is needed.
with Ada.Command_Line;
with Ada.Text_IO; use Ada.Text_IO;
with GNAT.OS_Lib;
with Scripts;
with Commands;

procedure Carry_Out is
begin
   Commands.Carry_Out (Scripts.Read, Positive'Value (Ada.Command_Line.Argument (1)));
   Flush;
   --  Tasks that wait for ever are left behind.
   GNAT.OS_Lib.OS_Exit (0);
exception
   when Commands.Too_Late =>
      Flush;
      GNAT.OS_Lib.OS_Exit (3);
end Carry_Out;
