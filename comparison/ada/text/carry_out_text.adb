--  Carries out the script on standard input, which texts.py or scene_program.py wrote, by protected objects of Ada texts. The
--  first word of the command line is the step of time in milliseconds, as for Carry_Out, or `describe`: then the program
--  describes the text.
with Ada.Command_Line; use Ada.Command_Line;
with Ada.Text_IO;      use Ada.Text_IO;
with GNAT.OS_Lib;
with Commands;
with Own_Texts;
with Scripts;
with Pobj_Texts;

procedure Carry_Out_Text is
   Script : constant Scripts.Line_Vectors.Vector := Scripts.Read;
begin
   Pobj_Texts.Take (Script);
   if Argument (1) = "describe" then
      Own_Texts.Describe (Positive'Value (Scripts.Word (Script (1), 2)));
   else
      Commands.Carry_Out (Script, Positive'Value (Argument (1)));
      Pobj_Texts.Write_Answers;
   end if;
   Flush;
   --  Tasks that wait for ever are left behind.
   GNAT.OS_Lib.OS_Exit (0);
exception
   when Commands.Too_Late =>
      Pobj_Texts.Write_Answers;
      Flush;
      GNAT.OS_Lib.OS_Exit (3);
end Carry_Out_Text;
