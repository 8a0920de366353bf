--  A program runs the command that its arguments are, by which it starts once more, and POBJ_TRACE names the same file for both.
--  The record is the first program's.

with Ada.Command_Line; use Ada.Command_Line;
with GNAT.OS_Lib;      use GNAT.OS_Lib;

procedure Two_Programs is

   protected Parent is
      entry Put;
      entry Get (1 .. 2);
   end Parent;

   protected body Parent is
      entry Put when True is
      begin
         null;
      end Put;

      entry Get (for I in 1 .. 2) when True is
      begin
         null;
      end Get;
   end Parent;

   Words : Argument_List (2 .. Argument_Count);

begin
   Parent.Put;

   for Number in Words'Range loop
      Words (Number) := new String'(Argument (Number));
   end loop;

   if Argument_Count > 0 and then Spawn (Argument (1), Words) = 0 then
      Parent.Get (1);
   end if;
end Two_Programs;
