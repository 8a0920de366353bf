--  A task whose priority is above the ceiling of an object that it finalizes gets its own priority back (D.3). It needs
--  real-time priorities.

pragma Task_Dispatching_Policy (FIFO_Within_Priorities);
pragma Locking_Policy (Ceiling_Locking);

with Ada.Dynamic_Priorities; use Ada.Dynamic_Priorities;
with Ada.Text_IO;            use Ada.Text_IO;
with System;

procedure Priority_After_Finalization with Priority => System.Default_Priority is

   Base : constant := System.Default_Priority;

begin
   declare
      protected Object with Priority => Base - 5 is
         entry Pass;
      end Object;

      protected body Object is
         entry Pass when True is
         begin
            null;
         end Pass;
      end Object;
   begin
      Object.Pass;
      Put_Line ("wrong, no Program_Error");
   exception
      when Program_Error => null;
   end;

   Put_Line (if Get_Priority = Base then "its own" else "wrong: lowered by" & Integer'Image (Base - Get_Priority));
end Priority_After_Finalization;
