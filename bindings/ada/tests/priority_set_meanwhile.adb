--  A task that waits on an object gets a priority above its ceiling, and then a second one, while an entry body runs there for
--  its call, which is requeued to the same object or another. The task keeps the second one (D.5.1). It needs real-time
--  priorities.

pragma Task_Dispatching_Policy (FIFO_Within_Priorities);
pragma Locking_Policy (Ceiling_Locking);

with Ada.Calendar;           use Ada.Calendar;
with Ada.Dynamic_Priorities; use Ada.Dynamic_Priorities;
with Ada.Text_IO;            use Ada.Text_IO;
with System;

procedure Priority_Set_Meanwhile with Priority => System.Priority'Last is

   Base : constant := System.Default_Priority;

   protected Second with Priority => System.Priority'Last is
      entry Wait;
      procedure Open;
   private
      Is_Open : Boolean := False;
   end Second;

   protected body Second is
      entry Wait when Is_Open is
      begin
         null;
      end Wait;

      procedure Open is
      begin
         Is_Open := True;
      end Open;
   end Second;

   protected First with Priority => Base + 5 is
      entry Wait (Boolean);
      entry Held;
      procedure Open;
      procedure Free;
   private
      Is_Open : Boolean := False;
      Is_Free : Boolean := False;
   end First;

   protected body First is
      entry Wait (for Is_Inside in Boolean) when Is_Open is
         Start : constant Time := Clock;
      begin
         Is_Open := False;

         while Clock - Start < 0.1 loop
            null;
         end loop;

         if Is_Inside then
            requeue Held;
         else
            requeue Second.Wait;
         end if;
      end Wait;

      entry Held when Is_Free is
      begin
         null;
      end Held;

      procedure Open is
      begin
         Is_Open := True;
      end Open;

      procedure Free is
      begin
         Is_Free := True;
      end Free;
   end First;

begin
   for Is_Inside in Boolean loop
      declare
         task Caller with Priority => Base;
         task Opener with Priority => Base + 1;

         task body Caller is
         begin
            First.Wait (Is_Inside);
            Put_Line
              (if Get_Priority = Base + 12 then "the last" else "wrong, base +" & Integer'Image (Get_Priority - Base));
         end Caller;

         task body Opener is
         begin
            delay 0.05;
            First.Open;
            delay 0.2;
            First.Free;
         end Opener;
      begin
         delay 0.1;
         Set_Priority (Base + 10, Caller'Identity);
         delay 0.02;
         Set_Priority (Base + 12, Caller'Identity);
         delay 0.2;
         Second.Open;
      end;
   end loop;
end Priority_Set_Meanwhile;
