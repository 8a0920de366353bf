--  A task that waits on an object gets a priority above its ceiling (D.5.1) while its call is requeued from there to another
--  object. It keeps that priority, and no other task gets it (D.1, D.3). It needs real-time priorities.

pragma Task_Dispatching_Policy (FIFO_Within_Priorities);
pragma Locking_Policy (Ceiling_Locking);

with Ada.Calendar;           use Ada.Calendar;
with Ada.Dynamic_Priorities; use Ada.Dynamic_Priorities;
with Ada.Text_IO;            use Ada.Text_IO;
with System;

procedure Priority_After_Requeue_Meanwhile with Priority => System.Priority'Last is

   Base : constant := System.Default_Priority;

   protected Second with Priority => System.Priority'Last is
      entry Wait;
      procedure Open;
   private
      Is_Open : Boolean := False;
   end Second;

   protected body Second is
      entry Wait when Is_Open is
      begin
         null;
      end Wait;

      procedure Open is
      begin
         Is_Open := True;
      end Open;
   end Second;

   protected First with Priority => Base + 5 is
      entry Wait;
      entry Never;
      procedure Open;
   private
      Is_Open : Boolean := False;
   end First;

   protected body First is
      entry Wait when Is_Open is
         Start : constant Time := Clock;
      begin
         while Clock - Start < 0.1 loop
            null;
         end loop;

         requeue Second.Wait;
      end Wait;

      entry Never when False is
      begin
         null;
      end Never;

      procedure Open is
      begin
         Is_Open := True;
      end Open;
   end First;

   procedure Show (Name : String; Priority : System.Any_Priority) is
   begin
      Put_Line (Name & (if Get_Priority = Priority then ": its own" else ": wrong, base +" & Integer'Image (Get_Priority - Base)));
   end Show;

   task Caller with Priority => Base;
   task Opener with Priority => Base + 1;
   task Other with Priority => Base + 2;

   task body Caller is
   begin
      First.Wait;
      Show ("caller", Base + 10);
   end Caller;

   task body Opener is
   begin
      delay 0.05;
      First.Open;
      Show ("opener", Base + 1);
   end Opener;

   task body Other is
   begin
      delay 0.3;

      select
         First.Never;
      or
         delay 0.05;
      end select;

      Show ("other", Base + 2);
   end Other;

begin
   delay 0.1;
   Set_Priority (Base + 10, Caller'Identity);
   delay 0.3;
   Second.Open;
end Priority_After_Requeue_Meanwhile;
