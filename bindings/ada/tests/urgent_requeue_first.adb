--  Under Ceiling_Locking (D.3) a task opens an entry for an urgent task, whose call is requeued to another object, and makes a
--  less urgent one ready in the same protected action. The urgent one goes first. It needs real-time priorities, on one
--  processor.

pragma Task_Dispatching_Policy (FIFO_Within_Priorities);
pragma Locking_Policy (Ceiling_Locking);

with Ada.Synchronous_Task_Control; use Ada.Synchronous_Task_Control;
with Ada.Text_IO;                  use Ada.Text_IO;
with System;

procedure Urgent_Requeue_First with Priority => System.Default_Priority is

   Base : constant := System.Default_Priority;

   Middle_Goes : Suspension_Object;

   Order : String (1 .. 2) := "--";
   Last  : Natural := 0;
   pragma Volatile (Last);

   procedure Note (C : Character) is
   begin
      Last := Last + 1;
      Order (Last) := C;
   end Note;

   protected Third with Priority => System.Priority'Last - 1 is
      entry Pass;
   end Third;

   protected Second with Priority => System.Priority'Last is
      entry Pass;
   end Second;

   protected First with Priority => System.Priority'Last - 1 is
      entry Wait;
      procedure Open;
      function Waiting return Natural;
   private
      Is_Open : Boolean := False;
   end First;

   protected body Third is
      entry Pass when True is
      begin
         null;
      end Pass;
   end Third;

   protected body Second is
      entry Pass when True is
      begin
         requeue Third.Pass;
      end Pass;
   end Second;

   protected body First is
      entry Wait when Is_Open is
      begin
         Set_True (Middle_Goes);
         requeue Second.Pass;
      end Wait;

      procedure Open is
      begin
         Is_Open := True;
      end Open;

      function Waiting return Natural is (Wait'Count);
   end First;

   task High with Priority => Base + 10;
   task Middle with Priority => Base + 5;

   task body High is
   begin
      First.Wait;
      Note ('h');
   end High;

   task body Middle is
   begin
      Suspend_Until_True (Middle_Goes);
      Note ('m');
   end Middle;

begin
   while First.Waiting = 0 loop
      delay 0.01;
   end loop;

   delay 0.1;
   First.Open;
   delay 0.1;
   Put_Line (if Order = "hm" then "high, middle" else "wrong: middle, high");
end Urgent_Requeue_First;
