--  Under Ceiling_Locking (D.3) a task opens an entry for an urgent task, and makes a less urgent one ready in the same
--  protected action. The urgent one goes first. It needs real-time priorities, on one processor.

pragma Task_Dispatching_Policy (FIFO_Within_Priorities);
pragma Locking_Policy (Ceiling_Locking);

with Ada.Synchronous_Task_Control; use Ada.Synchronous_Task_Control;
with Ada.Text_IO;                  use Ada.Text_IO;
with System;

procedure Urgent_Caller_First with Priority => System.Default_Priority is

   Base : constant := System.Default_Priority;

   Middle_Goes : Suspension_Object;

   Order : String (1 .. 2) := "--";
   Last  : Natural := 0;
   pragma Volatile (Last);

   procedure Note (C : Character) is
   begin
      Last := Last + 1;
      Order (Last) := C;
   end Note;

   protected P with Priority => System.Priority'Last is
      entry Wait;
      procedure Open;
      function Waiting return Natural;
   private
      Is_Open : Boolean := False;
   end P;

   protected body P is
      entry Wait when Is_Open is
      begin
         null;
      end Wait;

      procedure Open is
      begin
         Is_Open := True;
         Set_True (Middle_Goes);
      end Open;

      function Waiting return Natural is (Wait'Count);
   end P;

   task High with Priority => Base + 10;
   task Middle with Priority => Base + 5;

   task body High is
   begin
      P.Wait;
      Note ('h');
   end High;

   task body Middle is
   begin
      Suspend_Until_True (Middle_Goes);
      Note ('m');
   end Middle;

begin
   while P.Waiting = 0 loop
      delay 0.01;
   end loop;

   delay 0.1;
   P.Open;
   delay 0.1;
   Put_Line (if Order = "hm" then "high, middle" else "wrong: middle, high");
end Urgent_Caller_First;
