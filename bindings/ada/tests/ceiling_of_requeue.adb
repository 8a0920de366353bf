--  A caller's priority is raised above the ceiling of the object on which it waits (D.5.1), and its call is cancelled. This
--  opens the entry of another caller, and the entry's body requeues the call to a second object with the same ceiling, which
--  doesn't violate it (D.3). It needs real-time priorities.

pragma Task_Dispatching_Policy (FIFO_Within_Priorities);
pragma Locking_Policy (Ceiling_Locking);

with Ada.Dynamic_Priorities; use Ada.Dynamic_Priorities;
with Ada.Text_IO;            use Ada.Text_IO;
with System;

procedure Ceiling_Of_Requeue with Priority => System.Default_Priority is

   Base : constant := System.Default_Priority;

   protected Q with Priority => Base + 5 is
      entry Serve;
   end Q;

   protected P with Priority => Base + 5 is
      entry Hold;
      entry Pass;
      function On_Hold return Natural;
      function On_Pass return Natural;
   end P;

   protected body Q is
      entry Serve when True is
      begin
         null;
      end Serve;
   end Q;

   protected body P is
      entry Hold when False is
      begin
         null;
      end Hold;

      entry Pass when Hold'Count = 0 is
      begin
         requeue Q.Serve;
      end Pass;

      function On_Hold return Natural is (Hold'Count);
      function On_Pass return Natural is (Pass'Count);
   end P;

   task Holder;
   task Other is
      entry Go;
   end Other;

   task body Holder is
   begin
      P.Hold;
   end Holder;

   task body Other is
   begin
      accept Go;
      P.Pass;
      Put_Line ("other: served");
   exception
      when Program_Error => Put_Line ("other: wrong, Program_Error");
   end Other;

begin
   while P.On_Hold = 0 loop
      delay 0.01;
   end loop;

   Other.Go;

   while P.On_Pass = 0 loop
      delay 0.01;
   end loop;

   Set_Priority (Base + 10, Holder'Identity);
   delay 0.05;
   abort Holder;
end Ceiling_Of_Requeue;
