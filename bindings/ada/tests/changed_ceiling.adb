--  When a protected action has set its object's Priority, later calls are checked against the new ceiling (D.5.2). It is
--  raised, and then lowered: for an object with an entry, on which a task waits whose priority is raised above the ceiling
--  and which is then aborted, and for an object without. It needs real-time priorities.

pragma Task_Dispatching_Policy (FIFO_Within_Priorities);
pragma Locking_Policy (Ceiling_Locking);

with Ada.Dynamic_Priorities; use Ada.Dynamic_Priorities;
with Ada.Text_IO;            use Ada.Text_IO;
with System;                 use System;

procedure Changed_Ceiling with Priority => 5 is

   protected With_Entry with Priority => 10 is
      procedure Set (Ceiling : Any_Priority);
      function Ceiling return Any_Priority;
      entry Wait;
      function Waiting return Natural;
   end With_Entry;

   protected Without with Priority => 10 is
      procedure Set (Ceiling : Any_Priority);
      function Ceiling return Any_Priority;
   end Without;

   protected body With_Entry is
      procedure Set (Ceiling : Any_Priority) is
      begin
         With_Entry'Priority := Ceiling;
      end Set;

      function Ceiling return Any_Priority is (With_Entry'Priority);

      entry Wait when False is
      begin
         null;
      end Wait;

      function Waiting return Natural is (Wait'Count);
   end With_Entry;

   protected body Without is
      procedure Set (Ceiling : Any_Priority) is
      begin
         Without'Priority := Ceiling;
      end Set;

      function Ceiling return Any_Priority is (Without'Priority);
   end Without;

   procedure Set (Ceiling : Any_Priority) is
   begin
      With_Entry.Set (Ceiling);
      Without.Set (Ceiling);
   end Set;

   procedure Look (Priority : Any_Priority) is
      task Caller with Priority => Priority;

      task body Caller is
      begin
         for Has_Entry in Boolean loop
            begin
               Put_Line
                 (Priority'Image & " below" & Any_Priority'Image (if Has_Entry then With_Entry.Ceiling else Without.Ceiling));
            exception
               when Program_Error => Put_Line (Priority'Image & " above the ceiling");
            end;
         end loop;
      end Caller;
   begin
      null;
   end Look;

begin
   Look (9);
   Look (15);
   Set (20);
   Look (15);
   Look (25);

   declare
      task Waiter with Priority => 15;

      task body Waiter is
      begin
         With_Entry.Wait;
      exception
         when others => Put_Line ("wrong, an exception");
      end Waiter;
   begin
      while With_Entry.Waiting = 0 loop
         delay 0.01;
      end loop;

      Set_Priority (25, Waiter'Identity);
      delay 0.05;
      abort Waiter;
   end;

   Put_Line (With_Entry.Waiting'Image & " wait");
   Set (8);
   Look (9);
   Look (7);
end Changed_Ceiling;
