--  Under Ceiling_Locking, calls from a priority above the object's ceiling raise Program_Error, whatever priorities the system
--  allows the tasks (D.3). Inside an object, a task's active priority is that object's ceiling.

pragma Locking_Policy (Ceiling_Locking);

with Ada.Dynamic_Priorities; use Ada.Dynamic_Priorities;
with Ada.Text_IO;            use Ada.Text_IO;
with System;                 use System;

procedure Ceiling_Above is

   protected Low with Priority => Priority'First is
      entry Serve;
      procedure Change;
      function Look return Boolean;
   private
      Is_Changed : Boolean := False;
   end Low;

   protected Alone with Priority => Priority'First is
      procedure Change;
      function Look return Boolean;
   private
      Is_Changed : Boolean := False;
   end Alone;

   protected High with Priority => Default_Priority is
      procedure Change_Low;
      procedure Change_Alone;
   end High;

   protected body Low is
      entry Serve when True is
      begin
         null;
      end Serve;

      procedure Change is
      begin
         Is_Changed := True;
      end Change;

      function Look return Boolean is (Is_Changed);
   end Low;

   protected body Alone is
      procedure Change is
      begin
         Is_Changed := True;
      end Change;

      function Look return Boolean is (Is_Changed);
   end Alone;

   protected body High is
      procedure Change_Low is
      begin
         Low.Change;
      end Change_Low;

      procedure Change_Alone is
      begin
         Alone.Change;
      end Change_Alone;
   end High;

   procedure Call_Conditionally is
   begin
      select
         Low.Serve;
      else
         null;
      end select;
   end Call_Conditionally;

   procedure Call_For_A_Time is
   begin
      select
         Low.Serve;
      or
         delay 1.0;
      end select;
   end Call_For_A_Time;

   procedure Call_As_Trigger is
   begin
      select
         Low.Serve;
      then abort
         null;
      end select;
   end Call_As_Trigger;

   procedure Call is
   begin
      Low.Serve;
   end Call;

   procedure Look is
   begin
      if Low.Look then
         Put_Line ("wrong: changed");
      end if;
   end Look;

   procedure Look_Alone is
   begin
      if Alone.Look then
         Put_Line ("wrong: changed");
      end if;
   end Look_Alone;

   procedure Change is
   begin
      Low.Change;
   end Change;

   procedure Change_Alone is
   begin
      Alone.Change;
   end Change_Alone;

   procedure Change_Inside is
   begin
      High.Change_Low;
   end Change_Inside;

   procedure Change_Alone_Inside is
   begin
      High.Change_Alone;
   end Change_Alone_Inside;

   procedure Try (Name : String; Operation : not null access procedure) is
   begin
      Operation.all;
      Put_Line (Name & ": done");
   exception
      when Program_Error => Put_Line (Name & ": Program_Error");
   end Try;

   procedure Try_All is
   begin
      Try ("call", Call'Access);
      Try ("conditional call", Call_Conditionally'Access);
      Try ("timed call", Call_For_A_Time'Access);
      Try ("trigger", Call_As_Trigger'Access);
      Try ("function", Look'Access);
      Try ("procedure", Change'Access);
      Try ("function without entries", Look_Alone'Access);
      Try ("procedure without entries", Change_Alone'Access);
      Try ("inside another", Change_Inside'Access);
      Try ("inside another, without entries", Change_Alone_Inside'Access);
   end Try_All;

begin
   Put_Line ("above the ceiling");
   Try_All;
   Set_Priority (Priority'First);
   Put_Line ("at the ceiling");
   Try_All;
end Ceiling_Above;
