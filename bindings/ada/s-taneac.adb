--  SPDX-License-Identifier: MIT

with System.Restrictions;
with System.Soft_Links;
with System.Task_Primitives.Operations;

package body System.Tasking.Nested_Actions is

   use System.Task_Primitives.Operations;

   Locking_Policy : constant Character;
   pragma Import (C, Locking_Policy, "__gl_locking_policy");

   Held : aliased System.Task_Primitives.Lock;
   pragma Thread_Local_Storage (Held);
   --  A lock with the ceiling that is kept, which only this task uses

   Kept : Integer := -1;
   pragma Thread_Local_Storage (Kept);
   --  That ceiling, or none

   type Ceiling_Array is array (Positive range 1 .. 64) of Any_Priority
     with Component_Size => 8;

   Ceilings : Ceiling_Array;
   pragma Thread_Local_Storage (Ceilings);
   --  The ceilings of the objects that this task is inside of, by their depth,
   --  if its program has Ceiling_Locking; deeper ones aren't noted.

   procedure Look_After_Later;
   pragma Import (Ada, Look_After_Later, "pobj_ada_look_after");
   --  Imported from Actions, which needs units that need this one

   -----------
   -- Enter --
   -----------

   procedure Enter is
   begin
      Depth := Depth + 1;
   end Enter;

   -----------
   -- Leave --
   -----------

   procedure Leave is
   begin
      Depth := Depth - 1;

      if Depth = 0 and then Later /= null then
         Look_After_Later;
      end if;
   end Leave;

   ----------------
   -- Enter_None --
   ----------------

   procedure Enter_None is
   begin
      Enter;

      if Depth in Ceilings'Range then
         Ceilings (Depth) := Any_Priority'First;
      end if;
   end Enter_None;

   --------------
   -- Is_Above --
   --------------

   function Is_Above (Ceiling : Any_Priority) return Boolean is
   begin
      if Get_Priority (Self) > Ceiling
        or else (Depth in Ceilings'Range and then Ceilings (Depth) > Ceiling)
      then
         return True;
      end if;

      if Depth < Ceilings'Last then
         Ceilings (Depth + 1) := Ceiling;
      end if;

      return False;
   end Is_Above;

   ----------
   -- Keep --
   ----------

   procedure Keep (Ceiling : Any_Priority) is
      Violation : Boolean;
   begin
      if Locking_Policy /= 'C' or else Ceiling <= Kept then
         return;
      end if;

      --  Meanwhile the object's own lock keeps the ceiling

      Give_Back;
      Initialize_Lock (Ceiling, Held'Access);
      Write_Lock (Held'Access, Violation);

      if Violation then
         Finalize_Lock (Held'Access);
      else
         Kept := Ceiling;
      end if;
   end Keep;

   ---------------
   -- Give_Back --
   ---------------

   procedure Give_Back is
   begin
      if Kept >= 0 then
         Unlock (Held'Access);
         Finalize_Lock (Held'Access);
         Kept := -1;
      end if;
   end Give_Back;

   -------------------
   -- Undefer_Abort --
   -------------------

   procedure Undefer_Abort is
      use System.Restrictions;
      use System.Restrictions.Rident;

      Has_No_Aborts : constant Boolean :=
                        Run_Time_Restrictions.Set (No_Abort_Statements)
        and then Run_Time_Restrictions.Set (Max_Asynchronous_Select_Nesting)
        and then
          Run_Time_Restrictions.Value (Max_Asynchronous_Select_Nesting) = 0;
      --  Under these restrictions (D.7) the compiler's code defers no abort

   begin
      if not Has_No_Aborts then
         System.Soft_Links.Abort_Undefer.all;
      end if;
   end Undefer_Abort;

end System.Tasking.Nested_Actions;
