--  SPDX-License-Identifier: MIT

with Interfaces.C;

with System.Restrictions;
with System.Task_Primitives.Mutexes;
with System.Task_Primitives.Operations;
with System.Tasking.Initialization;
with System.Tasking.Protected_Objects.Traces;

package body System.Tasking.Protected_Objects.Queues is

   package Mutexes renames System.Task_Primitives.Mutexes;
   package STPO renames System.Task_Primitives.Operations;

   use Entries;
   use Pobj;
   use type Pobj.Flag;

   Queuing_Policy : constant Character;
   pragma Import (C, Queuing_Policy, "__gl_queuing_policy");

   Locking_Policy : constant Character;
   pragma Import (C, Locking_Policy, "__gl_locking_policy");

   Most_Entries : constant := 65_535;
   --  As pobj.h declares it

   use type Interfaces.C.int;

   function Longest
     (Object : Protection_Entries_Access;
      E      : Protected_Entry_Index) return Natural;
   --  How many calls the queue of the entry may have, by Max_Queue_Length and
   --  the restriction Max_Entry_Queue_Length (D.7); 0 means any number.

   procedure Set_Limits (Object : Protection_Entries_Access);
   --  Tells the engine the limit of each entry that has one

   procedure Make_Adaptive (Object : Protection_Entries_Access);
   --  Lets tasks look before they sleep for the object's lock, as a protected
   --  action is short. Under a locking policy (D.3), or with one processor,
   --  the lock stays GNARL's.

   Has_Several : Boolean := False;
   --  Whether this process may use more than one processor

   Is_Counted : Boolean := False;
   --  Whether the processors are counted, for Has_Several and Looks

   procedure Count_Processors;
   --  Sets these when the first object is made

   function Has_Urgent_Tasks return Boolean;
   --  Whether tasks have real-time priorities

   ------------
   -- Serves --
   ------------

   function Serves (Object : Protection_Entries_Access) return Boolean is
   begin
      return Queuing_Policy /= 'P' and then Object.Num_Entries > 0;
   end Serves;

   ---------------
   -- Engine_Of --
   ---------------

   function Engine_Of
     (Object : Protection_Entries'Class) return Pobj.Engine is
   begin
      return Object.Entry_Queues (1).Head'Address;
   end Engine_Of;

   -------------
   -- Longest --
   -------------

   function Longest
     (Object : Protection_Entries_Access;
      E      : Protected_Entry_Index) return Natural
   is
      use System.Restrictions;
      use System.Restrictions.Rident;

      Of_Entry   : Natural := 0;
      Of_Program : Natural := 0;

   begin
      if Object.Entry_Queue_Maxes /= null then
         Of_Entry := Object.Entry_Queue_Maxes
           (Object.Find_Body_Index (Object.Compiler_Info, E));
      end if;

      if Run_Time_Restrictions.Set (Max_Entry_Queue_Length) then
         Of_Program := Run_Time_Restrictions.Value (Max_Entry_Queue_Length);
      end if;

      return (if Of_Entry = 0 or else Of_Program = 0
              then Of_Entry + Of_Program
              else Natural'Min (Of_Entry, Of_Program));
   end Longest;

   ----------------
   -- Set_Limits --
   ----------------

   procedure Set_Limits (Object : Protection_Entries_Access) is
      Most : Natural;
   begin
      for E in Object.Entry_Queues'Range loop
         Most := Longest (Object, E);

         if Most > 0
           and then pobj_limit
             (Engine_Of (Object.all), Word (E - 1), Word (Most)) = 0
         then
            Stop;
         end if;
      end loop;
   end Set_Limits;

   ----------------------
   -- Has_Urgent_Tasks --
   ----------------------

   function Has_Urgent_Tasks return Boolean is
      Dispatching_Policy : constant Character;
      pragma Import (C, Dispatching_Policy, "__gl_task_dispatching_policy");

      Time_Slice : constant Integer;
      pragma Import (C, Time_Slice, "__gl_time_slice_val");

      Specific_Policies : constant Integer;
      pragma Import (C, Specific_Policies, "__gl_num_specific_dispatching");

   begin
      return Dispatching_Policy in 'F' | 'R'
        or else Time_Slice >= 0
        or else Specific_Policies > 0;
   end Has_Urgent_Tasks;

   ----------------------
   -- Count_Processors --
   ----------------------

   procedure Count_Processors is
      use type Size;

      type Set is array (1 .. 128) of Word;

      function sched_getaffinity
        (Process : Interfaces.C.int;
         Bytes   : Size;
         Its_Set : Address) return Interfaces.C.int;
      pragma Import (C, sched_getaffinity);

      function Length (Bytes : Size; Its_Set : Address)
         return Interfaces.C.int;
      pragma Import (C, Length, "__sched_cpucount");

      Those : Set := [others => 0];
      Bytes : constant Size := Those'Size / System.Storage_Unit;

   begin
      Has_Several :=
        sched_getaffinity (0, Bytes, Those'Address) = 0
        and then Length (Bytes, Those'Address) > 1;

      if Has_Several and then Has_Own_Lock and then not Has_Urgent_Tasks then
         Looks := 100;
      end if;

      Is_Counted := True;
   end Count_Processors;

   -------------------
   -- Make_Adaptive --
   -------------------

   procedure Make_Adaptive (Object : Protection_Entries_Access) is
   begin
      if Has_Several
        and then Has_Own_Lock
        and then not Mutexes.Is_Made_Adaptive (Object.L'Access)
      then
         raise Storage_Error with "no memory for the lock of an object";
      end if;
   end Make_Adaptive;

   ------------------
   -- Has_Own_Lock --
   ------------------

   function Has_Own_Lock return Boolean is
   begin
      return Locking_Policy not in 'C' | 'I' | 'R';
   end Has_Own_Lock;

   ---------------
   -- Is_Locked --
   ---------------

   function Is_Locked (Object : Protection_Entries_Access) return Boolean is
   begin
      return Mutexes.Is_Taken (Object.L'Access);
   end Is_Locked;

   ----------
   -- Make --
   ----------

   procedure Make (Object : Protection_Entries_Access) is
      Self_ID : constant Task_Id := STPO.Self;
      Is_Made : Boolean;

   begin
      Traces.Start (Self_ID);

      if not Serves (Object) then
         return;
      end if;

      if Object.Num_Entries > Most_Entries then
         raise Storage_Error with "a protected object over 65_535 entries";
      end if;

      if not Is_Counted then
         Count_Processors;
      end if;

      Make_Adaptive (Object);
      Initialization.Defer_Abort_Nestable (Self_ID);
      Is_Made :=
        pobj_make (Engine_Of (Object.all), Word (Object.Num_Entries)) /= 0;

      if Is_Made then
         Set_Limits (Object);

         if Traces.Is_On then
            Traces.Note_Made (Object);
         end if;
      end if;

      Initialization.Undefer_Abort_Nestable (Self_ID);

      if not Is_Made then
         raise Storage_Error with "no memory for queues of entries";
      end if;
   end Make;

   ----------
   -- Free --
   ----------

   procedure Free (Object : Protection_Entries_Access) is
   begin
      pobj_free (Engine_Of (Object.all));

      if Traces.Is_On then
         Traces.Note_Finalized (Object);
      end if;

      Object.Entry_Queues (1).Head := null;
   end Free;

   -----------
   -- Count --
   -----------

   function Count
     (Object : Protection_Entries'Class;
      E      : Protected_Entry_Index) return Natural is
   begin
      return Natural (pobj_count (Engine_Of (Object), Word (E - 1)));
   end Count;

   ----------
   -- Join --
   ----------

   procedure Join (Last : in out Entry_Call_Link; More : Entry_Call_Link) is
      First : Entry_Call_Link;
   begin
      if Last /= null and then More /= null then
         First := Last.Acceptor_Prev_Call;
         Last.Acceptor_Prev_Call := More.Acceptor_Prev_Call;
         More.Acceptor_Prev_Call := First;
      end if;

      if More /= null then
         Last := More;
      end if;
   end Join;

   ----------------
   -- Take_First --
   ----------------

   procedure Take_First
     (Last  : in out Entry_Call_Link;
      First : out Entry_Call_Link) is
   begin
      First := Last.Acceptor_Prev_Call;

      if First = Last then
         Last := null;
      else
         Last.Acceptor_Prev_Call := First.Acceptor_Prev_Call;
      end if;

      First.Acceptor_Prev_Call := null;
   end Take_First;

   -------------
   -- Put_Off --
   -------------

   procedure Put_Off
     (Object : Protection_Entries_Access;
      Call   : Entry_Call_Link) is
   begin
      Call.Acceptor_Prev_Call := Call;
      Join (Object.Entry_Queues (1).Tail, Call);
   end Put_Off;

   -----------------
   -- Has_Put_Off --
   -----------------

   function Has_Put_Off (Object : Protection_Entries_Access) return Boolean is
   begin
      return Object.Entry_Queues (1).Tail /= null;
   end Has_Put_Off;

   ------------------
   -- Take_Put_Off --
   ------------------

   procedure Take_Put_Off
     (Object : Protection_Entries_Access;
      Ring   : out Entry_Call_Link) is
   begin
      Ring := Object.Entry_Queues (1).Tail;
      Object.Entry_Queues (1).Tail := null;
   end Take_Put_Off;

   ----------
   -- Stop --
   ----------

   procedure Stop is
      Message : constant String :=
                  "pobj: the engine refused a step of a protected object, so"
                  & " the program is ended: please report it" & ASCII.LF;

      procedure C_Write
        (File : Interfaces.C.int; From : System.Address; Bytes : Size);
      pragma Import (C, C_Write, "write");

      procedure C_Abort;
      pragma Import (C, C_Abort, "abort");
      pragma No_Return (C_Abort);

   begin
      C_Write (2, Message'Address, Message'Length);
      C_Abort;
   end Stop;

end System.Tasking.Protected_Objects.Queues;
