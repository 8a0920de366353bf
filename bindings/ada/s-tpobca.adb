--  SPDX-License-Identifier: MIT

with Ada.Unchecked_Conversion;
with Ada.Unchecked_Deallocation;

with Interfaces.C;

with System.Task_Primitives.Operations;
with System.Tasking.Initialization;
with System.Tasking.Nested_Actions;
with System.Tasking.Protected_Objects.Entries;
with System.Tasking.Protected_Objects.Queues;
with System.Tasking.Protected_Objects.Traces;
with System.Tasking.Queuing;

package body System.Tasking.Protected_Objects.Callers is

   package STPO renames System.Task_Primitives.Operations;

   use Ada.Exceptions;
   use Entries;
   use Pobj;
   use Queues;
   use type Pobj.Word;

   Queuing_Policy : constant Character;
   pragma Import (C, Queuing_Policy, "__gl_queuing_policy");

   procedure Synchronize;
   pragma Import (Intrinsic, Synchronize, "__sync_synchronize");
   --  Lets others see what this task wrote before it reads on

   subtype Occurrence_Access is Exception_Occurrence_Access;

   procedure Free is new Ada.Unchecked_Deallocation
     (Exception_Occurrence, Occurrence_Access);

   pragma Warnings (Off);  --  aliasing: compiled with -fno-strict-aliasing
   function To_Occurrence is
     new Ada.Unchecked_Conversion (Address, Occurrence_Access);
   function To_Address is
     new Ada.Unchecked_Conversion (Occurrence_Access, Address);
   pragma Warnings (On);

   With_Occurrence : constant := Null_Entry;
   --  The entry of a call that has ended by an exception of a body or of a
   --  barrier: its Uninterpreted_Data is the occurrence, until the caller
   --  takes it.

   Of_Barrier : Occurrence_Access := null;
   pragma Thread_Local_Storage (Of_Barrier);
   --  The occurrence by which this task's protected action ends all calls, if
   --  a barrier raised one and there was memory for it.

   procedure Lock_Object_Of
     (Call   : Entry_Call_Link;
      Object : out Protection_Entries_Access;
      Ended  : out Boolean);
   --  Locks the object that the call is on, or none if it is on a task. If
   --  the call has ended, holds the caller's lock instead.

   procedure Sleep_Shortly (Microseconds : Interfaces.C.unsigned);
   pragma Import (C, Sleep_Shortly, "usleep");

   function Only_Expired (Call : Entry_Call_Link) return Boolean;
   --  Whether a cancellation was attempted because the call's time has come,
   --  and not because of an abort. Both are noted under the caller's lock.

   function Is_Cancelled (Call : Entry_Call_Link) return Boolean;
   --  Whether the engine cancels the queued call now

   -------------
   -- End_Now --
   -------------

   procedure End_Now
     (Self_ID : Task_Id;
      Call    : Entry_Call_Link;
      State   : Entry_Call_State)
   is
      Caller : constant Task_Id := Call.Self;
   begin
      STPO.Write_Lock (Caller);
      Initialization.Wakeup_Entry_Caller (Self_ID, Call, State);
      STPO.Unlock (Caller);
   end End_Now;

   ------------------
   -- Look_For_End --
   ------------------

   procedure Look_For_End (Self_ID : Task_Id; Call : Entry_Call_Link) is
   begin
      for Look in 1 .. Looks loop
         STPO.Yield;
         exit when Call.State >= Done or else Self_ID.Pending_Action;
      end loop;
   end Look_For_End;

   ---------------------
   -- Leaves_Unlocked --
   ---------------------

   --  GNARL leaves a level under the task's own lock, as others abort the task
   --  under that lock (s-tasini, Locked_Abort_To_Level). The call is simple,
   --  conditional or timed, and this task ended it itself: only then is Prev
   --  the call itself. Such a level is left without the lock. What others may
   --  write or read in between does no harm:

   --  Pending_ATC_Level, Pending_Action: an abort that is seen here is left to
   --  GNARL. One that comes later can't be to the level just outside the
   --  call's, as only triggers, delays and the task itself abort to that
   --  level. So it is to a level further out, which is below the task's level
   --  both before and after this step, and GNARL would change neither field.
   --  The abort is raised when aborts are undeferred.

   --  ATC_Nesting_Level: an aborting task reads it, to mark the call of the
   --  level. If that task sees the level that is left here, it marks a call
   --  that has ended, or the next call on this level. The next call is aborted
   --  too, as the task can't leave the level that the abort is to: it leaves
   --  levels of triggers and delays under its lock.

   --  Cancellation_Attempted: it is written before Pending_ATC_Level. The
   --  engine may have cancelled the call for it before the rest of the abort
   --  was written, and the caller mustn't go on without that. So if it is
   --  seen, the lock is taken, which the aborting task holds until then.

   --  Aborting, ATC_Hack: only this task writes them, and no abort is under
   --  way while Pending_ATC_Level names no level.

   --  The lock itself: a task that ends another's call holds it a moment
   --  longer. Until then the caller mustn't come to its end and be freed.

   function Leaves_Unlocked
     (Self_ID : Task_Id;
      Call    : Entry_Call_Link) return Boolean is
   begin
      return Call.Prev = Call
        and then Call.Exception_To_Raise = Null_Id
        and then not Call.Cancellation_Attempted
        and then Self_ID.Pending_ATC_Level = Level_No_Pending_Abort;
   end Leaves_Unlocked;

   -----------------
   -- Raise_Abort --
   -----------------

   procedure Raise_Abort (Self_ID : Task_Id) is
   begin
      if Self_ID.Pending_ATC_Level < Self_ID.ATC_Nesting_Level
        and then Self_ID.Deferral_Level = 0
      then
         Self_ID.ATC_Hack := Self_ID.Aborting;
         Initialization.Do_Pending_Action (Self_ID);
      end if;
   end Raise_Abort;

   ------------------
   -- Only_Expired --
   ------------------

   function Only_Expired (Call : Entry_Call_Link) return Boolean is
      Expired : Boolean;
   begin
      if Call.Mode /= Timed_Call then
         return False;
      end if;

      --  While aborts are deferred, only its time can cancel the call

      STPO.Write_Lock (Call.Self);
      Expired := Call.Self.Pending_ATC_Level = Call.Level - 1
        or else Call.Self.Deferral_Level > 1;
      STPO.Unlock (Call.Self);
      return Expired;
   end Only_Expired;

   ---------------
   -- Attempted --
   ---------------

   function Attempted (Call : Entry_Call_Link) return Word is
   begin
      --  Only the level shows an abort that came before the call

      return (if Call.State = Never_Abortable
                or else not (Call.Cancellation_Attempted
                             or else Call.Self.Pending_ATC_Level < Call.Level)
              then 0
              elsif Only_Expired (Call) then Due
              else Aborted);
   end Attempted;

   --------------
   -- Marks_Of --
   --------------

   function Marks_Of (Call : Entry_Call_Link) return Word is
   begin
      return Attempted (Call)
        or (if Call.Mode = Conditional_Call then Due else 0)
        or (if Call.With_Abort then 0 else Without_Abort);
   end Marks_Of;

   --------------------
   -- Lock_Object_Of --
   --------------------

   procedure Lock_Object_Of
     (Call   : Entry_Call_Link;
      Object : out Protection_Entries_Access;
      Ended  : out Boolean)
   is
      Self_ID : constant Task_Id := Call.Self;

   begin
      --  A task that ends the call needs the caller's lock for that. So while
      --  this task has the caller's lock, and the call hasn't ended, the
      --  object is there.

      loop
         STPO.Write_Lock (Self_ID);
         Ended := Call.State >= Done;

         --  A call on a task may still have the object of an earlier call

         Object := (if not Ended and then Call.Called_Task = null
                    then To_Protection (Call.Called_PO) else null);

         exit when Object = null or else Is_Locked (Object);
         STPO.Unlock (Self_ID);
         Sleep_Shortly (20);
      end loop;

      if not Ended then
         STPO.Unlock (Self_ID);
      end if;
   end Lock_Object_Of;

   ----------------------
   -- Is_Server_Locked --
   ----------------------

   function Is_Server_Locked (Call : Entry_Call_Link) return Boolean is
      Self_ID : constant Task_Id := Call.Self;
      Object  : Protection_Entries_Access;
      Ended   : Boolean;

   begin
      if not Has_Own_Lock then
         return False;
      end if;

      Lock_Object_Of (Call, Object, Ended);

      if Ended then
         Call.Called_PO := Null_Address;
         Call.Called_Task := Self_ID;
         return True;

      elsif Object = null then
         return False;
      end if;

      Nested_Actions.Enter;

      if Detect_Blocking then
         Object.Owner := Self_ID;
         Self_ID.Common.Protected_Action_Nesting :=
           Self_ID.Common.Protected_Action_Nesting + 1;
      end if;

      if To_Address (Object) = Call.Called_PO then
         return True;
      else
         Unlock_Entries (Object);
         return Is_Server_Locked (Call);
      end if;
   end Is_Server_Locked;

   ------------------
   -- Is_Cancelled --
   ------------------

   function Is_Cancelled (Call : Entry_Call_Link) return Boolean is
      Object : constant Protection_Entries_Access :=
                 To_Protection (Call.Called_PO);
   begin
      case pobj_cancel
             (Engine_Of (Object.all), Size (To_Word (Call.Prev)),
              To_Word (Call.Next), Boolean'Pos (Only_Expired (Call)))
      is
         when Made =>
            if Traces.Is_On then
               Traces.Note
                 (Object, Call, Protected_Entry_Index (Call.E),
                  Traces.Cancelled);
            end if;

            Call.Next := null;
            Call.Prev := null;
            return True;

         when Kept =>
            return False;

         when others =>
            Stop;
      end case;
   end Is_Cancelled;

   ------------------
   -- Is_Withdrawn --
   ------------------

   function Is_Withdrawn (Call : Entry_Call_Link) return Boolean is
   begin
      if not Queuing.Onqueue (Call) or else Call.State /= Now_Abortable then
         return False;

      elsif Call.Called_Task = null
        and then Serves (To_Protection (Call.Called_PO))
      then
         return Is_Cancelled (Call);

      else
         --  If a call was made while aborts were deferred, it is marked as
         --  abortable on a task's queue when its time comes.

         return Call.With_Abort;
      end if;
   end Is_Withdrawn;

   -----------------
   -- Leave_Queue --
   -----------------

   procedure Leave_Queue (Call : Entry_Call_Link) is
   begin
      if Queuing.Onqueue (Call) then
         Queuing.Dequeue_Call (Call);
      end if;
   end Leave_Queue;

   -----------------------
   -- Is_Aborted_Before --
   -----------------------

   function Is_Aborted_Before
     (Self_ID : Task_Id;
      Call    : Entry_Call_Link) return Boolean is
   begin
      if Call.Self = Self_ID
        or else not Call.With_Abort
        or else Call.State = Never_Abortable
        or else Queuing_Policy = 'P'
      then
         return False;
      end if;

      --  GNARL doesn't wake the caller of a simple call again. So either the
      --  caller, which an abort wakes, sees that the call can be cancelled, or
      --  this task sees the abort.

      if Call.Mode = Simple_Call then
         Call.State := Now_Abortable;
         Synchronize;
      end if;

      --  A timed call whose time has come may still be accepted

      return Call.Self.Pending_ATC_Level
        < (if Call.Mode = Timed_Call then Call.Level - 1 else Call.Level);
   end Is_Aborted_Before;

   ------------
   -- Cancel --
   ------------

   procedure Cancel (Self_ID : Task_Id; Call : Entry_Call_Link) is
   begin
      End_Now (Self_ID, Call, Cancelled);
   end Cancel;

   ---------------------
   -- Keep_Occurrence --
   ---------------------

   procedure Keep_Occurrence
     (Call : Entry_Call_Link; Source : Exception_Occurrence) is
   begin
      Call.Uninterpreted_Data :=
        To_Address (Occurrence_Access'(Save_Occurrence (Source)));
      Call.E := With_Occurrence;
   exception
      when others =>
         null;
   end Keep_Occurrence;

   ---------------------
   -- Take_Occurrence --
   ---------------------

   procedure Take_Occurrence (Self_ID : Task_Id) is
      Call : constant Entry_Call_Link :=
               Self_ID.Entry_Calls (Self_ID.ATC_Nesting_Level)'Access;
      Kept : Occurrence_Access;
   begin
      --  The level may be that of a delay: then its record is new, or that of
      --  an earlier call.

      if Call.Exception_To_Raise /= Null_Id
        and then Call.E = With_Occurrence
        and then Call.Uninterpreted_Data /= Null_Address
      then
         Kept := To_Occurrence (Call.Uninterpreted_Data);
         Call.Uninterpreted_Data := Null_Address;
         Save_Occurrence
           (Self_ID.Common.Compiler_Data.Current_Excep, Kept.all);
         Free (Kept);
      end if;
   end Take_Occurrence;

   ------------------
   -- Note_Barrier --
   ------------------

   procedure Note_Barrier is
   begin
      Forget_Barrier;
      Of_Barrier :=
        Save_Occurrence (STPO.Self.Common.Compiler_Data.Current_Excep);
   exception
      when others =>
         Of_Barrier := null;
   end Note_Barrier;

   ------------------
   -- Name_Barrier --
   ------------------

   procedure Name_Barrier (Call : Entry_Call_Link) is
   begin
      if Of_Barrier /= null then
         Keep_Occurrence (Call, Of_Barrier.all);
      end if;
   end Name_Barrier;

   --------------------
   -- Forget_Barrier --
   --------------------

   procedure Forget_Barrier is
   begin
      if Of_Barrier /= null then
         Free (Of_Barrier);
      end if;
   end Forget_Barrier;

   -----------------
   -- Set_Message --
   -----------------

   procedure Set_Message (Call : Entry_Call_Link) is
   begin
      if Call.Exception_To_Raise /= Null_Id and then Call.E /= With_Occurrence
      then
         Save_Occurrence
           (Call.Self.Common.Compiler_Data.Current_Excep, Null_Occurrence);
      end if;
   end Set_Message;

end System.Tasking.Protected_Objects.Callers;
