--  SPDX-License-Identifier: MIT

with System.Task_Primitives.Operations;
with System.Tasking.Nested_Actions;
with System.Tasking.Protected_Objects.Callers;
with System.Tasking.Protected_Objects.Departures;
with System.Tasking.Protected_Objects.Pobj;
with System.Tasking.Protected_Objects.Queues;
with System.Tasking.Protected_Objects.Traces;

package body System.Tasking.Protected_Objects.Actions is

   package STPO renames System.Task_Primitives.Operations;

   use Callers;
   use Entries;
   use Pobj;
   use Queues;
   use type Pobj.Flag;
   use type Pobj.Word;

   Locking_Policy : constant Character;
   pragma Import (C, Locking_Policy, "__gl_locking_policy");

   function Action_Of (Answer : Word) return Word;
   pragma Inline (Action_Of);

   function Entry_Of (Answer : Word) return Protected_Entry_Index;
   pragma Inline (Entry_Of);
   --  The engine numbers entries from 0, and GNARL from 1

   function Index_Of
     (Object : Protection_Entries_Access;
      E      : Protected_Entry_Index) return Protected_Entry_Index;
   pragma Inline (Index_Of);
   --  The place of the entry's barrier and body in Entry_Bodies

   function Barrier_Of
     (Object   : Protection_Entries_Access;
      E, Index : Protected_Entry_Index) return Word;
   pragma Inline (Barrier_Of);
   --  The value of the entry's barrier. An exception that it raises goes no
   --  further (9.5.3).

   procedure Trace
     (Object : Protection_Entries_Access;
      Call   : Entry_Call_Link;
      What   : Traces.Event);
   pragma Inline (Trace);
   --  Records what came of a call, if a record is asked for

   procedure Take_Off (Call : Entry_Call_Link);
   pragma Inline (Take_Off);
   --  Notes that the call is off its queue, and can't be cancelled

   procedure End_Locked
     (Self_ID : Task_Id;
      Object  : Protection_Entries_Access;
      Call    : Entry_Call_Link;
      State   : Entry_Call_State);
   --  Ends a trigger of this task at once, under the task's own lock, and a
   --  call of another task when the object's lock is given up. Until then
   --  that caller waits, whatever comes: its call isn't queued, and hasn't
   --  ended. Under Ceiling_Locking (D.3) the caller is woken at once:
   --  otherwise this task, which leaves the ceiling with the lock, could be
   --  preempted before it wakes a more urgent one.

   procedure End_Call
     (Self_ID : Task_Id;
      Object  : Protection_Entries_Access;
      Call    : Entry_Call_Link;
      State   : Entry_Call_State);
   pragma Inline (End_Call);
   --  Ends a call. One of this task, unless it is a trigger, needs no lock:
   --  this task doesn't sleep, and no other looks whether the call has ended.

   procedure Note_Queued
     (Self_ID : Task_Id;
      Object  : Protection_Entries_Access;
      Call    : Entry_Call_Link;
      Told    : Step);
   --  Notes that the call is queued: keeps its ticket, and whether its caller
   --  may cancel it.

   procedure Look_Again (Call : Entry_Call_Link);
   --  Wakes the caller of a call that can be cancelled from now on, so that
   --  it looks again: an abort may have come before, and the abortable part
   --  of an asynchronous select begins now (9.7.4).

   function Is_Run
     (Object   : Protection_Entries_Access;
      Call     : Entry_Call_Link;
      E, Index : Protected_Entry_Index) return Boolean;
   pragma Inline_Always (Is_Run);
   --  Runs the body of the entry for the call. Returns False if an exception
   --  left it that its own handlers don't see.

   function Requeue_Of
     (Object : Protection_Entries_Access;
      Call   : Entry_Call_Link) return Word;
   --  Returns how the body that has requeued the call ended. If the call goes
   --  to another object or to a task, puts it off.

   function Run_Body
     (Self_ID  : Task_Id;
      Object   : Protection_Entries_Access;
      Call     : Entry_Call_Link;
      E, Index : Protected_Entry_Index) return Word;
   pragma Inline_Always (Run_Body);
   --  Runs the body of the entry for the call, ends the call unless the body
   --  requeues it, and returns how the body ended.

   function Is_Within (How : Word) return Boolean is
     (How in Requeued | Requeued_With_Abort);
   --  Whether a body has requeued its call within the object: then the engine
   --  takes the call's new entry, and its mark.

   function Target_Of (How : Word; Call : Entry_Call_Link) return Word is
     (if Is_Within (How) then Word (Call.E - 1) else 0);

   function Marks_After (How : Word; Call : Entry_Call_Link) return Word is
     (if Is_Within (How) then Attempted (Call) else 0);

   function Next_Answer
     (Self_ID : Task_Id;
      Object  : Protection_Entries_Access;
      Answer  : Word;
      Told    : in out Step) return Word;
   --  Does what the engine says, and returns the next answer

   procedure Carry_Out
     (Self_ID : Task_Id;
      Object  : Protection_Entries_Access;
      Answer  : Word;
      Told    : in out Step);
   --  Does what the engine says, one answer after another, until the object
   --  is at rest.

   procedure Issue_First
     (Self_ID : Task_Id;
      Object  : Protection_Entries_Access;
      Call    : Entry_Call_Link;
      Barrier : Word);
   --  Issues a call. The engine decides each step.

   procedure Issue_Unready
     (Self_ID : Task_Id;
      Object  : Protection_Entries_Access;
      Call    : Entry_Call_Link;
      Barrier : Word;
      Ready   : Word);
   --  Issues a call for which the engine isn't ready: ends it by Storage_Error
   --  if there is no memory.

   procedure Serve
     (Self_ID : Task_Id;
      Object  : Protection_Entries_Access;
      Call    : Entry_Call_Link;
      Index   : Protected_Entry_Index;
      Marks   : Word);
   pragma Inline (Serve);
   --  Runs the body of an open entry for a call that arrives, and tells the
   --  engine how it ended.

   function Is_Open_Alone
     (Object   : Protection_Entries_Access;
      Call     : Entry_Call_Link;
      E, Index : Protected_Entry_Index) return Boolean;
   pragma Inline (Is_Open_Alone);
   --  Whether the call, which its body has requeued to this entry of the
   --  object, is served there at once: no other call is queued, and the entry
   --  is open whatever the number of queued calls.

   procedure Serve_Again
     (Self_ID  : Task_Id;
      Object   : Protection_Entries_Access;
      Call     : Entry_Call_Link;
      First    : Protected_Entry_Index;
      Marks    : Word;
      Moved    : Word;
      E, Index : Protected_Entry_Index);
   --  Runs the body of the entry to which the call's first body has requeued
   --  it, and reports both bodies to the engine.

   procedure Wait
     (Self_ID : Task_Id;
      Object  : Protection_Entries_Access;
      Call    : Entry_Call_Link;
      Marks   : Word);
   --  Queues a call that arrives and isn't due. Its barrier is closed whatever
   --  the number of queued calls. If there are none, it isn't evaluated again.

   procedure Turn_Away
     (Self_ID : Task_Id;
      Object  : Protection_Entries_Access;
      Call    : Entry_Call_Link;
      Marks   : Word);
   --  Cancels a call that is due, under the same conditions

   ---------------
   -- Action_Of --
   ---------------

   function Action_Of (Answer : Word) return Word is
   begin
      return Answer mod 2 ** 8;
   end Action_Of;

   --------------
   -- Entry_Of --
   --------------

   function Entry_Of (Answer : Word) return Protected_Entry_Index is
   begin
      return Protected_Entry_Index (Answer / 2 ** 8 + 1);
   end Entry_Of;

   --------------
   -- Index_Of --
   --------------

   function Index_Of
     (Object : Protection_Entries_Access;
      E      : Protected_Entry_Index) return Protected_Entry_Index is
   begin
      return Object.Find_Body_Index (Object.Compiler_Info, E);
   end Index_Of;

   ----------------
   -- Barrier_Of --
   ----------------

   function Barrier_Of
     (Object   : Protection_Entries_Access;
      E, Index : Protected_Entry_Index) return Word is
   begin
      return Boolean'Pos
        (Object.Entry_Bodies (Index).Barrier (Object.Compiler_Info, E));
   exception
      when others =>
         Note_Barrier;
         return Raised;
   end Barrier_Of;

   -----------
   -- Trace --
   -----------

   procedure Trace
     (Object : Protection_Entries_Access;
      Call   : Entry_Call_Link;
      What   : Traces.Event) is
   begin
      if Traces.Is_On then
         Traces.Note (Object, Call, Protected_Entry_Index (Call.E), What);
      end if;
   end Trace;

   --------------
   -- Take_Off --
   --------------

   procedure Take_Off (Call : Entry_Call_Link) is
   begin
      Call.Next := null;

      if Call.State = Now_Abortable then
         Call.State := Was_Abortable;
      end if;
   end Take_Off;

   ----------------
   -- End_Locked --
   ----------------

   procedure End_Locked
     (Self_ID : Task_Id;
      Object  : Protection_Entries_Access;
      Call    : Entry_Call_Link;
      State   : Entry_Call_State) is
   begin
      Take_Off (Call);

      if Call.Self = Self_ID or else Locking_Policy = 'C' then
         End_Now (Self_ID, Call, State);
      else
         Call.Prev := To_Link (Entry_Call_State'Pos (State));
         Put_Off (Object, Call);
      end if;
   end End_Locked;

   --------------
   -- End_Call --
   --------------

   procedure End_Call
     (Self_ID : Task_Id;
      Object  : Protection_Entries_Access;
      Call    : Entry_Call_Link;
      State   : Entry_Call_State)
   is
      Own_State : Entry_Call_State
        with Import, Address => Call.State'Address;
      --  Not stored atomically, as no other task reads it

   begin
      if Call.Self = Self_ID and then Call.Mode /= Asynchronous_Call then
         Call.Next := null;
         Call.Prev := Call;
         Own_State := State;
      else
         End_Locked (Self_ID, Object, Call, State);
      end if;
   end End_Call;

   ----------------
   -- Look_Again --
   ----------------

   procedure Look_Again (Call : Entry_Call_Link) is
      Sleep : Task_States;
   begin
      STPO.Write_Lock (Call.Self);
      Sleep := Call.Self.Common.State;

      if Sleep in Entry_Caller_Sleep | Async_Select_Sleep
        and then (Call.Self.Pending_ATC_Level < Call.Level
                  or else Call.Mode = Asynchronous_Call)
      then
         STPO.Wakeup (Call.Self, Sleep);
      end if;

      STPO.Unlock (Call.Self);
   end Look_Again;

   -----------------
   -- Note_Queued --
   -----------------

   procedure Note_Queued
     (Self_ID : Task_Id;
      Object  : Protection_Entries_Access;
      Call    : Entry_Call_Link;
      Told    : Step) is
   begin
      Trace (Object, Call, Traces.Queued);
      Call.Prev := To_Link (Word (Told.Key));
      Call.Next := To_Link (Told.Number);

      if Call.With_Abort
        and then Call.State in Not_Yet_Abortable | Was_Abortable
      then
         Call.State := Now_Abortable;
      end if;

      if Call.State = Now_Abortable and then Call.Self /= Self_ID then
         Look_Again (Call);
      end if;
   end Note_Queued;

   ------------
   -- Is_Run --
   ------------

   function Is_Run
     (Object   : Protection_Entries_Access;
      Call     : Entry_Call_Link;
      E, Index : Protected_Entry_Index) return Boolean is
   begin
      Object.Call_In_Progress := Call;
      Object.Entry_Bodies (Index).Action
        (Object.Compiler_Info, Call.Uninterpreted_Data, E);
      return True;
   exception
      when others =>
         return False;
   end Is_Run;

   ----------------
   -- Requeue_Of --
   ----------------

   function Requeue_Of
     (Object : Protection_Entries_Access;
      Call   : Entry_Call_Link) return Word is
   begin
      Take_Off (Call);

      if Call.Called_PO = To_Address (Object) then
         return (if Call.With_Abort then Requeued_With_Abort else Requeued);
      else
         Call.Prev := null;
         Put_Off (Object, Call);
         return Requeued_Elsewhere;
      end if;
   end Requeue_Of;

   --------------
   -- Run_Body --
   --------------

   function Run_Body
     (Self_ID  : Task_Id;
      Object   : Protection_Entries_Access;
      Call     : Entry_Call_Link;
      E, Index : Protected_Entry_Index) return Word
   is
      Is_Fine     : constant Boolean := Is_Run (Object, Call, E, Index);
      Is_Requeued : constant Boolean :=
                      Is_Fine and then Object.Call_In_Progress = null;

   begin
      Object.Call_In_Progress := null;

      if not Is_Fine then
         Call.Exception_To_Raise := Program_Error'Identity;
      end if;

      if Traces.Is_On then
         Traces.Note_Body (Object, Call, E, Is_Requeued);
      end if;

      if Is_Requeued then
         return Requeue_Of (Object, Call);
      else
         End_Call (Self_ID, Object, Call, Done);
         return (if Is_Fine then Completed else Failed);
      end if;
   end Run_Body;

   -----------------
   -- Next_Answer --
   -----------------

   function Next_Answer
     (Self_ID : Task_Id;
      Object  : Protection_Entries_Access;
      Answer  : Word;
      Told    : in out Step) return Word
   is
      E    : constant Protected_Entry_Index := Entry_Of (Answer);
      Call : constant Entry_Call_Link := To_Link (Told.Caller);
      How  : Word;

   begin
      case Action_Of (Answer) is
         when Run =>
            Take_Off (Call);
            How := Run_Body (Self_ID, Object, Call, E, Index_Of (Object, E));
            return pobj_body_ended
              (Engine_Of (Object.all), How, Target_Of (How, Call),
               Marks_After (How, Call), Told'Address);

         when Evaluate | Now_Queued =>
            if Action_Of (Answer) = Now_Queued then
               Note_Queued (Self_ID, Object, Call, Told);
            end if;

            return pobj_answer
              (Engine_Of (Object.all),
               Barrier_Of (Object, E, Index_Of (Object, E)), Told'Address);

         when Now_Cancelled =>
            Trace (Object, Call, Traces.Cancelled);
            End_Call (Self_ID, Object, Call, Cancelled);
            return pobj_next (Engine_Of (Object.all), Told'Address);

         when Now_Broken =>
            Trace (Object, Call, Traces.Broken);
            Call.Exception_To_Raise := Program_Error'Identity;
            Name_Barrier (Call);
            End_Call (Self_ID, Object, Call, Done);
            return pobj_next (Engine_Of (Object.all), Told'Address);

         when others =>
            Stop;
      end case;
   end Next_Answer;

   ---------------
   -- Carry_Out --
   ---------------

   procedure Carry_Out
     (Self_ID : Task_Id;
      Object  : Protection_Entries_Access;
      Answer  : Word;
      Told    : in out Step)
   is
      Now : Word := Answer;
   begin
      while Now /= Rest loop
         Now := Next_Answer (Self_ID, Object, Now, Told);
      end loop;

      Forget_Barrier;
   end Carry_Out;

   -----------------
   -- Issue_First --
   -----------------

   procedure Issue_First
     (Self_ID : Task_Id;
      Object  : Protection_Entries_Access;
      Call    : Entry_Call_Link;
      Barrier : Word)
   is
      Told   : aliased Step;
      Answer : constant Word :=
                 pobj_issue
                   (Engine_Of (Object.all), To_Word (Call),
                    Word (Call.E - 1), Marks_Of (Call), Barrier,
                    Told'Address);
   begin
      if Answer = No_Memory then
         Issue_Unready (Self_ID, Object, Call, Barrier, No_Memory);
      else
         Carry_Out (Self_ID, Object, Answer, Told);
      end if;
   end Issue_First;

   -------------------
   -- Issue_Unready --
   -------------------

   procedure Issue_Unready
     (Self_ID : Task_Id;
      Object  : Protection_Entries_Access;
      Call    : Entry_Call_Link;
      Barrier : Word;
      Ready   : Word) is
   begin
      if Ready = No_Memory then
         Trace (Object, Call, Traces.Without_Memory);
         Call.Exception_To_Raise := Storage_Error'Identity;
         End_Call (Self_ID, Object, Call, Done);
      else
         Issue_First (Self_ID, Object, Call, Barrier);
      end if;
   end Issue_Unready;

   -----------
   -- Serve --
   -----------

   procedure Serve
     (Self_ID : Task_Id;
      Object  : Protection_Entries_Access;
      Call    : Entry_Call_Link;
      Index   : Protected_Entry_Index;
      Marks   : Word)
   is
      E      : constant Protected_Entry_Index :=
                 Protected_Entry_Index (Call.E);
      Ready  : constant Word := pobj_ready (Engine_Of (Object.all));
      Told   : aliased Step;
      How    : Word;
      Answer : Word;

   begin
      if Ready /= Rest then
         Issue_Unready (Self_ID, Object, Call, Open, Ready);
         return;
      end if;

      How := Run_Body (Self_ID, Object, Call, E, Index);

      if Is_Within (How) then
         declare
            To : constant Protected_Entry_Index :=
                   Protected_Entry_Index (Call.E);
            At_Body : constant Protected_Entry_Index := Index_Of (Object, To);
         begin
            if Is_Open_Alone (Object, Call, To, At_Body) then
               Serve_Again
                 (Self_ID, Object, Call, E, Marks, How, To, At_Body);
               return;
            end if;
         end;
      end if;

      Answer := pobj_served
        (Engine_Of (Object.all), To_Word (Call), Word (E - 1), Marks, How,
         Target_Of (How, Call), Marks_After (How, Call), Told'Address);

      if Answer /= Rest then
         Carry_Out (Self_ID, Object, Answer, Told);
      end if;
   end Serve;

   -------------------
   -- Is_Open_Alone --
   -------------------

   function Is_Open_Alone
     (Object   : Protection_Entries_Access;
      Call     : Entry_Call_Link;
      E, Index : Protected_Entry_Index) return Boolean is
   begin
      Nested_Actions.Has_Counted := False;
      return Attempted (Call) = 0
        and then pobj_is_idle (Engine_Of (Object.all)) /= 0
        and then Barrier_Of (Object, E, Index) = Open
        and then not Nested_Actions.Has_Counted;
   end Is_Open_Alone;

   -----------------
   -- Serve_Again --
   -----------------

   procedure Serve_Again
     (Self_ID  : Task_Id;
      Object   : Protection_Entries_Access;
      Call     : Entry_Call_Link;
      First    : Protected_Entry_Index;
      Marks    : Word;
      Moved    : Word;
      E, Index : Protected_Entry_Index)
   is
      Told : aliased Step;
      How  : Word;
   begin
      Trace (Object, Call, Traces.Queued);
      How := Run_Body (Self_ID, Object, Call, E, Index);

      --  Any other end is reported to the engine step by step

      if How /= Completed
        or else pobj_served_twice
                  (Engine_Of (Object.all), To_Word (Call), Word (First - 1),
                   Marks, Moved, Word (E - 1), 0) = 0
      then
         if Action_Of
              (pobj_served
                 (Engine_Of (Object.all), To_Word (Call), Word (First - 1),
                  Marks, Moved, Word (E - 1), 0, Told'Address)) /= Now_Queued
           or else Action_Of
                     (pobj_answer
                        (Engine_Of (Object.all), Open, Told'Address)) /= Run
         then
            Stop;
         end if;

         Carry_Out
           (Self_ID, Object,
            pobj_body_ended
              (Engine_Of (Object.all), How, Target_Of (How, Call),
               Marks_After (How, Call), Told'Address),
            Told);
      end if;
   end Serve_Again;

   ----------
   -- Wait --
   ----------

   procedure Wait
     (Self_ID : Task_Id;
      Object  : Protection_Entries_Access;
      Call    : Entry_Call_Link;
      Marks   : Word)
   is
      Ready : constant Word := pobj_ready (Engine_Of (Object.all));
      Told  : aliased Step;

   begin
      if Ready /= Rest then
         Issue_Unready (Self_ID, Object, Call, Closed, Ready);

      elsif pobj_wait
              (Engine_Of (Object.all), To_Word (Call), Word (Call.E - 1),
               Marks, Told'Address) /= 0
      then
         Note_Queued (Self_ID, Object, Call, Told);

      else
         Issue_First (Self_ID, Object, Call, Closed);
      end if;
   end Wait;

   ---------------
   -- Turn_Away --
   ---------------

   procedure Turn_Away
     (Self_ID : Task_Id;
      Object  : Protection_Entries_Access;
      Call    : Entry_Call_Link;
      Marks   : Word) is
   begin
      if pobj_turn_away
           (Engine_Of (Object.all), To_Word (Call), Word (Call.E - 1),
            Marks) /= 0
      then
         Trace (Object, Call, Traces.Queued);
         Trace (Object, Call, Traces.Cancelled);
         End_Call (Self_ID, Object, Call, Cancelled);
      else
         Issue_First (Self_ID, Object, Call, Closed);
      end if;
   end Turn_Away;

   -----------
   -- Issue --
   -----------

   procedure Issue
     (Self_ID : Task_Id;
      Object  : Protection_Entries_Access;
      Call    : Entry_Call_Link)
   is
      E       : constant Protected_Entry_Index :=
                  Protected_Entry_Index (Call.E);
      Index   : constant Protected_Entry_Index := Index_Of (Object, E);
      Barrier : Word;
      Marks   : Word;

   begin
      Call.Prev := null;

      --  An abortable part begins once the call is queued, or requeued with
      --  abort, and not before (9.7.4).

      if Call.Mode = Asynchronous_Call and then Call.State = Now_Abortable then
         Call.State := Not_Yet_Abortable;
      end if;

      Nested_Actions.Has_Counted := False;
      Barrier := Barrier_Of (Object, E, Index);
      Marks := Marks_Of (Call);

      if (Marks and (Aborted or Without_Abort)) = Aborted then
         Issue_First (Self_ID, Object, Call, Barrier);
      elsif Barrier = Open then
         Serve (Self_ID, Object, Call, Index, Marks);
      elsif Barrier = Raised or else Nested_Actions.Has_Counted then
         Issue_First (Self_ID, Object, Call, Barrier);
      elsif (Marks and Due) /= 0 then
         Turn_Away (Self_ID, Object, Call, Marks);
      else
         Wait (Self_ID, Object, Call, Marks);
      end if;
   end Issue;

   -------------
   -- Service --
   -------------

   procedure Service
     (Self_ID : Task_Id;
      Object  : Protection_Entries_Access)
   is
      Told   : aliased Step;
      Answer : constant Word :=
                 pobj_next (Engine_Of (Object.all), Told'Address);
   begin
      if Answer /= Rest then
         Carry_Out (Self_ID, Object, Answer, Told);
      end if;
   end Service;

   --------------
   -- Finalize --
   --------------

   procedure Finalize
     (Self_ID : Task_Id;
      Object  : Protection_Entries_Access)
   is
      Told : aliased Step;
      Ring : Entry_Call_Link;
   begin
      --  There are no queues if there was no memory for them

      if Serves (Object) and then Object.Entry_Queues (1).Head /= null then
         Carry_Out
           (Self_ID, Object,
            pobj_finalize (Engine_Of (Object.all), Told'Address), Told);
         Take_Put_Off (Object, Ring);
         Departures.Look_After (Self_ID, Ring);
         Free (Object);
      end if;
   end Finalize;

end System.Tasking.Protected_Objects.Actions;
