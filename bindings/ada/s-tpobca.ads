--  SPDX-License-Identifier: MIT
--  The callers of entries: how they wait, are cancelled, leave the levels of
--  their calls, and take the exceptions of bodies. Nothing is elaborated here,
--  so that programs that are already linked can use it.

with Ada.Exceptions;

with System.Tasking.Protected_Objects.Pobj;

package System.Tasking.Protected_Objects.Callers is

   procedure End_Now
     (Self_ID : Task_Id;
      Call    : Entry_Call_Link;
      State   : Entry_Call_State);
   --  Ends the call, and wakes its caller

   procedure Look_For_End (Self_ID : Task_Id; Call : Entry_Call_Link);
   --  This task's call waits: before the task sleeps, it looks several times
   --  whether the call has ended, and lets others run meanwhile.

   function Leaves_Unlocked
     (Self_ID : Task_Id;
      Call    : Entry_Call_Link) return Boolean;
   pragma Inline (Leaves_Unlocked);
   --  Whether this task may leave the level of its call, which has ended,
   --  without its own lock.

   procedure Raise_Abort (Self_ID : Task_Id);
   pragma Inline (Raise_Abort);
   --  Raises the abort of this task that came during an abortable part, if
   --  one did and aborts aren't deferred.

   function Attempted (Call : Entry_Call_Link) return Pobj.Word;
   pragma Inline (Attempted);
   --  The mark of a call for the cancellation that was attempted, or 0. A
   --  call that is made while aborts are deferred isn't cancelled by one.

   function Marks_Of (Call : Entry_Call_Link) return Pobj.Word;
   pragma Inline (Marks_Of);
   --  All marks of a call that arrives

   function Is_Server_Locked (Call : Entry_Call_Link) return Boolean;
   --  Locks the object that the call is on. The call's caller asks this while
   --  it holds no lock. If the call has ended, the object may be gone: then
   --  the call is on the caller itself, which is locked. Returns False, and
   --  locks nothing, if the call is on a task, or under a locking policy.

   function Is_Withdrawn (Call : Entry_Call_Link) return Boolean;
   --  Whether the call, whose caller was aborted or doesn't wait any longer,
   --  is taken off its queue now. The engine decides that for a protected
   --  object, and on a task's queue a requeue without abort protects the call
   --  (9.5.3, 9.5.4, 9.7.2, 9.8). The task holds the lock of the called
   --  object or task.

   procedure Leave_Queue (Call : Entry_Call_Link);
   --  Takes a call that is withdrawn off GNARL's queue, if it is on one

   function Is_Aborted_Before
     (Self_ID : Task_Id;
      Call    : Entry_Call_Link) return Boolean;
   --  Whether the caller of an entry call that is requeued with abort to a
   --  task was aborted before: then the call is cancelled (9.5.4). Always
   --  False under Priority_Queuing, where GNARL has the calls. This task
   --  holds the called task's lock.

   procedure Cancel (Self_ID : Task_Id; Call : Entry_Call_Link);
   --  Ends such a call, which is on no queue. This task holds no task's lock.

   procedure Keep_Occurrence
     (Call   : Entry_Call_Link;
      Source : Ada.Exceptions.Exception_Occurrence);
   pragma Export (Ada, Keep_Occurrence, "pobj_ada_keep");
   --  Keeps the occurrence of the exception by which a body ends the call.
   --  The caller may raise and handle others before it takes this one.

   procedure Take_Occurrence (Self_ID : Task_Id);
   --  Takes the occurrence that is kept with the call of this task's level,
   --  if there is one. The call has ended, the task leaves it, and no abort
   --  may come.

   procedure Note_Barrier;
   --  Keeps the occurrence of the exception that a barrier has just raised, by
   --  which this task's protected action ends all calls (9.5.3).

   procedure Name_Barrier (Call : Entry_Call_Link);
   --  If a barrier raised an exception, its message goes with the call, which
   --  ends by Program_Error: so the caller sees the fault's line.

   procedure Forget_Barrier;
   --  The protected action has ended the calls

   procedure Set_Message (Call : Entry_Call_Link);
   --  Clears the message of the exception that the call's caller raises now,
   --  unless a body or a barrier raised it: an exception of the runtime's own
   --  has no message.

end System.Tasking.Protected_Objects.Callers;
