--  SPDX-License-Identifier: MIT
--  How many protected actions each task is inside of, and the calls that it
--  has put off meanwhile. Nothing is elaborated here, so that programs that
--  are already linked can use it.

package System.Tasking.Nested_Actions is

   procedure Enter;
   pragma Inline (Enter);
   --  Notes that this task has taken the lock of an object

   procedure Leave;
   pragma Inline (Leave);
   --  Notes that this task has given up a lock. If that was its last one,
   --  looks after the calls that were put off.

   procedure Enter_None;
   --  Notes that this task now looks after the calls that it has put off.
   --  Until Leave it counts as inside one more object, with the lowest
   --  ceiling.

   function Is_Above (Ceiling : Any_Priority) return Boolean;
   --  Whether this task's active priority is above the ceiling of an object
   --  that it calls under Ceiling_Locking (D.3). It is the task's own, or the
   --  ceiling of the object that the task is inside of. If it isn't above,
   --  notes the ceiling, as this task takes the object's lock next.

   procedure Keep (Ceiling : Any_Priority);
   --  Notes that this task leaves an object with this ceiling, and has put
   --  calls off. Under Ceiling_Locking (D.3) it keeps that priority until
   --  Give_Back, so that no task less urgent than their callers runs first.

   procedure Give_Back;
   --  Gives that priority back: this task has looked after the calls

   procedure Undefer_Abort;
   --  Undefers the aborts that the compiler's code has deferred for a
   --  protected action, which an exception ends before it has begun.

   Has_Counted : Boolean := False;
   pragma Thread_Local_Storage (Has_Counted);
   --  Whether this task has asked for a 'Count (9.9) since this was cleared: a
   --  barrier that hasn't asked for one has the same value whatever the number
   --  of queued calls.

   Later : Entry_Call_Link := null;
   pragma Thread_Local_Storage (Later);
   --  The ring of calls to be looked after once the task is inside no object

private

   Depth : Integer := 0;
   pragma Thread_Local_Storage (Depth);

end System.Tasking.Nested_Actions;
