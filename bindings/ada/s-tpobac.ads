--  SPDX-License-Identifier: MIT
--  The protected actions of an object whose entry calls the engine serves.
--  This carries out what the engine decides: it evaluates barriers, runs
--  bodies and wakes callers. GNARL keeps its locks, sleeping, clocks, aborts
--  and exceptions. Nothing is elaborated here, so that programs that are
--  already linked can use it.

with System.Tasking.Protected_Objects.Entries;

package System.Tasking.Protected_Objects.Actions is

   procedure Issue
     (Self_ID : Task_Id;
      Object  : Entries.Protection_Entries_Access;
      Call    : Entry_Call_Link);
   --  Issues a call that arrives by an entry call or a requeue (9.5.3), and
   --  carries out all that follows until the object is at rest. The task
   --  holds the object's lock.

   procedure Service
     (Self_ID : Task_Id;
      Object  : Entries.Protection_Entries_Access);
   --  Carries out what follows the body of a procedure or a cancellation
   --  (9.5.3), until the object is at rest. The task holds its lock.

   procedure Finalize
     (Self_ID : Task_Id;
      Object  : Entries.Protection_Entries_Access);
   pragma Export (Ada, Finalize, "pobj_ada_finalize");
   --  Ends all queued calls by Program_Error (9.4), and frees the queues. The
   --  task holds the object's lock.

end System.Tasking.Protected_Objects.Actions;
