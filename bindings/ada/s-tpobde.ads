--  SPDX-License-Identifier: MIT
--  What a task does as it leaves objects: it ends or issues the calls that
--  were put off until their locks are given up. Nothing is elaborated here, so
--  that programs that are already linked can use it.

with System.Tasking.Protected_Objects.Entries;

package System.Tasking.Protected_Objects.Departures is

   procedure Leave (Object : Entries.Protection_Entries_Access);
   --  Gives up the lock of an object at rest. Then it wakes the other tasks
   --  whose calls have ended, and issues the calls that bodies requeued to
   --  other objects or to tasks (9.5.4), with no lock held in between: a
   --  caller that is woken finds the object's lock free. A task that is inside
   --  other objects does this when it has left the last.

   procedure Look_After (Self_ID : Task_Id; Ring : Entry_Call_Link);
   --  Ends or issues the calls of a ring, one after the other

   procedure Look_After_Later;
   pragma Export (Ada, Look_After_Later, "pobj_ada_look_after");
   --  Looks after what this task has put off, now that it has left the last
   --  object

end System.Tasking.Protected_Objects.Departures;
