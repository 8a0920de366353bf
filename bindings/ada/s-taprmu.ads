--  SPDX-License-Identifier: MIT
--  The mutex in the lock of a protected object. The lock is a private record,
--  whose components have another order on other targets: a child of its
--  package names them. Nothing is elaborated here.

package System.Task_Primitives.Mutexes is
   pragma Preelaborate;

   function Is_Made_Adaptive (L : not null access Lock) return Boolean;
   --  Replaces the mutex by one of another kind: a task that finds it taken
   --  looks about a hundred times whether it is free before it sleeps. Returns
   --  False if there is no memory for it. If only what describes the kind
   --  finds none, the mutex stays as it is.

   function Is_Taken (L : not null access Lock) return Boolean;
   pragma Inline (Is_Taken);
   --  Takes the mutex if it is free, and returns whether it was

end System.Task_Primitives.Mutexes;
