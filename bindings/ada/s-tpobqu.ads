--  SPDX-License-Identifier: MIT
--  The entry queues of an object that the engine serves, and the calls that
--  are put off until its lock is given up. Nothing is elaborated here, so that
--  programs that are already linked can use it.

with System.Tasking.Protected_Objects.Entries;
with System.Tasking.Protected_Objects.Pobj;

package System.Tasking.Protected_Objects.Queues is

   --  GNARL's first queue has no other use here: its Head is the engine's,
   --  and its Tail is the last of the calls that are put off. These are in a
   --  ring, chained by Acceptor_Prev_Call.

   function Serves
     (Object : Entries.Protection_Entries_Access) return Boolean;
   pragma Inline (Serves);
   --  Whether the engine serves the object's entry calls: if the object has
   --  entries, and the program isn't under Priority_Queuing (D.4), where
   --  GNARL keeps them.

   function Engine_Of
     (Object : Entries.Protection_Entries'Class) return Pobj.Engine;
   pragma Inline (Engine_Of);
   --  The engine of an object that it serves

   procedure Make (Object : Entries.Protection_Entries_Access);
   pragma Export (Ada, Make, "pobj_ada_make");
   --  Makes the queues of a new object, with the limit of each, if the engine
   --  serves it. Raises Storage_Error if there is no memory for them, or if
   --  the object has more than 65_535 entries.

   Looks : Positive := 1;
   --  How many times a task whose call waits looks for the call's end before
   --  it sleeps: more than once if tasks may run beside each other. Those with
   --  real-time priorities look once: more urgent ones that look would keep
   --  others from running.

   function Has_Own_Lock return Boolean;
   pragma Inline (Has_Own_Lock);
   --  Whether the objects' locks are those that Make makes: under a locking
   --  policy (D.3) they stay GNARL's.

   function Is_Locked
     (Object : Entries.Protection_Entries_Access) return Boolean;
   --  Takes such a lock if it is free, and returns whether it was

   procedure Free (Object : Entries.Protection_Entries_Access);
   --  Frees the queues of an object, in which no call is queued any more

   function Count
     (Object : Entries.Protection_Entries'Class;
      E      : Protected_Entry_Index) return Natural;
   --  How many calls are queued on the entry (9.9)

   procedure Put_Off
     (Object : Entries.Protection_Entries_Access;
      Call   : Entry_Call_Link);
   --  Puts a call off until the object's lock is given up: it has ended, or a
   --  body requeued it to another object or to a task.

   function Has_Put_Off
     (Object : Entries.Protection_Entries_Access) return Boolean;
   pragma Inline (Has_Put_Off);
   --  Whether there are such calls

   procedure Take_Put_Off
     (Object : Entries.Protection_Entries_Access;
      Ring   : out Entry_Call_Link);
   pragma Inline (Take_Put_Off);
   --  Takes the ring of those calls, or null

   procedure Join (Last : in out Entry_Call_Link; More : Entry_Call_Link);
   --  Appends the calls of one ring to those of another

   procedure Take_First
     (Last  : in out Entry_Call_Link;
      First : out Entry_Call_Link);
   --  Takes the first call out of a ring

   procedure Stop;
   pragma No_Return (Stop);
   --  Ends the program: the engine refused a step, so this runtime is wrong

end System.Tasking.Protected_Objects.Queues;
