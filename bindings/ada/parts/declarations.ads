   procedure GNARL_Do_Or_Queue
     (Self_ID    : Task_Id;
      Object     : Protection_Entries_Access;
      Entry_Call : Entry_Call_Link);

   procedure GNARL_Service_Entries
     (Self_ID       : Task_Id;
      Object        : Entries.Protection_Entries_Access;
      Unlock_Object : Boolean := True);

   function GNARL_Count
     (Object : Protection_Entries'Class;
      E      : Protected_Entry_Index) return Natural;
   --  GNARL's own subprograms, for the objects that pobj doesn't serve

   procedure Arrive
     (Self_ID    : Task_Id;
      Object     : Protection_Entries_Access;
      Entry_Call : Entry_Call_Link);
   pragma Inline (Arrive);
   --  Issues a call: PO_Do_Or_Queue, in place

   procedure Leave
     (Self_ID : Task_Id;
      Object  : Entries.Protection_Entries_Access);
   pragma Inline (Leave);
   --  Gives the lock up: after Arrive the object is at rest

   procedure Note_And_Service (Object : Entries.Protection_Entries_Access);
   pragma No_Inline (Note_And_Service);
   --  What Service_Entries does if a record is written. It is a tail call: so
   --  this returns into the object's procedure, whether Service_Entries is
   --  inlined there or not.
