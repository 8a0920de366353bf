   ------------
   -- Arrive --
   ------------

   procedure Arrive
     (Self_ID    : Task_Id;
      Object     : Protection_Entries_Access;
      Entry_Call : Entry_Call_Link) is
   begin
      if Queues.Serves (Object) then
         Actions.Issue (Self_ID, Object, Entry_Call);
      else
         GNARL_Do_Or_Queue (Self_ID, Object, Entry_Call);
      end if;
   end Arrive;

   --------------------
   -- PO_Do_Or_Queue --
   --------------------

   procedure PO_Do_Or_Queue
     (Self_ID    : Task_Id;
      Object     : Protection_Entries_Access;
      Entry_Call : Entry_Call_Link) is
   begin
      Arrive (Self_ID, Object, Entry_Call);
   end PO_Do_Or_Queue;
