   ------------------------
   -- PO_Service_Entries --
   ------------------------

   procedure PO_Service_Entries
     (Self_ID       : Task_Id;
      Object        : Entries.Protection_Entries_Access;
      Unlock_Object : Boolean := True) is
   begin
      if not Queues.Serves (Object) then
         GNARL_Service_Entries (Self_ID, Object, Unlock_Object);
      else
         Actions.Service (Self_ID, Object);

         if Unlock_Object then
            Leave (Self_ID, Object);
         end if;
      end if;
   end PO_Service_Entries;

   -----------
   -- Leave --
   -----------

   procedure Leave
     (Self_ID : Task_Id;
      Object  : Entries.Protection_Entries_Access) is
   begin
      if not Queues.Serves (Object) then
         GNARL_Service_Entries (Self_ID, Object, True);
      elsif Queues.Has_Put_Off (Object) then
         Departures.Leave (Object);
      else
         Unlock_Entries (Object);
      end if;
   end Leave;

   ----------------------
   -- Note_And_Service --
   ----------------------

   procedure Note_And_Service (Object : Entries.Protection_Entries_Access) is
      Self_ID : constant Task_Id := STPO.Self;
   begin
      if Queues.Serves (Object) then
         Traces.Note_Procedure (Self_ID, Object, Traces.Return_Address (0));
      end if;

      PO_Service_Entries (Self_ID, Object);
   end Note_And_Service;
