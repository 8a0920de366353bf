   ---------------------
   -- Protected_Count --
   ---------------------

   function Protected_Count
     (Object : Protection_Entries'Class;
      E      : Protected_Entry_Index) return Natural is
   begin
      Nested_Actions.Has_Counted := True;

      if Queues.Serves (Object'Unrestricted_Access) then
         return Queues.Count (Object, E);
      else
         return GNARL_Count (Object, E);
      end if;
   end Protected_Count;
