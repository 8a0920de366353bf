package body Gates is

   protected body Gate is
      entry Pass when Is_Open is
      begin
         null;
      end Pass;

      procedure Open is
      begin
         Is_Open := True;
      end Open;

      procedure Set (To_Open : Boolean) is
      begin
         Is_Open := To_Open;
      end Set;
   end Gate;

end Gates;
