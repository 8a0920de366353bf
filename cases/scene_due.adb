--  Two doors, unlocked if both have a caller. Each opens once the other has none.
protected Doors is
   entry Left;
   entry Right;
   procedure Unlock;
   function Invariant return Boolean;
private
   Unlocked : Boolean := False;
   Left_Was_Open : Boolean := False;
end Doors;

protected body Doors is
   entry Left when Unlocked and Right'Count = 0 is
   begin
      Left_Was_Open := True;
   end Left;

   entry Right when Unlocked and Left'Count = 0 is
   begin
      null;
   end Right;

   procedure Unlock is
   begin
      Unlocked := Left'Count = 1 and Right'Count = 1;
   end Unlock;

   function Invariant return Boolean is (not Left_Was_Open);
end Doors;
