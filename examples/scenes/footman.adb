--  A footman, who lets at most Seats philosophers sit down at once.
--  SPDX-License-Identifier: MIT

protected type Footman (Seats : Positive) is
   entry Sit_Down;
   procedure Stand_Up;
   function Invariant return Boolean;
private
   Seated : Natural := 0;
end Footman;

protected body Footman is

   entry Sit_Down when Seated < Seats is
   begin
      Seated := Seated + 1;
   end Sit_Down;

   procedure Stand_Up is
   begin
      Seated := Seated - 1;
   end Stand_Up;

   function Invariant return Boolean is (Seated <= Seats);

end Footman;
