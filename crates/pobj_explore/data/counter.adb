--  The text that `rt ci` runs this program on.
--  SPDX-License-Identifier: MIT

protected type Counter (Goal : Positive) is
   entry Reach (At_Count : out Natural);
   procedure Add (More : in Natural);
private
   Count : Natural := 0;
end Counter;

protected body Counter is

   entry Reach (At_Count : out Natural) when Count >= Goal is
   begin
      At_Count := Count;
   end Reach;

   procedure Add (More : in Natural) is
   begin
      Count := Count + More;
   end Add;

end Counter;
