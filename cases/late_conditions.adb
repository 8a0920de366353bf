--  Aspects that come after the expression of a function (6.8), for the case text_late_conditions.
--  SPDX-License-Identifier: MIT

function Fits (N : Integer) return Boolean is (N < 10) with Pre => N > 0;

protected Late is
   entry Wait (N : in Integer) with Pre => Fits (N);
private
   Sum : Integer := 0;
end Late;

protected body Late is
   entry Wait (N : in Integer) when True is
   begin
      Sum := Sum + N;
   end Wait;
end Late;
