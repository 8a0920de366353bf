--  A barrier: callers wait until there are as many as take part, and then go on together; the last one is told so.
--  SPDX-License-Identifier: MIT

protected type Barrier (Parties : Positive) is
   entry Wait (Is_Last : out Boolean; Phase : out Positive);
   function Waiting return Natural;
private
   Leaving : Boolean := False;
   Passed  : Natural := 0;
end Barrier;

protected body Barrier is

   entry Wait (Is_Last : out Boolean; Phase : out Positive) when Leaving or else Wait'Count = Parties is
   begin
      if not Leaving then
         Passed := Passed + 1;
      end if;
      Phase := Passed;
      Leaving := Wait'Count > 0;
      Is_Last := not Leaving;
   end Wait;

   function Waiting return Natural is (Wait'Count);

end Barrier;
