--  A meeting: tasks wait until Size of them are there, and then leave together.
--  SPDX-License-Identifier: MIT

type Value is mod 2 ** 64;

protected type Meeting (Size : Positive) is
   entry Wait (Item : in out Value);
   function State return Value;
private
   Leaving : Boolean := False;
end Meeting;

protected body Meeting is
   entry Wait (Item : in out Value) when Leaving or else Wait'Count = Size is
   begin
      Leaving := Wait'Count > 0;
   end Wait;

   function State return Value is (Wait'Count);
end Meeting;
