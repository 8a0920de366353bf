--  A signal: each Send lets one task pass Wait.
--  SPDX-License-Identifier: MIT

type Value is mod 2 ** 64;

protected type Signal is
   entry Wait (Item : in out Value);
   procedure Send (Item : in out Value);
   function State return Value;
private
   Set : Boolean := False;
end Signal;

protected body Signal is
   entry Wait (Item : in out Value) when Set is
   begin
      Set := False;
   end Wait;

   procedure Send (Item : in out Value) is
   begin
      Set := True;
   end Send;

   function State return Value is (if Set then 1 else 0);
end Signal;
