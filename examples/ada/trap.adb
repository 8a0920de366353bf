--  A trap: barriers that depend on an index, on Count and on an exception, and a body that raises one.
--  SPDX-License-Identifier: MIT

type Value is mod 2 ** 64;

Fault   : exception; -- its message is a number
Failure : exception; -- its message is a number

protected type Trap is
   entry Wait (1 .. 3) (Item : in out Value);
   entry Fail (Item : in out Value);
   entry Exact (Item : in out Value);
   procedure Set (Item : in out Value);
   function State return Value;
private
   Level : Value := 0;
end Trap;

protected body Trap is
   entry Wait (for I in 1 .. 3) (Item : in out Value)
     when (if Level = 13 then raise Fault with "13" else Level >= Value (I)) is
   begin
      null;
   end Wait;

   entry Fail (Item : in out Value) when True is
   begin
      Level := Item;
      raise Failure with Value'Image (Value'Min (Item, 4_294_967_295));
   end Fail;

   entry Exact (Item : in out Value) when Level > 0 and then Exact'Count = Level is
   begin
      null;
   end Exact;

   procedure Set (Item : in out Value) is
   begin
      Level := Item;
   end Set;

   function State return Value is (Level);
end Trap;
