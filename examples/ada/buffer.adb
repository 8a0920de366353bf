--  A bounded buffer: Put waits for room, Get for a value.
--  SPDX-License-Identifier: MIT

type Value is mod 2 ** 64;

type Value_Array is array (Positive range <>) of Value;

protected type Buffer (Capacity : Positive) is
   entry Put (Item : in out Value);
   entry Get (Item : in out Value);
   function State return Value;
private
   Values : Value_Array (1 .. Capacity);
   First  : Positive := 1;
   Length : Natural := 0;
end Buffer;

protected body Buffer is
   entry Put (Item : in out Value) when Length < Capacity is
   begin
      Values ((First + Length - 1) mod Capacity + 1) := Item;
      Length := Length + 1;
   end Put;

   entry Get (Item : in out Value) when Length > 0 is
   begin
      Item := Values (First);
      First := First mod Capacity + 1;
      Length := Length - 1;
   end Get;

   function State return Value is (Value (Length));
end Buffer;
