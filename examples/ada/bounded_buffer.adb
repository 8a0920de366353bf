--  A bounded buffer: producers wait for room, consumers for an item; first in, first out.
--  SPDX-License-Identifier: MIT

package Buffers is

   type Item is range 0 .. 999;
   type Item_Array is array (Positive range <>) of Item;

   protected type Bounded_Buffer (Capacity : Positive) is
      entry Put (X : in Item);
      entry Get (X : out Item);
      procedure Peek (X : out Item; Found : out Boolean);
      function Length return Natural;
      function Is_Full return Boolean;
   private
      Items : Item_Array (1 .. Capacity) := (others => 0);
      First : Positive := 1;
      Count : Natural := 0;
   end Bounded_Buffer;

end Buffers;

package body Buffers is

   protected body Bounded_Buffer is

      entry Put (X : in Item) when Count < Capacity is
      begin
         Items ((First + Count - 1) mod Capacity + 1) := X;
         Count := Count + 1;
      end Put;

      entry Get (X : out Item) when Count > 0 is
      begin
         X := Items (First);
         First := First mod Capacity + 1;
         Count := Count - 1;
      end Get;

      procedure Peek (X : out Item; Found : out Boolean) is
      begin
         Found := Count > 0;
         X := (if Found then Items (First) else 0);
      end Peek;

      function Length return Natural is (Count);

      function Is_Full return Boolean is (Count = Capacity);

   end Bounded_Buffer;

end Buffers;
