--  A bounded stack: Push waits for room, Pop for an item, and Top raises an exception if there is none.
--  SPDX-License-Identifier: MIT

type Item is range -99 .. 99;
type Item_Array is array (Positive range <>) of Item;

Empty : exception;

protected type Stack (Size : Positive) is
   entry Push (X : in Item);
   entry Pop (X : out Item);
   procedure Exchange (X : in out Item);
   procedure Add (Sum : out Item);
   procedure Clear;
   function Top return Item;
   function Contains (X : Item) return Boolean;
private
   Data  : Item_Array (1 .. Size) := (others => 0);
   Depth : Natural := 0;
end Stack;

protected body Stack is

   entry Push (X : in Item) when Depth < Size is
   begin
      Depth := Depth + 1;
      Data (Depth) := X;
   end Push;

   entry Pop (X : out Item) when Depth > 0 is
   begin
      X := Data (Depth);
      Depth := Depth - 1;
   end Pop;

   function Top return Item is
   begin
      if Depth = 0 then
         raise Empty;
      end if;
      return Data (Depth);
   end Top;

   --  Puts X in the place of the top, which comes back.
   procedure Exchange (X : in out Item) is
      Old : constant Item := Top;
   begin
      Data (Depth) := X;
      X := Old;
   end Exchange;

   --  Puts the sum of the two upper items in their place.
   procedure Add (Sum : out Item) is
   begin
      if Depth < 2 then
         raise Empty with "two items are needed";
      end if;
      Sum := Data (Depth) + Data (Depth - 1);
      Depth := Depth - 1;
      Data (Depth) := Sum;
   end Add;

   procedure Clear is
   begin
      while Depth > 0 loop
         Data (Depth) := Item'First;
         Depth := Depth - 1;
      end loop;
   end Clear;

   function Contains (X : Item) return Boolean is
   begin
      for Place in reverse 1 .. Depth loop
         if Data (Place) = X then
            return True;
         end if;
      end loop;
      return False;
   end Contains;

end Stack;
