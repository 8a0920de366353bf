--  The protected objects that are timed: those of UNITS.md, with plain values.
package Speed_Objects is

   type Value is mod 2 ** 64;

   type Value_Array is array (Positive range <>) of Value;

   protected type Trap is
      entry Wait (1 .. 3) (Item : in out Value);
      procedure Set (Item : in out Value);
      function State return Value;
   private
      Level : Value := 0;
   end Trap;

   protected type Buffer (Capacity : Positive) is
      entry Put (Item : in out Value);
      entry Get (Item : in out Value);
   private
      Values : Value_Array (1 .. Capacity);
      First  : Positive := 1;
      Length : Natural := 0;
   end Buffer;

   protected type Allocator (Size : Positive) is
      entry Request (Item : in out Value);
      procedure Release (Item : in out Value);
   private
      entry Grant (1 .. Size) (Item : in out Value);
      Free : Value := Value (Size);
   end Allocator;

   protected type Meeting (Size : Positive) is
      entry Wait (Item : in out Value);
   private
      Leaving : Boolean := False;
   end Meeting;

end Speed_Objects;
