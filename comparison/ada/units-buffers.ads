--  The bounded buffer: Put adds a value, Get takes the first one.
package Units.Buffers is

   type Value_Array is array (Positive range <>) of Value;

   protected type Buffer (Capacity : Positive) is
      entry Put (Item : in out Call);
      entry Get (Item : in out Call);
      function State return Value;
      function Waiting return Counts;
   private
      Values : Value_Array (1 .. Capacity);
      First  : Positive := 1;
      Length : Natural := 0;
   end Buffer;

   type Buffer_Unit (Capacity : Positive) is new Unit with record
      Object : Buffer (Capacity);
   end record;

   overriding function Entries (Self : Buffer_Unit) return Declarations;

   overriding procedure Enter
     (Self : in out Buffer_Unit; To : Target; How : Manner; Item : in out Call; Selected : out Boolean);

   overriding function State (Self : Buffer_Unit) return Value is (Self.Object.State);

   overriding function Waiting (Self : Buffer_Unit) return Counts is (Self.Object.Waiting);

end Units.Buffers;
