--  The allocator: a number of pieces of a resource, which calls ask for and give back.
package Units.Allocators is

   protected type Allocator (Size : Positive) is
      entry Request (Item : in out Call);
      entry Claim (Item : in out Call);
      procedure Release (Item : in out Value);
      function State return Value;
      function Waiting return Counts;
   private
      entry Grant (1 .. Size) (Item : in out Call);
      Free : Value := Value (Size);
   end Allocator;

   type Allocator_Unit (Size : Positive) is new Unit with record
      Object : Allocator (Size);
   end record;

   overriding function Entries (Self : Allocator_Unit) return Declarations;

   overriding function Procedure_Name (Self : Allocator_Unit) return String is ("Release");

   overriding procedure Enter
     (Self : in out Allocator_Unit; To : Target; How : Manner; Item : in out Call; Selected : out Boolean);

   overriding procedure Run (Self : in out Allocator_Unit; Item : in out Value);

   overriding function State (Self : Allocator_Unit) return Value is (Self.Object.State);

   overriding function Waiting (Self : Allocator_Unit) return Counts is (Self.Object.Waiting);

end Units.Allocators;
