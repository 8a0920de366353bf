--  The trap: entries that go wrong.
package Units.Traps is

   protected type Trap is
      entry Wait (1 .. 3) (Item : in out Call);
      entry Fail (Item : in out Call);
      entry Exact (Item : in out Call);
      procedure Set (Item : in out Value);
      function State return Value;
      function Waiting return Counts;
   private
      Level : Value := 0;
   end Trap;

   type Trap_Unit is new Unit with record
      Object : Trap;
   end record;

   overriding function Entries (Self : Trap_Unit) return Declarations;

   overriding function Procedure_Name (Self : Trap_Unit) return String is ("Set");

   overriding procedure Enter
     (Self : in out Trap_Unit; To : Target; How : Manner; Item : in out Call; Selected : out Boolean);

   overriding procedure Run (Self : in out Trap_Unit; Item : in out Value);

   overriding function State (Self : Trap_Unit) return Value is (Self.Object.State);

   overriding function Waiting (Self : Trap_Unit) return Counts is (Self.Object.Waiting);

end Units.Traps;
