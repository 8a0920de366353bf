--  The relay: a chain of requeues, without abort and then with abort.
package Units.Relays is

   protected type Relay is
      entry First (Item : in out Call);
      procedure Set (Item : in out Value);
      function State return Value;
      function Waiting return Counts;
   private
      entry Second (Item : in out Call);
      entry Third (Item : in out Call);
      Level : Value := 0;
   end Relay;

   type Relay_Unit is new Unit with record
      Object : Relay;
   end record;

   overriding function Entries (Self : Relay_Unit) return Declarations;

   overriding function Procedure_Name (Self : Relay_Unit) return String is ("Set");

   overriding procedure Enter
     (Self : in out Relay_Unit; To : Target; How : Manner; Item : in out Call; Selected : out Boolean);

   overriding procedure Run (Self : in out Relay_Unit; Item : in out Value);

   overriding function State (Self : Relay_Unit) return Value is (Self.Object.State);

   overriding function Waiting (Self : Relay_Unit) return Counts is (Self.Object.Waiting);

end Units.Relays;
