--  The broadcast: Send gives its value to each call that waits on Receive.
package Units.Broadcasts is

   protected type Broadcast is
      entry Receive (Item : in out Call);
      procedure Send (Item : in out Value);
      function State return Value;
      function Waiting return Counts;
   private
      Arrived : Boolean := False;
      Message : Value := 0;
   end Broadcast;

   type Broadcast_Unit is new Unit with record
      Object : Broadcast;
   end record;

   overriding function Entries (Self : Broadcast_Unit) return Declarations;

   overriding function Procedure_Name (Self : Broadcast_Unit) return String is ("Send");

   overriding procedure Enter
     (Self : in out Broadcast_Unit; To : Target; How : Manner; Item : in out Call; Selected : out Boolean);

   overriding procedure Run (Self : in out Broadcast_Unit; Item : in out Value);

   overriding function State (Self : Broadcast_Unit) return Value is (Self.Object.State);

   overriding function Waiting (Self : Broadcast_Unit) return Counts is (Self.Object.Waiting);

end Units.Broadcasts;
