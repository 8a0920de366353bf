--  The pulse: Signal lets all waiting calls go, and ends after them.
package Units.Pulses is

   protected type Pulse is
      entry Wait (Item : in out Call);
      entry Signal (Item : in out Call);
      function State return Value;
      function Waiting return Counts;
   private
      entry Reset (Item : in out Call);
      Occurred : Boolean := False;
   end Pulse;

   type Pulse_Unit is new Unit with record
      Object : Pulse;
   end record;

   overriding function Entries (Self : Pulse_Unit) return Declarations;

   overriding procedure Enter
     (Self : in out Pulse_Unit; To : Target; How : Manner; Item : in out Call; Selected : out Boolean);

   overriding function State (Self : Pulse_Unit) return Value is (Self.Object.State);

   overriding function Waiting (Self : Pulse_Unit) return Counts is (Self.Object.Waiting);

end Units.Pulses;
