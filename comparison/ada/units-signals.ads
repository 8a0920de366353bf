--  The signal: each Wait takes one signal that was sent.
package Units.Signals is

   protected type Signal is
      entry Wait (Item : in out Call);
      procedure Send (Item : in out Value);
      function State return Value;
      function Waiting return Counts;
   private
      Set : Boolean := False;
   end Signal;

   type Signal_Unit is new Unit with record
      Object : Signal;
   end record;

   overriding function Entries (Self : Signal_Unit) return Declarations;

   overriding function Procedure_Name (Self : Signal_Unit) return String is ("Send");

   overriding procedure Enter
     (Self : in out Signal_Unit; To : Target; How : Manner; Item : in out Call; Selected : out Boolean);

   overriding procedure Run (Self : in out Signal_Unit; Item : in out Value);

   overriding function State (Self : Signal_Unit) return Value is (Self.Object.State);

   overriding function Waiting (Self : Signal_Unit) return Counts is (Self.Object.Waiting);

end Units.Signals;
