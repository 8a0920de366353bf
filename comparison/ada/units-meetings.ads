--  The meeting: calls wait for each other until there are as many as its size.
package Units.Meetings is

   protected type Meeting (Size : Positive) is
      entry Wait (Item : in out Call);
      function State return Value;
      function Waiting return Counts;
   private
      Leaving : Boolean := False;
   end Meeting;

   type Meeting_Unit (Size : Positive) is new Unit with record
      Object : Meeting (Size);
   end record;

   overriding function Entries (Self : Meeting_Unit) return Declarations;

   overriding procedure Enter
     (Self : in out Meeting_Unit; To : Target; How : Manner; Item : in out Call; Selected : out Boolean);

   overriding function State (Self : Meeting_Unit) return Value is (Self.Object.State);

   overriding function Waiting (Self : Meeting_Unit) return Counts is (Self.Object.Waiting);

end Units.Meetings;
