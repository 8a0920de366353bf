with Ends;

package body Units.Relays is

   protected body Relay is

      entry First (Item : in out Call) when True is
      begin
         requeue Second;
      end First;

      entry Second (Item : in out Call) when Level >= 1 is
      begin
         requeue Third with abort;
      end Second;

      entry Third (Item : in out Call) when Level >= 2 is
      begin
         Ends.Complete (Item);
      end Third;

      procedure Set (Item : in out Value) is
      begin
         Level := Item;
      end Set;

      function State return Value is (Level);

      function Waiting return Counts is [First'Count, Second'Count, Third'Count];

   end Relay;

   overriding function Entries (Self : Relay_Unit) return Declarations is
     [(Name => Names.First, others => <>),
      (Name => Names.Second, Public => False, others => <>),
      (Name => Names.Third, Public => False, others => <>)];

   overriding procedure Enter
     (Self : in out Relay_Unit; To : Target; How : Manner; Item : in out Call; Selected : out Boolean) is
   begin
      Selected := True;
      case To.Name is
         when Names.First =>
            case How.Kind is
               when Simple =>
                  Self.Object.First (Item);
               when Conditional =>
                  select
                     Self.Object.First (Item);
                  else
                     Selected := False;
                  end select;
               when Timed =>
                  select
                     Self.Object.First (Item);
                  or
                     delay until How.Deadline;
                     Selected := False;
                  end select;
            end case;
         when others =>
            raise No_Such_Entry with Names.Image (To.Name);
      end case;
   end Enter;

   overriding procedure Run (Self : in out Relay_Unit; Item : in out Value) is
   begin
      Self.Object.Set (Item);
   end Run;

end Units.Relays;
