with Ends;

package body Units.Signals is

   protected body Signal is

      entry Wait (Item : in out Call) when Set is
      begin
         Set := False;
         Ends.Complete (Item);
      end Wait;

      procedure Send (Item : in out Value) is
      begin
         Set := True;
      end Send;

      function State return Value is (if Set then 1 else 0);

      function Waiting return Counts is [Wait'Count];

   end Signal;

   overriding function Entries (Self : Signal_Unit) return Declarations is
     [(Name => Names.Wait, others => <>)];

   overriding procedure Enter
     (Self : in out Signal_Unit; To : Target; How : Manner; Item : in out Call; Selected : out Boolean) is
   begin
      Selected := True;
      case To.Name is
         when Names.Wait =>
            case How.Kind is
               when Simple =>
                  Self.Object.Wait (Item);
               when Conditional =>
                  select
                     Self.Object.Wait (Item);
                  else
                     Selected := False;
                  end select;
               when Timed =>
                  select
                     Self.Object.Wait (Item);
                  or
                     delay until How.Deadline;
                     Selected := False;
                  end select;
            end case;
         when others =>
            raise No_Such_Entry with Names.Image (To.Name);
      end case;
   end Enter;

   overriding procedure Run (Self : in out Signal_Unit; Item : in out Value) is
   begin
      Self.Object.Send (Item);
   end Run;

end Units.Signals;
