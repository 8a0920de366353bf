with Ends;

package body Units.Meetings is

   protected body Meeting is

      entry Wait (Item : in out Call) when Leaving or else Wait'Count = Size is
      begin
         Leaving := Wait'Count > 0;
         Ends.Complete (Item);
      end Wait;

      function State return Value is (Wait'Count);

      function Waiting return Counts is [Wait'Count];

   end Meeting;

   overriding function Entries (Self : Meeting_Unit) return Declarations is
     [(Name => Names.Wait, others => <>)];

   overriding procedure Enter
     (Self : in out Meeting_Unit; To : Target; How : Manner; Item : in out Call; Selected : out Boolean) is
   begin
      Selected := True;
      case To.Name is
         when Names.Wait =>
            case How.Kind is
               when Simple =>
                  Self.Object.Wait (Item);
               when Conditional =>
                  select
                     Self.Object.Wait (Item);
                  else
                     Selected := False;
                  end select;
               when Timed =>
                  select
                     Self.Object.Wait (Item);
                  or
                     delay until How.Deadline;
                     Selected := False;
                  end select;
            end case;
         when others =>
            raise No_Such_Entry with Names.Image (To.Name);
      end case;
   end Enter;

end Units.Meetings;
