with Ends;

package body Units.Pulses is

   protected body Pulse is

      entry Wait (Item : in out Call) when Occurred is
      begin
         Ends.Complete (Item);
      end Wait;

      entry Signal (Item : in out Call) when True is
      begin
         if Wait'Count > 0 then
            Occurred := True;
            requeue Reset;
         end if;
         Ends.Complete (Item);
      end Signal;

      entry Reset (Item : in out Call) when Wait'Count = 0 is
      begin
         Occurred := False;
         Ends.Complete (Item);
      end Reset;

      function State return Value is (if Occurred then 1 else 0);

      function Waiting return Counts is [Wait'Count, Signal'Count, Reset'Count];

   end Pulse;

   overriding function Entries (Self : Pulse_Unit) return Declarations is
     [(Name => Names.Wait, others => <>),
      (Name => Names.Signal, others => <>),
      (Name => Names.Reset, Public => False, others => <>)];

   overriding procedure Enter
     (Self : in out Pulse_Unit; To : Target; How : Manner; Item : in out Call; Selected : out Boolean) is
   begin
      Selected := True;
      case To.Name is
         when Names.Wait =>
            case How.Kind is
               when Simple =>
                  Self.Object.Wait (Item);
               when Conditional =>
                  select
                     Self.Object.Wait (Item);
                  else
                     Selected := False;
                  end select;
               when Timed =>
                  select
                     Self.Object.Wait (Item);
                  or
                     delay until How.Deadline;
                     Selected := False;
                  end select;
            end case;
         when Names.Signal =>
            case How.Kind is
               when Simple =>
                  Self.Object.Signal (Item);
               when Conditional =>
                  select
                     Self.Object.Signal (Item);
                  else
                     Selected := False;
                  end select;
               when Timed =>
                  select
                     Self.Object.Signal (Item);
                  or
                     delay until How.Deadline;
                     Selected := False;
                  end select;
            end case;
         when others =>
            raise No_Such_Entry with Names.Image (To.Name);
      end case;
   end Enter;

end Units.Pulses;
