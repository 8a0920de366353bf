with Ends;

package body Units.Broadcasts is

   protected body Broadcast is

      entry Receive (Item : in out Call) when Arrived is
      begin
         if Receive'Count = 0 then
            Arrived := False;
         end if;
         Item.Item := Message;
         Ends.Complete (Item);
      end Receive;

      procedure Send (Item : in out Value) is
      begin
         Message := Item;
         if Receive'Count > 0 then
            Arrived := True;
         end if;
      end Send;

      function State return Value is (Message);

      function Waiting return Counts is [Receive'Count];

   end Broadcast;

   overriding function Entries (Self : Broadcast_Unit) return Declarations is
     [(Name => Names.Receive, others => <>)];

   overriding procedure Enter
     (Self : in out Broadcast_Unit; To : Target; How : Manner; Item : in out Call; Selected : out Boolean) is
   begin
      Selected := True;
      case To.Name is
         when Names.Receive =>
            case How.Kind is
               when Simple =>
                  Self.Object.Receive (Item);
               when Conditional =>
                  select
                     Self.Object.Receive (Item);
                  else
                     Selected := False;
                  end select;
               when Timed =>
                  select
                     Self.Object.Receive (Item);
                  or
                     delay until How.Deadline;
                     Selected := False;
                  end select;
            end case;
         when others =>
            raise No_Such_Entry with Names.Image (To.Name);
      end case;
   end Enter;

   overriding procedure Run (Self : in out Broadcast_Unit; Item : in out Value) is
   begin
      Self.Object.Send (Item);
   end Run;

end Units.Broadcasts;
