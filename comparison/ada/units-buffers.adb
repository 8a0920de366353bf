with Ends;

package body Units.Buffers is

   protected body Buffer is

      entry Put (Item : in out Call) when Length < Capacity is
      begin
         Values ((First + Length - 1) mod Capacity + 1) := Item.Item;
         Length := Length + 1;
         Ends.Complete (Item);
      end Put;

      entry Get (Item : in out Call) when Length > 0 is
      begin
         Item.Item := Values (First);
         First := First mod Capacity + 1;
         Length := Length - 1;
         Ends.Complete (Item);
      end Get;

      function State return Value is (Value (Length));

      function Waiting return Counts is [Put'Count, Get'Count];

   end Buffer;

   overriding function Entries (Self : Buffer_Unit) return Declarations is
     [(Name => Names.Put, others => <>), (Name => Names.Get, others => <>)];

   overriding procedure Enter
     (Self : in out Buffer_Unit; To : Target; How : Manner; Item : in out Call; Selected : out Boolean) is
   begin
      Selected := True;
      case To.Name is
         when Names.Put =>
            case How.Kind is
               when Simple =>
                  Self.Object.Put (Item);
               when Conditional =>
                  select
                     Self.Object.Put (Item);
                  else
                     Selected := False;
                  end select;
               when Timed =>
                  select
                     Self.Object.Put (Item);
                  or
                     delay until How.Deadline;
                     Selected := False;
                  end select;
            end case;
         when Names.Get =>
            case How.Kind is
               when Simple =>
                  Self.Object.Get (Item);
               when Conditional =>
                  select
                     Self.Object.Get (Item);
                  else
                     Selected := False;
                  end select;
               when Timed =>
                  select
                     Self.Object.Get (Item);
                  or
                     delay until How.Deadline;
                     Selected := False;
                  end select;
            end case;
         when others =>
            raise No_Such_Entry with Names.Image (To.Name);
      end case;
   end Enter;

end Units.Buffers;
