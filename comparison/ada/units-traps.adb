with Ends;

package body Units.Traps is

   protected body Trap is

      entry Wait (for I in 1 .. 3) (Item : in out Call)
        when (if Level = 13 then raise Failure with "13" else Level >= Value (I)) is
      begin
         Ends.Complete (Item);
      end Wait;

      entry Fail (Item : in out Call) when True is
         Code : constant Value := Value'Min (Item.Item, 4_294_967_295);
      begin
         Level := Item.Item;
         Ends.Fail (Item, Code);
         raise Failure with Value'Image (Code);
      end Fail;

      entry Exact (Item : in out Call) when Level > 0 and then Exact'Count = Level is
      begin
         Ends.Complete (Item);
      end Exact;

      procedure Set (Item : in out Value) is
      begin
         Level := Item;
      end Set;

      function State return Value is (Level);

      function Waiting return Counts is
        [Wait (1)'Count, Wait (2)'Count, Wait (3)'Count, Fail'Count, Exact'Count];

   end Trap;

   overriding function Entries (Self : Trap_Unit) return Declarations is
     [(Name => Names.Wait, Public => True, Members => 3),
      (Name => Names.Fail, others => <>),
      (Name => Names.Exact, others => <>)];

   overriding procedure Enter
     (Self : in out Trap_Unit; To : Target; How : Manner; Item : in out Call; Selected : out Boolean) is
   begin
      Selected := True;
      case To.Name is
         when Names.Wait =>
            case How.Kind is
               when Simple =>
                  Self.Object.Wait (To.Index) (Item);
               when Conditional =>
                  select
                     Self.Object.Wait (To.Index) (Item);
                  else
                     Selected := False;
                  end select;
               when Timed =>
                  select
                     Self.Object.Wait (To.Index) (Item);
                  or
                     delay until How.Deadline;
                     Selected := False;
                  end select;
            end case;
         when Names.Fail =>
            case How.Kind is
               when Simple =>
                  Self.Object.Fail (Item);
               when Conditional =>
                  select
                     Self.Object.Fail (Item);
                  else
                     Selected := False;
                  end select;
               when Timed =>
                  select
                     Self.Object.Fail (Item);
                  or
                     delay until How.Deadline;
                     Selected := False;
                  end select;
            end case;
         when Names.Exact =>
            case How.Kind is
               when Simple =>
                  Self.Object.Exact (Item);
               when Conditional =>
                  select
                     Self.Object.Exact (Item);
                  else
                     Selected := False;
                  end select;
               when Timed =>
                  select
                     Self.Object.Exact (Item);
                  or
                     delay until How.Deadline;
                     Selected := False;
                  end select;
            end case;
         when others =>
            raise No_Such_Entry with Names.Image (To.Name);
      end case;
   end Enter;

   overriding procedure Run (Self : in out Trap_Unit; Item : in out Value) is
   begin
      Self.Object.Set (Item);
   end Run;

end Units.Traps;
