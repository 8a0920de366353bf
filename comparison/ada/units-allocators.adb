with Ends;

package body Units.Allocators is

   protected body Allocator is

      --  Whether there can ever be as many pieces as the call asks for. If not, notes the call's exception.
      function Can_Be_Had (Item : Call) return Boolean is
      begin
         if Item.Item = 0 or else Item.Item > Value (Size) then
            Ends.Fail (Item, 2);
            return False;
         end if;
         return True;
      end Can_Be_Had;

      entry Request (Item : in out Call) when True is
      begin
         if not Can_Be_Had (Item) then
            raise Failure with "2";
         end if;
         requeue Grant (Positive (Item.Item)) with abort;
      end Request;

      entry Claim (Item : in out Call) when True is
      begin
         if not Can_Be_Had (Item) then
            raise Failure with "2";
         end if;
         requeue Grant (Positive (Item.Item));
      end Claim;

      entry Grant (for I in 1 .. Size) (Item : in out Call) when Free >= Value (I) is
      begin
         Free := Free - Value (I);
         Ends.Complete (Item);
      end Grant;

      procedure Release (Item : in out Value) is
      begin
         if Item = 0 or else Item > Value (Size) - Free then
            raise Failure with "1";
         end if;
         Free := Free + Item;
      end Release;

      function State return Value is (Free);

      function Waiting return Counts is
         Result : Counts (1 .. Size + 2);
      begin
         Result (1) := Request'Count;
         Result (2) := Claim'Count;
         for I in 1 .. Size loop
            Result (I + 2) := Grant (I)'Count;
         end loop;
         return Result;
      end Waiting;

   end Allocator;

   overriding function Entries (Self : Allocator_Unit) return Declarations is
     [(Name => Names.Request, others => <>),
      (Name => Names.Claim, others => <>),
      (Name => Names.Grant, Public => False, Members => Self.Size)];

   overriding procedure Enter
     (Self : in out Allocator_Unit; To : Target; How : Manner; Item : in out Call; Selected : out Boolean) is
   begin
      Selected := True;
      case To.Name is
         when Names.Request =>
            case How.Kind is
               when Simple =>
                  Self.Object.Request (Item);
               when Conditional =>
                  select
                     Self.Object.Request (Item);
                  else
                     Selected := False;
                  end select;
               when Timed =>
                  select
                     Self.Object.Request (Item);
                  or
                     delay until How.Deadline;
                     Selected := False;
                  end select;
            end case;
         when Names.Claim =>
            case How.Kind is
               when Simple =>
                  Self.Object.Claim (Item);
               when Conditional =>
                  select
                     Self.Object.Claim (Item);
                  else
                     Selected := False;
                  end select;
               when Timed =>
                  select
                     Self.Object.Claim (Item);
                  or
                     delay until How.Deadline;
                     Selected := False;
                  end select;
            end case;
         when others =>
            raise No_Such_Entry with Names.Image (To.Name);
      end case;
   end Enter;

   overriding procedure Run (Self : in out Allocator_Unit; Item : in out Value) is
   begin
      Self.Object.Release (Item);
   end Run;

end Units.Allocators;
