package body Speed_Objects is

   protected body Trap is

      entry Wait (for I in 1 .. 3) (Item : in out Value) when Level >= Value (I) is
      begin
         null;
      end Wait;

      procedure Set (Item : in out Value) is
      begin
         Level := Item;
      end Set;

      function State return Value is (Level);

   end Trap;

   protected body Buffer is

      entry Put (Item : in out Value) when Length < Capacity is
      begin
         Values ((First + Length - 1) mod Capacity + 1) := Item;
         Length := Length + 1;
      end Put;

      entry Get (Item : in out Value) when Length > 0 is
      begin
         Item := Values (First);
         First := First mod Capacity + 1;
         Length := Length - 1;
      end Get;

   end Buffer;

   protected body Allocator is

      entry Request (Item : in out Value) when True is
      begin
         requeue Grant (Positive (Item)) with abort;
      end Request;

      entry Grant (for I in 1 .. Size) (Item : in out Value) when Free >= Value (I) is
      begin
         Free := Free - Value (I);
      end Grant;

      procedure Release (Item : in out Value) is
      begin
         if Item > Value (Size) - Free then
            raise Constraint_Error with "more is given back than was taken";
         end if;
         Free := Free + Item;
      end Release;

   end Allocator;

   protected body Meeting is

      entry Wait (Item : in out Value) when Leaving or else Wait'Count = Size is
      begin
         Leaving := Wait'Count > 0;
      end Wait;

   end Meeting;

end Speed_Objects;
