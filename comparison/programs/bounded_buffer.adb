--  A bounded buffer between four producers and three consumers. Each value says which producer put it, and its number there.
--
--  9.5.3: a caller waits as long as its barrier is closed, and queues are serviced at the end of each protected action, so
--  every call is selected at some time. D.4: of one queue the call that came first goes first. So each value is taken once,
--  and a consumer gets the values of one producer in the order in which they were put.
--
--  Prints how many were put and taken, how many were taken once, how many a consumer got out of order, and what is left.
with Ada.Text_IO; use Ada.Text_IO;

procedure Bounded_Buffer is

   Each : constant := 6_000;

   type Producer_Number is range 1 .. 4;
   type Consumer_Number is range 1 .. 3;

   type Item is record
      Producer : Producer_Number := 1;
      Number   : Natural         := 0;
   end record;

   type Item_Array is array (0 .. 4) of Item;

   protected Buffer is
      entry Put (The_Item : Item);
      entry Get (The_Item : out Item);
      function Left return Natural;
      function Puts return Natural;
   private
      Items  : Item_Array;
      First  : Natural := 0;
      Length : Natural := 0;
      Number : Natural := 0;
   end Buffer;

   protected body Buffer is

      entry Put (The_Item : Item) when Length < Items'Length is
      begin
         Items ((First + Length) mod Items'Length) := The_Item;
         Length := Length + 1;
         Number := Number + 1;
      end Put;

      entry Get (The_Item : out Item) when Length > 0 is
      begin
         The_Item := Items (First);
         First := (First + 1) mod Items'Length;
         Length := Length - 1;
      end Get;

      function Left return Natural is (Length);

      function Puts return Natural is (Number);

   end Buffer;

   --  How often each consumer got each value, and how many values it got out of order.
   type Times is array (Producer_Number, 1 .. Each) of Natural;

   Got          : array (Consumer_Number) of Times   := [others => [others => [others => 0]]];
   Out_Of_Order : array (Consumer_Number) of Natural := [others => 0];

   task type Producer (Number : Producer_Number);

   task body Producer is
   begin
      for Turn in 1 .. Each loop
         Buffer.Put ((Number, Turn));
      end loop;
   end Producer;

   task type Consumer (Number : Consumer_Number);

   task body Consumer is
      Latest : array (Producer_Number) of Natural := [others => 0];
      Gotten : Item;
   begin
      for Turn in 1 .. Each * 4 / 3 loop
         Buffer.Get (Gotten);
         Got (Number) (Gotten.Producer, Gotten.Number) := @ + 1;
         if Gotten.Number <= Latest (Gotten.Producer) then
            Out_Of_Order (Number) := @ + 1;
         end if;
         Latest (Gotten.Producer) := Gotten.Number;
      end loop;
   end Consumer;

   All_Got  : Natural := 0;
   Got_Once : Natural := 0;

begin
   declare
      Producer_1 : Producer (1);
      Producer_2 : Producer (2);
      Producer_3 : Producer (3);
      Producer_4 : Producer (4);
      Consumer_1 : Consumer (1);
      Consumer_2 : Consumer (2);
      Consumer_3 : Consumer (3);
   begin
      null;
   end;
   for Producer in Producer_Number loop
      for Number in 1 .. Each loop
         declare
            Total : Natural := 0;
         begin
            for Consumer in Consumer_Number loop
               Total := Total + Got (Consumer) (Producer, Number);
            end loop;
            All_Got := All_Got + Total;
            Got_Once := Got_Once + Boolean'Pos (Total = 1);
         end;
      end loop;
   end loop;
   Put_Line ("put" & Buffer.Puts'Image);
   Put_Line ("got" & All_Got'Image);
   Put_Line ("got once" & Got_Once'Image);
   Put_Line ("out of order" & Integer'Image (Out_Of_Order (1) + Out_Of_Order (2) + Out_Of_Order (3)));
   Put_Line ("left" & Buffer.Left'Image);
end Bounded_Buffer;
