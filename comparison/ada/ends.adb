package body Ends is

   package Place_Vectors is new Ada.Containers.Vectors (Positive, Positive);

   --  The ends in their order, and the numbers of the calls whose ends were told.
   protected Book is
      procedure Note (Ended : Call_End);
      procedure Tell (Ended : Call_End);
      procedure Tell_For_Aborted (Number : Positive; Otherwise : Kind_Of_End);
      function Is_Told (Number : Positive) return Boolean;
      function Told return Natural;
      function Known return Natural;
      function Known_End (Place : Positive) return Call_End;
   private
      Order   : End_Vectors.Vector;
      Numbers : Place_Vectors.Vector;
   end Book;

   protected body Book is

      --  The place of the call's end in the order, or 0 if none is noted.
      function Place_Of (Number : Positive) return Natural is
      begin
         for Place in 1 .. Natural (Order.Length) loop
            if Order (Place).Number = Number then
               return Place;
            end if;
         end loop;
         return 0;
      end Place_Of;

      procedure Note (Ended : Call_End) is
      begin
         Order.Append (Ended);
      end Note;

      procedure Tell (Ended : Call_End) is
         Place : constant Natural := Place_Of (Ended.Number);
      begin
         if Place = 0 then
            Order.Append (Ended);
         else
            Order.Replace_Element (Place, Ended);
         end if;
         Numbers.Append (Ended.Number);
      end Tell;

      procedure Tell_For_Aborted (Number : Positive; Otherwise : Kind_Of_End) is
      begin
         if Place_Of (Number) = 0 then
            Order.Append (Call_End'(Number, Otherwise, 0));
         end if;
         Numbers.Append (Number);
      end Tell_For_Aborted;

      function Is_Told (Number : Positive) return Boolean is (Numbers.Contains (Number));

      function Told return Natural is (Natural (Numbers.Length));

      function Known return Natural is (Natural (Order.Length));

      function Known_End (Place : Positive) return Call_End is (Order (Place));

   end Book;

   procedure Complete (Ended : Call) is
   begin
      Book.Note ((Ended.Number, Completed, Ended.Item));
   end Complete;

   procedure Fail (Ended : Call; Code : Value) is
   begin
      Book.Note ((Ended.Number, Raised, Code));
   end Fail;

   procedure Tell (Ended : Call_End) is
   begin
      Book.Tell (Ended);
   end Tell;

   procedure Tell_For_Aborted (Number : Positive; Otherwise : Kind_Of_End) is
   begin
      Book.Tell_For_Aborted (Number, Otherwise);
   end Tell_For_Aborted;

   function Is_Told (Number : Positive) return Boolean is (Book.Is_Told (Number));

   function Told return Natural is (Book.Told);

   function Known return Natural is (Book.Known);

   function Known_End (Place : Positive) return Call_End is (Book.Known_End (Place));

end Ends;
