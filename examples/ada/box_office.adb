--  A box office. A call that asks for no seats, or for more than a buyer gets, fails at once. Others wait until there are enough
--  for any buyer: at most two.
--  SPDX-License-Identifier: MIT

package Theatre is

   Most : constant Positive := 4;

   subtype Seats is Natural range 0 .. 50;

   function Fits (Count : Integer) return Boolean is (Count in 1 .. Most);

   protected type Box_Office (Capacity : Seats := 8) is
      entry Buy (Count : in Integer; Left : out Seats) with
        Pre              => Fits (Count),
        Post             => Left <= Capacity - Count,
        Max_Queue_Length => 2;
      procedure Give_Back (Count : in Positive) with
        Pre  => Fits (Count),
        Post => Sold = Sold'Old - Count;
      function Price (Count : Integer) return Natural with
        Pre => Fits (Count);
      function Sold return Seats;
   private
      Free : Seats := Capacity;
   end Box_Office;

end Theatre;

package body Theatre is

   protected body Box_Office is

      entry Buy (Count : in Integer; Left : out Seats) when Free >= Most is
      begin
         Free := Free - Count;
         Left := Free;
      end Buy;

      procedure Give_Back (Count : in Positive) is
      begin
         Free := Free + Count;
      end Give_Back;

      --  The last seats are cheaper.
      function Price (Count : Integer) return Natural is (Count * (if Free > Most then 20 else 15));

      function Sold return Seats is (Capacity - Free);

   end Box_Office;

end Theatre;
