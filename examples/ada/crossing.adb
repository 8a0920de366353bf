--  A crossing of two roads with lights: cars of a road pass while its light is green.
--  SPDX-License-Identifier: MIT

package Crossings is

   type Colour is (Red, Amber, Green);
   type Road is (North, East);

   type Light is record
      Now    : Colour := Red;
      Passed : Natural := 0;
   end record;
   type Light_Array is array (Road) of Light;

   Unsafe : exception;

   protected Crossing is
      entry Pass (Road) (Number : out Positive);
      procedure Turn (R : in Road; To : in Colour; Was : out Colour);
      procedure Step (R : in Road; Now : out Colour);
      function Total return Natural;
      function Is_Safe return Boolean;
   private
      function Is_Open (R : Road) return Boolean;
      procedure Count_Car (R : in Road; Number : out Positive);
      Lights : Light_Array;
   end Crossing;

end Crossings;

package body Crossings is

   function Other (R : Road) return Road is (case R is when North => East, when East => North);

   protected body Crossing is

      function Is_Open (R : Road) return Boolean is (Lights (R).Now = Green);

      function Is_Safe return Boolean is (not (for all R in Road => Lights (R).Now in Amber | Green));

      procedure Count_Car (R : in Road; Number : out Positive) is
      begin
         Lights (R).Passed := Lights (R).Passed + 1;
         Number := Lights (R).Passed;
      end Count_Car;

      entry Pass (for R in Road) (Number : out Positive) when Is_Open (R) is
      begin
         Count_Car (R, Number => Number);
      end Pass;

      procedure Turn (R : in Road; To : in Colour; Was : out Colour) is
      begin
         Was := Lights (R).Now;
         Lights (R).Now := To;
         if not Is_Safe then
            Lights (R).Now := Was;
            raise Unsafe;
         end if;
      end Turn;

      --  The next colour. If the other road isn't red, this one stays red.
      procedure Step (R : in Road; Now : out Colour) is
         Was : Colour;
      begin
         case Lights (R).Now is
            when Red =>
               Turn (R, Green, Was);
            when Green =>
               Turn (R, Amber, Was);
            when others =>
               Turn (R, Colour'First, Was);
         end case;
         Now := Lights (R).Now;
      exception
         when Unsafe =>
            pragma Assert (Lights (Other (R)).Now /= Red);
            Now := Red;
      end Step;

      function Total return Natural is
         Sum : Natural := 0;
      begin
         for R in Road loop
            Sum := Sum + Lights (R).Passed;
         end loop;
         return Sum;
      end Total;

   end Crossing;

end Crossings;
