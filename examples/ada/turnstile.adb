--  Each coin lets one caller pass. If there is no room for some of the coins, none is taken.
--  SPDX-License-Identifier: MIT

package body Turnstile is

   protected body Gate is

      entry Pass when Paid > 0 is
      begin
         Paid := Paid - 1;
      end Pass;

      procedure Insert_Coins (Number : in Positive) is
      begin
         if Number > Most_Coins - Paid then
            raise Constraint_Error;
         end if;
         Paid := Paid + Number;
      end Insert_Coins;

      function Coins return Natural is (Paid);

   end Gate;

end Turnstile;
