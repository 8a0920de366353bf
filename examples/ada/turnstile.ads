--  A turnstile, as a package in two files: this declaration, and its body in turnstile.adb. pobj reads both.
--  SPDX-License-Identifier: MIT

package Turnstile is

   Most_Coins : constant := 3;

   protected type Gate is
      entry Pass;
      procedure Insert_Coins (Number : in Positive);
      function Coins return Natural;
   private
      Paid : Natural := 0;
   end Gate;

end Turnstile;
