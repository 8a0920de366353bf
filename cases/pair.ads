--  A package in two files, with a fault in each.
--  SPDX-License-Identifier: MIT

package Pair is
   protected Gate is
      entry Pass;
      procedure Open;
   private
      Is_Open : Boolen := False;
   end Gate;
end Pair;
