--  SPDX-License-Identifier: MIT

package body Pair is
   protected body Gate is
      entry Pass when Is_Opn is
      begin
         null;
      end Pass;

      procedure Open is
      begin
         Is_Open := True;
      end Open;
   end Gate;
end Pair;
