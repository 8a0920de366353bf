--  A fork, which one philosopher at a time holds.
--  SPDX-License-Identifier: MIT
protected type Fork is
   entry Take;
   procedure Put_Down;
private
   Taken : Boolean := False;
end Fork;

protected body Fork is

   entry Take when not Taken is
   begin
      Taken := True;
   end Take;

   procedure Put_Down is
   begin
      Taken := False;
   end Put_Down;

end Fork;
