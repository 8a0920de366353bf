--  A signal for all that wait: its body closes the entry after the first of them, and forgets that others still wait.
--  SPDX-License-Identifier: MIT

protected Start is
   entry Wait;
   procedure Fire;
private
   Fired : Boolean := False;
end Start;

protected body Start is

   entry Wait when Fired is
   begin
      Fired := False;  --  right would be: Fired := Wait'Count > 0;
   end Wait;

   procedure Fire is
   begin
      Fired := True;
   end Fire;

end Start;
