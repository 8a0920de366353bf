--  Two entries that send a call to each other for ever.
--  SPDX-License-Identifier: MIT

protected Post is
   entry Left;
   entry Right;
   procedure Close;
private
   Is_Open : Boolean := True;
end Post;

protected body Post is

   entry Left when Is_Open is
   begin
      requeue Right;
   end Left;

   entry Right when True is
   begin
      if Is_Open then
         requeue Left;
      end if;
   end Right;

   procedure Close is
   begin
      Is_Open := False;
   end Close;

end Post;
