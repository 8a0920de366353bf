--  A pool of pieces: Request waits until there are as many as it wants.
--  SPDX-License-Identifier: MIT

protected type Pool (Size : Positive) is
   entry Request (Wanted : in Positive);
   procedure Release (Given : in Positive);
   function Invariant return Boolean;
private
   entry Retry (Wanted : in Positive);
   Free  : Natural := Size;
   Tries : Natural := 0;
end Pool;

protected body Pool is

   entry Request (Wanted : in Positive) when Free > 0 is
   begin
      if Wanted <= Free then
         Free := Free - Wanted;
      else
         requeue Retry;
      end if;
   end Request;

   entry Retry (Wanted : in Positive) when Tries > 0 is
   begin
      Tries := Tries - 1;
      if Wanted <= Free then
         Free := Free - Wanted;
      else
         requeue Retry;
      end if;
   end Retry;

   procedure Release (Given : in Positive) is
   begin
      Free := Free + Given;
      Tries := Retry'Count;
   end Release;

   function Invariant return Boolean is (Free <= Size);

end Pool;
