--  A resource allocator: a request waits until that many pieces are free; Claim can't be cancelled once it waits.
--  SPDX-License-Identifier: MIT

type Value is mod 2 ** 64;

Refused : exception; -- its message is a number

protected type Allocator (Size : Positive) is
   entry Request (Item : in out Value);
   entry Claim (Item : in out Value);
   procedure Release (Item : in out Value);
   function State return Value;
private
   entry Grant (1 .. Size) (Item : in out Value);
   Free : Value := Value (Size);
end Allocator;

protected body Allocator is
   entry Request (Item : in out Value) when True is
   begin
      if Item = 0 or else Item > Value (Size) then
         raise Refused with "2";
      end if;
      requeue Grant (Positive (Item)) with abort;
   end Request;

   entry Claim (Item : in out Value) when True is
   begin
      if Item = 0 or else Item > Value (Size) then
         raise Refused with "2";
      end if;
      requeue Grant (Positive (Item));
   end Claim;

   entry Grant (for I in 1 .. Size) (Item : in out Value) when Free >= Value (I) is
   begin
      Free := Free - Value (I);
   end Grant;

   procedure Release (Item : in out Value) is
   begin
      if Item = 0 or else Item > Value (Size) - Free then
         raise Refused with "1";
      end if;
      Free := Free + Item;
   end Release;

   function State return Value is (Free);
end Allocator;
