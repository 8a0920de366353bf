--  A relay: calls are requeued without abort, and then with abort.
--  SPDX-License-Identifier: MIT

type Value is mod 2 ** 64;

protected type Relay is
   entry First (Item : in out Value);
   procedure Set (Item : in out Value);
   function State return Value;
private
   entry Second (Item : in out Value);
   entry Third (Item : in out Value);
   Level : Value := 0;
end Relay;

protected body Relay is
   entry First (Item : in out Value) when True is
   begin
      requeue Second;
   end First;

   entry Second (Item : in out Value) when Level >= 1 is
   begin
      requeue Third with abort;
   end Second;

   entry Third (Item : in out Value) when Level >= 2 is
   begin
      null;
   end Third;

   procedure Set (Item : in out Value) is
   begin
      Level := Item;
   end Set;

   function State return Value is (Level);
end Relay;
