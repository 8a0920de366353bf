--  The dining philosophers: each takes the forks on both sides at once, so none of them waits for ever with one.
--  SPDX-License-Identifier: MIT

package Table is

   Number : constant := 5;
   type Seat is mod Number;
   type Fork_Array is array (Seat) of Boolean;

   protected Forks is
      entry Take (Seat);
      procedure Put_Down (S : in Seat);
      function Is_Eating (S : Seat) return Boolean;
      function Free return Natural;
   private
      Taken  : Fork_Array := (others => False);
      Eating : Fork_Array := (others => False);
   end Forks;

end Table;

package body Table is

   protected body Forks is

      entry Take (for S in Seat) when not (Taken (S) or Taken (S + 1)) is
      begin
         Taken (S) := True;
         Taken (S + 1) := True;
         Eating (S) := True;
      end Take;

      procedure Put_Down (S : in Seat) is
      begin
         if not Eating (S) then
            return;
         end if;
         Eating (S) := False;
         Taken (S) := False;
         Taken (S + 1) := False;
      end Put_Down;

      function Is_Eating (S : Seat) return Boolean is (Eating (S));

      function Free return Natural is
         Sum : Natural := 0;
      begin
         for S in Seat loop
            Sum := Sum + (if Taken (S) then 0 else 1);
         end loop;
         return Sum;
      end Free;

   end Forks;

end Table;
