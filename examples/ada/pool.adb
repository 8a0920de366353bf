--  A pool of connections: a caller borrows one and gives it back; a broken one is replaced.
--  SPDX-License-Identifier: MIT

package Pools is

   Most : constant := 4;
   type Connection is range 1 .. Most;
   type Condition is (Idle, Lent, Broken);
   type Condition_Array is array (Connection) of Condition;

   Not_Lent : exception;

   protected Pool is
      entry Borrow (C : out Connection);
      entry Drain;
      procedure Give_Back (C : in Connection; Is_Broken : in Boolean);
      procedure Repair (Repaired : out Natural);
      function Number_Of (Which : Condition) return Natural;
   private
      function Has_Idle return Boolean;
      All_Of   : Condition_Array := (1 | 2 => Idle, others => Broken);
      Draining : Boolean := False;
   end Pool;

end Pools;

package body Pools is

   protected body Pool is

      function Has_Idle return Boolean is (for some C of All_Of => C = Idle);

      function Number_Of (Which : Condition) return Natural is
         Sum : Natural := 0;
      begin
         for C in All_Of'Range loop
            if All_Of (C) = Which then
               Sum := Sum + 1;
            end if;
         end loop;
         return Sum;
      end Number_Of;

      entry Borrow (C : out Connection) when Has_Idle and then Drain'Count = 0 is
      begin
         C := Connection'First;
         while All_Of (C) /= Idle loop
            C := Connection'Succ (C);
         end loop;
         All_Of (C) := Lent;
      end Borrow;

      --  Waits until none is lent; meanwhile none can be borrowed.
      entry Drain when Number_Of (Lent) = 0 is
      begin
         null;
      end Drain;

      procedure Give_Back (C : in Connection; Is_Broken : in Boolean) is
      begin
         if All_Of (C) /= Lent then
            raise Not_Lent with Connection'Image (C);
         end if;
         All_Of (C) := (if Is_Broken then Broken else Idle);
      end Give_Back;

      procedure Repair (Repaired : out Natural) is
      begin
         Repaired := 0;
         for C of All_Of loop
            if C = Broken then
               C := Idle;
               Repaired := Repaired + 1;
            end if;
         end loop;
      end Repair;

   end Pool;

end Pools;
