--  Preconditions and postconditions of all kinds, for the cases text_condition*.
--  SPDX-License-Identifier: MIT

package Around is
   type Floor is (Cellar, Ground, Attic);
   Most : constant Integer := 5;
   type Pair is array (1 .. 2) of Integer;
   Limits : constant Pair := (1, 7);
   Too_Odd : exception;

   function Fits (N : Integer) return Boolean is (N <= Most);
   function Fits_Too (N : Integer) return Boolean is (Fits (N) and then N < Limits (2));
   function Is_Even (N : Integer) return Boolean;

   protected type Store (Least : Natural := 1) is
      entry Put (N : in Integer) with
        Pre => Fits_Too (N) and then N >= Least,
        Post => N = N'Old and then N >= Least,
        Max_Queue_Length => 2;
      entry Half (N : in out Integer) with
        Pre => Is_Even (N),
        Max_Queue_Length => 2;
      entry Lift (Floor) (N : in Integer; By : in Integer := 1) with
        Pre => N + By > 0,
        Max_Queue_Length => 2;
      procedure Take (N : in Integer) with
        Pre => N <= 50,
        Post => Total = Total'Old - N;
      procedure Wrong (N : in Integer) with
        Post => Total = Total'Old + N;
      function Share (N : in Integer) return Integer with
        Pre => N /= 0;
      function Total return Integer;
   private
      entry Later (M : in out Integer) with
        Pre => M > 2;
      pragma Max_Queue_Length (2);
      Sum : Integer := 0;
   end Store;
end Around;

package body Around is
   function Is_Even (N : Integer) return Boolean is
   begin
      if N < 0 then
         raise Too_Odd;
      end if;
      return N mod 2 = 0;
   end Is_Even;

   protected body Store is
      entry Put (N : in Integer) when Sum < 10 is
      begin
         Sum := Sum + N;
      end Put;
      entry Half (N : in out Integer) when True is
      begin
         N := N / 2;
         requeue Later;
      exception
         when others =>
            N := -1;
      end Half;
      entry Lift (for F in Floor) (N : in Integer; By : in Integer := 1) when Sum > 20 is
      begin
         Sum := Sum + N + By + Floor'Pos (F);
      end Lift;
      procedure Take (N : in Integer) is
      begin
         Sum := Sum - N;
      end Take;
      procedure Wrong (N : in Integer) is
      begin
         Sum := N;
      end Wrong;
      function Share (N : in Integer) return Integer is (Sum / N);
      function Total return Integer is (Sum);
      entry Later (M : in out Integer) when True is
      begin
         M := M + 100;
      end Later;
   end Store;
end Around;
