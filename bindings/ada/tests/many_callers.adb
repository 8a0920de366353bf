--  SPDX-License-Identifier: MIT
--  Four tasks call two objects of one type at once, 10_000 times in all. The
--  record of a run has all of these calls, or the last of them.

procedure Many_Callers is

   protected type Counter is
      entry Add;
   private
      Total : Natural := 0;
   end Counter;

   protected body Counter is
      entry Add when Total < 10_000 is
      begin
         Total := Total + 1;
      end Add;
   end Counter;

   First  : Counter;
   Second : Counter;

   task type Caller;

   task body Caller is
   begin
      for Turn in 1 .. 1_250 loop
         First.Add;
         Second.Add;
      end loop;
   end Caller;

   Callers : array (1 .. 4) of Caller;
   pragma Unreferenced (Callers);

begin
   null;
end Many_Callers;
