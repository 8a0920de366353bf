--  A rate limiter: a bucket of tokens that fills with time. Callers say what time it is, in milliseconds.
--  SPDX-License-Identifier: MIT

package Limits is

   type Milliseconds is range 0 .. 2 ** 40;

   --  The bucket gets a token each Period, and has at most Burst.
   protected type Rate_Limiter (Burst : Positive; Period : Positive) is
      entry Acquire;
      procedure Try_Acquire (Now : in Milliseconds; Granted : out Boolean);
      procedure Advance (Now : in Milliseconds);
      function Tokens return Natural;
      function Time_Of_Next (Count : Positive) return Milliseconds;
   private
      procedure Fill (Now : in Milliseconds);
      Full   : Natural := Burst;
      Filled : Milliseconds := 0;
   end Rate_Limiter;

end Limits;

package body Limits is

   protected body Rate_Limiter is

      procedure Fill (Now : in Milliseconds) is
         Length : constant Milliseconds := Milliseconds (Period);
         Passed : Milliseconds;
      begin
         if Now <= Filled then
            return;
         end if;
         Passed := (Now - Filled) / Length;
         if Passed >= Milliseconds (Burst - Full) then
            Full := Burst;
         else
            Full := Full + Natural (Passed);
         end if;
         Filled := Now - (Now - Filled) rem Length;
      end Fill;

      entry Acquire when Full > 0 is
      begin
         Full := Full - 1;
      end Acquire;

      procedure Try_Acquire (Now : in Milliseconds; Granted : out Boolean) is
      begin
         Fill (Now);
         Granted := Full > Acquire'Count;
         if Granted then
            Full := Full - 1;
         end if;
      end Try_Acquire;

      procedure Advance (Now : in Milliseconds) is
      begin
         Fill (Now);
      end Advance;

      function Tokens return Natural is (Full);

      --  When there are that many tokens, if none is taken.
      function Time_Of_Next (Count : Positive) return Milliseconds is
        (if Count <= Full then Filled
         elsif Count <= Burst then Filled + Milliseconds (Count - Full) * Milliseconds (Period)
         else raise Constraint_Error);

   end Rate_Limiter;

end Limits;
