--  Functions before and after the object: they see none of its names.
package Outside is
   X : constant := 5;
   Limit : constant := 40;
   function F return Integer is (X);
   function Helped (N : Integer) return Integer;
   function Capped (N : Integer) return Integer is (if N > Limit then Limit else N);
   protected P is
      function G return Integer;
      function H return Integer;
      function C return Integer;
   private
      X : Integer := 1;
      Limit : Integer := 2;
   end P;
end Outside;
package body Outside is
   protected body P is
      function G return Integer is (F + X);
      function H return Integer is (Helped (X));
      function C return Integer is (Capped (Limit + 100));
   end P;
   function Helped (N : Integer) return Integer is (N + X * 100);
end Outside;
