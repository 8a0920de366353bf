--  A latch: it opens for good when all have arrived. Arrivals that come too late are counted.
--  SPDX-License-Identifier: MIT

protected type Latch (Arrivals : Natural) is
   entry Wait;
   procedure Arrive (Number : in Positive := 1);
   function Left return Natural;
   function Late_Arrivals return Natural;
private
   Missing : Natural := Arrivals;
   Late    : Natural := 0;
end Latch;

protected body Latch is

   entry Wait when Missing = 0 is
   begin
      null;
   end Wait;

   procedure Arrive (Number : in Positive := 1) is
   begin
      Missing := Missing - Number;
   exception
      when Constraint_Error =>
         Late := Late + Number - Missing;
         Missing := 0;
   end Arrive;

   function Left return Natural is (Missing);

   function Late_Arrivals return Natural is (Late);

end Latch;
