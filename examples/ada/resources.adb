--  An allocator of several kinds of resources: a request that can't be served waits, and is tried again after each release.
--  SPDX-License-Identifier: MIT

package Storage is

   type Resource is (Tape, Disk, Drum);
   type Stock is array (Resource) of Natural;

   Total : constant Stock := (Drum => 1, Tape => 2, Disk => 5);

   Impossible, Too_Many : exception;

   protected Resources is
      entry Request (Kind : in Resource; Amount : in Positive; Left : out Natural);
      procedure Release (Kind : in Resource; Amount : in Positive);
      function Free (Kind : Resource) return Natural;
   private
      entry Again (Resource) (Kind : in Resource; Amount : in Positive; Left : out Natural);
      Available : Stock := Total;
      --  How many of the calls that wait are still to be tried.
      To_Try    : Stock := (others => 0);
   end Resources;

end Storage;

package body Storage is

   protected body Resources is

      entry Request (Kind : in Resource; Amount : in Positive; Left : out Natural) when True is
      begin
         if Amount > Total (Kind) then
            raise Impossible;
         elsif Amount > Available (Kind) then
            requeue Again (Kind) with abort;
         end if;
         Available (Kind) := Available (Kind) - Amount;
         Left := Available (Kind);
      end Request;

      entry Again (for R in Resource) (Kind : in Resource; Amount : in Positive; Left : out Natural) when To_Try (R) > 0 is
      begin
         pragma Assert (R = Kind);
         To_Try (R) := To_Try (R) - 1;
         if Amount > Available (R) then
            requeue Again (R) with abort;
         end if;
         Available (R) := Available (R) - Amount;
         Left := Available (R);
      end Again;

      procedure Release (Kind : in Resource; Amount : in Positive) is
      begin
         if Available (Kind) + Amount > Total (Kind) then
            raise Too_Many with "7";
         end if;
         Available (Kind) := Available (Kind) + Amount;
         To_Try (Kind) := Again (Kind)'Count;
      end Release;

      function Free (Kind : Resource) return Natural is (Available (Kind));

   end Resources;

end Storage;
