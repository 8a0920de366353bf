--  The record of this program has the names of an object in a package's specification, and of its procedures. It has nothing of an
--  object whose only family of entries is empty.

with Gates;

procedure In_Package is

   subtype None is Integer range 1 .. 0;

   protected Wall is
      entry Pass (None);
      procedure Paint;
   private
      Is_Painted : Boolean := False;
   end Wall;

   protected body Wall is
      entry Pass (for I in None) when Is_Painted is
      begin
         null;
      end Pass;

      procedure Paint is
      begin
         Is_Painted := True;
      end Paint;
   end Wall;

begin
   select
      Gates.Gate.Pass;
   or
      delay 0.01;
   end select;

   Wall.Paint;
   Gates.Gate.Open;
   Gates.Gate.Pass;
   Gates.Gate.Set (False);
end In_Package;
