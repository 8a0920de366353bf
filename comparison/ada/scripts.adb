with Ada.Text_IO;

package body Scripts is

   function Read return Line_Vectors.Vector is
      Result : Line_Vectors.Vector;
   begin
      while not Ada.Text_IO.End_Of_File loop
         declare
            Line  : constant String := Ada.Text_IO.Get_Line;
            First : constant String := Word (Line, 1);
         begin
            if First /= "" and then First (First'First) /= '#' then
               Result.Append (Line);
            end if;
         end;
      end loop;
      return Result;
   end Read;

   function Word (Line : String; Place : Positive) return String is
      From : Positive := Line'First;
      To   : Natural;
   begin
      for Here in 1 .. Place loop
         while From <= Line'Last and then Line (From) = ' ' loop
            From := From + 1;
         end loop;
         To := From - 1;
         while To < Line'Last and then Line (To + 1) /= ' ' loop
            To := To + 1;
         end loop;
         exit when Here = Place;
         From := To + 1;
      end loop;
      return Line (From .. To);
   end Word;

end Scripts;
