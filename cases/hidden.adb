--  Names that other declarations hide, defaults, and ranges of indices.
package Hidden is
   package Wide is
      Size : constant := 10;
   end Wide;
   package Narrow is
      Size : constant := 99;
   end Narrow;
   Start : constant := 7;
   type Level is range 0 .. 100;
   subtype Low is Level range 0 .. 20;
   type Pair is record
      Left, Right : Integer := Start;
   end record;
   type Table is array (1 .. 2, 1 .. 5) of Integer;
   protected type Tank is
      procedure Swap (Level : in Integer; Old : out Integer);
      procedure Sizes (Both : out Integer);
      procedure Fresh (Start : in Integer; Sum : out Integer);
      procedure Add (By : in Integer := Start; Level : out Integer);
      procedure Twice (Start : in Integer; Level : out Integer);
      procedure Fill (Sum : out Integer);
      procedure Turns (First : in Integer; Count : out Integer);
      entry Above (Level : in Integer; Found : out Integer);
   private
      Level : Integer := 3;
      Least : Low := 5;
      Cells : Table := (others => (others => 0));
   end Tank;
end Hidden;

package body Hidden is
   protected body Tank is
      procedure Swap (Level : in Integer; Old : out Integer) is
      begin
         Old := Tank.Level;
         Tank.Level := Level;
      end Swap;

      procedure Sizes (Both : out Integer) is
      begin
         Both := Wide.Size * 1000 + Narrow.Size;
      end Sizes;

      procedure Fresh (Start : in Integer; Sum : out Integer) is
         New_Pair : Pair;
      begin
         Sum := New_Pair.Left * 1000 + New_Pair.Right + Start;
      end Fresh;

      procedure Add (By : in Integer := Start; Level : out Integer) is
      begin
         Tank.Level := Tank.Level + By;
         Level := Tank.Level;
      end Add;

      procedure Twice (Start : in Integer; Level : out Integer) is
      begin
         Add (Level => Level);
         Level := Level + Start;
      end Twice;

      procedure Fill (Sum : out Integer) is
      begin
         Sum := Cells'Length (2) * 1000;
         for Row in Cells'Range (1) loop
            for Column in Cells'Range (2) loop
               Cells (Row, Column) := Row * Column;
               Sum := Sum + Cells (Row, Column);
            end loop;
         end loop;
      end Fill;

      procedure Turns (First : in Integer; Count : out Integer) is
      begin
         Count := 0;
         for Turn in Positive range First .. First + 2 loop
            Count := Count + Turn;
         end loop;
      end Turns;

      entry Above (Level : in Integer; Found : out Integer) when Tank.Level > 40 is
      begin
         Found := Tank.Level - Level;
      end Above;
   end Tank;
end Hidden;
