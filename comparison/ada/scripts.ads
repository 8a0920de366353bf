--  The lines of a script that are commands, and their words.
with Ada.Containers.Indefinite_Vectors;

package Scripts is

   package Line_Vectors is new Ada.Containers.Indefinite_Vectors (Positive, String);

   --  The lines of standard input, without those that are skipped.
   function Read return Line_Vectors.Vector;

   --  The word at that place of the line, or no text if the line has fewer words.
   function Word (Line : String; Place : Positive) return String;

end Scripts;
