with Own_Texts;

package body Units is

   function Made (Name : String; Size : Positive) return not null Unit_Access is (Own_Texts.Made (Positive'Value (Name)));

end Units;
