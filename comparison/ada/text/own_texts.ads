--  The units of one or several Ada texts, by the texts' numbers. text_driver.py writes the body, and a package for each text.
with Pobj_Texts;

package Own_Texts is

   --  Makes a new object of the unit, with the discriminants of the script's next line.
   function Made (Text : Positive) return not null Pobj_Texts.Units.Unit_Access;

   --  Writes what texts.py has to know: the subtypes of parameters, and then the members of each entry.
   procedure Describe (Text : Positive);

end Own_Texts;
