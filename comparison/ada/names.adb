with Ada.Characters.Handling; use Ada.Characters.Handling;

package body Names is

   function Image (Name : Entry_Name) return String is
      Capitals : constant String := Entry_Name'Image (Name);
   begin
      return Capitals (Capitals'First) & To_Lower (Capitals (Capitals'First + 1 .. Capitals'Last));
   end Image;

end Names;
