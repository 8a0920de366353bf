--  Readers and a writer: the writer waits until no reader is there, and nothing holds readers back.
--  SPDX-License-Identifier: MIT

protected Store is
   entry Start_Read;
   entry Start_Write;
   procedure End_Read;
   procedure End_Write;
   function Invariant return Boolean;
private
   Readers : Natural := 0;
   Writing : Boolean := False;
end Store;

protected body Store is

   entry Start_Read when not Writing is
   begin
      Readers := Readers + 1;
   end Start_Read;

   entry Start_Write when not Writing and Readers = 0 is
   begin
      Writing := True;
   end Start_Write;

   procedure End_Read is
   begin
      Readers := Readers - 1;
   end End_Read;

   procedure End_Write is
   begin
      pragma Assert (Writing);
      Writing := False;
   end End_Write;

   function Invariant return Boolean is (not Writing or Readers = 0);

end Store;
