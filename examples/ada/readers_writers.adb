--  Readers and writers: any number of readers, or one writer; a writer that waits holds back new readers.
--  SPDX-License-Identifier: MIT

package Access_Control is

   type State is (Idle, Reading, Writing);

   protected Readers_Writers is
      entry Start_Read;
      entry Start_Write;
      procedure End_Read;
      procedure End_Write;
      function Present return State;
   private
      Readers : Natural := 0;
      Now     : State := Idle;
   end Readers_Writers;

end Access_Control;

package body Access_Control is

   protected body Readers_Writers is

      entry Start_Read when Now /= Writing and then Start_Write'Count = 0 is
      begin
         Readers := Readers + 1;
         Now := Reading;
      end Start_Read;

      entry Start_Write when Now = Idle is
      begin
         Now := Writing;
      end Start_Write;

      procedure End_Read is
      begin
         pragma Assert (Readers > 0);
         Readers := Readers - 1;
         if Readers = 0 then
            Now := Idle;
         end if;
      end End_Read;

      procedure End_Write is
      begin
         pragma Assert (Now = Writing, "no writer");
         Now := Idle;
      end End_Write;

      function Present return State is (Now);

   end Readers_Writers;

end Access_Control;
