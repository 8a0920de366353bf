--  Under Ceiling_Locking alone tasks have no real-time priorities, not even root's: then the runtime takes no ceiling of the system.
pragma Locking_Policy (Ceiling_Locking);
with Ada.Text_IO; use Ada.Text_IO;
procedure Ceiling_Alone is
   protected Counter is
      procedure Increment;
      entry Two;
   private
      Number : Natural := 0;
   end Counter;
   protected body Counter is
      procedure Increment is
      begin
         Number := Number + 1;
      end Increment;
      entry Two when Number = 2 is
      begin
         null;
      end Two;
   end Counter;

   task Other;
   task body Other is
   begin
      Counter.Increment;
   exception
      when Program_Error =>
         Put_Line ("the task is refused");
   end Other;
begin
   Counter.Increment;
   Counter.Two;
   Put_Line ("two");
exception
   when Program_Error =>
      Put_Line ("refused");
end Ceiling_Alone;
