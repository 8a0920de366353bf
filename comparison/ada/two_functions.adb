--  Two tasks call the same function of one object. Each stays in it until the other is there too, or for a second. They meet
--  unless functions of one object exclude each other.
with Ada.Real_Time; use Ada.Real_Time;
with Ada.Text_IO;   use Ada.Text_IO;

procedure Two_Functions is

   type Flags is array (1 .. 2) of Boolean with Atomic_Components;

   Inside, Met : Flags := [False, False];

   protected Object is
      function Meets (Who : Positive) return Boolean;
      entry Never;
   end Object;

   protected body Object is

      function Meets (Who : Positive) return Boolean is
         Limit : constant Time := Clock + Seconds (1);
      begin
         Inside (Who) := True;
         while Clock < Limit loop
            if Inside (3 - Who) then
               return True;
            end if;
         end loop;
         Inside (Who) := False;
         return False;
      end Meets;

      entry Never when False is
      begin
         null;
      end Never;

   end Object;

begin
   declare
      task type Caller (Who : Positive);

      task body Caller is
      begin
         Met (Who) := Object.Meets (Who);
      end Caller;

      First  : Caller (1);
      Second : Caller (2);
   begin
      null;
   end;
   Put_Line (if Met (1) and Met (2) then "both at once" else "one after the other");
end Two_Functions;
