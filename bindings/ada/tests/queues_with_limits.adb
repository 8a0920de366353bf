--  The program's restriction allows two queued calls on each entry, and the
--  aspect of an entry allows one or three (D.4, D.7): the smaller number counts.

pragma Restrictions (Max_Entry_Queue_Length => 2);

with Ada.Text_IO; use Ada.Text_IO;

procedure Queues_With_Limits is

   protected Gate is
      entry Narrow (Is_Served : out Boolean) with Max_Queue_Length => 1;
      entry Wide (Is_Served : out Boolean) with Max_Queue_Length => 3;
      entry Other (Is_Served : out Boolean);
      procedure Open;
      function Waiting return Natural;
   private
      Is_Open : Boolean := False;
   end Gate;

   protected body Gate is
      entry Narrow (Is_Served : out Boolean) when Is_Open is
      begin
         Is_Served := True;
      end Narrow;

      entry Wide (Is_Served : out Boolean) when Is_Open is
      begin
         Is_Served := True;
      end Wide;

      entry Other (Is_Served : out Boolean) when Is_Open is
      begin
         Is_Served := True;
      end Other;

      procedure Open is
      begin
         Is_Open := True;
      end Open;

      function Waiting return Natural is
        (Narrow'Count + Wide'Count + Other'Count);
   end Gate;

   Refused : Natural := 0;
   pragma Atomic (Refused);

   type Name is (Narrow, Wide, Other);

   task type Caller is
      entry Begin_On (Its : Name);
   end Caller;

   task body Caller is
      Own       : Name;
      Is_Served : Boolean;
   begin
      accept Begin_On (Its : Name) do
         Own := Its;
      end Begin_On;

      case Own is
         when Narrow => Gate.Narrow (Is_Served);
         when Wide   => Gate.Wide (Is_Served);
         when Other  => Gate.Other (Is_Served);
      end case;
   exception
      when Program_Error =>
         Refused := Refused + 1;
   end Caller;

   type Caller_Access is access Caller;

   Callers : Caller_Access;

begin
   for On in Name loop
      declare
         Before : constant Natural := Gate.Waiting;
      begin
         Refused := 0;

         for Number in 1 .. 4 loop
            Callers := new Caller;
            Callers.Begin_On (On);

            while Gate.Waiting - Before + Refused < Number loop
               delay 0.001;
            end loop;
         end loop;

         Put_Line (On'Image & Natural'Image (Gate.Waiting - Before)
                   & " queued," & Refused'Image & " refused");
      end;
   end loop;

   Gate.Open;
end Queues_With_Limits;
