--  Each allocation of the engine is refused in turn. Then making an object, or
--  an entry call, raises Storage_Error (13.11), and the object is as before:
--  the same call succeeds when it is made again, and all calls are served in
--  the order in which they were queued.

with Ada.Synchronous_Task_Control; use Ada.Synchronous_Task_Control;
with Ada.Text_IO;                  use Ada.Text_IO;
with Interfaces.C;                 use Interfaces.C;

procedure Refused_Memory is

   Callers : constant := 20;

   procedure Refuse_After (Granted : int);
   pragma Import (C, Refuse_After, "refuse_after");

   function Was_Refused return int;
   pragma Import (C, Was_Refused, "was_refused");

   protected type Gate is
      entry Pass (Place : out Natural);
      procedure Open;
      function Waiting return Natural;
   private
      Is_Open : Boolean := False;
      Passed  : Natural := 0;
   end Gate;

   protected body Gate is
      entry Pass (Place : out Natural) when Is_Open is
      begin
         Passed := Passed + 1;
         Place := Passed;
      end Pass;

      procedure Open is
      begin
         Is_Open := True;
      end Open;

      function Waiting return Natural is (Pass'Count);
   end Gate;

   --  Makes an object with the allocation after this number of others refused.
   --  Says whether one was, and whether Storage_Error was raised for it.

   procedure Try_Making (Granted : Natural; Refused, Is_Well : out Boolean) is
   begin
      Refuse_After (int (Granted));

      declare
         Door : Gate;
      begin
         Refused := Was_Refused /= 0;
         Refuse_After (-1);
         Is_Well := not Refused and then Door.Waiting = 0;
      end;
   exception
      when Storage_Error =>
         Refused := Was_Refused /= 0;
         Is_Well := Refused;
   end Try_Making;

   --  The same for the calls of many tasks on one object. The refused call is
   --  made again, and all are served in their order.

   procedure Try_Calls (Granted : Natural; Refused, Is_Well : out Boolean) is
      Start  : array (1 .. Callers) of Suspension_Object;
      Places : array (1 .. Callers) of Natural := (others => 0);
      Failed : Natural := 0;
      pragma Volatile (Failed);

      procedure Run is
         Door : Gate;

         task type Caller is
            pragma Storage_Size (65_536);
            entry Begin_As (Its : Positive);
         end Caller;

         task body Caller is
            Own : Positive;
         begin
            accept Begin_As (Its : Positive) do
               Own := Its;
            end Begin_As;

            Suspend_Until_True (Start (Own));
            Door.Pass (Places (Own));
         exception
            when Storage_Error =>
               Failed := Failed + 1;
               Door.Pass (Places (Own));
         end Caller;

         All_Callers : array (1 .. Callers) of Caller;

      begin
         for Number in All_Callers'Range loop
            All_Callers (Number).Begin_As (Number);
         end loop;

         Refuse_After (int (Granted));

         for Number in All_Callers'Range loop
            Set_True (Start (Number));

            while Door.Waiting < Number loop
               delay 0.0;
            end loop;
         end loop;

         Refused := Was_Refused /= 0;
         Refuse_After (-1);
         Door.Open;
      end Run;

   begin
      Run;
      Is_Well := Failed = Boolean'Pos (Refused)
        and then (for all Number in Places'Range => Places (Number) = Number);
   end Try_Calls;

   --  Refuses each allocation in turn, until there is none

   procedure Refuse_Each
     (Name : String;
      Try  : access procedure
               (Granted : Natural; Refused, Is_Well : out Boolean))
   is
      Refused, Is_Well : Boolean;
      Granted          : Natural := 0;
   begin
      loop
         Try (Granted, Refused, Is_Well);

         if not Is_Well then
            Put_Line (Name & ": not well when the allocation behind"
                      & Granted'Image & " is refused");
         end if;

         exit when not Refused;
         Granted := Granted + 1;
      end loop;

      Put_Line (Name & ": " & (if Granted > 0 then "each was refused"
                               else "none was refused"));
   end Refuse_Each;

begin
   Refuse_Each ("making", Try_Making'Access);
   Refuse_Each ("calls", Try_Calls'Access);
end Refused_Memory;
