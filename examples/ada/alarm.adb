--  An alarm clock with four bells: callers of Wait sleep until the time of their bell has come. Times are in seconds.
--  SPDX-License-Identifier: MIT

package Alarms is

   type Seconds is range 0 .. 86_400;
   type Bell is range 1 .. 4;

   type Setting is record
      At_Time : Seconds := 0;
      Is_On   : Boolean := False;
   end record;
   type Setting_Array is array (Bell) of Setting;

   In_The_Past : exception;

   protected Alarm is
      entry Wait (Bell) (Woken_At : out Seconds);
      procedure Set (B : in Bell; At_Time : in Seconds);
      procedure Snooze (B : in Bell; By : in out Seconds);
      procedure Advance (To : in Seconds; Rung : out Natural);
      function Next return Seconds;
   private
      function Is_Due (B : Bell) return Boolean;
      Now   : Seconds := 0;
      Bells : Setting_Array;
   end Alarm;

end Alarms;

package body Alarms is

   protected body Alarm is

      function Is_Due (B : Bell) return Boolean is (Bells (B).Is_On and then Bells (B).At_Time <= Now);

      entry Wait (for B in Bell) (Woken_At : out Seconds) when Is_Due (B) is
      begin
         Woken_At := Now;
         if Wait (B)'Count = 0 then
            Bells (B).Is_On := False;
         end if;
      end Wait;

      procedure Set (B : in Bell; At_Time : in Seconds) is
      begin
         if At_Time < Now then
            raise In_The_Past;
         end if;
         Bells (B) := (At_Time, True);
      end Set;

      --  What comes back is the new time of the bell. After the end of the day there is no time: then it is the end.
      procedure Snooze (B : in Bell; By : in out Seconds) is
      begin
         By := Now + By;
         Bells (B) := (Is_On => True, At_Time => By);
      exception
         when Constraint_Error =>
            By := Seconds'Last;
            Bells (B) := (Is_On => True, At_Time => By);
      end Snooze;

      procedure Advance (To : in Seconds; Rung : out Natural) is
      begin
         Now := Seconds'Max (Now, To);
         Rung := 0;
         for B in Bell loop
            if Is_Due (B) then
               Rung := Rung + 1;
            end if;
         end loop;
      end Advance;

      function Next return Seconds is
         First : Seconds := Seconds'Last;
      begin
         for S of Bells loop
            if S.Is_On and S.At_Time > Now then
               First := Seconds'Min (First, S.At_Time);
            end if;
         end loop;
         return First;
      end Next;

   end Alarm;

end Alarms;
