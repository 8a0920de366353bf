--  An event that resets itself: a signal lets one caller go, who waits or comes next; a pulse lets all go that wait.
--  SPDX-License-Identifier: MIT

protected Event is
   entry Wait (By_Pulse : out Boolean);
   procedure Signal;
   procedure Pulse (Released : out Natural);
   procedure Reset;
   function Is_Set return Boolean;
private
   Signalled : Boolean := False;
   Pulsed    : Natural := 0;
end Event;

protected body Event is

   entry Wait (By_Pulse : out Boolean) when Signalled or Pulsed > 0 is
   begin
      By_Pulse := Pulsed > 0;
      if By_Pulse then
         Pulsed := Pulsed - 1;
      else
         Signalled := False;
      end if;
   end Wait;

   procedure Signal is
   begin
      Signalled := True;
   end Signal;

   procedure Pulse (Released : out Natural) is
   begin
      Released := Wait'Count;
      Pulsed := Released;
   end Pulse;

   procedure Reset is
   begin
      Signalled := False;
   end Reset;

   function Is_Set return Boolean is (Signalled);

end Event;
