--  A pulse: Signal releases the tasks that wait at that time, and no later one.
--  SPDX-License-Identifier: MIT

type Value is mod 2 ** 64;

protected type Pulse is
   entry Wait (Item : in out Value);
   entry Signal (Item : in out Value);
   function State return Value;
private
   entry Reset (Item : in out Value);
   Occurred : Boolean := False;
end Pulse;

protected body Pulse is
   entry Wait (Item : in out Value) when Occurred is
   begin
      null;
   end Wait;

   entry Signal (Item : in out Value) when True is
   begin
      if Wait'Count > 0 then
         Occurred := True;
         requeue Reset;
      end if;
   end Signal;

   entry Reset (Item : in out Value) when Wait'Count = 0 is
   begin
      Occurred := False;
   end Reset;

   function State return Value is (if Occurred then 1 else 0);
end Pulse;
