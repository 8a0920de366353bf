--  A timed call in the Finalize of a task that has been aborted waits for its time: the abort doesn't affect it (9.7.2,
--  9.8(10-11)).

with Ada.Calendar; use Ada.Calendar;
with Ada.Finalization;
with Ada.Text_IO; use Ada.Text_IO;

procedure Timed_Call_After_Abort is

   protected P is
      entry Call;
      procedure Open;
      function Waiting return Natural;
   private
      Is_Open : Boolean := False;
   end P;

   protected body P is
      entry Call when Is_Open is
      begin
         null;
      end Call;

      procedure Open is
      begin
         Is_Open := True;
      end Open;

      function Waiting return Natural is (Call'Count);
   end P;

   type Guard is new Ada.Finalization.Limited_Controlled with null record;

   overriding procedure Finalize (Object : in out Guard);

   overriding procedure Finalize (Object : in out Guard) is
      Start : constant Time := Clock;
   begin
      select
         P.Call;
         Put_Line ("served");
      or
         delay 10.0;
         Put_Line (if Clock - Start < 5.0 then "wrong: its time came early" else "its time came");
      end select;
   end Finalize;

   task T;

   task body T is
      G : Guard;
      pragma Unreferenced (G);
   begin
      delay 1_000.0;
   end T;

begin
   delay 0.05;
   abort T;

   for Try in 1 .. 200 loop
      exit when P.Waiting > 0 or else T'Terminated;
      delay 0.001;
   end loop;

   P.Open;
end Timed_Call_After_Abort;
