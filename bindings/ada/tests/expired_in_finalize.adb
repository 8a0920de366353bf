--  The time of a timed call in Finalize comes while a requeue without abort protects it, and then its task is aborted. Aborts
--  are deferred, so this one changes nothing. The call is requeued with abort to an open entry, and served (9.5.4, 9.7.2,
--  9.8).

with Ada.Finalization;
with Ada.Text_IO; use Ada.Text_IO;

procedure Expired_In_Finalize is

   protected P is
      entry First (Is_Served : in out Boolean);
      entry Second (Is_Served : in out Boolean);
      entry Third (Is_Served : in out Boolean);
      procedure Open;
      function Waiting return Natural;
   private
      Is_Open : Boolean := False;
   end P;

   protected body P is
      entry First (Is_Served : in out Boolean) when True is
      begin
         requeue Second;
      end First;

      entry Second (Is_Served : in out Boolean) when Is_Open is
      begin
         requeue Third with abort;
      end Second;

      entry Third (Is_Served : in out Boolean) when True is
      begin
         Is_Served := True;
      end Third;

      procedure Open is
      begin
         Is_Open := True;
      end Open;

      function Waiting return Natural is (Second'Count);
   end P;

   type Guard is new Ada.Finalization.Limited_Controlled with null record;

   overriding procedure Finalize (Object : in out Guard);

   overriding procedure Finalize (Object : in out Guard) is
      Is_Served : Boolean := False;
   begin
      select
         P.First (Is_Served);
         Put_Line (if Is_Served then "served" else "wrong: not served");
      or
         delay 0.02;
         Put_Line ("wrong: cancelled");
      end select;
   end Finalize;

   task T;

   task body T is
      G : Guard;
      pragma Unreferenced (G);
   begin
      null;
   end T;

begin
   while P.Waiting = 0 loop
      delay 0.001;
   end loop;

   delay 0.1;
   abort T;
   delay 0.01;
   P.Open;
end Expired_In_Finalize;
