--  A call in Finalize is made while aborts are deferred: an abort of its task doesn't cancel it, even when it is requeued
--  with abort (9.5.4, 9.8).

with Ada.Finalization;
with Ada.Text_IO; use Ada.Text_IO;

procedure Deferred_Call is

   protected P is
      entry First (Is_Served : in out Boolean);
      entry Second (Is_Served : in out Boolean);
      procedure Open_First;
      procedure Open_Second;
      function On_First return Natural;
      function On_Second return Natural;
   private
      First_Open, Second_Open : Boolean := False;
   end P;

   protected body P is
      entry First (Is_Served : in out Boolean) when First_Open is
      begin
         requeue Second with abort;
      end First;

      entry Second (Is_Served : in out Boolean) when Second_Open is
      begin
         Is_Served := True;
      end Second;

      procedure Open_First is
      begin
         First_Open := True;
      end Open_First;

      procedure Open_Second is
      begin
         Second_Open := True;
      end Open_Second;

      function On_First return Natural is (First'Count);
      function On_Second return Natural is (Second'Count);
   end P;

   type Guard is new Ada.Finalization.Limited_Controlled with null record;

   overriding procedure Finalize (Object : in out Guard);

   overriding procedure Finalize (Object : in out Guard) is
      Is_Served : Boolean := False;
   begin
      P.First (Is_Served);
      Put_Line (if Is_Served then "served" else "wrong: not served");
   end Finalize;

   task T;

   task body T is
      G : Guard;
      pragma Unreferenced (G);
   begin
      null;
   end T;

begin
   while P.On_First = 0 loop
      delay 0.001;
   end loop;

   abort T;
   P.Open_First;

   while P.On_First > 0 loop
      delay 0.001;
   end loop;

   delay 0.01;
   Put_Line ("on Second:" & P.On_Second'Image);
   P.Open_Second;
end Deferred_Call;
