--  Under Priority_Queuing (D.4) GNAT's own runtime serves the entry calls: the
--  caller with the higher priority is served first, although it came second.

pragma Queuing_Policy (Priority_Queuing);

with Ada.Text_IO; use Ada.Text_IO;

procedure Priority_Queuing is

   protected Gate is
      entry Pass (Name : String);
      procedure Open;
      function Waiting return Natural;
   private
      Is_Open : Boolean := False;
   end Gate;

   protected body Gate is
      entry Pass (Name : String) when Is_Open is
      begin
         Put_Line (Name);
      end Pass;

      procedure Open is
      begin
         Is_Open := True;
      end Open;

      function Waiting return Natural is (Pass'Count);
   end Gate;

   procedure Wait_For (Calls : Positive) is
   begin
      while Gate.Waiting < Calls loop
         delay 0.001;
      end loop;
   end Wait_For;

   task Low with Priority => 3;
   task High with Priority => 9;

   task body Low is
   begin
      Gate.Pass ("low");
   end Low;

   task body High is
   begin
      Wait_For (1);
      Gate.Pass ("high");
   end High;

begin
   Wait_For (2);
   Gate.Open;
end Priority_Queuing;
