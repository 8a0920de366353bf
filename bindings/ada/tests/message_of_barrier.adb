--  A barrier raises an exception: all calls on the object end by Program_Error (9.5.3), with the message of the barrier's exception,
--  which names the fault.

with Ada.Exceptions; use Ada.Exceptions;
with Ada.Strings.Fixed;
with Ada.Text_IO;    use Ada.Text_IO;

procedure Message_Of_Barrier is

   protected P is
      entry Wait;
      entry Pass;
      procedure Break;
      procedure Mend;
      function Waiting return Natural;
      function Is_Open return Boolean;
   private
      Zero : Integer := 1;
   end P;

   protected body P is
      function Is_Open return Boolean is (1 / Zero > 1);

      entry Wait when Is_Open is
      begin
         null;
      end Wait;

      entry Pass when Is_Open is
      begin
         null;
      end Pass;

      procedure Break is
      begin
         Zero := 0;
      end Break;

      procedure Mend is
      begin
         Zero := 1;
      end Mend;

      function Waiting return Natural is (Wait'Count);
   end P;

   --  What an exception says, without the number of its line

   function Said (E : Exception_Occurrence) return String is
      Message : constant String := Exception_Message (E);
      Colon   : constant Natural := Ada.Strings.Fixed.Index (Message, ":");
      Blank   : constant Natural := Ada.Strings.Fixed.Index (Message, " ");
   begin
      return Exception_Name (E) & ": "
        & (if Colon = 0 then Message
           else Message (Message'First .. Colon)
                & Message (Blank .. Message'Last));
   end Said;

   protected Output is
      procedure Put (Line : String);
   end Output;

   protected body Output is
      procedure Put (Line : String) is
      begin
         Put_Line (Line);
      end Put;
   end Output;

   task type Caller;

   task body Caller is
   begin
      P.Wait;
   exception
      when E : others =>
         Output.Put ("a queued call: " & Said (E));
   end Caller;

begin
   declare
      A, B : Caller;
   begin
      while P.Waiting < 2 loop
         delay 0.001;
      end loop;

      P.Break;
   end;

   begin
      P.Pass;
   exception
      when E : others =>
         Put_Line ("a call that arrives: " & Said (E));
   end;

   P.Mend;
   select
      P.Pass;
   else
      Put_Line ("after that a call finds the entry closed");
   end select;
end Message_Of_Barrier;
