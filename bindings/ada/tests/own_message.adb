--  Each of two callers raises the exception of its own body, with its message (9.5.2, 11.4.1), although the first of them
--  carries out the second's body too, after its own.

with Ada.Exceptions; use Ada.Exceptions;
with Ada.Text_IO;    use Ada.Text_IO;

procedure Own_Message is

   Own, Other : exception;

   Is_Said : Boolean := False;
   pragma Atomic (Is_Said);

   protected Q is
      entry Fail;
   end Q;

   protected P is
      entry Raise_It;
      entry Wait;
      function Waiting return Natural;
   private
      Is_Open : Boolean := False;
   end P;

   protected body Q is
      entry Fail when True is
      begin
         raise Other with "other message";
      end Fail;
   end Q;

   protected body P is
      entry Raise_It when True is
      begin
         Is_Open := True;
         raise Own with "own message";
      end Raise_It;

      entry Wait when Is_Open is
      begin
         requeue Q.Fail;
      end Wait;

      function Waiting return Natural is (Wait'Count);
   end P;

   task B;

   task body B is
   begin
      P.Wait;
   exception
      when X : others =>
         while not Is_Said loop
            delay 0.001;
         end loop;

         Put_Line ("B: " & Exception_Message (X));
   end B;

begin
   while P.Waiting = 0 loop
      delay 0.001;
   end loop;

   P.Raise_It;
exception
   when X : others =>
      Put_Line ("A: " & Exception_Message (X));
      Is_Said := True;
end Own_Message;
