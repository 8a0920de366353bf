--  Bodies that raise exceptions: of an entry whose call is served at once, of one whose call waited, of one to which a call
--  was requeued, of a procedure, and of a function.
--
--  9.5.2 and 9.5.3: an exception that a body doesn't handle is raised by the call that it serves, and by no other; servicing
--  goes on. 9.5.1: an exception of its procedure also ends a protected action; then the queues are serviced, and what the
--  body changed stays. The exception keeps its message (11.4.1).
--
--  Prints what each call raised, and which other calls were served.
with Ada.Exceptions;        use Ada.Exceptions;
with Ada.Strings.Unbounded; use Ada.Strings.Unbounded;
with Ada.Text_IO;           use Ada.Text_IO;

procedure Exceptions_Of_Bodies is

   Failure : exception;

   protected Gate is
      entry Fail_At_Once;
      entry Fail_Behind (Item : Integer);
      entry Fail_Later (Number : Positive);
      entry Pass (Number : Positive);
      procedure Open_And_Fail;
      function Fail return Boolean;
      function Waiting return Natural;
   private
      entry Last (Item : Integer);
      Is_Open : Boolean := False;
   end Gate;

   protected body Gate is

      entry Fail_At_Once when True is
      begin
         raise Failure with "at once";
      end Fail_At_Once;

      entry Fail_Behind (Item : Integer) when True is
      begin
         requeue Last;
      end Fail_Behind;

      entry Last (Item : Integer) when True is
      begin
         raise Failure with "behind a requeue," & Item'Image;
      end Last;

      entry Fail_Later (Number : Positive) when Is_Open is
      begin
         raise Failure with "of call" & Number'Image;
      end Fail_Later;

      entry Pass (Number : Positive) when Is_Open and then Fail_Later'Count = 0 is
      begin
         if Number = 4 then
            raise Constraint_Error with "of call 4";
         end if;
      end Pass;

      procedure Open_And_Fail is
      begin
         Is_Open := True;
         raise Failure with "of the procedure";
      end Open_And_Fail;

      function Fail return Boolean is (raise Failure with "of the function");

      function Waiting return Natural is (Fail_Later'Count + Pass'Count);

   end Gate;

   function Shown (Occurrence : Exception_Occurrence) return String is
     ((if Exception_Identity (Occurrence) = Failure'Identity then "Failure "
       elsif Exception_Identity (Occurrence) = Constraint_Error'Identity then "Constraint_Error "
       else "WRONG: " & Exception_Name (Occurrence) & " ") & Exception_Message (Occurrence));

   procedure Say (What : String; Occurrence : Exception_Occurrence) is
   begin
      Put_Line (What & ": " & Shown (Occurrence));
   end Say;

   Told : array (1 .. 5) of Unbounded_String;

   --  1 and 2 on Fail_Later, 3 to 5 on Pass.
   task type Caller (Number : Positive);

   task body Caller is
   begin
      if Number <= 2 then
         Gate.Fail_Later (Number);
      else
         Gate.Pass (Number);
      end if;
      Told (Number) := To_Unbounded_String ("served");
   exception
      when Occurrence : others =>
         Told (Number) := To_Unbounded_String (Shown (Occurrence));
   end Caller;

   type Caller_Access is access Caller;

   Callers : array (Told'Range) of Caller_Access;

begin
   begin
      Gate.Fail_At_Once;
   exception
      when Occurrence : others =>
         Say ("at once", Occurrence);
   end;
   begin
      Gate.Fail_Behind (5);
   exception
      when Occurrence : others =>
         Say ("requeued", Occurrence);
   end;
   begin
      if Gate.Fail then
         Put_Line ("WRONG");
      end if;
   exception
      when Occurrence : others =>
         Say ("function", Occurrence);
   end;
   begin
      select
         Gate.Fail_At_Once;
      else
         Put_Line ("WRONG: cancelled");
      end select;
   exception
      when Occurrence : others =>
         Say ("conditional", Occurrence);
   end;
   begin
      select
         Gate.Fail_At_Once;
      or
         delay 60.0;
      end select;
   exception
      when Occurrence : others =>
         Say ("timed", Occurrence);
   end;

   for Number in Callers'Range loop
      Callers (Number) := new Caller (Number);
      while Gate.Waiting < Number loop
         delay 0.001;
      end loop;
   end loop;
   begin
      Gate.Open_And_Fail;
   exception
      when Occurrence : others =>
         Say ("procedure", Occurrence);
   end;
   Put_Line ("waiting" & Gate.Waiting'Image);
   for Caller of Callers loop
      while not Caller.all'Terminated loop
         delay 0.001;
      end loop;
   end loop;
   for Number in Told'Range loop
      Put_Line ("call" & Number'Image & ": " & To_String (Told (Number)));
   end loop;
end Exceptions_Of_Bodies;
