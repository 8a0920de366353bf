with Ada.Containers.Indefinite_Vectors;
with Ada.Containers.Vectors;
with Ada.Strings;       use Ada.Strings;
with Ada.Strings.Fixed; use Ada.Strings.Fixed;
with Ada.Text_IO;       use Ada.Text_IO;

package body Pobj_Texts is

   --  The call of a task, and the body that began last for it: its place among all, or 0, and whether it requeued the call.
   type Record_Of_Call is record
      Caller      : Task_Id;
      Place       : Natural := 0;
      Is_Requeued : Boolean := False;
   end record;

   package Text_Vectors is new Ada.Containers.Indefinite_Vectors (Positive, String);
   package Number_Vectors is new Ada.Containers.Vectors (Positive, Natural);
   package Call_Vectors is new Ada.Containers.Indefinite_Vectors (Positive, Record_Of_Call);

   The_Script : Scripts.Line_Vectors.Vector;

   --  The line of the object that was made last.
   The_Object : Natural := 0;

   protected Book is
      procedure Add (Number : Positive; Caller : Task_Id);
      procedure Begin_Body (Caller : Task_Id);
      procedure Requeue_Call (Caller : Task_Id);
      procedure Keep (Caller : Task_Id; Words : String; Number : out Value);
      function Is_Ended_By_Body (Caller : Task_Id) return Boolean;
      procedure Write;
   private
      Answers : Text_Vectors.Vector;
      Places  : Number_Vectors.Vector;
      Calls   : Call_Vectors.Vector;
      Begun   : Natural := 0;
   end Book;

   protected body Book is

      --  The number of the task's call, or 0 if it makes none.
      function Call_Of (Caller : Task_Id) return Natural is
      begin
         for Number in reverse 1 .. Calls.Last_Index loop
            if Calls (Number).Caller = Caller then
               return Number;
            end if;
         end loop;
         return 0;
      end Call_Of;

      --  Tasks of several calls may begin in any order.
      procedure Add (Number : Positive; Caller : Task_Id) is
      begin
         while Calls.Last_Index < Number loop
            Calls.Append (Record_Of_Call'(Null_Task_Id, others => <>));
         end loop;
         Calls (Number).Caller := Caller;
      end Add;

      procedure Begin_Body (Caller : Task_Id) is
         Number : constant Natural := Call_Of (Caller);
      begin
         Begun := Begun + 1;
         if Number > 0 then
            Calls (Number) := (Caller, Begun, False);
         end if;
      end Begin_Body;

      procedure Requeue_Call (Caller : Task_Id) is
         Number : constant Natural := Call_Of (Caller);
      begin
         if Number > 0 then
            Calls (Number).Is_Requeued := True;
         end if;
      end Requeue_Call;

      procedure Keep (Caller : Task_Id; Words : String; Number : out Value) is
         Its_Call : constant Natural := Call_Of (Caller);
      begin
         Answers.Append (Words);
         Places.Append (if Its_Call = 0 then 0 else Calls (Its_Call).Place);
         Number := Value (Answers.Length);
      end Keep;

      function Is_Ended_By_Body (Caller : Task_Id) return Boolean is
         Number : constant Natural := Call_Of (Caller);
      begin
         return Number > 0 and then Calls (Number).Place > 0 and then not Calls (Number).Is_Requeued;
      end Is_Ended_By_Body;

      procedure Write is
      begin
         for Number in 1 .. Answers.Last_Index loop
            Put_Line ("=" & Number'Image & Natural'Image (Places (Number)) & " " & Answers (Number));
         end loop;
         for Number in 1 .. Calls.Last_Index loop
            if Calls (Number).Place > 0 and then not Calls (Number).Is_Requeued then
               Put_Line ("!" & Number'Image & Natural'Image (Calls (Number).Place));
            end if;
         end loop;
      end Write;

   end Book;

   procedure Take (Script : Scripts.Line_Vectors.Vector) is
   begin
      The_Script := Script;
   end Take;

   --  The word of the line that is this far after the value.
   function Word (Line : Value; Place : Positive) return String is
      Text  : constant String := The_Script (Positive (Line));
      First : constant Positive := (if Scripts.Word (Text, 1) = "timed" then 4 else 3);
   begin
      return Scripts.Word (Text, First + Place);
   end Word;

   function Operation (Line : Value) return Positive is (Positive'Value (Word (Line, 1)));

   function Actual (Line : Value; Place : Positive) return String is (Word (Line, Place + 1));

   function Has_Actual (Line : Value; Place : Positive) return Boolean is (Actual (Line, Place) /= "");

   procedure Begin_Object is
   begin
      The_Object := The_Object + 1;
   end Begin_Object;

   function Discriminant (Place : Positive) return String is (Word (Value (The_Object), Place));

   function Has_Discriminant (Place : Positive) return Boolean is (Discriminant (Place) /= "");

   function Answer (Words : String) return Value is
      Number : Value;
   begin
      Book.Keep (Current_Task, Words, Number);
      return Number;
   end Answer;

   --  Whether the text is a number.
   function Is_Number (Text : String) return Boolean is
     (Text'Length > 0 and then (for all Letter of Text => Letter in '0' .. '9'));

   procedure Fail (Occurrence : Exception_Occurrence) is
      Name    : constant String := Exception_Name (Occurrence);
      Message : constant String := Trim (Exception_Message (Occurrence), Both);
      Simple  : constant String := Name (Index (Name, ".", Backward) + 1 .. Name'Last);
   begin
      raise Units.Failure with Value'Image (Answer ("raised " & (if Is_Number (Message) then Message else Simple)));
   end Fail;

   procedure Fail_Call (Occurrence : Exception_Occurrence) is
   begin
      if Exception_Identity (Occurrence) = Program_Error'Identity and then not Book.Is_Ended_By_Body (Current_Task) then
         raise Program_Error;
      end if;
      Fail (Occurrence);
   end Fail_Call;

   procedure Make_Call (Number : Positive) is
   begin
      Book.Add (Number, Current_Task);
   end Make_Call;

   function Begun (Caller : Task_Id) return Boolean is
   begin
      Book.Begin_Body (Caller);
      return True;
   end Begun;

   procedure Requeue_Call (Caller : Task_Id) is
   begin
      Book.Requeue_Call (Caller);
   end Requeue_Call;

   procedure Write_Answers is
   begin
      Book.Write;
   end Write_Answers;

   function Trimmed (Image : String) return String is (Trim (Image, Both));

   procedure Describe_Subtype is
      First : constant String := Trimmed (Item'Image (Item'First));
   begin
      if First (First'First) in '0' .. '9' | '-' then
         Put_Line ("range " & First & " " & Trimmed (Item'Image (Item'Last)));
      else
         Put ("literals");
         for Literal in Item loop
            Put (" " & Item'Image (Literal));
         end loop;
         New_Line;
      end if;
   end Describe_Subtype;

end Pobj_Texts;
