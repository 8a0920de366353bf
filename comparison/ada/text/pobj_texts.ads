--  What the program of a text keeps beside what Commands keeps: the words of the script, the answers in words, and which bodies
--  began for each call. Commands knows an answer by its number. The package of a text names no other library unit, as a type of
--  the text may have the same name.
with Ada.Exceptions;          use Ada.Exceptions;
with Ada.Task_Identification; use Ada.Task_Identification;
with Ada.Text_IO;
with Calls;                   use Calls;
with Names;
with Scripts;
with Units;

package Pobj_Texts is

   package Calls renames Standard.Calls;
   package Exceptions renames Ada.Exceptions;
   package Names renames Standard.Names;
   package Text_IO renames Ada.Text_IO;
   package Units renames Standard.Units;

   --  Takes the script, as texts.py wrote it: the value of a command is the number of its line, and after it come the number of
   --  the operation and the actual parameters.
   procedure Take (Script : Scripts.Line_Vectors.Vector);

   --  The operation that the command of that line is about.
   function Operation (Line : Value) return Positive;

   --  The actual parameter at that place, if it is there.
   function Has_Actual (Line : Value; Place : Positive) return Boolean;
   function Actual (Line : Value; Place : Positive) return String;

   --  An object is about to be made: that of the script's next line `unit`, with which the script begins.
   procedure Begin_Object;

   --  The discriminant at that place of this line, if it is there.
   function Has_Discriminant (Place : Positive) return Boolean;
   function Discriminant (Place : Positive) return String;

   --  Keeps an answer in words, and returns its number.
   function Answer (Words : String) return Value;

   --  Raises the failure whose answer says what occurred: the exception's name, or its message if that is a number.
   procedure Fail (Occurrence : Exception_Occurrence) with No_Return;

   --  The same for a call of an entry. But Program_Error is raised again if no body raised it.
   procedure Fail_Call (Occurrence : Exception_Occurrence) with No_Return;

   --  The present task makes the call of that number.
   procedure Make_Call (Number : Positive);

   --  A body begins for the call of that task. The result is True: this stands in the declarations of the body.
   function Begun (Caller : Task_Id) return Boolean;

   --  The body requeues the call.
   procedure Requeue_Call (Caller : Task_Id);

   --  Writes a line `= NUMBER PLACE WORDS` for each answer, and a line `! CALL PLACE` for each call that a body ended. The PLACE
   --  is that of the body among all that began, from 1, or 0.
   procedure Write_Answers;

   --  The image without the space before it.
   function Trimmed (Image : String) return String;

   --  Writes the bounds of the subtype, or all its literals.
   generic
      type Item is (<>);
   procedure Describe_Subtype;

end Pobj_Texts;
