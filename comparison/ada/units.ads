--  What the program asks of a unit, whatever protected type carries it out.
with Ada.Real_Time;
with Calls; use Calls;
with Names;

package Units is

   --  Raised by an operation as its own exception, whose number is the message.
   Failure : exception;

   --  A single entry has no members; a family has those from 1 to Members.
   type Declaration is record
      Name    : Names.Entry_Name;
      Public  : Boolean := True;
      Members : Natural := 0;
   end record;

   type Declarations is array (Positive range <>) of Declaration;

   --  How many calls wait on each entry, in the order of the declarations, with each member of a family.
   type Counts is array (Positive range <>) of Natural;

   --  The entry that is called, and the member if it is a family.
   type Target is record
      Name  : Names.Entry_Name;
      Index : Integer := 0;
   end record;

   type Kind_Of_Call is (Simple, Conditional, Timed);

   --  How a call is made. The deadline is for a timed call.
   type Manner is record
      Kind     : Kind_Of_Call;
      Deadline : Ada.Real_Time.Time := Ada.Real_Time.Time_First;
   end record;

   type Unit is abstract tagged limited null record;

   type Unit_Access is access all Unit'Class;

   function Entries (Self : Unit) return Declarations is abstract;

   --  The name of the procedure, or no text if the unit has none.
   function Procedure_Name (Self : Unit) return String is ("");

   --  Calls the entry, and says in Selected whether the call was served.
   procedure Enter
     (Self : in out Unit; To : Target; How : Manner; Item : in out Call; Selected : out Boolean) is abstract;

   --  Runs the procedure.
   procedure Run (Self : in out Unit; Item : in out Value) is null;

   function State (Self : Unit) return Value is abstract;

   function Waiting (Self : Unit) return Counts is abstract;

   --  Raised if the program asks for something that no script that pobj carries out can name.
   No_Such_Unit, No_Such_Entry : exception;

   --  Makes a new object of the unit. Units without a size ignore the size.
   function Made (Name : String; Size : Positive) return not null Unit_Access;

end Units;
