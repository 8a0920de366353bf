--  Families of entries: over an enumeration, over a range of integers, and one without a member.
--
--  9.5.2: each member of a family has a queue and a barrier of its own, which may use the index. The index of a call is
--  evaluated before the call, and Constraint_Error is raised if there is no such member. 9.9: Count is that of the member.
--  9.5.4: a requeue may go to any member. C.7.1: Caller in a body is the task whose call the body serves.
--
--  Prints Count of each member, which calls were served through which member, and what a call of no member raises.
with Ada.Strings.Unbounded;   use Ada.Strings.Unbounded;
with Ada.Task_Identification; use Ada.Task_Identification;
with Ada.Text_IO;             use Ada.Text_IO;

procedure Entry_Families is

   type Colour is (Red, Green, Blue);

   type Answers is array (Colour range <>) of Boolean;

   subtype Floor is Integer range 0 .. 3;

   Nothing : constant Integer := Integer'Value ("0");

   protected House is
      entry Paint (Colour) (Number : Positive);
      entry Ride (Floor) (Number : Positive);
      entry Never (1 .. Nothing);
      procedure Dry (The_Colour : Colour);
      function Painters (The_Colour : Colour) return Natural;
      function Riders (The_Floor : Floor) return Natural;
      procedure Tell (Log : out Unbounded_String);
      function Latest return Task_Id;
   private
      Is_Dry : Answers (Colour) := [others => False];
      Here   : Floor            := 0;
      Served : Unbounded_String;
      Last   : Task_Id;
   end House;

   protected body House is

      procedure Note (Word : String) is
      begin
         Append (Served, Word);
      end Note;

      entry Paint (for The_Colour in Colour) (Number : Positive) when Is_Dry (The_Colour) is
      begin
         Is_Dry (The_Colour) := False;
         Note (The_Colour'Image & Number'Image & " ");
         Last := Paint'Caller;
      end Paint;

      --  A ride goes to the next floor up, until there is none.
      entry Ride (for The_Floor in Floor) (Number : Positive) when Here = The_Floor is
      begin
         Note (The_Floor'Image & Number'Image & " ");
         if The_Floor = Floor'Last then
            Here := Floor'First;
         else
            Here := The_Floor + 1;
            requeue Ride (The_Floor + 1);
         end if;
      end Ride;

      entry Never (for Member in 1 .. Nothing) when True is
      begin
         null;
      end Never;

      procedure Dry (The_Colour : Colour) is
      begin
         Is_Dry (The_Colour) := True;
      end Dry;

      function Painters (The_Colour : Colour) return Natural is (Paint (The_Colour)'Count);

      function Riders (The_Floor : Floor) return Natural is (Ride (The_Floor)'Count);

      procedure Tell (Log : out Unbounded_String) is
      begin
         Log := Trim (Served, Ada.Strings.Both);
         Served := Null_Unbounded_String;
      end Tell;

      function Latest return Task_Id is (Last);

   end House;

   type Colours is array (1 .. 5) of Colour;

   Painting : constant Colours := [Green, Blue, Green, Blue, Blue];

   task type Painter (Number : Positive);

   task body Painter is
   begin
      House.Paint (Painting (Number)) (Number);
   end Painter;

   type Painter_Access is access Painter;

   Painters : array (Painting'Range) of Painter_Access;

   procedure Dry (The_Colour : Colour; Expected : Positive) is
      Told : constant Painter_Access := Painters (Expected);
   begin
      House.Dry (The_Colour);
      --  The caller terminates after its call.
      while not Told.all'Terminated loop
         delay 0.001;
      end loop;
      Put_Line
        (The_Colour'Image & ": caller " & Boolean'Image (House.Latest = Told.all'Identity) & ", waiting"
         & House.Painters (Red)'Image & House.Painters (Green)'Image & House.Painters (Blue)'Image);
   end Dry;

   procedure Say_Served is
      Log : Unbounded_String;
   begin
      House.Tell (Log);
      Put_Line (To_String (Log));
   end Say_Served;

   procedure Call_No_Member (Which : Integer) is
   begin
      House.Ride (Which) (1);
      Put_Line ("WRONG: a call of no member");
   exception
      when Constraint_Error =>
         Put_Line ("no member" & Which'Image & ": Constraint_Error");
   end Call_No_Member;

begin
   for Number in Painters'Range loop
      Painters (Number) := new Painter (Number);
      while House.Painters (Green) + House.Painters (Blue) < Number loop
         delay 0.001;
      end loop;
   end loop;
   Put_Line ("waiting" & House.Painters (Red)'Image & House.Painters (Green)'Image & House.Painters (Blue)'Image);
   Dry (Blue, 2);
   Dry (Green, 1);
   Dry (Blue, 4);
   Dry (Green, 3);
   Dry (Blue, 5);
   Say_Served;

   --  From floor 0 by 1 and 2 to 3, twice.
   House.Ride (0) (6);
   Say_Served;
   House.Ride (0) (7);
   Say_Served;
   for The_Floor in Floor loop
      Put (House.Riders (The_Floor)'Image);
   end loop;
   New_Line;
   Call_No_Member (4);
   Call_No_Member (-1);
   begin
      House.Never (1);
      Put_Line ("WRONG: a call of no member");
   exception
      when Constraint_Error =>
         Put_Line ("empty family: Constraint_Error");
   end;
end Entry_Families;
