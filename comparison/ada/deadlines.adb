with Ada.Containers.Vectors;
with Calls; use Calls;

package body Deadlines is

   type Moment is record
      From, To : Time;
      Due      : Boolean  := False;
      Object   : Positive := 1;
   end record;

   package Moment_Vectors is new Ada.Containers.Vectors (Positive, Moment);
   package Place_Vectors is new Ada.Containers.Vectors (Positive, Positive);
   use type Moment_Vectors.Vector;

   --  A moment for each line of the script, and the object that it is about. A timed call's deadline is To, and the call is due
   --  if that is past.
   Moments : Moment_Vectors.Vector;

   --  How many quarters of a step of time the line may take.
   function Quarters (Command : String) return Natural is
     (if Command = "by" then 0 elsif Command in "cancel" | "abort" | "timed" then 6 else 1);

   --  Gives the waiting lines of the object whose deadlines have come at that clock times one after the other, after that time.
   procedure Make_Due
     (Script  : Scripts.Line_Vectors.Vector;
      Waiting : in out Place_Vectors.Vector;
      Object  : Positive;
      Clock   : Value;
      Step    : Time_Span;
      Now     : in out Time)
   is
      Later : Place_Vectors.Vector;
   begin
      for Line of Waiting loop
         if Moments (Line).Object = Object and then Value'Value (Scripts.Word (Script (Line), 2)) <= Clock then
            Now := Now + Step;
            Moments (Line).To := Now;
         else
            Later.Append (Line);
         end if;
      end loop;
      Waiting := Later;
   end Make_Due;

   procedure Plan (Script : Scripts.Line_Vectors.Vector; Step : Time_Span) is
      Start   : constant Time := Ada.Real_Time.Clock;
      Never   : constant Time := Start + Seconds (86_400);
      Now     : Time          := Start;
      Clock   : Value         := 0;
      Object  : Positive      := 1;
      Waiting : Place_Vectors.Vector;
   begin
      Moments := Moment_Vectors.To_Vector ((Start, Never, others => <>), Script.Length);
      for Line in 1 .. Script.Last_Index loop
         declare
            Command : constant String := Scripts.Word (Script (Line), 1);
         begin
            Now := Now + Step * Quarters (Command) / 4;
            if Command = "by" then
               Object := Positive'Value (Scripts.Word (Script (Line), 3));
            end if;
            Moments (Line).Object := Object;
            if Command = "timed" then
               if Value'Value (Scripts.Word (Script (Line), 2)) <= Clock then
                  Moments (Line).To  := Start;
                  Moments (Line).Due := True;
               else
                  Waiting.Append (Line);
               end if;
            elsif Command = "tick" then
               Clock := Value'Max (Clock, Value'Value (Scripts.Word (Script (Line), 2)));
               Moments (Line).From := Now;
               Make_Due (Script, Waiting, Object, Clock, Step, Now);
               Moments (Line).Due := Now > Moments (Line).From;
               Now := Now + Step;
               Moments (Line).To := Now;
            end if;
         end;
      end loop;
   end Plan;

   function Of_Call (Line : Positive) return Time is (Moments (Line).To);

   function Is_Past (Line : Positive) return Boolean is (Moments (Line).Due);

   function Has_Due (Line : Positive) return Boolean is (Moments (Line).Due);

   function Start_Of_Tick (Line : Positive) return Time is (Moments (Line).From);

   function End_Of_Tick (Line : Positive) return Time is (Moments (Line).To);

end Deadlines;
