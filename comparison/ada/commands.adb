with Ada.Containers.Vectors;
with Ada.Exceptions;        use Ada.Exceptions;
with Ada.Real_Time;         use Ada.Real_Time;
with Ada.Strings.Unbounded; use Ada.Strings.Unbounded;
with Ada.Text_IO;           use Ada.Text_IO;
with Ada.Unchecked_Deallocation;
with Calls;                 use Calls;
with Callers;
with Deadlines;
with Ends;
with Names;
with Units;                 use Units;

package body Commands is

   procedure Free is new Ada.Unchecked_Deallocation (Unit'Class, Unit_Access);

   --  How long, in addition to some steps of time, a call may be neither queued nor over before it counts as never woken.
   Patience : constant Time_Span := Seconds (1);

   type Declarations_Access is access Declarations;

   Step : Time_Span;

   --  An object, which exists from the command `unit` until `final`, and what is known of it, also afterwards.
   type Known_Object is record
      Object         : Unit_Access;
      Finalized      : Boolean := False;
      Entry_List     : Declarations_Access;
      Procedure_Name : Unbounded_String;
      Clock          : Value := 0;
   end record;

   type Known_Access is access Known_Object;

   package Known_Vectors is new Ada.Containers.Vectors (Positive, Known_Access);

   --  The objects, and the one that commands are about.
   Objects : Known_Vectors.Vector;
   Here    : Known_Access;

   --  How many ends have been written, and how many calls are never woken.
   Written : Natural := 0;
   Lost    : Natural := 0;

   --  A command that Ada's own rules refuse, mostly at compile time. The number is pobj's.
   Refused : exception;

   --  The decimal digits of the number.
   function Image (Number : Value) return String is
      Spaced : constant String := Value'Image (Number);
   begin
      return Spaced (Spaced'First + 1 .. Spaced'Last);
   end Image;

   --  Writes a line: the text, and the number right after it.
   procedure Write (Text : String; Number : Value) is
   begin
      Put_Line (Text & Image (Number));
   end Write;

   -------------
   -- At rest --
   -------------

   --  How many calls wait on the entries of all objects.
   function Calls_Queued return Natural is
      Sum : Natural := 0;
   begin
      for One of Objects loop
         if not One.Finalized then
            for Count of One.Object.Waiting loop
               Sum := Sum + Count;
            end loop;
         end if;
      end loop;
      return Sum;
   end Calls_Queued;

   --  How many calls are neither queued nor over. A call leaves its queue before its end is told, so the queues are read last.
   function Calls_Underway return Integer is
      Not_Told : constant Integer := Callers.Made - Lost - Ends.Told;
   begin
      return Not_Told - Calls_Queued;
   end Calls_Underway;

   --  Waits until each call is queued or over. Calls that are neither for too long count as never woken.
   procedure Wait_For_Rest (Finalizing : Boolean := False) is
      Limit : constant Time := Clock + Patience + 5 * Step;
   begin
      loop
         Callers.Tell_For_Aborted (Otherwise_Finalized => Finalizing);
         exit when Calls_Underway = 0;
         if Clock > Limit then
            Lost := Lost + Calls_Underway;
            exit;
         end if;
         delay 0.000_2;
      end loop;
   end Wait_For_Rest;

   --  Waits until the call is over, but no longer than a step of time: it may be protected against cancellation.
   procedure Wait_For_End (Number : Positive) is
      Limit : constant Time := Clock + Step;
   begin
      loop
         Callers.Tell_For_Aborted (Otherwise_Finalized => False);
         exit when Ends.Is_Told (Number) or else Clock > Limit;
         delay 0.000_2;
      end loop;
   end Wait_For_End;

   --  Writes the ends that aren't written yet.
   procedure Write_Ends is
      Ended : Ends.Call_End;
   begin
      for Place in Written + 1 .. Ends.Known loop
         Ended := Ends.Known_End (Place);
         case Ended.Kind is
            when Ends.Completed =>
               Write (Image (Value (Ended.Number)) & " done ", Ended.Item);
            when Ends.Raised =>
               Write (Image (Value (Ended.Number)) & " raised ", Ended.Item);
            when Ends.Cancelled =>
               Put_Line (Image (Value (Ended.Number)) & " cancelled");
            when Ends.Program_Error_Raised =>
               Put_Line (Image (Value (Ended.Number)) & " program_error");
         end case;
      end loop;
      Written := Ends.Known;
   end Write_Ends;

   --  Ends the command: writes what it led to, and which calls were lost.
   procedure Settle (Finalizing : Boolean := False) is
      Lost_Before : constant Natural := Lost;
   begin
      Wait_For_Rest (Finalizing);
      Write_Ends;
      if Lost > Lost_Before then
         Write ("never woken ", Value (Lost - Lost_Before));
      end if;
   end Settle;

   --------------
   -- Refusals --
   --------------

   --  Ends the command as refused with that number, if the condition holds.
   procedure Refuse_If (Condition : Boolean; Code : Positive) is
   begin
      if Condition then
         raise Refused with Positive'Image (Code);
      end if;
   end Refuse_If;

   --  The declaration of that name, or 0.
   function Declared (Name : String) return Natural is
   begin
      for Place in Here.Entry_List'Range loop
         if Names.Image (Here.Entry_List (Place).Name) = Name then
            return Place;
         end if;
      end loop;
      return 0;
   end Declared;

   --  The entry that the word names, a member of a family by `Name(Index)`.
   function Named (Word : String) return Target is
      Open    : Natural := Word'First;
      Place   : Natural;
      Indexed : Boolean;
      Index   : Integer := 0;
   begin
      while Open <= Word'Last and then Word (Open) /= '(' loop
         Open := Open + 1;
      end loop;
      Indexed := Open <= Word'Last;
      if Indexed then
         Index := Integer'Value (Word (Open + 1 .. Word'Last - 1));
      end if;
      Place := Declared (Word (Word'First .. Open - 1));
      Refuse_If (Place = 0, 1);
      Refuse_If (not Here.Entry_List (Place).Public, 2);
      Refuse_If (Indexed /= (Here.Entry_List (Place).Members > 0), 3);
      Refuse_If (Indexed and then Index not in 1 .. Here.Entry_List (Place).Members, 3);
      Refuse_If (Here.Finalized, 7);
      return (Here.Entry_List (Place).Name, Index);
   end Named;

   --------------
   -- Commands --
   --------------

   --  `unit`: makes an object.
   procedure Make_Unit (Line : String) is
      Name : constant String := Scripts.Word (Line, 2);
      Size : constant String := Scripts.Word (Line, 3);
   begin
      Here        := new Known_Object;
      Here.Object :=
        Made (Name, (if Size'Length > 0 and then Size (Size'First) in '0' .. '9' then Positive'Value (Size) else 1));
      Here.Entry_List     := new Declarations'(Here.Object.Entries);
      Here.Procedure_Name := To_Unbounded_String (Here.Object.Procedure_Name);
      Objects.Append (Here);
   end Make_Unit;

   --  `by`: the following commands are those of this caller, about this object.
   procedure Turn_To (Caller, Object : Positive) is
   begin
      Callers.Act_As (Caller);
      Here := Objects (Object);
   end Turn_To;

   --  `call`, `cond` and `timed`: a task makes the call. A timed call whose deadline is past may be queued for a moment.
   procedure Make_Call (To : String; How : Manner; Item : String; Is_Past : Boolean := False) is
      Its_Entry : constant Target := Named (To);
   begin
      Write ("#", Value (Callers.Made + 1));
      Callers.Start (Here.Object, Its_Entry, How, Value'Value (Item));
      if Is_Past then
         Wait_For_End (Callers.Made);
      end if;
      Settle;
   end Make_Call;

   --  `proc`.
   procedure Run_Procedure (Name : String; Item : Value) is
      Result : Value := Item;
   begin
      Refuse_If (Name /= To_String (Here.Procedure_Name), 4);
      Refuse_If (Here.Finalized, 7);
      begin
         Callers.Run (Here.Object, Result);
         Write ("done ", Result);
      exception
         when Occurrence : Failure =>
            Write ("raised ", Value'Value (Exception_Message (Occurrence)));
      end;
      Settle;
   end Run_Procedure;

   --  `func`.
   procedure Call_Function (Name : String) is
   begin
      Refuse_If (Name /= "State", 4);
      Refuse_If (Here.Finalized, 7);
      Write ("value ", Here.Object.State);
   end Call_Function;

   --  `cancel`: a call that hasn't ended after a step of time counts as kept.
   procedure Cancel (Number : Value) is
   begin
      Refuse_If (Number = 0 or else Number > Value (Callers.Made), 5);
      Refuse_If (Ends.Is_Told (Positive (Number)), 6);
      Callers.Attempt_To_Cancel (Positive (Number));
      Wait_For_End (Positive (Number));
      if not Ends.Is_Told (Positive (Number)) then
         Put_Line ("kept");
      end if;
      Settle;
   end Cancel;

   --  `abort`: the same for the call of a caller, if it waits.
   procedure Abort_Caller (Number : Positive) is
      Its_Call : constant Natural := Callers.Last_Call (Number);
   begin
      if Its_Call > 0 and then not Ends.Is_Told (Its_Call) then
         Cancel (Value (Its_Call));
      end if;
   end Abort_Caller;

   --  `tick`: waits until the deadlines that it makes due have come and gone.
   procedure Tick (Line : Positive; To : Value) is
   begin
      Refuse_If (Here.Finalized, 7);
      Here.Clock := Value'Max (Here.Clock, To);
      Write ("clock ", Here.Clock);
      if Deadlines.Has_Due (Line) then
         if Clock > Deadlines.Start_Of_Tick (Line) then
            raise Too_Late;
         end if;
         delay until Deadlines.End_Of_Tick (Line);
      end if;
      Settle;
   end Tick;

   --  `final`: an object that is deallocated is finalized first.
   procedure Finalize is
   begin
      Refuse_If (Here.Finalized, 7);
      Put_Line ("final");
      Free (Here.Object);
      Here.Finalized := True;
      Settle (Finalizing => True);
   end Finalize;

   --  `show`.
   procedure Show is
      Queued : constant Counts := (if Here.Finalized then [1 .. 1_026 => 0] else Here.Object.Waiting);
      Place  : Positive := Queued'First;
   begin
      for Its_Entry of Here.Entry_List.all loop
         for Member in (if Its_Entry.Members = 0 then 0 else 1) .. Its_Entry.Members loop
            Write
              (Names.Image (Its_Entry.Name) & (if Member = 0 then " " else "(" & Image (Value (Member)) & ") "),
               Value (Queued (Place)));
            Place := Place + 1;
         end loop;
      end loop;
      Write ("clock ", Here.Clock);
      Write ("next ", Value (Callers.Made + 1));
   end Show;

   --  Carries out the command on that line.
   procedure Carry_Out_Line (Script : Scripts.Line_Vectors.Vector; Line : Positive) is
      Text    : constant String := Script (Line);
      Command : constant String := Scripts.Word (Text, 1);
      function Word (Place : Positive) return String is (Scripts.Word (Text, Place));
   begin
      if Command = "unit" then
         Make_Unit (Text);
      elsif Command = "by" then
         Turn_To (Positive'Value (Word (2)), Positive'Value (Word (3)));
      elsif Command = "call" then
         Make_Call (Word (2), (Kind => Simple, others => <>), Word (3));
      elsif Command = "cond" then
         Make_Call (Word (2), (Kind => Conditional, others => <>), Word (3));
      elsif Command = "timed" then
         Make_Call (Word (3), (Timed, Deadlines.Of_Call (Line)), Word (4), Deadlines.Is_Past (Line));
      elsif Command = "proc" then
         Run_Procedure (Word (2), Value'Value (Word (3)));
      elsif Command = "func" then
         Call_Function (Word (2));
      elsif Command = "cancel" then
         Cancel (Value'Value (Word (2)));
      elsif Command = "abort" then
         Abort_Caller (Positive'Value (Word (2)));
      elsif Command = "tick" then
         Tick (Line, Value'Value (Word (2)));
      elsif Command = "final" then
         Finalize;
      else
         Show;
      end if;
   exception
      when Occurrence : Refused =>
         Write ("refused ", Value'Value (Exception_Message (Occurrence)));
   end Carry_Out_Line;

   procedure Carry_Out (Script : Scripts.Line_Vectors.Vector; Step_In_Milliseconds : Positive) is
   begin
      Step := Milliseconds (Step_In_Milliseconds);
      Deadlines.Plan (Script, Step);
      for Line in 1 .. Script.Last_Index loop
         Carry_Out_Line (Script, Line);
      end loop;
   exception
      when Callers.Waits =>
         --  The rest isn't possible in this order.
         null;
   end Carry_Out;

end Commands;
