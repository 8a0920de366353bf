--  A barrier raises an exception: when a call arrives, when a procedure has changed what it reads, after a body, and while
--  calls wait on other entries too.
--
--  9.5.3: if the evaluation of a barrier raises, all calls that are queued on the object, on any entry, raise Program_Error.
--  The object isn't harmed: later calls are served as before.
--
--  Prints which calls were served (S) and which got Program_Error (P), and that the object still serves calls afterwards.
with Ada.Exceptions;
with Ada.Text_IO; use Ada.Text_IO;

procedure Barrier_That_Raises is

   Failure : exception;

   type Gate_State is (Closed, Opened, Broken);

   function Is_Open (State : Gate_State) return Boolean is
     (case State is
        when Closed => False,
        when Opened => True,
        when Broken => raise Failure with "the barrier's own");

   protected Gates is
      entry Left;
      entry Right;
      entry Break;
      procedure Set (The_Left, The_Right : Gate_State);
      function Waiting return Natural;
   private
      Left_State, Right_State : Gate_State := Closed;
   end Gates;

   protected body Gates is

      entry Left when Is_Open (Left_State) is
      begin
         null;
      end Left;

      entry Right when Is_Open (Right_State) is
      begin
         null;
      end Right;

      entry Break when True is
      begin
         Right_State := Broken;
      end Break;

      procedure Set (The_Left, The_Right : Gate_State) is
      begin
         Left_State := The_Left;
         Right_State := The_Right;
      end Set;

      function Waiting return Natural is (Left'Count + Right'Count);

   end Gates;

   Ends : array (1 .. 4) of Character with Atomic_Components;

   --  The odd ones on Left, the even ones on Right.
   task type Caller (Number : Positive);

   task body Caller is
   begin
      if Number mod 2 = 1 then
         Gates.Left;
      else
         Gates.Right;
      end if;
      Ends (Number) := 'S';
   exception
      when Program_Error =>
         Ends (Number) := 'P';
      when others =>
         Ends (Number) := '?';
   end Caller;

   type Caller_Access is access Caller;

   Callers : array (1 .. 4) of Caller_Access;

   procedure Start is
   begin
      Ends := [others => '-'];
      Gates.Set (Closed, Closed);
      for Number in Callers'Range loop
         Callers (Number) := new Caller (Number);
         while Gates.Waiting < Number loop
            delay 0.001;
         end loop;
      end loop;
   end Start;

   procedure Say (What : String) is
   begin
      for Caller of Callers loop
         while not Caller.all'Terminated loop
            delay 0.001;
         end loop;
      end loop;
      Put_Line (What & ": " & Ends (1) & Ends (2) & Ends (3) & Ends (4) & ", waiting" & Gates.Waiting'Image);
   end Say;

begin
   --  When a call arrives, and none waits.
   Gates.Set (Broken, Closed);
   begin
      Gates.Left;
      Put_Line ("WRONG: served");
   exception
      when Occurrence : others =>
         Put_Line ("alone: " & Ada.Exceptions.Exception_Name (Occurrence));
   end;
   --  An entry whose barrier isn't evaluated while no call needs it.
   Gates.Set (Broken, Opened);
   Gates.Right;
   Put_Line ("the other entry serves");

   Start;
   Gates.Set (Closed, Broken);
   Say ("procedure");

   Start;
   Gates.Break;
   Say ("body");

   --  The caller whose body broke the barrier was served itself.
   Gates.Set (Closed, Closed);
   Start;
   Gates.Set (Opened, Opened);
   Say ("afterwards");

   --  A conditional and a timed call, whose own barrier raises.
   Gates.Set (Closed, Broken);
   begin
      select
         Gates.Right;
         Put_Line ("WRONG: served");
      else
         Put_Line ("WRONG: cancelled");
      end select;
   exception
      when Program_Error =>
         Put_Line ("conditional: Program_Error");
   end;
   begin
      select
         Gates.Right;
         Put_Line ("WRONG: served");
      or
         delay 60.0;
      end select;
   exception
      when Program_Error =>
         Put_Line ("timed: Program_Error");
   end;
end Barrier_That_Raises;
