--  An entry body, a procedure and a function of one object each call a procedure of a second one. This opens an entry whose
--  call is requeued to the first object. The call arrives there when the task is outside (9.5.1, 9.5.4), so no task waits for
--  itself. The same holds if the task is inside an object without entries that the requeued call uses.

with Ada.Text_IO; use Ada.Text_IO;
with GNAT.OS_Lib;

procedure Requeue_To_Object_Inside is

   protected Bare is
      procedure By_Procedure;
      procedure Use_It;
   private
      Uses : Natural := 0;
   end Bare;

   protected First is
      entry By_Entry;
      procedure By_Procedure;
      function By_Function return Boolean;
      entry Arrive;
   private
      Is_Inside : Boolean := False;
   end First;

   protected Second is
      entry Pass_On;
      procedure Open;
      function Waiting return Natural;
   private
      Is_Open : Boolean := False;
   end Second;

   protected body Bare is
      procedure By_Procedure is
      begin
         Second.Open;
      end By_Procedure;

      procedure Use_It is
      begin
         Uses := Uses + 1;
      end Use_It;
   end Bare;

   protected body First is
      entry By_Entry when True is
      begin
         Is_Inside := True;
         Second.Open;
         Is_Inside := False;
      end By_Entry;

      procedure By_Procedure is
      begin
         Is_Inside := True;
         Second.Open;
         Is_Inside := False;
      end By_Procedure;

      function By_Function return Boolean is
      begin
         Second.Open;
         return True;
      end By_Function;

      entry Arrive when True is
      begin
         if Is_Inside then
            Put_Line ("wrong: another task is inside");
         end if;

         Bare.Use_It;
      end Arrive;
   end First;

   protected body Second is
      entry Pass_On when Is_Open is
      begin
         Is_Open := False;
         requeue First.Arrive;
      end Pass_On;

      procedure Open is
      begin
         Is_Open := True;
      end Open;

      function Waiting return Natural is (Pass_On'Count);
   end Second;

   procedure Make_Call (How : Positive) is
      task Caller;

      task body Caller is
      begin
         Second.Pass_On;
      end Caller;

   begin
      while Second.Waiting = 0 loop
         delay 0.001;
      end loop;

      case How is
         when 1      => First.By_Entry;
         when 2      => First.By_Procedure;
         when 3      => Bare.By_Procedure;
         when others =>
            if not First.By_Function then
               Put_Line ("wrong: the function");
            end if;
      end case;

      for Try in 1 .. 1_000 loop
         exit when Caller'Terminated;
         delay 0.002;
      end loop;

      if not Caller'Terminated then
         Put_Line ("wrong: the call doesn't arrive");
         GNAT.OS_Lib.OS_Exit (1);
      end if;
   end Make_Call;

   task Watch;

   task body Watch is
   begin
      delay 10.0;
      Put_Line ("wrong: a task waits for itself");
      GNAT.OS_Lib.OS_Exit (1);
   end Watch;

begin
   for How in 1 .. 4 loop
      Make_Call (How);
      Put_Line ("arrives" & How'Image);
   end loop;

   GNAT.OS_Lib.OS_Exit (0);
end Requeue_To_Object_Inside;
