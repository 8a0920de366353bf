--  A task that is aborted in a delay statement does nothing more after it, whatever the clock (9.6, 9.8). A delay in Finalize
--  waits for its time even if its task was aborted, as aborts are deferred (9.8).

with Ada.Calendar;     use Ada.Calendar;
with Ada.Finalization; use Ada.Finalization;
with Ada.Real_Time;
with Ada.Text_IO;      use Ada.Text_IO;

procedure Delay_Of_Aborted_Task is

   type Kind is (Relative, Until_Time, Until_Real_Time);

   procedure Wait (How : Kind; Length : Duration) is
      use type Ada.Real_Time.Time;
   begin
      case How is
         when Relative => delay Length;
         when Until_Time => delay until Clock + Length;
         when Until_Real_Time => delay until Ada.Real_Time.Clock + Ada.Real_Time.To_Time_Span (Length);
      end case;
   end Wait;

   Is_Ending : Boolean := False with Atomic;
   Goes_On   : Boolean := False with Atomic;

   type Slow (How : Kind) is new Limited_Controlled with null record;

   overriding procedure Finalize (Object : in out Slow) is
      Start : constant Time := Clock;
   begin
      Is_Ending := True;
      Wait (Object.How, 0.1);
      Put_Line (if Clock - Start >= 0.099 then "waited" else "wrong, didn't wait");
   end Finalize;

begin
   for How in Kind loop
      declare
         task Waiter;

         task body Waiter is
         begin
            Wait (How, 10.0);
            Goes_On := True;
         end Waiter;
      begin
         delay 0.02;
         abort Waiter;
      end;

      Put_Line (if Goes_On then "wrong, goes on" else "aborted");

      for Is_Before in Boolean loop
         Is_Ending := False;

         declare
            task Ender;

            task body Ender is
               Object : Slow (How);
            begin
               if Is_Before then
                  delay 10.0;
               end if;
            end Ender;
         begin
            while not (Is_Before or Is_Ending) loop
               delay 0.01;
            end loop;

            delay 0.02;
            abort Ender;
         end;
      end loop;
   end loop;
end Delay_Of_Aborted_Task;
