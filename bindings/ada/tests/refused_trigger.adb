--  The trigger of an asynchronous select raises Program_Error because its object is finalized (9.4) or the task is inside a
--  protected action (9.5.1). Nothing else happens, and the task goes on (9.7.4).

pragma Detect_Blocking;

with Ada.Finalization; use Ada.Finalization;
with Ada.Text_IO;      use Ada.Text_IO;

procedure Refused_Trigger is

   protected type With_Entry is
      entry Pass;
      procedure Call_Other;
   end With_Entry;

   type Any_Object is access all With_Entry;

   Finalized : Any_Object;
   Alive     : With_Entry;

   procedure Call (Object : in out With_Entry) is
   begin
      select
         Object.Pass;
         Put_Line ("wrong, called");
      then abort
         Put_Line ("wrong, the abortable part begins");
      end select;
   end Call;

   protected body With_Entry is
      entry Pass when True is
      begin
         null;
      end Pass;

      procedure Call_Other is
      begin
         Call (Alive);
      end Call_Other;
   end With_Entry;

   type Later is new Limited_Controlled with null record;

   --  The calls are made after the object is finalized, while it still exists

   overriding procedure Finalize (Unused : in out Later) is
      task Caller;

      task body Caller is
      begin
         for Is_Inside in Boolean loop
            begin
               if Is_Inside then
                  Alive.Call_Other;
               else
                  Call (Finalized.all);
               end if;
            exception
               when Program_Error => Put_Line ("Program_Error");
            end;

            select
               delay 0.01;
               Put_Line ("the next one");
            then abort
               delay 10.0;
               Put_Line ("wrong, not aborted");
            end select;
         end loop;

         Alive.Pass;
         Put_Line ("end");
      end Caller;
   begin
      null;
   end Finalize;

   Calls  : Later;
   Object : aliased With_Entry;

begin
   Finalized := Object'Unchecked_Access;
   Finalized.Pass;
end Refused_Trigger;
