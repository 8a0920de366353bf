--  A call raises Program_Error because its object is finalized (9.4) or the task is inside it (9.5.1). Afterwards the task can
--  still be aborted (9.8).

pragma Detect_Blocking;

with Ada.Finalization; use Ada.Finalization;
with Ada.Text_IO;      use Ada.Text_IO;

procedure Abort_After_Refused_Call is

   protected type With_Entry is
      entry Pass;
      procedure Again;
      function Value return Integer;
   end With_Entry;

   protected Inner is
      procedure Again;
      procedure Look;
      function Value return Integer;
   end Inner;

   type Any_Object is access all With_Entry;

   Finalized : Any_Object;
   Alive     : aliased With_Entry;

   protected body With_Entry is
      entry Pass when True is
      begin
         null;
      end Pass;

      procedure Again is
      begin
         Any_Object'(Alive'Unchecked_Access).Again;
      end Again;

      function Value return Integer is (1);
   end With_Entry;

   procedure Again is
   begin
      Inner.Again;
   end Again;

   procedure Look is
   begin
      if Inner.Value = 1 then
         Put_Line ("wrong, no Program_Error");
      end if;
   end Look;

   protected body Inner is
      procedure Again is
      begin
         Abort_After_Refused_Call.Again;
      end Again;

      procedure Look is
      begin
         Abort_After_Refused_Call.Look;
      end Look;

      function Value return Integer is (1);
   end Inner;

   procedure Call (How : Integer) is
   begin
      case How is
         when 1 => Finalized.Pass;
         when 2 => select Finalized.Pass; or delay 1.0; end select;
         when 3 => select Finalized.Pass; else null; end select;
         when 4 => Finalized.Again;
         when 5 => Put_Line (Integer'Image (Finalized.Value));
         when 6 => Alive.Again;
         when 7 => Inner.Again;
         when others => Inner.Look;
      end case;

      Put_Line (How'Image & " wrong, no Program_Error");
   exception
      when Program_Error => null;
   end Call;

   type Later is new Limited_Controlled with null record;

   --  The calls are made after the object is finalized, while it still exists

   overriding procedure Finalize (Unused : in out Later) is
   begin
      for How in 1 .. 8 loop
         declare
            task Caller is
               entry Has_Called;
            end Caller;

            task body Caller is
            begin
               Call (How);
               accept Has_Called;
               delay 10.0;
               Put_Line (How'Image & " wrong, goes on after its abort");
            end Caller;
         begin
            Caller.Has_Called;
            abort Caller;
         end;
      end loop;

      Put_Line ("end");
   end Finalize;

   Calls  : Later;
   Object : aliased With_Entry;

begin
   Finalized := Object'Unchecked_Access;
end Abort_After_Refused_Call;
