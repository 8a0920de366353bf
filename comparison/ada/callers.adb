with Ada.Exceptions;
with Ends;

package body Callers is

   --  A call that a task has to make.
   type Order is record
      Object : Unit_Access;
      To     : Target;
      How    : Manner;
      Item   : Call;
   end record;

   --  Takes its orders one after the other.
   task type Caller with
     Storage_Size => 65_536
   is
      --  Makes the call, after the rendezvous. After its last order the task ends.
      entry Enter (Given : Order; Is_Last : Boolean);

      --  Runs the procedure in the rendezvous.
      entry Run (Object : not null Unit_Access; Item : in out Value);
   end Caller;

   type Caller_Access is access Caller;

   --  A caller of a scene: its task, and its last call.
   type Caller_Of_Scene is record
      Its_Task : Caller_Access;
      Its_Call : Natural := 0;
   end record;

   package Caller_Vectors is new Ada.Containers.Vectors (Positive, Caller_Access);
   package Scene_Vectors is new Ada.Containers.Vectors (Positive, Caller_Of_Scene);
   package Number_Vectors is new Ada.Containers.Vectors (Positive, Positive);

   --  The tasks, each at the place of its call's number.
   Tasks : Caller_Vectors.Vector;

   --  The callers of a scene, and the number of the present one, or 0 if there is no scene.
   Scene   : Scene_Vectors.Vector;
   Present : Natural := 0;

   --  The numbers of the calls whose tasks were aborted and aren't known to be gone.
   Aborted : Number_Vectors.Vector;

   --  Makes the call, and tells its end.
   procedure Make_Call (Its_Order : Order) is
      Item     : Call := Its_Order.Item;
      Selected : Boolean;
   begin
      Its_Order.Object.Enter (Its_Order.To, Its_Order.How, Item, Selected);
      Ends.Tell ((Item.Number, (if Selected then Ends.Completed else Ends.Cancelled), Item.Item));
   exception
      when Occurrence : Failure =>
         Ends.Tell ((Item.Number, Ends.Raised, Value'Value (Ada.Exceptions.Exception_Message (Occurrence))));
      when Program_Error =>
         Ends.Tell ((Item.Number, Ends.Program_Error_Raised, 0));
   end Make_Call;

   task body Caller is
      Its_Order : Order;
      Has_Ended : Boolean := False;
   begin
      while not Has_Ended loop
         begin
            select
               accept Enter (Given : Order; Is_Last : Boolean) do
                  Its_Order := Given;
                  Has_Ended := Is_Last;
               end Enter;
               Make_Call (Its_Order);
            or
               accept Run (Object : not null Unit_Access; Item : in out Value) do
                  Object.Run (Item);
               end Run;
            end select;
         exception
            when Failure =>
               --  The rendezvous has handed it on.
               null;
         end;
      end loop;
   end Caller;

   --  The task of the present caller, or a new one for a single call.
   function Present_Task return not null Caller_Access is
   begin
      if Present = 0 then
         return new Caller;
      end if;
      if Scene (Present).Its_Task = null then
         Scene (Present).Its_Task := new Caller;
      end if;
      return Scene (Present).Its_Task;
   end Present_Task;

   procedure Act_As (Number : Positive) is
      Its_Call : constant Natural := Last_Call (Number);
   begin
      if Its_Call > 0 and then not Ends.Is_Told (Its_Call) then
         raise Waits;
      end if;
      while Scene.Last_Index < Number loop
         Scene.Append (Caller_Of_Scene'(others => <>));
      end loop;
      Present := Number;
   end Act_As;

   function Last_Call (Number : Positive) return Natural is
     (if Number > Scene.Last_Index then 0 else Scene (Number).Its_Call);

   procedure Start (Object : not null Unit_Access; To : Target; How : Manner; Item : Value) is
      Its_Task : constant not null Caller_Access := Present_Task;
   begin
      Tasks.Append (Its_Task);
      if Present > 0 then
         Scene (Present).Its_Call := Made;
      end if;
      Its_Task.Enter ((Object, To, How, (Made, Item)), Is_Last => Present = 0);
   end Start;

   procedure Run (Object : not null Unit_Access; Item : in out Value) is
   begin
      if Present = 0 then
         Object.Run (Item);
      else
         Present_Task.Run (Object, Item);
      end if;
   end Run;

   function Made return Natural is (Natural (Tasks.Length));

   procedure Attempt_To_Cancel (Number : Positive) is
   begin
      abort Tasks (Number).all;
      for One of Scene loop
         if One.Its_Task = Tasks (Number) then
            One.Its_Task := null;
         end if;
      end loop;
      if not Aborted.Contains (Number) then
         Aborted.Append (Number);
      end if;
   end Attempt_To_Cancel;

   procedure Tell_For_Aborted (Otherwise_Finalized : Boolean) is
      Left : Number_Vectors.Vector;
   begin
      for Number of Aborted loop
         if not Tasks (Number).all'Terminated then
            Left.Append (Number);
         elsif not Ends.Is_Told (Number) then
            Ends.Tell_For_Aborted
              (Number, (if Otherwise_Finalized then Ends.Program_Error_Raised else Ends.Cancelled));
         end if;
      end loop;
      Aborted := Left;
   end Tell_For_Aborted;

end Callers;
