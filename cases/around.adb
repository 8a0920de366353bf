--  Two protected units in a package that has much besides which scripts don't read.
with Ada.Finalization; use Ada.Finalization;
limited private with Ada.Text_IO;
package Around is
   package IO renames Ada.Text_IO;
   type Lock is limited interface;
   type Shared is protected interface and Lock;
   procedure Take (Item : in out Shared) is abstract;
   Lost : exception renames IO.End_Error;
   type Handle is access protected procedure (A : Integer; B : Integer);
   type Node;
   type Link is access Node;
   type Node (Size : Positive; Deep : Boolean) is tagged limited record
      Next : Link;
      case Deep is
         when True => Left, Right : Link;
         when False => null;
      end case;
   end record;
   type Leaf is new Node with null record;
   type Money is delta 0.01 digits 9;
   type Angle is digits 6 range 0.0 .. 1.0E+2;
   subtype Small is Angle range 0.0 .. 1.5E-3;
   Pi, E : constant Float := 3.14159;
   Big : constant Angle := Angle'Last;
   package Links is new Ada.Containers.Vectors (Positive, Link);
   overriding procedure Finalize (Item : in out Leaf; By : access Node);
   not overriding function Length (Item : Leaf'Class) return Float is (Float (Item.Size) * 2.0);
   function Start return Link is abstract;
   procedure Copy is new Links.Copy_All (Link => Link, Deep => True);
   procedure Again renames Finalize;
   procedure Put_Line;
   protected Latch is
      entry Wait;
      procedure Open;
   private
      Is_Open : Boolean := False;
   end Latch;
   protected type Counter (Most : Positive) is
      entry Up;
      function State return Natural;
   private
      Now : Natural := 0;
   end Counter;
end Around;
package body Around is
   procedure Put_Line is
      package Numbers is new IO.Integer_IO (Integer);
      package Inner renames Numbers;
      type Handle is access protected procedure;
   begin
      Inner.Put (Limit);
   exception
      when E : others =>
         IO.Put_Line (Ada.Exceptions.Exception_Message (E));
   end Put_Line;
   Limit : constant := 2;
   overriding procedure Finalize (Item : in out Leaf; By : access Node) is
      Half : Float := 0.5;
   begin
      delay 0.25;
      Item.Next := By.Next;
   end Finalize;
   protected body Latch is
      entry Wait when Is_Open is
      begin
         Is_Open := Limit = 2;
      exception
         when Failure : Constraint_Error | Program_Error =>
            raise;
         when Others_Too : others =>
            null;
      end Wait;
      procedure Open is
      begin
         Is_Open := True;
      end Open;
   end Latch;
   protected body Counter is
      entry Up when Now < Most is
      begin
         Now := Now + 1;
      end Up;
      function State return Natural is (Now);
   end Counter;
   task body Runner is
   begin
      delay until Clock + 0.5;
   end Runner;
begin
   delay 1.0;
end Around;
