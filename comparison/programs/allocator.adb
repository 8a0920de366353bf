--  An allocator of three units. Request, which is always open, requeues each call with abort to the member of Grant that
--  is open when there are enough units: the classic use of requeue, as in the standard's examples.
--
--  9.5.4: the requeue completes the body of Request, and passes the parameter on. 9.5.2: the barrier of a member of a family
--  may use its index. 9.5.3: each release is a protected action, and grants what has become possible.
--
--  Prints how many requests were granted and given back, the most units ever in use, and how many units are free and how many
--  calls wait at the end.
with Ada.Text_IO; use Ada.Text_IO;

procedure Allocator is

   Each : constant := 1_500;

   subtype Amount is Integer range 1 .. 3;

   protected Units is
      entry Request (Wanted : Amount);
      procedure Release (Given : Amount);
      function Granted return Natural;
      function Returned return Natural;
      function Most return Natural;
      function Left return Integer;
      function Waiting return Natural;
   private
      entry Grant (Amount) (Wanted : Amount);
      Free        : Integer := Amount'Last;
      Grants      : Natural := 0;
      Returns     : Natural := 0;
      Most_In_Use : Natural := 0;
   end Units;

   protected body Units is

      entry Request (Wanted : Amount) when True is
      begin
         requeue Grant (Wanted) with abort;
      end Request;

      entry Grant (for Size in Amount) (Wanted : Amount) when Free >= Size is
      begin
         Free := Free - Wanted;
         Grants := Grants + 1;
         Most_In_Use := Natural'Max (Most_In_Use, Amount'Last - Free);
      end Grant;

      procedure Release (Given : Amount) is
      begin
         Free := Free + Given;
         Returns := Returns + 1;
      end Release;

      function Granted return Natural is (Grants);

      function Returned return Natural is (Returns);

      function Most return Natural is (Most_In_Use);

      function Left return Integer is (Free);

      function Waiting return Natural is
        (Request'Count + Grant (1)'Count + Grant (2)'Count + Grant (3)'Count);

   end Units;

   task type User (Number : Natural);

   task body User is
      Wanted : Amount;
   begin
      for Turn in 1 .. Each loop
         Wanted := 1 + (Number + Turn) mod 3;
         Units.Request (Wanted);
         Units.Release (Wanted);
      end loop;
   end User;

begin
   declare
      User_1 : User (1);
      User_2 : User (2);
      User_3 : User (3);
      User_4 : User (4);
      User_5 : User (5);
      User_6 : User (6);
   begin
      null;
   end;
   Put_Line ("granted" & Units.Granted'Image);
   Put_Line ("given back" & Units.Returned'Image);
   Put_Line ("most in use" & Units.Most'Image);
   Put_Line ("free" & Units.Left'Image);
   Put_Line ("waiting" & Units.Waiting'Image);
end Allocator;
