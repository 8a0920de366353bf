--  A conditional call on an entry that is closed, and opens when its queue counts enough calls.
--
--  9.7.3: a conditional call is cancelled unless it is selected immediately. The standard leaves open whether it is queued,
--  and counted, for a moment: its note says that the call may briefly increase Count. So both outputs are allowed; the one
--  beside this program is that of an entry that counts the call.
--
--  Prints what came of the conditional calls, how many wait, and how many were served.
with Ada.Text_IO; use Ada.Text_IO;

procedure Conditional_Call_Counts is

   protected Meeting is
      entry Meet;
      function Waiting return Natural;
      function Gone return Natural;
   private
      Leaving : Boolean := False;
      Number  : Natural := 0;
   end Meeting;

   protected body Meeting is

      entry Meet when Leaving or else Meet'Count = 2 is
      begin
         Leaving := Meet'Count > 0;
         Number := Number + 1;
      end Meet;

      function Waiting return Natural is (Meet'Count);

      function Gone return Natural is (Number);

   end Meeting;

   procedure Try is
   begin
      select
         Meeting.Meet;
         Put_Line ("selected, gone" & Meeting.Gone'Image & ", waiting" & Meeting.Waiting'Image);
      else
         Put_Line ("cancelled, gone" & Meeting.Gone'Image & ", waiting" & Meeting.Waiting'Image);
      end select;
   end Try;

   task type Visitor;

   task body Visitor is
   begin
      Meeting.Meet;
   end Visitor;

begin
   Try;
   declare
      The_Visitor : Visitor;
   begin
      while Meeting.Waiting = 0 loop
         delay 0.001;
      end loop;
      Try;
      --  It may still wait.
      select
         Meeting.Meet;
      or
         delay 0.02;
      end select;
   end;
end Conditional_Call_Counts;
