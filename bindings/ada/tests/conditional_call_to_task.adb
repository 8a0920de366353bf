--  A conditional call is requeued without abort to a task, which accepts it later: it isn't cancelled (9.5.4, 9.7.3).

with Ada.Text_IO; use Ada.Text_IO;

procedure Conditional_Call_To_Task is

   task Server is
      entry Serve;
   end Server;

   protected P is
      entry Pass;
   end P;

   protected body P is
      entry Pass when True is
      begin
         requeue Server.Serve;
      end Pass;
   end P;

   task body Server is
   begin
      delay 0.1;

      select
         accept Serve;
      or
         delay 1.0;
      end select;
   end Server;

begin
   select
      P.Pass;
      Put_Line ("served");
   else
      Put_Line ("wrong: cancelled");
   end select;
end Conditional_Call_To_Task;
