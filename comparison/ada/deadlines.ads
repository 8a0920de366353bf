--  The clock of a script is moved by hand, but that of a timed entry call isn't. So the script is read ahead, and each of its
--  ticks gets a moment of real time, with enough time before it to carry out the lines above. A timed call gets the real time
--  of the tick that makes it due. If one tick makes several calls due, they come one after the other in the order of the
--  script, with a step of time between them, so that each cancellation is over before the next. The standard says nothing of
--  their order, and the tasks couldn't keep any other.
with Ada.Real_Time; use Ada.Real_Time;
with Scripts;

package Deadlines is

   --  Sets the real times of the script's deadlines. The script begins now.
   procedure Plan (Script : Scripts.Line_Vectors.Vector; Step : Time_Span);

   --  The deadline of the timed call on that line.
   function Of_Call (Line : Positive) return Time;

   --  Whether the time of the timed call on that line has come before the call is made.
   function Is_Past (Line : Positive) return Boolean;

   --  Whether the tick on that line makes calls due.
   function Has_Due (Line : Positive) return Boolean;

   --  A time before the first deadline that comes by the tick on that line.
   function Start_Of_Tick (Line : Positive) return Time;

   --  A time after the last one.
   function End_Of_Tick (Line : Positive) return Time;

end Deadlines;
