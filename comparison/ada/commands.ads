--  The commands of a script, one after the other. Each begins when all tasks are at rest after the one before it.
with Scripts;

package Commands is

   --  Raised if the lines before a tick took so long that its deadlines may have come before it.
   Too_Late : exception;

   --  Writes the answers to standard output. The script has to be one that pobj carries out, in textual order, without a limit
   --  of its queues. That of a scene has a line `unit` for each object, `by CALLER OBJECT` before each command of that caller
   --  about that object, both as numbers, and `abort CALLER`. It ends at a command of a caller whose call waits.
   procedure Carry_Out (Script : Scripts.Line_Vectors.Vector; Step_In_Milliseconds : Positive);

end Commands;
