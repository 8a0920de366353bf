--  The names of entries.
package Names is

   type Entry_Name is
     (Put, Get, Wait, Receive, Signal, Reset, Request, Claim, Grant, First, Second, Third, Fail, Exact);

   --  The name as scripts write it: a capital letter, then small ones.
   function Image (Name : Entry_Name) return String;

end Names;
