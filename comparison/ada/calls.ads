--  A call as the bodies of the protected objects see it: its number in the script, and the one value that it carries.
package Calls is

   type Value is mod 2 ** 64;

   type Call is record
      Number : Positive;
      Item   : Value;
   end record;

end Calls;
