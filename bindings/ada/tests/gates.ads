--  An object that is declared in the specification of a package.

package Gates is

   protected Gate is
      entry Pass;
      procedure Open;
      procedure Set (To_Open : Boolean);
   private
      Is_Open : Boolean := False;
   end Gate;

end Gates;
