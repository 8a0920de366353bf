--  SPDX-License-Identifier: MIT
--  This program hangs: the task Getter takes the one value that was put, and
--  then waits for another that nobody puts. With POBJ_TRACE=FILE set, it keeps
--  a record, and `pobj trace FILE` says: getter waits on get(#2).

procedure Hangs is

   protected Buffer is
      entry Get (1 .. 2) (Value : out Integer);
      procedure Put (Value : Integer);
      entry Fail;
   private
      Held    : Integer := 0;
      Is_Full : Boolean := False;
   end Buffer;

   protected body Buffer is
      entry Get (for Which in 1 .. 2) (Value : out Integer)
        when Is_Full and then Which = 2 is
      begin
         Value := Held;
         Is_Full := False;
      end Get;

      procedure Put (Value : Integer) is
      begin
         Held := Value;
         Is_Full := True;
      end Put;

      entry Fail when True is
      begin
         raise Constraint_Error;
      end Fail;
   end Buffer;

   task Getter;

   task body Getter is
      Value : Integer;
   begin
      Buffer.Put (1);
      Buffer.Get (2) (Value);

      select
         Buffer.Get (1) (Value);
      else
         begin
            Buffer.Fail;
         exception
            when Constraint_Error =>
               Buffer.Get (2) (Value);
         end;
      end select;
   end Getter;

begin
   null;
end Hangs;
