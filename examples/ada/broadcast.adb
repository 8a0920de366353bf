--  A broadcast: Send releases all tasks that wait in Receive at that time, each with the message.
--  SPDX-License-Identifier: MIT

type Value is mod 2 ** 64;

protected type Broadcast is
   entry Receive (Item : in out Value);
   procedure Send (Item : in out Value);
   function State return Value;
private
   Arrived : Boolean := False;
   Message : Value := 0;
end Broadcast;

protected body Broadcast is
   entry Receive (Item : in out Value) when Arrived is
   begin
      if Receive'Count = 0 then
         Arrived := False;
      end if;
      Item := Message;
   end Receive;

   procedure Send (Item : in out Value) is
   begin
      Message := Item;
      if Receive'Count > 0 then
         Arrived := True;
      end if;
   end Send;

   function State return Value is (Message);
end Broadcast;
