--  A bounded queue with two levels: urgent messages are taken first, and those of one level in the order of their arrival.
--  SPDX-License-Identifier: MIT

package Queues is

   type Message is mod 2 ** 16;
   type Level is (Urgent, Normal);
   type Place is mod 4;
   type Message_Array is array (Place) of Message;

   type Ring is record
      Messages : Message_Array := (others => 0);
      First    : Place := 0;
      Length   : Natural := 0;
   end record;
   type Ring_Array is array (Level) of Ring;

   protected type Priority_Queue (Most : Positive := 4) is
      entry Put_Urgent (M : in Message);
      entry Put (M : in Message);
      entry Get (M : out Message; From : out Level);
      procedure Flush (Of_Level : in Level; Check : out Message);
      function Length (Of_Level : Level) return Natural;
   private
      procedure Append (To : in Level; M : in Message);
      function Has_Room (Of_Level : Level) return Boolean;
      Rings : Ring_Array;
   end Priority_Queue;

end Queues;

package body Queues is

   protected body Priority_Queue is

      function Has_Room (Of_Level : Level) return Boolean is
        (Rings (Of_Level).Length < Integer'Min (Most, Message_Array'Length));

      procedure Append (To : in Level; M : in Message) is
      begin
         Rings (To).Messages (Rings (To).First + Place (Rings (To).Length)) := M;
         Rings (To).Length := Rings (To).Length + 1;
      end Append;

      entry Put_Urgent (M : in Message) when Has_Room (Urgent) is
      begin
         Append (Urgent, M);
      end Put_Urgent;

      entry Put (M : in Message) when Has_Room (Normal) is
      begin
         Append (Normal, M);
      end Put;

      entry Get (M : out Message; From : out Level) when (for some L in Level => Rings (L).Length > 0) is
      begin
         Search :
         for L in Level loop
            if Rings (L).Length > 0 then
               M := Rings (L).Messages (Rings (L).First);
               From := L;
               Rings (L).First := Rings (L).First + 1;
               Rings (L).Length := Rings (L).Length - 1;
               exit Search;
            end if;
         end loop Search;
      end Get;

      --  Takes all messages of the level out. Check is what they give by "exclusive or".
      procedure Flush (Of_Level : in Level; Check : out Message) is
      begin
         Check := 0;
         loop
            exit when Rings (Of_Level).Length = 0;
            declare
               First : constant Place := Rings (Of_Level).First;
            begin
               Check := Check xor Rings (Of_Level).Messages (First);
               Rings (Of_Level).First := First + 1;
               Rings (Of_Level).Length := Rings (Of_Level).Length - 1;
            end;
         end loop;
      end Flush;

      function Length (Of_Level : Level) return Natural is (Rings (Of_Level).Length);

   end Priority_Queue;

end Queues;
