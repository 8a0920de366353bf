--  A counting semaphore, whose holders are counted too.
--  SPDX-License-Identifier: MIT

Not_Held : exception;

protected type Semaphore (Initial : Natural := 1) is
   entry Acquire;
   procedure Release;
   procedure Try_Acquire (Acquired : out Boolean);
   function Available return Natural;
private
   Permits : Natural := Initial;
   Held    : Natural := 0;
end Semaphore;

protected body Semaphore is

   entry Acquire when Permits > 0 is
   begin
      Permits := Permits - 1;
      Held := Held + 1;
   end Acquire;

   procedure Release is
   begin
      if Held = 0 then
         raise Not_Held;
      end if;
      Held := Held - 1;
      Permits := Permits + 1;
   end Release;

   procedure Try_Acquire (Acquired : out Boolean) is
   begin
      --  A caller that waits comes first.
      Acquired := Permits > 0 and then Acquire'Count = 0;
      if Acquired then
         Permits := Permits - 1;
         Held := Held + 1;
      end if;
   end Try_Acquire;

   function Available return Natural is (Permits);

end Semaphore;
