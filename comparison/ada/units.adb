with Units.Allocators;
with Units.Broadcasts;
with Units.Buffers;
with Units.Meetings;
with Units.Pulses;
with Units.Relays;
with Units.Signals;
with Units.Traps;

package body Units is

   function Made (Name : String; Size : Positive) return not null Unit_Access is
   begin
      if Name = "buffer" then
         return new Buffers.Buffer_Unit (Size);
      elsif Name = "signal" then
         return new Signals.Signal_Unit;
      elsif Name = "broadcast" then
         return new Broadcasts.Broadcast_Unit;
      elsif Name = "pulse" then
         return new Pulses.Pulse_Unit;
      elsif Name = "meeting" then
         return new Meetings.Meeting_Unit (Size);
      elsif Name = "allocator" then
         return new Allocators.Allocator_Unit (Size);
      elsif Name = "relay" then
         return new Relays.Relay_Unit;
      elsif Name = "trap" then
         return new Traps.Trap_Unit;
      end if;
      raise No_Such_Unit with Name;
   end Made;

end Units;
