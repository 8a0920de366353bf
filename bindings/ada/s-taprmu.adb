--  SPDX-License-Identifier: MIT

with Interfaces.C;

package body System.Task_Primitives.Mutexes is

   use type Interfaces.C.int;
   use System.OS_Interface;

   Adaptive : constant := 3;
   --  PTHREAD_MUTEX_ADAPTIVE_NP

   function Set_Kind
     (Attributes : access pthread_mutexattr_t;
      Kind       : Interfaces.C.int) return Interfaces.C.int;
   pragma Import (C, Set_Kind, "pthread_mutexattr_settype");

   function Try (Mutex : access RTS_Lock) return Interfaces.C.int;
   pragma Import (C, Try, "pthread_mutex_trylock");

   ----------------------
   -- Is_Made_Adaptive --
   ----------------------

   function Is_Made_Adaptive (L : not null access Lock) return Boolean is
      Attributes : aliased pthread_mutexattr_t;
      Result     : Interfaces.C.int := 0;

   begin
      if pthread_mutexattr_init (Attributes'Access) /= 0 then
         return True;
      end if;

      if Set_Kind (Attributes'Access, Adaptive) = 0
        and then pthread_mutex_destroy (L.WO'Access) = 0
      then
         Result := pthread_mutex_init (L.WO'Access, Attributes'Access);
      end if;

      return pthread_mutexattr_destroy (Attributes'Access) = 0
        and then Result = 0;
   end Is_Made_Adaptive;

   --------------
   -- Is_Taken --
   --------------

   function Is_Taken (L : not null access Lock) return Boolean is
   begin
      return Try (L.WO'Access) = 0;
   end Is_Taken;

end System.Task_Primitives.Mutexes;
