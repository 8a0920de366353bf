--  SPDX-License-Identifier: MIT
--  The file is mapped into memory, so that what is noted stays in it however
--  the program ends. A task takes the next free slot by adding to a counter,
--  and fills it, with no lock and no call of the system.

with Ada.Unchecked_Conversion;

with System.Tasking.Initialization;
with System.Traceback;
with System.Traceback_Entries;

package body System.Tasking.Protected_Objects.Traces is

   use Entries;
   use Interfaces;
   use System.Storage_Elements;
   use type Ada.Exceptions.Exception_Id;
   use type Interfaces.C.int;

   Queuing_Policy : constant Character;
   pragma Import (C, Queuing_Policy, "__gl_queuing_policy");

   No_More : constant String :=
     "the file that POBJ_TRACE names takes no more, or isn't a regular file:"
     & " the record ends";

   function To_Head is
     new Ada.Unchecked_Conversion (System.Address, Head_Access);

   function To_Address is new Ada.Unchecked_Conversion
     (Ada.Exceptions.Exception_Id, System.Address);

   function Add (To : System.Address; More : Word) return Word;
   pragma Import (Intrinsic, Add, "__sync_fetch_and_add_8");
   --  Adds at once, whatever other tasks do, and returns the value before

   Word_Bytes : constant := Standard'Address_Size / System.Storage_Unit;

   function Address_Of (Action : Entry_Action_Pointer) return Integer_Address
     is (To_Integer (Action.all'Address));

   function Mark_Of (Number : Word) return Half is
     (Half'Mod (2 * Number + 1));

   function Ring_Place (Number : Word) return System.Address is
     (Base + Storage_Offset
       (Head_Bytes + Slot_Bytes * (Number and (Ring - 1))));

   function Place (Number : Word) return System.Address is
     (Base + Storage_Offset (Head_Bytes + Slot_Bytes * (Ring + Number)));
   --  The address of a slot after the ring

   function Has_Slots (Count : Word) return Boolean is
     (Ring + Count <= Ready or else Has_Grown_To (Ring + Count));
   --  Whether the file has that many slots after the ring, or grows to them

   function Events_Now return Word is
     (if Ring > 0 then Opening.Events else Opening.Slots);
   --  The number of the next event

   ----------------
   -- Begin_Line --
   ----------------

   procedure Begin_Line (L : out Line; Word : String) is
   begin
      L.Last := 0;
      Put (L, Word & " ");
   end Begin_Line;

   ---------
   -- Put --
   ---------

   procedure Put (L : in out Line; Text : String) is
   begin
      for C of Text loop
         if L.Last < Room - 1 then
            L.Last := L.Last + 1;
            L.Text (L.Last) := C;
         end if;
      end loop;
   end Put;

   ----------------
   -- Put_Number --
   ----------------

   procedure Put_Number (L : in out Line; Number : Word) is
      Image : constant String := Number'Image;
   begin
      Put (L, Image (Image'First + 1 .. Image'Last));
   end Put_Number;

   -----------------
   -- Put_Address --
   -----------------

   procedure Put_Address (L : in out Line; Where : System.Address) is
      Digit : constant String := "0123456789abcdef";
      Rest  : Integer_Address := To_Integer (Where);
      Text  : String (1 .. 16);
   begin
      for C of reverse Text loop
         C := Digit (Integer (Rest mod 16) + 1);
         Rest := Rest / 16;
      end loop;

      Put (L, Text);
   end Put_Address;

   ------------------
   -- Begin_Object --
   ------------------

   procedure Begin_Object
     (L      : out Line;
      What   : String;
      Object : Protection_Entries_Access;
      Events : Word) is
   begin
      Begin_Line (L, What);
      Put_Address (L, Object.all'Address);
      Put (L, " ");
      Put_Number (L, Events);
   end Begin_Object;

   ---------------------
   -- Descriptor_Mark --
   ---------------------

   function Descriptor_Mark return Integer_Address is
      Calls : Natural := 0;
      pragma Volatile (Calls);

      procedure Nested (O, P : System.Address; E : Protected_Entry_Index);
      --  Uses a variable of this function, so it is given by a descriptor

      procedure Nested (O, P : System.Address; E : Protected_Entry_Index) is
         pragma Unreferenced (O, P, E);
      begin
         Calls := Calls + 1;
      end Nested;

   begin
      return Address_Of (Nested'Unrestricted_Access) mod Word_Bytes;
   end Descriptor_Mark;

   -------------
   -- Code_Of --
   -------------

   function Code_Of (Action : Entry_Action_Pointer) return System.Address is
      Mark  : constant Integer_Address := Descriptor_Mark;
      Where : constant Integer_Address := Address_Of (Action);
      Code  : System.Address;
      for Code'Address use To_Address (Where - Mark + Word_Bytes);
      pragma Import (Ada, Code);
   begin
      return (if (Where and Mark) = 0 then To_Address (Where) else Code);
   end Code_Of;

   -----------------
   -- Put_Program --
   -----------------

   procedure Put_Program (L : in out Line) is

      function C_Readlink
        (Path, Into : System.Address;
         Bytes      : Interfaces.C.size_t) return Interfaces.C.long;
      pragma Import (C, C_Readlink, "readlink");

      function C_Auxiliary
        (Which : Interfaces.C.unsigned_long) return System.Address;
      pragma Import (C, C_Auxiliary, "getauxval");

      Own     : constant String := "/proc/self/exe" & ASCII.NUL;
      Path    : String (1 .. 1_000);
      Length  : constant Integer :=
                  Integer (C_Readlink
                    (Own'Address, Path'Address, Path'Length));
      Headers : constant := 3;
      --  AT_PHDR: the address of the program's headers
   begin
      Put_Address (L, C_Auxiliary (Headers));
      Put (L, " " & Path (1 .. Length));
   end Put_Program;

   ---------
   -- Say --
   ---------

   procedure Say (Text : String) is

      procedure C_Write
        (File  : Interfaces.C.int;
         From  : System.Address;
         Bytes : Interfaces.C.size_t);
      pragma Import (C, C_Write, "write");

      Message : constant String := "pobj: " & Text & ASCII.LF;

   begin
      C_Write (2, Message'Address, Message'Length);
   end Say;

   ---------
   -- Now --
   ---------

   function Now return Word is

      type Time is record
         Seconds, Nanoseconds : Word;
      end record;
      pragma Convention (C, Time);
      pragma Suppress_Initialization (Time);

      procedure C_Time (Clock : Interfaces.C.int; It : out Time);
      pragma Import (C, C_Time, "clock_gettime");

      Monotonic : constant := 1;
      It        : Time;

   begin
      C_Time (Monotonic, It);
      return 1_000_000_000 * It.Seconds + It.Nanoseconds;
   end Now;

   ---------------
   -- Has_Zeros --
   ---------------

   function Has_Zeros (First, Bytes : Word) return Boolean is

      function C_Write
        (File  : Interfaces.C.int;
         From  : System.Address;
         Bytes : Word;
         First : Word) return Word;
      pragma Import (C, C_Write, "pwrite");

   begin
      return C_Write (File, Zeros'Address, Bytes, First) = Bytes;
   end Has_Zeros;

   ---------------
   -- Has_Grown --
   ---------------

   function Has_Grown return Boolean is
   begin
      if Ready + Step > Most_Slots
        or else not Has_Zeros (Head_Bytes + Slot_Bytes * Ready, Step_Bytes)
      then
         return False;
      end if;

      Ready := Ready + Step;
      return True;
   end Has_Grown;

   ------------------
   -- Has_Grown_To --
   ------------------

   function Has_Grown_To (Count : Word) return Boolean is

      procedure C_Lock (It : System.Address);
      pragma Import (C, C_Lock, "pthread_mutex_lock");

      procedure C_Unlock (It : System.Address);
      pragma Import (C, C_Unlock, "pthread_mutex_unlock");

      Is_There : Boolean;

   begin
      C_Lock (Growth'Address);

      while Is_On and then Count > Ready loop
         if not Has_Grown then
            Is_On := False;
            Opening.Is_Cut := 1;
            Say (No_More);
         end if;
      end loop;

      Is_There := Count <= Ready;
      C_Unlock (Growth'Address);
      return Is_There;
   end Has_Grown_To;

   --------------
   -- Put_Part --
   --------------

   procedure Put_Part (Number : Word; Text : String; Kind : Byte) is
      Part : Text_Slot;
      for Part'Address use Place (Number);
      pragma Import (Ada, Part);
   begin
      Part.Text (1 .. Text'Length) := Text;
      Part.Kind := Kind;
      Part.Mark := Mark_Of (Number);
   end Put_Part;

   -----------
   -- Write --
   -----------

   procedure Write (L : in out Line) is
      Parts : Word;
      First : Word;
      Begun : Natural := 0;
      Next  : Natural;
   begin
      L.Last := L.Last + 1;
      L.Text (L.Last) := ASCII.LF;
      Parts := Word ((L.Last - 1) / Text_Bytes + 1);
      First := Add (Opening.Slots'Address, Parts);

      if Has_Slots (First + Parts) then
         for Number in First .. First + Parts - 1 loop
            Next := Natural'Min (Begun + Text_Bytes, L.Last);
            Put_Part
              (Number, L.Text (Begun + 1 .. Next),
               (if Begun = 0 then Begins_Line else Continues_Line));
            Begun := Next;
         end loop;
      end if;
   end Write;

   ---------------
   -- Take_Slot --
   ---------------

   procedure Take_Slot
     (Where  : out System.Address;
      Number : out Word) is
   begin
      if Ring > 0 then
         Number := Add (Opening.Events'Address, 1);
         Where := Ring_Place (Number);
      else
         Number := Add (Opening.Slots'Address, 1);
         Where := (if Has_Slots (Number + 1) then Place (Number)
                   else System.Null_Address);
      end if;
   end Take_Slot;

   ---------------
   -- Put_Event --
   ---------------

   procedure Put_Event
     (Object : Protection_Entries_Access;
      Serial : Half;
      What   : Event;
      E      : Protected_Entry_Index;
      Level  : Natural;
      Detail : Half)
   is
      Where  : System.Address;
      Number : Word;
   begin
      Take_Slot (Where, Number);

      if Where /= System.Null_Address then
         declare
            It : Slot;
            for It'Address use Where;
            pragma Import (Ada, It);
         begin
            It.Mark := 0;
            It.Serial := Serial;
            It.Time := Now;
            It.Object := Word (To_Integer (Object.all'Address));
            It.Detail := Detail;
            It.E := Unsigned_16 (E);
            It.Level := Byte (Level);
            It.Kind := Event'Pos (What);
            It.Mark := Mark_Of (Number);
         end;
      end if;
   end Put_Event;

   --------------
   -- Put_Task --
   --------------

   procedure Put_Task (T : Task_Id; Serial : Half) is
      L : Line;
   begin
      Begin_Line (L, "task");
      Put_Number (L, Word (Serial));
      Put (L, " ");
      Put_Address (L, T.all'Address);
      Put (L, " " & T.Common.Task_Image (1 .. T.Common.Task_Image_Len));
      Write (L);
      Known_Tasks (Serial mod Known'Length) := Serial;
   end Put_Task;

   ---------------
   -- Serial_Of --
   ---------------

   function Serial_Of (T : Task_Id) return Half is
      Serial : constant Half := Half'Mod (T.Serial_Number);
   begin
      if Known_Tasks (Serial mod Known'Length) /= Serial then
         Put_Task (T, Serial);
      end if;

      return Serial;
   end Serial_Of;

   ---------------
   -- Number_Of --
   ---------------

   function Number_Of
     (Id : Ada.Exceptions.Exception_Id) return Half
   is
      Number : constant Half :=
                 Half'Mod (To_Integer (To_Address (Id)));
      Latest : Half renames
                 Known_Exceptions (Number / 16 mod Known'Length);
      L      : Line;
   begin
      if Latest /= Number then
         Begin_Line (L, "exception");
         Put_Number (L, Word (Number));
         Put (L, " " & Ada.Exceptions.Exception_Name (Id));
         Write (L);
         Latest := Number;
      end if;

      return Number;
   end Number_Of;

   ---------
   -- Map --
   ---------

   function Map (Kept : Word) return Boolean is

      function C_Map
        (Start                   : System.Address;
         Bytes                   : Word;
         Protection, Flags, File : Interfaces.C.int;
         First                   : Interfaces.C.long) return System.Address;
      pragma Import (C, C_Map, "mmap");

      To_Use : constant := 1 + 2;
      --  PROT_READ, PROT_WRITE

      Shared : constant := 1;
      --  MAP_SHARED

      Failed : constant System.Address := To_Address (Integer_Address'Last);
      Before : constant Word := Head_Bytes + Slot_Bytes * Kept;
      After  : Word := Most_Bytes;

   begin
      loop
         Base := C_Map
           (System.Null_Address, Before + After, To_Use, Shared, File, 0);
         exit when Base /= Failed;
         After := After / 2;

         if After < Step_Bytes then
            return False;
         end if;
      end loop;

      Most_Slots := Kept + After / Slot_Bytes;
      return True;
   end Map;

   ------------------
   -- Begin_Record --
   ------------------

   procedure Begin_Record (Kept : Word) is
      L : Line;
   begin
      Ring := Kept;
      Opening := To_Head (Base);
      Opening.Ring := Kept;
      Opening.Start := Now;
      Opening.Form := Form_Of_File;
      Is_On := True;

      if Has_Slots (0) then
         Begin_Line (L, "program");
         Put_Program (L);
         Write (L);
      end if;
   end Begin_Record;

   ---------------
   -- Open_File --
   ---------------

   procedure Open_File (Path : System.Address; Kept : Word) is

      function C_Open
        (Path : System.Address;
         Way  : Interfaces.C.int;
         Mode : Interfaces.C.int) return Interfaces.C.int;
      pragma Import (C, C_Open, "open");

      function C_Lock
        (File : Interfaces.C.int;
         How  : Interfaces.C.int) return Interfaces.C.int;
      pragma Import (C, C_Lock, "flock");

      function C_Truncate
        (File   : Interfaces.C.int;
         Length : Interfaces.C.long) return Interfaces.C.int;
      pragma Import (C, C_Truncate, "ftruncate");

      To_Map  : constant := 8#2# + 8#100# + 8#2000000#;
      --  O_RDWR, O_CREAT, O_CLOEXEC

      At_Once : constant := 2 + 4;
      --  LOCK_EX, LOCK_NB

   begin
      File := C_Open (Path, To_Map, 8#666#);

      if File < 0 then
         Say ("the file that POBJ_TRACE names can't be written");
      elsif C_Lock (File, At_Once) /= 0 then
         Say ("another program writes the file that POBJ_TRACE names:"
              & " nothing is traced here");
      elsif C_Truncate (File, 0) /= 0
        or else not Has_Zeros (0, Head_Bytes)
      then
         Say (No_More);
      elsif not Map (Kept) then
         Say ("the file that POBJ_TRACE names can't be mapped into memory:"
              & " nothing is traced");
      else
         Begin_Record (Kept);
      end if;
   end Open_File;

   -----------------
   -- Environment --
   -----------------

   function Environment (Name : String) return System.Address is

      function C_Environment (Name : System.Address) return System.Address;
      pragma Import (C, C_Environment, "secure_getenv");

      Text : constant String := Name & ASCII.NUL;

   begin
      return C_Environment (Text'Address);
   end Environment;

   --------------
   -- Is_Ended --
   --------------

   function Is_Ended (Text : System.Address) return Boolean is
      First : Character;
      for First'Address use Text;
      pragma Import (Ada, First);
   begin
      return First = ASCII.NUL;
   end Is_Ended;

   ---------------
   -- Read_Kept --
   ---------------

   procedure Read_Kept (Kept : out Word; Is_Read : out Boolean) is

      function C_Number
        (Text : System.Address;
         Rest : out System.Address;
         Base : Interfaces.C.int) return Interfaces.C.long;
      pragma Import (C, C_Number, "strtol");

      Text   : constant System.Address := Environment ("POBJ_TRACE_LAST");
      Number : Interfaces.C.long;
      Rest   : System.Address;

   begin
      Kept := 0;
      Is_Read := True;

      if Text /= System.Null_Address then
         Number := C_Number (Text, Rest, 10);
         Is_Read := Is_Ended (Rest) and then Number in 1 .. Most_Kept;
         Kept := 1;

         while Is_Read and then Kept < Word (Number) loop
            Kept := 2 * Kept;
         end loop;
      end if;
   end Read_Kept;

   --------------------
   -- Begin_If_Asked --
   --------------------

   procedure Begin_If_Asked is
      Path    : constant System.Address := Environment ("POBJ_TRACE");
      Kept    : Word;
      Is_Read : Boolean;
   begin
      if Path = System.Null_Address then
         return;
      elsif Queuing_Policy = 'P' then
         Say ("under Priority_Queuing (D.4) GNAT's own runtime has the"
              & " entry calls of this program: nothing is traced");
         return;
      end if;

      Read_Kept (Kept, Is_Read);

      if Is_Read then
         Open_File (Path, Kept);
      else
         Say ("POBJ_TRACE_LAST has to be a number from 1 to"
              & Natural'Image (Most_Kept) & ": nothing is traced");
      end if;
   end Begin_If_Asked;

   -----------
   -- Start --
   -----------

   procedure Start (Self_ID : Task_Id) is
   begin
      if Is_Started then
         return;
      end if;

      Initialization.Task_Lock (Self_ID);

      if not Is_Started then
         Begin_If_Asked;
         Is_Started := True;
      end if;

      Initialization.Task_Unlock (Self_ID);
   end Start;

   ----------------
   -- Put_Bodies --
   ----------------

   procedure Put_Bodies
     (L      : in out Line;
      Object : Protection_Entries_Access;
      Events : Word)
   is
      Last : Protected_Entry_Index := 0;
      B    : Protected_Entry_Index;
   begin
      for E in Object.Entry_Queues'Range loop
         B := Object.Find_Body_Index (Object.Compiler_Info, E);

         if L.Last > Room - 100 then
            Write (L);
            Begin_Object (L, "more", Object, Events);
         end if;

         if B /= Last then
            Put (L, " ");
            Put_Number (L, Word (E));
            Put (L, ":");
            Put_Address (L, Code_Of (Object.Entry_Bodies (B).Action));
            Last := B;
         end if;
      end loop;
   end Put_Bodies;

   ---------------
   -- Put_Chain --
   ---------------

   procedure Put_Chain (L : in out Line) is
      Most  : constant := 24;
      Chain : Traceback_Entries.Tracebacks_Array (1 .. Most);
      Last  : Natural;
   begin
      Traceback.Call_Chain (Chain, Most, Last);

      for Where of Chain (1 .. Last) loop
         Put (L, " ");
         Put_Address (L, Traceback_Entries.PC_For (Where));
      end loop;
   end Put_Chain;

   ---------------
   -- Note_Made --
   ---------------

   procedure Note_Made (Object : Protection_Entries_Access) is
      Events : constant Word := Events_Now;
      L      : Line;
   begin
      Begin_Object (L, "made", Object, Events);
      Put (L, " ");
      Put_Number (L, Word (Object.Num_Entries));
      Put_Bodies (L, Object, Events);
      Write (L);
      Begin_Object (L, "chain", Object, Events);
      Put_Chain (L);
      Write (L);
   end Note_Made;

   --------------------
   -- Note_Finalized --
   --------------------

   procedure Note_Finalized (Object : Protection_Entries_Access) is
   begin
      Put_Event (Object, 0, Finalized, 0, 0, 0);
   end Note_Finalized;

   --------------------
   -- Note_Procedure --
   --------------------

   procedure Note_Procedure
     (Self_ID : Task_Id;
      Object  : Protection_Entries_Access;
      Where   : System.Address)
   is
      Code : constant Word := Word (To_Integer (Where));
   begin
      Put_Event
        (Object, Serial_Of (Self_ID), Called_Procedure,
         Protected_Entry_Index (Shift_Right (Code, 32) and 16#FFFF#), 0,
         Half'Mod (Code));
   end Note_Procedure;

   ----------
   -- Note --
   ----------

   procedure Note
     (Object : Protection_Entries_Access;
      Call   : Entry_Call_Link;
      E      : Protected_Entry_Index;
      What   : Event) is
   begin
      Put_Event
        (Object, Serial_Of (Call.Self), What, E, Natural (Call.Level), 0);
   end Note;

   ---------------
   -- Note_Body --
   ---------------

   procedure Note_Body
     (Object      : Protection_Entries_Access;
      Call        : Entry_Call_Link;
      E           : Protected_Entry_Index;
      Is_Requeued : Boolean) is
   begin
      if Call.Exception_To_Raise = Ada.Exceptions.Null_Id
        or else Is_Requeued
      then
         Put_Event
           (Object, Serial_Of (Call.Self),
            (if Is_Requeued then Requeued else Done), E,
            Natural (Call.Level), 0);
      else
         Put_Event
           (Object, Serial_Of (Call.Self), Raised, E, Natural (Call.Level),
            Number_Of (Call.Exception_To_Raise));
      end if;
   end Note_Body;

end System.Tasking.Protected_Objects.Traces;
