--  SPDX-License-Identifier: MIT
--  The record of what happens in protected objects, which a program writes to
--  the file that POBJ_TRACE in its environment names: docs/ADA.md has its
--  form, and `pobj trace FILE` shows it. Nothing is elaborated here.

with Ada.Exceptions;

with Interfaces.C;

with System.Storage_Elements;
with System.Tasking.Protected_Objects.Entries;

package System.Tasking.Protected_Objects.Traces is

   Is_On : Boolean := False;
   --  Whether a record is written

   type Event is
     (Queued, Done, Raised, Requeued, Cancelled, Broken, Without_Memory,
      Called_Procedure, Finalized);
   --  What happens: first what becomes of an entry call. Broken is an end by
   --  the object's Program_Error, and Without_Memory by Storage_Error. The
   --  record has the position.

   procedure Start (Self_ID : Task_Id);
   --  Opens the file when the first object of the program is made, if the
   --  environment asks for it. Says on standard error if there can be no
   --  record.

   procedure Note_Made (Object : Entries.Protection_Entries_Access);
   --  Records a new object: how many entries it has, and then each entry, or
   --  the first of a family, with its body's address, in as many lines as it
   --  takes. Then the calls that have made it.

   procedure Note_Finalized (Object : Entries.Protection_Entries_Access);
   --  Records that the object ends (9.4)

   function Return_Address (Level : Integer) return System.Address;
   pragma Import (Intrinsic, Return_Address, "__builtin_return_address");
   --  With 0: the address that the calling subprogram returns to

   procedure Note_Procedure
     (Self_ID : Task_Id;
      Object  : Entries.Protection_Entries_Access;
      Where   : System.Address);
   --  Records that the task has called a procedure of the object (9.5.1), and
   --  an address in the procedure's code.

   procedure Note
     (Object : Entries.Protection_Entries_Access;
      Call   : Entry_Call_Link;
      E      : Protected_Entry_Index;
      What   : Event);
   --  Records what came of the call, which was queued or served on that entry

   procedure Note_Body
     (Object      : Entries.Protection_Entries_Access;
      Call        : Entry_Call_Link;
      E           : Protected_Entry_Index;
      Is_Requeued : Boolean);
   --  Records how the call's body has ended: requeued, done, or raised with
   --  the exception

private

   --  The form of a file: a head, the slots of the ring, and those after it

   subtype Word is Interfaces.Unsigned_64;
   subtype Half is Interfaces.Unsigned_32;
   subtype Byte is Interfaces.Unsigned_8;

   type Head is record
      Form   : Word;
      Ring   : Word;
      Start  : Word;
      Is_Cut : Word;
      Events : aliased Word;
      Slots  : aliased Word;
   end record;
   pragma Volatile (Head);
   for Head use record
      Form   at 0   range 0 .. 63;
      Ring   at 8   range 0 .. 63;
      Start  at 16  range 0 .. 63;
      Is_Cut at 24  range 0 .. 63;
      Events at 64  range 0 .. 63;
      Slots  at 128 range 0 .. 63;
   end record;
   --  How a file begins: the form; how many slots the ring has, or 0; the
   --  time when the first object was made; 1 if the file took no more; how
   --  many slots of the ring, and of those after it, have been taken.

   Form_Of_File : constant := 16#3165_6361_7274_6A70#;
   --  The characters pjtrace1

   type Slot is record
      Mark   : Half;
      Serial : Half;
      Time   : Word;
      Object : Word;
      Detail : Half;
      E      : Interfaces.Unsigned_16;
      Level  : Byte;
      Kind   : Byte;
   end record;
   pragma Volatile (Slot);
   for Slot use record
      Mark   at 0  range 0 .. 31;
      Serial at 4  range 0 .. 31;
      Time   at 8  range 0 .. 63;
      Object at 16 range 0 .. 63;
      Detail at 24 range 0 .. 31;
      E      at 28 range 0 .. 15;
      Level  at 30 range 0 .. 7;
      Kind   at 31 range 0 .. 7;
   end record;
   --  An event: of which task; when; at which object; the exception that was
   --  raised; on which entry; the call's level; the Event's position. Mark is
   --  written last: twice the slot's number and one, so that a reader sees
   --  whether the slot is complete. A procedure has an address in its code, of
   --  at most 48 bits, in place of exception and entry.

   Slot_Bytes : constant := 32;

   Text_Bytes : constant := 27;

   type Text_Slot is record
      Mark : Half;
      Text : String (1 .. Text_Bytes);
      Kind : Byte;
   end record;
   pragma Volatile (Text_Slot);
   for Text_Slot use record
      Mark at 0  range 0 .. 31;
      Text at 4  range 0 .. 8 * Text_Bytes - 1;
      Kind at 31 range 0 .. 7;
   end record;
   --  A part of a line of text, which says what an object, a task or an
   --  exception is. The next part is in the next slot.

   Begins_Line    : constant := 255;
   Continues_Line : constant := 254;
   --  The kinds of such slots

   Head_Bytes : constant := 4_096;

   Step : constant := 2 ** 13;
   --  By how many slots the file grows

   Step_Bytes : constant := Slot_Bytes * Step;

   Most_Bytes : constant := 2 ** 34;
   --  The most that it may grow to without the ring

   Most_Kept : constant := 2 ** 26;
   --  The most slots of a ring

   --  The file that is written

   type Head_Access is access all Head;

   Is_Started : Boolean := False;
   File       : Interfaces.C.int;
   Base       : System.Address;
   Opening    : Head_Access;
   Ring       : Word := 0;
   Most_Slots : Word := 0;

   Ready : Word := 0;
   pragma Volatile (Ready);
   --  How many slots the file has, those of the ring first

   Zeros : array (1 .. Step_Bytes) of Byte;
   pragma Suppress_Initialization (Zeros);
   --  What the file grows by, as the loader leaves it. Bytes that are written
   --  once take less time to be mapped than those that are only allocated.

   Growth : array (1 .. 8) of Word := (others => 0);
   --  The lock of a task that lets the file grow: a pthread_mutex_t, free

   --  Lines of text

   Room : constant := 2_000;
   --  The greatest length of a line; a longer one is cut

   type Line is record
      Text : String (1 .. Room);
      Last : Natural;
   end record;
   pragma Suppress_Initialization (Line);
   --  A line that is being put together

   procedure Begin_Line (L : out Line; Word : String);

   procedure Put (L : in out Line; Text : String);

   procedure Put_Number (L : in out Line; Number : Word);

   procedure Put_Address (L : in out Line; Where : System.Address);
   --  Appends the number in hexadecimal digits

   procedure Begin_Object
     (L      : out Line;
      What   : String;
      Object : Entries.Protection_Entries_Access;
      Events : Word);
   --  Begins a line about an object: its address, and how many events were
   --  noted before it was made, since the address may be used again.

   function Descriptor_Mark return System.Storage_Elements.Integer_Address;
   --  What the compiler adds to the address of a descriptor, so that it isn't
   --  taken for code: 1 on x86-64, 4 on aarch64.

   function Code_Of (Action : Entry_Action_Pointer) return System.Address;
   --  The address of the code of an entry's body. A nested body is given by a
   --  descriptor, whose second word is the code.

   procedure Put_Program (L : in out Line);
   --  Appends the running program's file, and the address it is loaded at

   procedure Say (Text : String);
   --  Says on standard error what can't be recorded

   --  The slots of the file

   function Has_Zeros (First, Bytes : Word) return Boolean;
   --  Writes zeros into the file. So a full disk is noticed here, and doesn't
   --  end the program when it uses these bytes.

   function Has_Grown return Boolean;
   --  Lets the file grow by a step

   function Has_Grown_To (Count : Word) return Boolean;
   --  Lets the file grow until it has that many slots. If it can't, the
   --  record ends, and a line says so.

   procedure Put_Part (Number : Word; Text : String; Kind : Byte);
   --  Fills a slot after the ring with a part of a line

   procedure Write (L : in out Line);
   --  Appends the line to the record

   procedure Take_Slot
     (Where  : out System.Address;
      Number : out Word);
   pragma Inline (Take_Slot);
   --  Takes the next slot for an event; there is none if Where is null

   procedure Put_Event
     (Object : Entries.Protection_Entries_Access;
      Serial : Half;
      What   : Event;
      E      : Protected_Entry_Index;
      Level  : Natural;
      Detail : Half);
   --  Appends the event to the record

   procedure Put_Task (T : Task_Id; Serial : Half);
   --  Writes a line with the task's name, and its address because names may
   --  be the same.

   function Serial_Of (T : Task_Id) return Half;
   pragma Inline (Serial_Of);
   --  The task's number, which no other task has. Its first use writes the
   --  task's line.

   function Number_Of
     (Id : Ada.Exceptions.Exception_Id) return Half;
   --  The same for an exception, by its address

   procedure Put_Bodies
     (L      : in out Line;
      Object : Entries.Protection_Entries_Access;
      Events : Word);
   --  Appends the object's bodies, each with its first entry. Writes a line
   --  that is full, and begins another.

   procedure Put_Chain (L : in out Line);
   --  Appends the addresses that this call will return to, the latest first

   function Now return Word;
   --  Nanoseconds of CLOCK_MONOTONIC

   --  What the record has described

   Last_Known : constant := 1_023;

   type Known is array (Half range 0 .. Last_Known) of Half;
   pragma Suppress_Initialization (Known);

   Known_Tasks      : Known;
   Known_Exceptions : Known;
   pragma Volatile (Known_Tasks);
   pragma Volatile (Known_Exceptions);
   --  What has its line of text in the record: for each remainder the latest
   --  one, or 0, as the loader leaves it. If two have the same remainder, a
   --  line may be written more than once.

   --  The beginning of the record

   function Map (Kept : Word) return Boolean;
   --  Maps the file, with room to grow

   procedure Begin_Record (Kept : Word);
   --  Writes the head of the file, and the program's line

   procedure Open_File (Path : System.Address; Kept : Word);
   --  Opens the file, and begins the record in it

   function Environment (Name : String) return System.Address;
   --  The variable's text, or null

   function Is_Ended (Text : System.Address) return Boolean;
   --  Whether the text has no more characters

   procedure Read_Kept (Kept : out Word; Is_Read : out Boolean);
   --  Reads POBJ_TRACE_LAST: how many events are kept, a power of two, or 0
   --  if all are.

   procedure Begin_If_Asked;
   --  Begins the record, if the environment asks for it

end System.Tasking.Protected_Objects.Traces;
