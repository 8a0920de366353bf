--  SPDX-License-Identifier: MIT
--  The engine of pobj, as pobj.h declares it for C. It decides which entry
--  call of a protected object is queued, served, cancelled or ended (ISO/IEC
--  8652:2023, 9.5.1 to 9.5.4), and each of its functions is proved.

with Ada.Unchecked_Conversion;

with Interfaces;
with Interfaces.C;

package System.Tasking.Protected_Objects.Pobj is

   subtype Word is Interfaces.Unsigned_64;
   subtype Size is Interfaces.C.size_t;
   subtype Flag is Interfaces.Unsigned_8;

   type Step is record
      Caller : Word;
      Key    : Size;
      Number : Word;
   end record;
   pragma Convention (C, Step);
   pragma Suppress_Initialization (Step);
   --  The call that an answer is about, and its ticket

   --  The engine keeps a call as a word. A queued call keeps its ticket: the
   --  key in Prev, the number in Next. The number is never 0, so Next isn't
   --  null while the call is queued, as in GNARL.

   pragma Warnings (Off);  --  aliasing: compiled with -fno-strict-aliasing
   function To_Link is
     new Ada.Unchecked_Conversion (Word, Entry_Call_Link);
   function To_Word is
     new Ada.Unchecked_Conversion (Entry_Call_Link, Word);
   pragma Warnings (On);

   --  Answers: what to do next

   Rest          : constant := 0;
   Evaluate      : constant := 1;
   Run           : constant := 2;
   Now_Queued    : constant := 3;
   Now_Cancelled : constant := 4;
   Now_Broken    : constant := 5;
   No_Memory     : constant := 6;

   --  The value of a barrier

   Closed : constant := 0;
   Open   : constant := 1;
   Raised : constant := 2;

   --  How a body ended

   Completed           : constant := 0;
   Failed              : constant := 1;
   Requeued            : constant := 2;
   Requeued_With_Abort : constant := 3;
   Requeued_Elsewhere  : constant := 4;

   --  Marks of a call

   Due           : constant := 1;
   Without_Abort : constant := 2;
   Aborted       : constant := 4;

   --  What an attempt to cancel has led to

   Made : constant := 0;
   Kept : constant := 1;

   subtype Engine is System.Address;
   --  The engine of one object: the address of a pobj_object

   function pobj_make (Object : Engine; Entries : Word) return Flag;
   pragma Import (C, pobj_make);

   procedure pobj_free (Object : Engine);
   pragma Import (C, pobj_free);

   function pobj_limit (Object : Engine; E, Longest : Word) return Flag;
   pragma Import (C, pobj_limit);

   function pobj_issue
     (Object                    : Engine;
      Caller, E, Marks, Barrier : Word;
      Told                      : System.Address) return Word;
   pragma Import (C, pobj_issue);

   function pobj_answer
     (Object  : Engine;
      Barrier : Word;
      Told    : System.Address) return Word;
   pragma Import (C, pobj_answer);

   function pobj_body_ended
     (Object        : Engine;
      How, E, Marks : Word;
      Told          : System.Address) return Word;
   pragma Import (C, pobj_body_ended);

   function pobj_next
     (Object : Engine;
      Told   : System.Address) return Word;
   pragma Import (C, pobj_next);

   function pobj_cancel
     (Object          : Engine;
      Key             : Size;
      Number, Expired : Word) return Word;
   pragma Import (C, pobj_cancel);

   function pobj_finalize
     (Object : Engine;
      Told   : System.Address) return Word;
   pragma Import (C, pobj_finalize);

   function pobj_ready (Object : Engine) return Word;
   pragma Import (C, pobj_ready);

   function pobj_served
     (Object                     : Engine;
      Caller, E, Marks           : Word;
      How, Target, Target_Marks  : Word;
      Told                       : System.Address) return Word;
   pragma Import (C, pobj_served);

   function pobj_served_twice
     (Object                    : Engine;
      Caller, E, Marks          : Word;
      How, Target, Target_Marks : Word) return Flag;
   pragma Import (C, pobj_served_twice);

   function pobj_is_idle (Object : Engine) return Flag;
   pragma Import (C, pobj_is_idle);

   function pobj_wait
     (Object           : Engine;
      Caller, E, Marks : Word;
      Told             : System.Address) return Flag;
   pragma Import (C, pobj_wait);

   function pobj_turn_away
     (Object           : Engine;
      Caller, E, Marks : Word) return Flag;
   pragma Import (C, pobj_turn_away);

   function pobj_count (Object : Engine; E : Word) return Word;
   pragma Import (C, pobj_count);

end System.Tasking.Protected_Objects.Pobj;
