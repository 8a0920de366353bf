/* SPDX-License-Identifier: MIT */
/* Every decision about the entry calls of one protected object of Ada 2022 (ISO/IEC 8652:2023, 9.5.1 to 9.5.4), proved:
   which call is queued, whose barrier is evaluated next, which call is served, cancelled or ended, and when the protected
   action is over. The client provides the lock, the barriers, the bodies, and the sleep of callers.

   Under its lock, a client begins with one of four commands: pobj_issue (an entry call), pobj_next (after the body of a
   procedure, 9.5.1), pobj_cancel (an attempt to cancel a queued call) or pobj_finalize. It then does what each step answers.
   Four further commands do several steps in one, for calls of open entries and for calls that arrive while none is queued.
   When the answer is POBJ_REST the protected action is over, and the client leaves its lock. At that point no body runs, and
   for each queued call the client has answered that its barrier is closed, after the last change of anything that a barrier
   may read (9.5.3). So a barrier may read the object's own data and pobj_count, and nothing else that changes.

   A step answers an action and the action's entry: see pobj_action_of and pobj_entry_of. It also sets *step, which names the
   call. Entries are numbered from 0. The first entry with an open barrier is served first, and within an entry the call that
   was queued first (D.4).

   A step that the object doesn't wait for, or that names no entry of it, is answered POBJ_REFUSED and changes nothing. If the
   object isn't made (its `at` is NULL), each step is answered POBJ_REFUSED, and the other functions return false or 0.

   Two things are required: pobj_make and pobj_make_fixed take an object that isn't made, and no two functions run on one
   object at a time. */
#ifndef POBJ_H
#define POBJ_H

#include <stdbool.h>
#include <stddef.h>
#include <stdint.h>

/* The version of the library: as text, and its three numbers. */
#define POBJ_VERSION "0.1.0"
#define POBJ_VERSION_MAJOR 0
#define POBJ_VERSION_MINOR 1
#define POBJ_VERSION_PATCH 0

#ifdef __cplusplus
extern "C" {
#endif

/* The entry calls of one protected object. It begins as {0}, which is an object that isn't made. Only the library reads or
   writes it. */
typedef struct {
    void *at;
} pobj_object;

/* The call that a step is about: its caller, as given to pobj_issue, and with POBJ_QUEUED its ticket. */
typedef struct {
    uint64_t caller;
    size_t key;
    uint64_t number; /* 1 or more */
} pobj_step;

/* Each enumeration is a type of its own, so that two swapped arguments are diagnosed: C++ refuses them. In C, gcc from version
   10 and clang warn under -Wextra (-Wenum-conversion), but not about a plain number in the wrong place. The attribute mode(DI)
   makes a type 64 bits wide, as the library's arguments are. */

/* What the client is to do next. */
typedef enum pobj_action {
    POBJ_REST,          /* nothing: the protected action is over */
    POBJ_EVALUATE,      /* evaluate the barrier of the entry, then pobj_answer (9.5.2) */
    POBJ_RUN,           /* run the body of the entry for step->caller, then pobj_body_ended (9.5.2) */
    POBJ_QUEUED,        /* keep the ticket (step->key, step->number) of step->caller's call, which is queued now, until the call
                           ends; then do as for POBJ_EVALUATE with the answer's entry, which may not be the one it waits on */
    POBJ_CANCELLED,     /* step->caller's call is cancelled: wake it, then pobj_next (9.5.3, 9.7.2, 9.7.3) */
    POBJ_PROGRAM_ERROR, /* raise Program_Error in step->caller: wake it, then pobj_next (9.4, 9.5.3, D.7) */
    POBJ_NO_MEMORY,     /* there is no memory for one more call, and nothing has changed: from pobj_issue, and from pobj_ready
                           and pobj_served */
    POBJ_REFUSED        /* the object doesn't wait for this step, and nothing has changed */
} pobj_action;

/* The value of a barrier (9.5.2, 9.5.3). Every number above 1 counts as POBJ_RAISED. */
typedef enum __attribute__((mode(DI))) pobj_barrier {
    POBJ_CLOSED,
    POBJ_OPEN,
    POBJ_RAISED /* its evaluation propagated an exception: the call being issued and all queued ones end by Program_Error */
} pobj_barrier;

/* How a body ended (9.5.2, 9.5.4). Any other number is refused. */
typedef enum __attribute__((mode(DI))) pobj_body_end {
    POBJ_COMPLETED,           /* its call is complete, by an exception or not: the client wakes the caller */
    POBJ_FAILED,              /* the same, and all queued calls end by Program_Error: the data can't be trusted any more */
    POBJ_REQUEUED,            /* its call is requeued without abort to the entry */
    POBJ_REQUEUED_WITH_ABORT, /* its call is requeued with abort to the entry */
    POBJ_REQUEUED_ELSEWHERE   /* its call is requeued to another object or a task: the client issues it there */
} pobj_body_end;

/* Marks of a call that is issued or requeued. Add them up. A call that is due stays due. */
typedef enum __attribute__((mode(DI))) pobj_marks {
    POBJ_NO_MARKS = 0,
    POBJ_DUE = 1,           /* it is conditional, or its time has come: cancelled once no barrier is open (9.7.2, 9.7.3) */
    POBJ_WITHOUT_ABORT = 2, /* for pobj_issue only: a requeue without abort sends the call, so it isn't cancelled (9.5.4) */
    POBJ_ABORTED = 4        /* its caller was aborted: cancelled, unless it is requeued without abort (9.5.3, 9.5.4, 9.8) */
} pobj_marks;

/* What pobj_cancel answers. */
typedef enum __attribute__((mode(DI))) pobj_cancellation {
    POBJ_CANCEL_MADE,    /* the call is cancelled: wake its caller, then pobj_next; no POBJ_CANCELLED follows for it */
    POBJ_CANCEL_KEPT,    /* a requeue without abort queued the call, so it stays; an abort is remembered (9.5.4) */
    POBJ_CANCEL_UNKNOWN, /* no call is queued with this ticket */
    POBJ_CANCEL_REFUSED  /* the object doesn't wait for a command; nothing has changed */
} pobj_cancellation;

/* Doesn't compile if a compiler gives these types another width. */
typedef char pobj_types_are_wide[sizeof(pobj_barrier) == sizeof(uint64_t) && sizeof(pobj_body_end) == sizeof(uint64_t) &&
    sizeof(pobj_marks) == sizeof(uint64_t) && sizeof(pobj_cancellation) == sizeof(uint64_t) ? 1 : -1];

/* The action of an answer, and its entry. */
static inline pobj_action pobj_action_of(uint64_t answer) { return (pobj_action)(answer & 0xff); }
static inline uint64_t pobj_entry_of(uint64_t answer) { return answer >> 8; }

/* Makes an object with `entries` entries, which takes memory as its calls need it. Returns whether it is made: false if there
   is no memory, or if `entries` is more than 65,535. */
bool pobj_make(pobj_object *object, uint64_t entries);

/* The same, but takes all memory now, for `calls` calls that are queued or being served at once. No later step takes memory:
   one call more is answered POBJ_NO_MEMORY. */
bool pobj_make_fixed(pobj_object *object, uint64_t entries, size_t calls);

/* Frees the object, if it is made. It isn't made afterwards. */
void pobj_free(pobj_object *object);

/* Limits the entry's queue to `longest` calls from now on (Max_Entry_Queue_Length, D.7); 0 means no limit. Calls that are
   already queued stay. Returns false if there is no such entry. */
bool pobj_limit(pobj_object *object, uint64_t entry, uint64_t longest);

/* A command: `caller` issues a call of the entry, whose barrier the client has just evaluated (9.5.3). Answers POBJ_RUN if the
   barrier is open, POBJ_QUEUED if it is closed, and POBJ_PROGRAM_ERROR if it is closed and the queue is full. If the barrier
   raised, answers POBJ_PROGRAM_ERROR for each queued call, and for this one last. Two answers don't depend on the barrier:
   POBJ_CANCELLED if the call is marked as aborted and may be cancelled, and POBJ_NO_MEMORY if there is no memory for it. */
uint64_t pobj_issue(
    pobj_object *object, uint64_t caller, uint64_t entry, pobj_marks marks, pobj_barrier barrier, pobj_step *step);

/* Takes the value of the barrier that the last answer asked for. Answers the next action. */
uint64_t pobj_answer(pobj_object *object, pobj_barrier barrier, pobj_step *step);

/* Takes how the body ended; `entry` and `marks` are for a requeue within the object. For a requeued call it answers
   POBJ_QUEUED; POBJ_CANCELLED if the requeue is with abort, and the call is marked as aborted here or was by pobj_issue or
   pobj_cancel; or POBJ_PROGRAM_ERROR if the queue is full. Otherwise it answers the next action. */
uint64_t pobj_body_ended(pobj_object *object, pobj_body_end how, uint64_t entry, pobj_marks marks, pobj_step *step);

/* Answers the next action, after the body of a procedure and after POBJ_CANCELLED, POBJ_PROGRAM_ERROR or POBJ_CANCEL_MADE. */
uint64_t pobj_next(pobj_object *object, pobj_step *step);

/* A command: an attempt to cancel the queued call with this ticket, because its time has come (`expired` isn't 0) or because
   its caller was aborted (9.5.3, 9.7.2, 9.8). */
pobj_cancellation pobj_cancel(pobj_object *object, size_t key, uint64_t number, uint64_t expired);

/* A command: finalizes the object. Answers POBJ_PROGRAM_ERROR for each queued call, then POBJ_REST. Each later pobj_issue is
   answered POBJ_REFUSED (9.4). */
uint64_t pobj_finalize(pobj_object *object, pobj_step *step);

/* Several steps in one, for calls of open entries and for calls that arrive while none is queued. Each function does what its
   steps do one by one, and the history has these steps. */

/* Makes room for one more call, before the client runs the body of an open entry for a call that it hasn't issued yet. If the
   answer is POBJ_REST, pobj_served accepts a call of any entry, whatever its body does, and takes no memory, as long as no
   other call is issued before. POBJ_NO_MEMORY: there is no memory, and nothing has changed. POBJ_REFUSED: the object doesn't
   wait for a command, or is finalized. A call that is marked as aborted goes to pobj_issue instead. */
uint64_t pobj_ready(pobj_object *object);

/* A command: pobj_issue with POBJ_OPEN, and pobj_body_ended. The client has evaluated the barrier, which was open, and has run
   the body, under its lock and while the object was at rest. Answers what pobj_body_ended answers. POBJ_REFUSED: there is no
   such entry, the call is marked as aborted and may be cancelled, or pobj_ready is refused too. */
uint64_t pobj_served(pobj_object *object, uint64_t caller, uint64_t entry, pobj_marks marks, pobj_body_end how, uint64_t target,
    pobj_marks target_marks, pobj_step *step);

/* A command: pobj_issue with POBJ_OPEN, pobj_body_ended with a requeue within the object, pobj_answer with POBJ_OPEN, and
   pobj_body_ended with POBJ_COMPLETED, while no other call is queued (pobj_is_idle). The client has run both bodies. The second
   barrier has to be open whatever the number of queued calls, as it is if it hasn't called pobj_count. `how` is POBJ_REQUEUED
   or POBJ_REQUEUED_WITH_ABORT. True: the call is completed, and the object is at rest. False: nothing has changed, and the
   client reports the steps one by one. So it is for a call that is marked as due at its requeue, or as aborted at a requeue
   with abort. It takes no memory. */
bool pobj_served_twice(pobj_object *object, uint64_t caller, uint64_t entry, pobj_marks marks, pobj_body_end how,
    uint64_t target, pobj_marks target_marks);

/* Returns whether the object waits for a command, and no call is queued. */
bool pobj_is_idle(pobj_object *object);

/* A command: pobj_issue and pobj_answer, both with POBJ_CLOSED, for a call that isn't due while no call is queued. The barrier
   has to be closed whatever the number of queued calls, as it is if it hasn't called pobj_count. True: the call is queued,
   *step has its ticket, and the object is at rest. False: nothing has changed, and pobj_issue says why. */
bool pobj_wait(pobj_object *object, uint64_t caller, uint64_t entry, pobj_marks marks, pobj_step *step);

/* A command: pobj_issue and pobj_answer, both with POBJ_CLOSED, and pobj_next, for a call that is due while no call is queued.
   The barrier has to be closed whatever the number of queued calls. True: the call is cancelled, and the object is at rest.
   False: nothing has changed, and pobj_issue says why. It takes no memory. */
bool pobj_turn_away(pobj_object *object, uint64_t caller, uint64_t entry, pobj_marks marks);

/* Returns how many calls are queued on the entry (9.9), or 0 if there is no such entry. Takes constant time. The object is
   afterwards as it was, but in between its `at` is NULL. So it isn't const, and two threads mustn't count at one time. */
uint64_t pobj_count(pobj_object *object, uint64_t entry);

#ifdef __cplusplus
}

/* Adds up marks, which in C++ a plain | doesn't. */
constexpr pobj_marks operator|(pobj_marks some, pobj_marks more) {
    return static_cast<pobj_marks>(static_cast<uint64_t>(some) | static_cast<uint64_t>(more));
}
#endif

#endif
