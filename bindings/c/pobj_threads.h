/* SPDX-License-Identifier: MIT */
/* Protected objects of Ada 2022 (ISO/IEC 8652:2023, 9.4 to 9.5.4) for POSIX threads, over the proved engine of pobj.h.

   A program describes an object once, by its data and an array of entries, each with a barrier and a body:

       static const pobj_entry entries[] = {{"put", has_room, put}, {"get", has_item, get}};

       pobj_protected_make(&object, &buffer, entries, 2);
       pobj_entry_call(&object, GET, &item, NULL);

   Threads call its entries, and an entry call waits while its barrier is closed. A mutex guards the object. The thread that
   holds it carries out all that has become possible, the bodies of other callers too, and after the unlock it wakes exactly
   the callers whose calls have ended. Each has a condition variable, and if its call isn't timed, yields some times before.

   Barriers, bodies, procedures and functions run under the mutex, in whichever thread carries them out. They must end by
   returning: not by longjmp, a C++ exception or the cancellation of their thread. They make no entry call, which is
   potentially blocking (9.5.1). There an operation on the object itself is refused; only pobj_entry_count is allowed. There
   are no priorities and no ceilings (D.3). pthread_cancel doesn't end a call that waits: pobj_abort does.

   A barrier reads only its own object. Bodies, procedures and functions may also run procedures and functions of other
   objects, and ask for counts there, as long as all threads lock objects in the same order. A requeue to another object
   counts in this order: its thread locks that object while inside its others. -fsanitize=thread reports opposite orders.

   All code is in this header; it needs pobj.h and the library. It is C11 or C++17 with the atomics of GCC and Clang, for
   POSIX.1-2008. Under -std=c11, define _POSIX_C_SOURCE as 200809L before the first header. Names that begin with
   pobj_threads_ or POBJ_THREADS_ aren't for programs. */
#ifndef POBJ_THREADS_H
#define POBJ_THREADS_H

#include "pobj.h"

#include <pthread.h>
#include <sched.h>
#include <stdbool.h>
#include <stdint.h>
#include <stdlib.h>
#include <time.h>

#if !defined CLOCK_MONOTONIC || (defined _POSIX_C_SOURCE && _POSIX_C_SOURCE < 200809L)
#error "pobj_threads.h is for POSIX.1-2008: define _POSIX_C_SOURCE as 200809L before the first header"
#endif

typedef struct pobj_protected pobj_protected;
typedef struct pobj_call pobj_call;

/* Marks a function whose answer a program mustn't drop. */
#define POBJ_THREADS_HEED __attribute__((warn_unused_result))
/* Marks a function that every call runs through. With a stack frame of its own it would cost more than what it does. */
#define POBJ_THREADS_IN_PLACE __attribute__((always_inline))

/* How a call ended. */
typedef enum {
    POBJ_CALL_COMPLETED,     /* a body completed it (9.5.2) */
    POBJ_CALL_ERROR,         /* a body completed it with an error, whose number is in the call's record */
    POBJ_CALL_ABORTED,       /* pobj_abort cancelled it (9.5.3, 9.8) */
    POBJ_CALL_EXPIRED,       /* it is cancelled: its time has come, or it is conditional and would wait (9.7.2, 9.7.3); if
                                a body requeued it with abort, that body has run */
    POBJ_CALL_PROGRAM_ERROR, /* the object is finalized (9.4), a barrier raised (9.5.3), another call's body returned
                                POBJ_FAILED, or the queue was full (D.7) */
    POBJ_CALL_NO_MEMORY,     /* there was no memory to accept or to queue it; unless it was requeued, nothing has changed */
    POBJ_CALL_MISUSE         /* no such entry or time; the record is in use; the calling thread, or one that carries out a
                                requeue to the object, is already inside it; or the body called pobj_raise with 0, or
                                returned what it mustn't (see pobj_entry) */
} pobj_outcome;

/* An entry (9.5.2). */
typedef struct {
    const char *name;                        /* for the reader */
    bool (*barrier)(pobj_protected *object); /* whether it is open, or what pobj_raise_barrier returns; NULL: always open */
    int (*body)(pobj_call *call);            /* returns what its last pobj_raise or requeue returned, or POBJ_COMPLETED if it called
                                                none; without a requeue also POBJ_FAILED, if the data can't be relied upon: its own
                                                call is completed, with the error if pobj_raise was called before, all queued calls
                                                end by POBJ_CALL_PROGRAM_ERROR, and later ones are taken as before */
} pobj_entry;

/* A protected object (9.4). Barriers, procedures and functions read the first two parts; the rest isn't for programs. */
struct pobj_protected {
    void *data;               /* the program's own, which the mutex guards */
    uint64_t evaluated;       /* the entry whose barrier is evaluated; a barrier that a family shares reads it (9.5.2) */
    const pobj_entry *entries;
    uint64_t number;          /* of the entries */
    bool raised;              /* the barrier that is evaluated raises */
    bool counted;             /* a count was asked for since the last evaluation of a barrier began */
    bool finalized;
    pobj_object calls;
    pthread_mutex_t mutex;
};

/* The record of a call, which begins as {0}, in C++ as {}. A thread may use one for all its calls, one after the other. It
   needs one only to learn the number of an error, or to let others abort the call. A body reads the first four parts; the
   rest isn't for programs. */
struct pobj_call {
    pobj_protected *object;   /* that the call is on; NULL: there is no call, or it has ended */
    uint64_t entry;           /* whose body runs */
    void *parameters;         /* what the caller passed */
    int error;                /* the number of the error, if the call ended by POBJ_CALL_ERROR */
    bool in_use;              /* from the beginning of a call until its thread goes on */
    bool aborted;
    bool due;                 /* it is conditional, or its time has come */
    bool without_abort;       /* its last requeue was without abort */
    bool can_wait;            /* whether mutex and wake are made */
    bool woken;               /* the call has ended; written under the call's own mutex */
    pobj_outcome outcome;
    int said;                 /* what the body's last pobj_raise or requeue returned, or POBJ_COMPLETED if there is none */
    pobj_protected *target;   /* of a requeue */
    uint64_t target_entry;
    size_t key;               /* with the number, the ticket of the queued call */
    uint64_t number;          /* 0: it isn't queued */
    pobj_call *behind;        /* the next of a list */
    pthread_mutex_t mutex;
    pthread_cond_t wake;
};

/* For a barrier: makes its evaluation raise, so that all queued calls end by POBJ_CALL_PROGRAM_ERROR (9.5.3). Returns what the
   barrier has to return. */
static inline bool pobj_raise_barrier(pobj_protected *object) {
    object->raised = true;
    return false;
}

/* For a body. All but the first return what the body has to return. */

/* Returns the data of the object. */
static inline void *pobj_data(const pobj_call *call) {
    return call->object->data;
}

/* Completes the call with an error of this number: its caller gets POBJ_CALL_ERROR (9.5.2). 0 is misuse. */
static inline int pobj_raise(pobj_call *call, int error) {
    call->error = error;
    call->said = error == 0 ? -1 : (int)POBJ_COMPLETED;
    return call->said;
}

static inline int pobj_threads_target(pobj_call *call, pobj_protected *object, uint64_t entry, int how, bool without_abort) {
    call->said = how;
    call->target = object;
    call->target_entry = entry;
    call->without_abort = without_abort;
    return how;
}

/* Requeues the call to an entry of this object, without abort: from now on neither pobj_abort nor its time can cancel it,
   until it is requeued with abort (9.5.4). The entry takes the same parameters, or none. */
POBJ_THREADS_HEED static inline int pobj_requeue(pobj_call *call, uint64_t entry) {
    return pobj_threads_target(call, call->object, entry, POBJ_REQUEUED, true);
}

/* The same with abort: the call can be cancelled there, and is if it is aborted, or is due and would wait (9.5.4). */
POBJ_THREADS_HEED static inline int pobj_requeue_with_abort(pobj_call *call, uint64_t entry) {
    return pobj_threads_target(call, call->object, entry, POBJ_REQUEUED_WITH_ABORT, false);
}

/* Requeues the call without abort to an entry of another object. The thread that runs the body issues it there as soon as this
   protected action is over and this object's lock is left (9.5.4); its caller sleeps on. If that thread is inside the other
   object, as in a procedure of it, the call ends by POBJ_CALL_MISUSE. Join all threads that may issue calls there in this way
   before you destroy the other object. */
POBJ_THREADS_HEED static inline int pobj_requeue_elsewhere(pobj_call *call, pobj_protected *object, uint64_t entry) {
    return pobj_threads_target(call, object, entry, POBJ_REQUEUED_ELSEWHERE, true);
}

/* The same with abort. */
POBJ_THREADS_HEED static inline int pobj_requeue_elsewhere_with_abort(pobj_call *call, pobj_protected *object, uint64_t entry) {
    return pobj_threads_target(call, object, entry, POBJ_REQUEUED_ELSEWHERE, false);
}

/* What carries out the calls. The mutex of the object that a call is on guards the call's record, except the parts whose
   comments say otherwise. A call that is requeued to another object is on that one from then on. */

typedef struct {
    pobj_call *first, *last;
} pobj_threads_list;

/* A protected action: what one thread does on an object between its lock and its unlock (9.5.1). */
typedef struct {
    pobj_protected *object;
    pobj_call *own;           /* the call of this very thread, which needs no waking; NULL if there is none, or it has ended */
    pobj_threads_list ended;  /* calls of other threads, which have to be woken */
    pobj_threads_list moved;  /* calls that have to be issued on other objects */
    pobj_step step;
} pobj_threads_action;

static inline void pobj_threads_append(pobj_threads_list *list, pobj_call *call) {
    call->behind = NULL;
    if (list->first == NULL)
        list->first = call;
    else
        list->last->behind = call;
    list->last = call;
}

static inline pobj_call *pobj_threads_take(pobj_threads_list *list) {
    pobj_call *call = list->first;
    if (call != NULL)
        list->first = call->behind;
    return call;
}

/* Prepares a protected action of a thread that makes this call, or none. The other parts are set when they are needed. */
static inline void pobj_threads_begin(pobj_threads_action *action, pobj_call *own) {
    action->own = own;
    action->ended.first = NULL;
    action->moved.first = NULL;
}

/* A call leaves an object only under that object's mutex. So a thread that has locked the object that the call seemed to be on,
   and still finds it there, may look at the call. */
static inline void pobj_threads_place(pobj_call *call, pobj_protected *object) {
    __atomic_store_n(&call->object, object, __ATOMIC_RELEASE);
}

static inline pobj_protected *pobj_threads_where(const pobj_call *call) {
    return __atomic_load_n(&call->object, __ATOMIC_SEQ_CST);
}

static inline bool pobj_threads_is_aborted(const pobj_call *call) {
    return __atomic_load_n(&call->aborted, __ATOMIC_SEQ_CST);
}

static inline bool pobj_threads_make_wake(pobj_call *call) {
    pthread_condattr_t clock;
    if (pthread_condattr_init(&clock) != 0)
        return false;
    bool made = pthread_condattr_setclock(&clock, CLOCK_MONOTONIC) == 0 && pthread_cond_init(&call->wake, &clock) == 0;
    pthread_condattr_destroy(&clock);
    return made;
}

/* Makes what the caller sleeps on, once for each call. Returns false if the system refuses it. */
static inline bool pobj_threads_can_wait(pobj_call *call) {
    if (call->can_wait)
        return true;
    call->woken = false;
    if (pthread_mutex_init(&call->mutex, NULL) != 0)
        return false;
    call->can_wait = pobj_threads_make_wake(call);
    if (!call->can_wait)
        pthread_mutex_destroy(&call->mutex);
    return call->can_wait;
}

/* Ends the call with this outcome. */
static inline void pobj_threads_end(pobj_threads_action *action, pobj_call *call, pobj_outcome outcome) {
    call->outcome = outcome;
    if (call == action->own)
        action->own = NULL;
    else
        pobj_threads_append(&action->ended, call);
    pobj_threads_place(call, NULL);
}

static inline void pobj_threads_wake(pobj_call *call) {
    pthread_mutex_lock(&call->mutex);
    __atomic_store_n(&call->woken, true, __ATOMIC_RELAXED);
    pthread_cond_signal(&call->wake);
    pthread_mutex_unlock(&call->mutex);
}

/* Returns the marks of the call when it is requeued within its object. */
static inline pobj_marks pobj_threads_marks(const pobj_call *call) {
    pobj_marks due = call->due ? POBJ_DUE : POBJ_NO_MARKS;
    return pobj_threads_is_aborted(call) ? (pobj_marks)(due | POBJ_ABORTED) : due;
}

/* Returns the marks of the call when it is issued. */
static inline pobj_marks pobj_threads_first_marks(const pobj_call *call) {
    pobj_marks marks = pobj_threads_marks(call);
    return call->without_abort ? (pobj_marks)(marks | POBJ_WITHOUT_ABORT) : marks;
}

static inline pobj_barrier pobj_threads_barrier(pobj_protected *object, uint64_t entry) {
    bool (*barrier)(pobj_protected *) = object->entries[entry].barrier;
    if (barrier == NULL)
        return POBJ_OPEN;
    object->evaluated = entry;
    object->raised = false;
    object->counted = false;
    bool is_open = barrier(object);
    if (object->raised)
        return POBJ_RAISED;
    return is_open ? POBJ_OPEN : POBJ_CLOSED;
}

static inline uint64_t pobj_threads_answer(pobj_threads_action *action, uint64_t entry) {
    pobj_protected *object = action->object;
    return pobj_answer(&object->calls, pobj_threads_barrier(object, entry), &action->step);
}

static inline uint64_t pobj_threads_number_of(const pobj_call *call) {
    return (uint64_t)(uintptr_t)call;
}

static inline pobj_call *pobj_threads_caller(const pobj_threads_action *action) {
    return (pobj_call *)(uintptr_t)action->step.caller;
}

/* Keeps the ticket of the step's call, which is queued. */
static inline void pobj_threads_keep(pobj_threads_action *action) {
    pobj_call *call = pobj_threads_caller(action);
    call->key = action->step.key;
    call->number = action->step.number;
}

/* Returns how a body that requeues its call has ended. It has completed the call if the requeue can't be carried out. */
static inline pobj_body_end pobj_threads_requeue(pobj_call *call, pobj_body_end how) {
    bool is_there = call->target_entry < call->target->number;
    call->error = 0;
    call->number = 0;
    if (is_there && pobj_threads_can_wait(call))
        return how;
    call->outcome = is_there ? POBJ_CALL_NO_MEMORY : POBJ_CALL_MISUSE;
    return POBJ_COMPLETED;
}

/* Returns how the body that returned this has ended, and sets the outcome of its call unless it is requeued. POBJ_FAILED ends
   the queued calls even if it is misuse. */
static inline pobj_body_end pobj_threads_how(pobj_call *call, int how) {
    pobj_body_end end = how == POBJ_FAILED ? POBJ_FAILED : POBJ_COMPLETED;
    if (how == (int)end && call->said == POBJ_COMPLETED) {
        call->outcome = call->error == 0 ? POBJ_CALL_COMPLETED : POBJ_CALL_ERROR;
        return end;
    }
    if (how == call->said && (how == POBJ_REQUEUED || how == POBJ_REQUEUED_WITH_ABORT || how == POBJ_REQUEUED_ELSEWHERE))
        return pobj_threads_requeue(call, (pobj_body_end)how);
    call->outcome = POBJ_CALL_MISUSE;
    return end;
}

/* Runs the body of the entry for the call. Returns how it has ended. */
static inline pobj_body_end pobj_threads_body(pobj_protected *object, pobj_call *call, uint64_t entry) {
    call->entry = entry;
    call->said = POBJ_COMPLETED;
    return pobj_threads_how(call, object->entries[entry].body(call));
}

/* Returns the entry to which the body has requeued its call, or 0. */
static inline uint64_t pobj_threads_target_of(const pobj_call *call, pobj_body_end how) {
    return how < POBJ_REQUEUED ? 0 : call->target_entry;
}

/* Ends the call, or keeps it for another object, as its body has ended. */
static inline void pobj_threads_settle(pobj_threads_action *action, pobj_call *call, pobj_body_end how) {
    if (how == POBJ_COMPLETED || how == POBJ_FAILED) {
        pobj_threads_end(action, call, call->outcome);
    } else if (how == POBJ_REQUEUED_ELSEWHERE) {
        pobj_threads_append(&action->moved, call);
        pobj_threads_place(call, call->target);
    }
}

/* Runs the body of the entry for the call of the step. */
static inline uint64_t pobj_threads_run(pobj_threads_action *action, uint64_t entry) {
    pobj_object *calls = &action->object->calls;
    pobj_call *call = pobj_threads_caller(action);
    call->number = 0;
    pobj_body_end how = pobj_threads_body(action->object, call, entry);
    uint64_t target = pobj_threads_target_of(call, how);
    uint64_t answer = pobj_body_ended(calls, how, target, pobj_threads_marks(call), &action->step);
    pobj_threads_settle(action, call, how);
    return answer;
}

/* Ends the step's call, which no body completed. */
static inline uint64_t pobj_threads_unserved(pobj_threads_action *action, pobj_outcome outcome) {
    pobj_call *call = pobj_threads_caller(action);
    call->number = 0;
    pobj_threads_end(action, call, outcome);
    return pobj_next(&action->object->calls, &action->step);
}

static inline uint64_t pobj_threads_cancelled(pobj_threads_action *action) {
    bool is_aborted = pobj_threads_is_aborted(pobj_threads_caller(action));
    return pobj_threads_unserved(action, is_aborted ? POBJ_CALL_ABORTED : POBJ_CALL_EXPIRED);
}

/* Does what the engine answers. Returns what it answers then. */
static inline uint64_t pobj_threads_do(pobj_threads_action *action, uint64_t answer) {
    switch (pobj_action_of(answer)) {
    case POBJ_QUEUED:
        pobj_threads_keep(action);
        return pobj_threads_answer(action, pobj_entry_of(answer));
    case POBJ_EVALUATE:
        return pobj_threads_answer(action, pobj_entry_of(answer));
    case POBJ_RUN:
        return pobj_threads_run(action, pobj_entry_of(answer));
    case POBJ_CANCELLED:
        return pobj_threads_cancelled(action);
    case POBJ_PROGRAM_ERROR:
        return pobj_threads_unserved(action, POBJ_CALL_PROGRAM_ERROR);
    case POBJ_REST: case POBJ_NO_MEMORY: case POBJ_REFUSED:
    default: /* a step of this header is refused only if something has written into the object */
        abort();
    }
}

/* Does what the engine answers, until the protected action is over. */
POBJ_THREADS_IN_PLACE static inline void pobj_threads_drive(pobj_threads_action *action, uint64_t answer) {
    while (pobj_action_of(answer) != POBJ_REST)
        answer = pobj_threads_do(action, answer);
}

/* Begins a protected action on the object. Returns false if this thread is inside it. */
static inline bool pobj_threads_enter(pobj_threads_action *action, pobj_protected *object) {
    action->object = object;
    return pthread_mutex_lock(&object->mutex) == 0;
}

/* Leaves the object, and wakes the callers whose calls have ended. */
static inline void pobj_threads_unlock(pobj_threads_action *action) {
    pthread_mutex_unlock(&action->object->mutex);
    for (pobj_call *call; (call = pobj_threads_take(&action->ended)) != NULL;)
        pobj_threads_wake(call);
}

/* Runs the body of the open entry for the call, and then issues the call as one that is served. */
POBJ_THREADS_IN_PLACE static inline void pobj_threads_serve(
    pobj_threads_action *action, pobj_call *call, uint64_t entry, pobj_marks marks) {
    pobj_object *calls = &action->object->calls;
    uint64_t caller = pobj_threads_number_of(call);
    pobj_body_end how = pobj_threads_body(action->object, call, entry);
    uint64_t target = pobj_threads_target_of(call, how);
    uint64_t answer = pobj_served(calls, caller, entry, marks, how, target, pobj_threads_marks(call), &action->step);
    pobj_threads_settle(action, call, how);
    pobj_threads_drive(action, answer);
}

/* Carries out the call, whose barrier is open, if there is room for it. */
POBJ_THREADS_IN_PLACE static inline void pobj_threads_pass(
    pobj_threads_action *action, pobj_call *call, uint64_t entry, pobj_marks marks) {
    pobj_action is_ready = pobj_action_of(pobj_ready(&action->object->calls));
    if (is_ready == POBJ_REST)
        pobj_threads_serve(action, call, entry, marks);
    else if (is_ready == POBJ_NO_MEMORY)
        pobj_threads_end(action, call, POBJ_CALL_NO_MEMORY);
    else
        abort(); /* as in pobj_threads_do */
}

static inline bool pobj_threads_turn_away(pobj_threads_action *action, pobj_call *call, uint64_t entry, pobj_marks marks) {
    if (!pobj_turn_away(&action->object->calls, pobj_threads_number_of(call), entry, marks))
        return false;
    pobj_threads_end(action, call, POBJ_CALL_EXPIRED);
    return true;
}

static inline bool pobj_threads_wait(pobj_threads_action *action, pobj_call *call, uint64_t entry, pobj_marks marks) {
    if (!pobj_wait(&action->object->calls, pobj_threads_number_of(call), entry, marks, &action->step))
        return false;
    pobj_threads_keep(action);
    return true;
}

/* Cancels the call if it is due, or else queues it: its barrier is closed and asked for no count. False: nothing is changed. */
static inline bool pobj_threads_stop(pobj_threads_action *action, pobj_call *call, uint64_t entry, pobj_marks marks) {
    return call->due ? pobj_threads_turn_away(action, call, entry, marks) : pobj_threads_wait(action, call, entry, marks);
}

/* Carries out step by step the call, whose barrier has this value. */
static inline void pobj_threads_accept(
    pobj_threads_action *action, pobj_call *call, uint64_t entry, pobj_marks marks, pobj_barrier barrier) {
    pobj_object *calls = &action->object->calls;
    uint64_t answer = pobj_issue(calls, pobj_threads_number_of(call), entry, marks, barrier, &action->step);
    if (pobj_action_of(answer) == POBJ_NO_MEMORY)
        pobj_threads_end(action, call, POBJ_CALL_NO_MEMORY);
    else
        pobj_threads_drive(action, answer);
}

/* Carries out the call, whose barrier has this value, in few steps. If it may wait, first makes what its caller sleeps on. */
POBJ_THREADS_IN_PLACE static inline void pobj_threads_carry_out(
    pobj_threads_action *action, pobj_call *call, uint64_t entry, pobj_marks marks, pobj_barrier barrier) {
    bool is_withdrawn = (marks & (POBJ_ABORTED | POBJ_WITHOUT_ABORT)) == POBJ_ABORTED;
    if (barrier == POBJ_OPEN && !is_withdrawn)
        pobj_threads_pass(action, call, entry, marks);
    else if (barrier == POBJ_CLOSED && !call->due && !pobj_threads_can_wait(call))
        pobj_threads_end(action, call, POBJ_CALL_NO_MEMORY);
    else if (barrier != POBJ_CLOSED || action->object->counted || !pobj_threads_stop(action, call, entry, marks))
        pobj_threads_accept(action, call, entry, marks, barrier);
}

/* Issues the call on the object of the action, and does all that this makes possible. */
POBJ_THREADS_IN_PLACE static inline void pobj_threads_issue(pobj_threads_action *action, pobj_call *call, uint64_t entry) {
    if (action->object->finalized) {
        pobj_threads_end(action, call, POBJ_CALL_PROGRAM_ERROR);
        return;
    }
    pobj_barrier barrier = pobj_threads_barrier(action->object, entry);
    pobj_threads_carry_out(action, call, entry, pobj_threads_first_marks(call), barrier);
}

/* Issues a call that was requeued to another object there. */
static inline void pobj_threads_go_on(pobj_threads_action *action, pobj_call *call) {
    if (pobj_threads_enter(action, call->target)) {
        pobj_threads_issue(action, call, call->target_entry);
        pobj_threads_unlock(action);
        return;
    }
    bool is_own = call == action->own;
    pobj_threads_end(action, call, POBJ_CALL_MISUSE); /* this thread is inside that object, and can't begin an action there */
    if (!is_own)
        pobj_threads_wake(pobj_threads_take(&action->ended));
}

/* Ends the protected action, then issues the calls that were requeued to other objects. */
static inline void pobj_threads_leave(pobj_threads_action *action) {
    pobj_threads_unlock(action);
    for (pobj_call *call; (call = pobj_threads_take(&action->moved)) != NULL;)
        pobj_threads_go_on(action, call);
}

/* Cancels the call, which is on the object of the action, if it is queued and may be cancelled. */
static inline pobj_cancellation pobj_threads_withdraw(pobj_threads_action *action, pobj_call *call, bool expired) {
    pobj_object *calls = &action->object->calls;
    pobj_cancellation made = POBJ_CANCEL_UNKNOWN;
    if (call->number != 0)
        made = pobj_cancel(calls, call->key, call->number, expired);
    if (made == POBJ_CANCEL_MADE) {
        call->number = 0;
        pobj_threads_end(action, call, expired ? POBJ_CALL_EXPIRED : POBJ_CALL_ABORTED);
        pobj_threads_drive(action, pobj_next(calls, &action->step));
    } else if (expired) {
        call->due = true;
    }
    return made;
}

/* Attempts to cancel the call, wherever it is (9.5.3). */
static inline pobj_cancellation pobj_threads_cancel(pobj_call *call, pobj_call *own, bool expired) {
    pobj_threads_action action;
    pobj_threads_begin(&action, own);
    for (pobj_protected *object; (object = pobj_threads_where(call)) != NULL; pobj_threads_unlock(&action)) {
        if (!pobj_threads_enter(&action, object))
            return POBJ_CANCEL_REFUSED;
        if (pobj_threads_where(call) == object) {
            pobj_cancellation made = pobj_threads_withdraw(&action, call, expired);
            pobj_threads_leave(&action);
            return made;
        }
    }
    return POBJ_CANCEL_UNKNOWN;
}

/* Lets other threads run some times, until the call has ended: a short wait costs less than a sleep. */
static inline void pobj_threads_yield(const pobj_call *call) {
    for (int i = 0; i < 16 && !__atomic_load_n(&call->woken, __ATOMIC_RELAXED); i++)
        sched_yield();
}

/* Sleeps until the call has ended or its time has come. Returns whether it has ended. */
static inline bool pobj_threads_sleep(pobj_call *call, const struct timespec *until) {
    int error = 0;
    if (until == NULL)
        pobj_threads_yield(call);
    pthread_mutex_lock(&call->mutex);
    while (!call->woken && error == 0)
        if (until == NULL)
            error = pthread_cond_wait(&call->wake, &call->mutex);
        else
            error = pthread_cond_timedwait(&call->wake, &call->mutex, until);
    bool woken = call->woken;
    pthread_mutex_unlock(&call->mutex);
    return woken;
}

/* Waits until the call has ended. The thread can't be cancelled meanwhile. */
static inline void pobj_threads_await(pobj_call *call, const struct timespec *until) {
    int before;
    pthread_setcancelstate(PTHREAD_CANCEL_DISABLE, &before);
    if (!pobj_threads_sleep(call, until) && pobj_threads_cancel(call, call, true) != POBJ_CANCEL_MADE)
        pobj_threads_sleep(call, NULL);
    pthread_setcancelstate(before, &before);
}

/* Makes the call that a record of this thread describes, and waits until it has ended. */
static inline pobj_outcome pobj_threads_make(
    pobj_protected *object, uint64_t entry, pobj_call *call, const struct timespec *until) {
    pobj_threads_action action;
    pobj_threads_begin(&action, call);
    if (!pobj_threads_enter(&action, object)) {
        pobj_threads_place(call, NULL);
        return POBJ_CALL_MISUSE;
    }
    pobj_threads_issue(&action, call, entry);
    pobj_threads_leave(&action);
    if (action.own != NULL)
        pobj_threads_await(call, until);
    if (call->can_wait) {
        pthread_cond_destroy(&call->wake);
        pthread_mutex_destroy(&call->mutex);
    }
    return call->outcome;
}

/* Takes the record for a call. Returns false if it is in use. Afterwards either an abort finds the call, or the call sees the
   abort: the caller writes where the call is and then reads whether it is aborted, the aborting thread writes that it is
   aborted and then reads where it is, and these accesses are sequentially consistent. tests/litmus.c lists all shared steps. */
static inline bool pobj_threads_claim(pobj_call *call, pobj_protected *object) {
    if (__atomic_exchange_n(&call->in_use, true, __ATOMIC_ACQUIRE))
        return false;
    __atomic_store_n(&call->object, object, __ATOMIC_SEQ_CST);
    return true;
}

static inline pobj_outcome pobj_threads_call(
    pobj_protected *object, uint64_t entry, void *parameters, bool due, const struct timespec *until, pobj_call *record) {
    pobj_call own; /* most parts are written only if the call waits */
    pobj_call *call = record == NULL ? &own : record;
    if (entry >= object->number)
        return POBJ_CALL_MISUSE;
    if (record == NULL) {
        own.object = object;
        own.aborted = false;
    } else if (!pobj_threads_claim(record, object)) {
        return POBJ_CALL_MISUSE;
    }
    call->parameters = parameters;
    call->error = 0;
    call->due = due;
    call->without_abort = false;
    call->can_wait = false;
    pobj_outcome outcome = pobj_threads_make(object, entry, call, until);
    __atomic_store_n(&call->in_use, false, __ATOMIC_RELEASE);
    return outcome;
}

static inline bool pobj_threads_make_mutex(pthread_mutex_t *mutex) {
    pthread_mutexattr_t kind;
    if (pthread_mutexattr_init(&kind) != 0)
        return false;
    bool made = pthread_mutexattr_settype(&kind, PTHREAD_MUTEX_ERRORCHECK) == 0 && pthread_mutex_init(mutex, &kind) == 0;
    pthread_mutexattr_destroy(&kind);
    return made;
}

static inline bool pobj_threads_have_bodies(const pobj_entry *entries, uint64_t number) {
    for (uint64_t i = 0; i < number; i++)
        if (entries == NULL || entries[i].body == NULL)
            return false;
    return true;
}

/* Makes all of an object except the calls, which are already made. Frees these if that fails. */
static inline bool pobj_threads_set_up(pobj_protected *object, void *data, const pobj_entry *entries, uint64_t number) {
    object->data = data;
    object->evaluated = 0;
    object->entries = entries;
    object->number = number;
    object->raised = false;
    object->counted = false;
    object->finalized = false;
    if (pobj_threads_have_bodies(entries, number) && pobj_threads_make_mutex(&object->mutex))
        return true;
    pobj_free(&object->calls);
    return false;
}

/* Objects. All but the first two functions require an object that is made. */

/* Makes a protected object with these data and an array of `number` entries (9.4). It takes memory as its calls need it. The
   array and the data have to stay where they are as long as the object is used. Returns whether the object is made: false if
   there is no memory, if `number` is more than 65,535, or if an entry has no body. */
POBJ_THREADS_HEED static inline bool pobj_protected_make(
    pobj_protected *object, void *data, const pobj_entry *entries, uint64_t number) {
    object->calls.at = NULL;
    return pobj_make(&object->calls, number) && pobj_threads_set_up(object, data, entries, number);
}

/* The same, but takes all memory now, for `calls` calls that are queued or being served at once. Any more end by
   POBJ_CALL_NO_MEMORY. */
POBJ_THREADS_HEED static inline bool pobj_protected_make_fixed(
    pobj_protected *object, void *data, const pobj_entry *entries, uint64_t number, size_t calls) {
    object->calls.at = NULL;
    return pobj_make_fixed(&object->calls, number, calls) && pobj_threads_set_up(object, data, entries, number);
}

/* Limits the entry's queue to `longest` calls from now on (Max_Entry_Queue_Length, D.7); 0 means no limit. Any more end by
   POBJ_CALL_PROGRAM_ERROR. Returns false if there is no such entry, or this thread is inside the object. */
POBJ_THREADS_HEED static inline bool pobj_protected_limit(pobj_protected *object, uint64_t entry, uint64_t longest) {
    if (pthread_mutex_lock(&object->mutex) != 0)
        return false;
    bool is_set = pobj_limit(&object->calls, entry, longest);
    pthread_mutex_unlock(&object->mutex);
    return is_set;
}

/* Finalizes the object: each queued call ends by POBJ_CALL_PROGRAM_ERROR, and so does each later call, procedure and
   function (9.4). Returns false if this thread is inside the object. */
POBJ_THREADS_HEED static inline bool pobj_protected_finalize(pobj_protected *object) {
    pobj_threads_action action;
    pobj_threads_begin(&action, NULL);
    if (!pobj_threads_enter(&action, object))
        return false;
    if (!object->finalized) {
        object->finalized = true;
        pobj_threads_drive(&action, pobj_finalize(&object->calls, &action.step));
    }
    pobj_threads_leave(&action);
    return true;
}

/* Frees what the object takes. No thread may be in an operation on it, or begin one later. So first finalize it, and join the
   threads that call it, whose calls are requeued to it, that carry out such a requeue, or that abort such calls. */
static inline void pobj_protected_destroy(pobj_protected *object) {
    pobj_free(&object->calls);
    pthread_mutex_destroy(&object->mutex);
}

/* Returns how many calls are queued on the entry ('Count, 9.9), or 0 if there is no such entry. In the object's own barriers,
   bodies, procedures and functions the count stays true while they run. Elsewhere this locks the object, and the count may have
   changed by the time you read it. */
static inline uint64_t pobj_entry_count(pobj_protected *object, uint64_t entry) {
    bool is_outside = pthread_mutex_lock(&object->mutex) == 0;
    uint64_t count = pobj_count(&object->calls, entry);
    object->counted = true;
    if (is_outside)
        pthread_mutex_unlock(&object->mutex);
    return count;
}

/* Operations. Each requires an object that is made, and a thread that holds no lock that a barrier or a body takes. */

/* Makes an entry call: it waits until a body has completed it, or it has ended otherwise (9.5.3). The record may be NULL, as
   with the other kinds of calls. */
POBJ_THREADS_HEED static inline pobj_outcome pobj_entry_call(
    pobj_protected *object, uint64_t entry, void *parameters, pobj_call *record) {
    return pobj_threads_call(object, entry, parameters, false, NULL, record);
}

/* Makes a conditional entry call: it ends by POBJ_CALL_EXPIRED if it would wait (9.7.3), unless the queue is full (D.7). It
   waits only if a body requeued it without abort (9.5.4). */
POBJ_THREADS_HEED static inline pobj_outcome pobj_conditional_call(
    pobj_protected *object, uint64_t entry, void *parameters, pobj_call *record) {
    return pobj_threads_call(object, entry, parameters, true, NULL, record);
}

/* Makes a timed entry call: it ends by POBJ_CALL_EXPIRED if it still waits at this time of CLOCK_MONOTONIC (9.7.2), which
   pobj_time_from_now gives. If a body requeued it without abort, it waits on (9.5.4). */
POBJ_THREADS_HEED static inline pobj_outcome pobj_timed_call(
    pobj_protected *object, uint64_t entry, void *parameters, const struct timespec *until, pobj_call *record) {
    if (until == NULL || until->tv_sec < 0 || until->tv_nsec < 0 || until->tv_nsec > 999999999)
        return POBJ_CALL_MISUSE;
    return pobj_threads_call(object, entry, parameters, false, until, record);
}

/* Returns the time of CLOCK_MONOTONIC that is this number of nanoseconds from now: 1000000000 for one second. */
static inline struct timespec pobj_time_from_now(uint64_t nanoseconds) {
    struct timespec time;
    clock_gettime(CLOCK_MONOTONIC, &time);
    uint64_t rest = nanoseconds % 1000000000 + (uint64_t)time.tv_nsec;
    time.tv_sec += (time_t)(nanoseconds / 1000000000 + rest / 1000000000);
    time.tv_nsec = (long)(rest % 1000000000);
    return time;
}

/* Aborts the caller of the record (9.8). A queued call ends by POBJ_CALL_ABORTED, and this returns POBJ_CANCEL_MADE. Otherwise
   the abort is remembered. POBJ_CANCEL_KEPT: a requeue without abort protects the call until it is requeued with abort (9.5.4).
   POBJ_CANCEL_UNKNOWN: no call is queued, and the next one that would be is aborted. POBJ_CANCEL_REFUSED: this thread is inside
   the object that the call is on, and has to repeat this from outside. An abort is for good: set the record to {0} to use it
   again. Until this has returned, the record has to stay where it is, and mustn't be set to {0}. */
static inline pobj_cancellation pobj_abort(pobj_call *record) {
    __atomic_store_n(&record->aborted, true, __ATOMIC_SEQ_CST);
    return pobj_threads_cancel(record, NULL, false);
}

/* Runs a protected procedure (9.5.1) under the lock, then carries out what it has made possible. The program writes it as:

       static void clear(pobj_protected *object, void *parameters);

   It finds the data in object->data, and gets the pointer passed here as its parameters. Returns POBJ_CALL_COMPLETED. If the
   object is finalized returns POBJ_CALL_PROGRAM_ERROR, and if this thread is inside it POBJ_CALL_MISUSE: then it didn't run. */
POBJ_THREADS_HEED static inline pobj_outcome pobj_procedure(
    pobj_protected *object, void (*procedure)(pobj_protected *object, void *parameters), void *parameters) {
    pobj_threads_action action;
    pobj_threads_begin(&action, NULL);
    if (!pobj_threads_enter(&action, object))
        return POBJ_CALL_MISUSE;
    bool runs = !object->finalized;
    if (runs) {
        procedure(object, parameters);
        pobj_threads_drive(&action, pobj_next(&object->calls, &action.step));
    }
    pobj_threads_leave(&action);
    return runs ? POBJ_CALL_COMPLETED : POBJ_CALL_PROGRAM_ERROR;
}

/* Runs a protected function (9.5.1) under the lock. It changes nothing that a barrier reads, so no queue is looked at. Its
   signature and the values returned are those of a procedure. */
POBJ_THREADS_HEED static inline pobj_outcome pobj_function(
    pobj_protected *object, void (*function)(pobj_protected *object, void *parameters), void *parameters) {
    if (pthread_mutex_lock(&object->mutex) != 0)
        return POBJ_CALL_MISUSE;
    bool runs = !object->finalized;
    if (runs)
        function(object, parameters);
    pthread_mutex_unlock(&object->mutex);
    return runs ? POBJ_CALL_COMPLETED : POBJ_CALL_PROGRAM_ERROR;
}

#endif
