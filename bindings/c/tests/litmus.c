/* SPDX-License-Identifier: MIT */
/* The steps of pobj_threads.h that threads share outside of a mutex, and a test of each pattern that they make. All else is guarded
   by the mutex of an object, or of a call.

   | step                      | in                  | order   | what rests on it                                               |
   |---------------------------|---------------------|---------|----------------------------------------------------------------|
   | exchange of in_use        | pobj_threads_claim  | acquire | 1: the parts of a record that the call before has written      |
   | in_use = false            | pobj_threads_call   | release | 1                                                              |
   | object = the first object | pobj_threads_claim  | seq_cst | 2: before the caller reads `aborted`                           |
   | reads of aborted          | .._is_aborted       | seq_cst | 2                                                              |
   | aborted = true            | pobj_abort          | seq_cst | 2: before the aborting thread reads where the call is          |
   | reads of object           | pobj_threads_where  | seq_cst | 2, 3, 4                                                        |
   | object = another, or none | pobj_threads_place  | release | 3, 4                                                           |
   | woken = true              | pobj_threads_wake   | relaxed | 5: it is under the call's mutex                                |
   | reads of woken            | pobj_threads_yield  | relaxed | 5: it only ends the yielding; the caller then locks that mutex |

   1. A record has one call at a time: the exchange answers false to one thread only, until the release of that thread, with which it
      synchronizes.
   2. Either the caller sees that it is aborted, or the aborting thread sees where the call is. In the one order S of all seq_cst
      steps, suppose that the aborting thread reads no object. The null pointer that it reads was written before the claim, in the
      order of happens-before, so its read isn't after the claim's write in S (C11, 7.17.3, 6). Hence its write of `aborted`, which is
      before its read, is before the claim's write and the caller's read of `aborted` in S, and this read sees it. The later writes of
      `object` needn't be seq_cst: 3.
   3. A call leaves an object only under that object's mutex. A thread that reads an object, locks it, and still reads the same one
      excludes the thread that would move the call. If it reads an old one, the lock orders it after the move, so it reads on.
      And a caller that is moved reads `aborted` again under the next object's mutex: if the aborting thread had that mutex before,
      the read sees its write; if not, the aborting thread finds the call queued.
   4. An object that is read is one whose mutex is made: the write is a release, and the read acquires.
   5. What the caller reads of a call that has ended was written before the waking thread locked the call's mutex.

   x86-64 shows only the weak order of 2; so does qemu on several processors, which doesn't order 2 as aarch64 would (run.sh). The
   thread sanitizer judges 1, 3, 4 and 5 by the model. */
#define _POSIX_C_SOURCE 200809L
#include "check.h"
#include "pobj_threads.h"

enum { ROUNDS = 20000 };

/* Runs two functions side by side. */
static void beside(void *(*one)(void *), void *(*other)(void *)) {
    pthread_t threads[2];
    CHECK(pthread_create(&threads[0], NULL, one, NULL) == 0);
    CHECK(pthread_create(&threads[1], NULL, other, NULL) == 0);
    for (int i = 0; i < 2; i++)
        CHECK(pthread_join(threads[i], NULL) == 0);
}

/* 1: a record is used by two threads, one after the other. */
static pobj_call shared_record;
static pobj_protected nowhere;
static unsigned uses;

static void *use_record(void *nothing) {
    for (unsigned done = 0; done < ROUNDS;) {
        if (!pobj_threads_claim(&shared_record, &nowhere)) {
            sched_yield();
            continue;
        }
        uses++;
        done++;
        __atomic_store_n(&shared_record.in_use, false, __ATOMIC_RELEASE); /* as pobj_threads_call ends */
    }
    return nothing;
}

static void records_are_exclusive(void) {
    beside(use_record, use_record);
    CHECK(uses == 2 * ROUNDS);
}

/* 2: each record's caller, and a thread that aborts it. */
static pobj_call records[ROUNDS];
static bool caller_saw[ROUNDS], aborting_saw[ROUNDS];

static unsigned at[2];

/* Waits a little until the other thread is at the same record, so that their steps meet. */
static void meet(unsigned self, unsigned i) {
    __atomic_store_n(&at[self], i, __ATOMIC_RELAXED);
    for (int tries = 0; tries < 300 && __atomic_load_n(&at[1 - self], __ATOMIC_RELAXED) < i; tries++)
        continue;
}

static void *call_each(void *nothing) {
    for (unsigned i = 0; i < ROUNDS; i++) {
        meet(0, i);
        CHECK(pobj_threads_claim(&records[i], &nowhere));
        caller_saw[i] = pobj_threads_is_aborted(&records[i]);
    }
    return nothing;
}

static void *abort_each(void *nothing) {
    for (unsigned i = 0; i < ROUNDS; i++) {
        meet(1, i);
        __atomic_store_n(&records[i].aborted, true, __ATOMIC_SEQ_CST); /* as pobj_abort begins */
        aborting_saw[i] = pobj_threads_where(&records[i]) != NULL;
    }
    return nothing;
}

static void aborts_are_seen(void) {
    for (int again = 0; again < 20; again++) {
        for (unsigned i = 0; i < ROUNDS; i++)
            records[i] = (pobj_call){0};
        at[0] = at[1] = 0;
        beside(call_each, abort_each);
        for (unsigned i = 0; i < ROUNDS; i++)
            CHECK(caller_saw[i] || aborting_saw[i]);
    }
}

/* 3 and 4: a call moves between objects that its thread makes, and another thread looks for it. `number` is guarded by the mutex of the
   object that it is on. */
enum { MOVES = 200 };
static pobj_protected objects[MOVES];
static pobj_call moving;

static void *move(void *nothing) {
    pobj_protected *from = NULL;
    for (unsigned i = 0; i < MOVES; i++) {
        CHECK(pobj_threads_make_mutex(&objects[i].mutex));
        if (from != NULL)
            CHECK(pthread_mutex_lock(&from->mutex) == 0);
        moving.number++;
        pobj_threads_place(&moving, &objects[i]);
        if (from != NULL)
            CHECK(pthread_mutex_unlock(&from->mutex) == 0);
        from = &objects[i];
        sched_yield();
    }
    return nothing;
}

static void *look(void *nothing) {
    for (pobj_protected *object = NULL; object != &objects[MOVES - 1];) {
        object = pobj_threads_where(&moving);
        if (object == NULL)
            continue;
        CHECK(pthread_mutex_lock(&object->mutex) == 0);
        if (pobj_threads_where(&moving) == object)
            CHECK(moving.number == (uint64_t)(object - objects) + 1);
        CHECK(pthread_mutex_unlock(&object->mutex) == 0);
    }
    return nothing;
}

static void calls_are_found(void) {
    beside(move, look);
}

/* 5: a caller waits, and another thread ends its call. */
enum { WAKES = 500 };
static pobj_call waiting[WAKES];

static void *wait_for_each(void *nothing) {
    for (unsigned i = 0; i < WAKES; i++) {
        CHECK(pobj_threads_sleep(&waiting[i], NULL));
        CHECK(waiting[i].outcome == POBJ_CALL_ERROR && waiting[i].error == (int)i);
    }
    return nothing;
}

static void *end_each(void *nothing) {
    for (unsigned i = 0; i < WAKES; i++) {
        waiting[i].error = (int)i;
        waiting[i].outcome = POBJ_CALL_ERROR;
        if (i % 2 == 0)
            sched_yield();
        pobj_threads_wake(&waiting[i]);
    }
    return nothing;
}

static void ends_are_seen(void) {
    for (unsigned i = 0; i < WAKES; i++)
        CHECK(pobj_threads_can_wait(&waiting[i]));
    beside(wait_for_each, end_each);
}

int main(void) {
    records_are_exclusive();
    aborts_are_seen();
    calls_are_found();
    ends_are_seen();
    printf("litmus: passed\n");
    return 0;
}
