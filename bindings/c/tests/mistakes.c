/* Mistakes that a compiler has to diagnose: with -DMISTAKE=N it compiles the one of this number, and with 0 none (see run.sh).
   It is C and C++. */
#define _POSIX_C_SOURCE 200809L

#include "pobj_threads.h"

static pobj_object object;
static pobj_step step;

/* Compiles one swap of arguments. */
uint64_t swap(pobj_marks marks, pobj_barrier barrier, pobj_body_end how, bool is_open);
uint64_t swap(pobj_marks marks, pobj_barrier barrier, pobj_body_end how, bool is_open) {
    pobj_barrier chosen = is_open ? POBJ_OPEN : POBJ_CLOSED;
    pobj_marks both = (pobj_marks)(marks | POBJ_DUE);
    (void)barrier, (void)how, (void)both;
#if MISTAKE == 1
    return pobj_issue(&object, 1, 0, POBJ_OPEN, POBJ_DUE, &step);
#elif MISTAKE == 2
    return pobj_issue(&object, 1, 0, barrier, marks, &step);
#elif MISTAKE == 3
    return pobj_issue(&object, 1, 0, is_open ? POBJ_OPEN : POBJ_CLOSED, POBJ_NO_MARKS, &step);
#elif MISTAKE == 4
    return pobj_body_ended(&object, POBJ_DUE, 0, POBJ_COMPLETED, &step);
#elif MISTAKE == 5
    return pobj_body_ended(&object, marks, 0, how, &step);
#elif MISTAKE == 6
    return pobj_answer(&object, POBJ_FAILED, &step);
#elif MISTAKE == 7
    return pobj_answer(&object, pobj_action_of(1), &step);
#elif MISTAKE == 8
    return pobj_answer(&object, pobj_cancel(&object, 0, 1, 0), &step);
#elif MISTAKE == 9
    return pobj_cancel(&object, 0, 1, 0) == pobj_action_of(7);
#elif MISTAKE == 23
    return pobj_served(&object, 1, 0, how, marks, 0, POBJ_NO_MARKS, &step);
#elif MISTAKE == 24
    return pobj_wait(&object, 1, 0, POBJ_CLOSED, &step);
#elif MISTAKE == 25
    return pobj_turn_away(&object, 1, 0, barrier);
#elif MISTAKE == 26
    return pobj_served_twice(&object, 1, 0, how, marks, 0, POBJ_NO_MARKS);
#elif MISTAKE == 27
    return pobj_served_twice(&object, 1, 0, POBJ_NO_MARKS, marks, 0, how);
#else
    return pobj_issue(&object, 1, 0, both, chosen, &step) + pobj_body_ended(&object, how, 0, marks, &step) +
        pobj_served(&object, 1, 0, both, how, 0, marks, &step) + pobj_wait(&object, 1, 0, marks, &step) +
        pobj_turn_away(&object, 1, 0, both) + pobj_served_twice(&object, 1, 0, both, how, 0, marks) + pobj_is_idle(&object);
#endif
}

static pobj_protected made;

static void work(pobj_protected *of, void *parameters) {
    (void)of, (void)parameters;
}

/* Drops one answer. */
void drop(pobj_call *call, const struct timespec *until);
void drop(pobj_call *call, const struct timespec *until) {
    (void)call, (void)until;
#if MISTAKE == 10
    pobj_protected_make(&made, NULL, NULL, 0);
#elif MISTAKE == 11
    pobj_protected_make_fixed(&made, NULL, NULL, 0, 1);
#elif MISTAKE == 12
    pobj_protected_limit(&made, 0, 1);
#elif MISTAKE == 13
    pobj_protected_finalize(&made);
#elif MISTAKE == 14
    pobj_entry_call(&made, 0, NULL, NULL);
#elif MISTAKE == 15
    pobj_conditional_call(&made, 0, NULL, NULL);
#elif MISTAKE == 16
    pobj_timed_call(&made, 0, NULL, until, NULL);
#elif MISTAKE == 17
    pobj_procedure(&made, work, NULL);
#elif MISTAKE == 18
    pobj_function(&made, work, NULL);
#elif MISTAKE == 19
    pobj_requeue(call, 0);
#elif MISTAKE == 20
    pobj_requeue_with_abort(call, 0);
#elif MISTAKE == 21
    pobj_requeue_elsewhere(call, &made, 0);
#elif MISTAKE == 22
    pobj_requeue_elsewhere_with_abort(call, &made, 0);
#else
    if (pobj_procedure(&made, work, NULL) != POBJ_CALL_COMPLETED)
        abort();
#endif
}
