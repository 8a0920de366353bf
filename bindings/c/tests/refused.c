/* Refuses in turn each allocation that a run of calls of pobj.h makes. A call whose memory is refused says so and changes
   nothing: the same call then succeeds, and in the end all are served in the order in which they were queued. The same is tried
   with pobj_threads.h, where the system may also refuse what a caller sleeps on. Link with -Wl,--wrap=NAME for malloc, realloc,
   pthread_mutex_init and pthread_cond_init. */
#define _POSIX_C_SOURCE 200809L

#include "pobj_threads.h"
#include "check.h"

#include <errno.h>

enum { ENTRIES = 3, CALLERS = 200 };

void *__real_malloc(size_t size);
void *__real_realloc(void *memory, size_t size);
int __real_pthread_mutex_init(pthread_mutex_t *mutex, const pthread_mutexattr_t *kind);
int __real_pthread_cond_init(pthread_cond_t *condition, const pthread_condattr_t *clock);
void *__wrap_malloc(size_t size);
void *__wrap_realloc(void *memory, size_t size);
int __wrap_pthread_mutex_init(pthread_mutex_t *mutex, const pthread_mutexattr_t *kind);
int __wrap_pthread_cond_init(pthread_cond_t *condition, const pthread_condattr_t *clock);

static long left = -1;    /* how many allocations are granted before one is refused; less than 0: all are granted */
static unsigned refusals; /* how many were refused */

static bool is_refused(void) {
    bool refused = left == 0;
    if (left >= 0)
        left--;
    refusals += refused;
    return refused;
}

void *__wrap_malloc(size_t size) {
    return is_refused() ? NULL : __real_malloc(size);
}

void *__wrap_realloc(void *memory, size_t size) {
    return is_refused() ? NULL : __real_realloc(memory, size);
}

int __wrap_pthread_mutex_init(pthread_mutex_t *mutex, const pthread_mutexattr_t *kind) {
    return is_refused() ? EAGAIN : __real_pthread_mutex_init(mutex, kind);
}

int __wrap_pthread_cond_init(pthread_cond_t *condition, const pthread_condattr_t *clock) {
    return is_refused() ? EAGAIN : __real_pthread_cond_init(condition, clock);
}

static pobj_object object;
static pobj_step step;

static uint64_t entry_of(uint64_t caller) {
    return caller % ENTRIES;
}

static uint64_t queued(void) {
    return pobj_count(&object, 0) + pobj_count(&object, 1) + pobj_count(&object, 2);
}

static bool make(size_t fixed) {
    return fixed == 0 ? pobj_make(&object, ENTRIES) : pobj_make_fixed(&object, ENTRIES, fixed);
}

/* Makes an object. Only a refused allocation may prevent that. */
static void make_at_last(size_t fixed) {
    unsigned before = refusals;
    if (!make(fixed)) {
        CHECK(refusals == before + 1);
        CHECK(make(fixed));
    }
    CHECK(queued() == 0);
}

static uint64_t issue(uint64_t caller, uint64_t entry, pobj_marks marks, pobj_barrier barrier) {
    return pobj_issue(&object, caller, entry, marks, barrier, &step);
}

/* Issues a call. If its memory is refused, nothing has changed, and it is issued again. */
static uint64_t issue_at_last(uint64_t caller, uint64_t entry, pobj_marks marks, pobj_barrier barrier) {
    uint64_t before = queued();
    unsigned granted = refusals;
    uint64_t answer = issue(caller, entry, marks, barrier);
    if (pobj_action_of(answer) != POBJ_NO_MEMORY)
        return answer;
    CHECK(refusals == granted + 1 && queued() == before);
    CHECK(pobj_answer(&object, POBJ_OPEN, &step) == POBJ_REFUSED);
    CHECK(pobj_body_ended(&object, POBJ_COMPLETED, 0, 0, &step) == POBJ_REFUSED);
    return issue(caller, entry, marks, barrier);
}

/* Answers that every barrier asked for is closed. */
static uint64_t close(uint64_t answer) {
    while (pobj_action_of(answer) == POBJ_QUEUED || pobj_action_of(answer) == POBJ_EVALUATE)
        answer = pobj_answer(&object, POBJ_CLOSED, &step);
    return answer;
}

static void rests(uint64_t answer) {
    CHECK(pobj_action_of(answer) == POBJ_REST);
}

/* Cancels the step's call, which has just been queued, once its protected action is over. */
static void withdraw(void) {
    pobj_step ticket = step;
    rests(close(pobj_answer(&object, POBJ_CLOSED, &step)));
    CHECK(pobj_cancel(&object, ticket.key, ticket.number, 1) == POBJ_CANCEL_MADE);
    rests(close(pobj_next(&object, &step)));
}

/* Makes a call that is served at once, one that is requeued and then cancelled, and a conditional one: none stays. */
static void pass(uint64_t caller) {
    uint64_t before = queued();
    CHECK(pobj_action_of(issue_at_last(caller, 0, 0, POBJ_OPEN)) == POBJ_RUN);
    rests(close(pobj_body_ended(&object, POBJ_COMPLETED, 0, 0, &step)));
    CHECK(pobj_action_of(issue_at_last(caller, 1, 0, POBJ_OPEN)) == POBJ_RUN);
    CHECK(pobj_action_of(pobj_body_ended(&object, POBJ_REQUEUED_WITH_ABORT, 2, 0, &step)) == POBJ_QUEUED);
    withdraw();
    CHECK(pobj_action_of(close(issue_at_last(caller, 2, POBJ_DUE, POBJ_CLOSED))) == POBJ_CANCELLED && step.caller == caller);
    rests(close(pobj_next(&object, &step)));
    CHECK(queued() == before);
}

/* Makes room for a call. If its memory is refused, nothing has changed, and it is asked for again. */
static void ready_at_last(void) {
    uint64_t before = queued();
    unsigned granted = refusals;
    uint64_t answer = pobj_ready(&object);
    if (pobj_action_of(answer) == POBJ_NO_MEMORY) {
        CHECK(refusals == granted + 1 && queued() == before);
        answer = pobj_ready(&object);
    }
    rests(answer);
}

/* Returns whether this can be done while every allocation is refused. It may not even ask for one. */
static bool without_memory(bool (*is_done)(uint64_t caller), uint64_t caller) {
    unsigned granted = refusals;
    long before = left;
    left = 0;
    bool done = is_done(caller);
    left = before;
    CHECK(refusals == granted);
    return done;
}

/* Issues a call that its body has requeued. pobj_ready made room for it. */
static bool serve_and_requeue(uint64_t caller) {
    return pobj_action_of(pobj_served(&object, caller, 1, 0, POBJ_REQUEUED_WITH_ABORT, 2, 0, &step)) == POBJ_QUEUED;
}

/* Issues a call that two bodies have served, for which there needs to be no room. */
static bool serve_twice(uint64_t caller) {
    bool is_idle = pobj_is_idle(&object);
    CHECK(pobj_served_twice(&object, caller, 1, 0, POBJ_REQUEUED_WITH_ABORT, 2, 0) == is_idle);
    return is_idle;
}

/* Queues a call alone, and cancels it. If its memory is refused, nothing has changed, and it is queued then. */
static void wait_at_last(uint64_t caller) {
    unsigned granted = refusals;
    if (!pobj_wait(&object, caller, 2, 0, &step)) {
        CHECK(refusals == granted + 1 && queued() == 0);
        CHECK(pobj_wait(&object, caller, 2, 0, &step));
    }
    CHECK(queued() == 1 && pobj_cancel(&object, step.key, step.number, 1) == POBJ_CANCEL_MADE);
    rests(close(pobj_next(&object, &step)));
}

/* Makes the calls of `pass` by functions that do several steps. If no other call is queued, one more is served twice first, and
   one waits. */
static void pass_in_one(uint64_t caller) {
    uint64_t before = queued();
    CHECK(without_memory(serve_twice, caller) == (before == 0) && queued() == before);
    if (before == 0)
        wait_at_last(caller);
    ready_at_last();
    rests(close(pobj_served(&object, caller, 0, 0, POBJ_COMPLETED, 0, 0, &step)));
    ready_at_last();
    CHECK(without_memory(serve_and_requeue, caller));
    withdraw();
    CHECK(pobj_turn_away(&object, caller, 2, POBJ_DUE) == (before == 0) && queued() == before);
}

/* Serves all calls, those of each entry in the order in which they were queued. */
static void serve(uint64_t callers) {
    uint64_t expected[ENTRIES] = {0, 1, 2};
    uint64_t answer = pobj_next(&object, &step);
    for (uint64_t i = 0; i < callers; i++) {
        uint64_t entry = pobj_entry_of(answer);
        CHECK(pobj_action_of(answer) == POBJ_EVALUATE && entry < ENTRIES);
        CHECK(pobj_action_of(pobj_answer(&object, POBJ_OPEN, &step)) == POBJ_RUN && step.caller == expected[entry]);
        expected[entry] += ENTRIES;
        answer = pobj_body_ended(&object, POBJ_COMPLETED, 0, 0, &step);
    }
    rests(answer);
}

/* Carries out the whole run with the n-th allocation refused. Returns whether there was such an allocation. */
static bool refuse(long n, size_t fixed, void (*passes)(uint64_t caller)) {
    unsigned before = refusals;
    left = n;
    make_at_last(fixed);
    CHECK(pobj_limit(&object, 1, 2 * CALLERS));
    for (uint64_t caller = 0; caller < CALLERS; caller++) {
        passes(CALLERS);
        rests(close(issue_at_last(caller, entry_of(caller), caller % 2 == 0 ? POBJ_WITHOUT_ABORT : 0, POBJ_CLOSED)));
        CHECK(queued() == caller + 1);
    }
    serve(CALLERS);
    pobj_free(&object);
    left = -1;
    return refusals > before;
}

static long refuse_each(size_t fixed, void (*passes)(uint64_t caller)) {
    long n = 0;
    while (refuse(n, fixed, passes))
        n++;
    return n;
}

/* The same with pobj_threads.h: */

enum { CLOSED, OPEN, REQUEUE, MOVE };

static pobj_protected threaded;

static bool is_closed(pobj_protected *of) {
    (void)of;
    return false;
}

static int complete(pobj_call *call) {
    ++*(int *)call->parameters;
    return POBJ_COMPLETED;
}

static int requeue(pobj_call *call) {
    return pobj_requeue_with_abort(call, CLOSED);
}

static int move(pobj_call *call) {
    return pobj_requeue_elsewhere_with_abort(call, call->object, OPEN);
}

static const pobj_entry entries[] = {
    {"closed", is_closed, complete}, {"open", NULL, complete}, {"requeue", NULL, requeue}, {"move", NULL, move}};

/* Checks that a call of the entry ends with this outcome, at once or after one refusal. */
static void call_at_last(uint64_t entry, pobj_outcome outcome) {
    struct timespec past = {0, 0};
    int count = 0;
    unsigned before = refusals;
    pobj_outcome first = pobj_timed_call(&threaded, entry, &count, &past, NULL);
    if (first == POBJ_CALL_NO_MEMORY) {
        CHECK(refusals == before + 1 && count == 0 && pobj_entry_count(&threaded, CLOSED) == 0);
        first = pobj_timed_call(&threaded, entry, &count, &past, NULL);
    }
    CHECK(first == outcome && count == (outcome == POBJ_CALL_COMPLETED) && pobj_entry_count(&threaded, CLOSED) == 0);
}

static bool refuse_threads(long n) {
    unsigned before = refusals;
    left = n;
    if (!pobj_protected_make(&threaded, NULL, entries, 4))
        CHECK(refusals == before + 1 && pobj_protected_make(&threaded, NULL, entries, 4));
    call_at_last(CLOSED, POBJ_CALL_EXPIRED);
    call_at_last(OPEN, POBJ_CALL_COMPLETED);
    call_at_last(REQUEUE, POBJ_CALL_EXPIRED);
    call_at_last(MOVE, POBJ_CALL_COMPLETED);
    CHECK(pobj_protected_finalize(&threaded));
    pobj_protected_destroy(&threaded);
    left = -1;
    return refusals > before;
}

static long refuse_each_of_threads(void) {
    long n = 0;
    while (refuse_threads(n))
        n++;
    return n;
}

int main(void) {
    CHECK(refuse_each(0, pass) > 2 && refuse_each(CALLERS + 1, pass) > 0);
    CHECK(refuse_each(0, pass_in_one) > 2 && refuse_each(CALLERS + 1, pass_in_one) > 0 && refuse_each_of_threads() > 7);
    printf("refused: passed\n");
    return 0;
}
