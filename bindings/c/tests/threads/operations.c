/* Each operation of pobj_threads.h and each of its answers alone. */
#define _POSIX_C_SOURCE 200809L

#include "threads.h"

static bool is_past(const struct timespec *time) {
    struct timespec now = pobj_time_from_now(0);
    return now.tv_sec > time->tv_sec || (now.tv_sec == time->tv_sec && now.tv_nsec >= time->tv_nsec);
}

/* A gate, whose entries do everything that a body can do. */

enum {
    PASS,
    HOLD,
    HOLD_AND_MOVE,
    RAISE,
    FAIL,
    REQUEUE,
    REQUEUE_WITH_ABORT,
    MOVE,
    MOVE_WITH_ABORT,
    LOSE,
    LOSE_ELSEWHERE,
    MIX,
    BABBLE,
    ENTRIES
};

/* Entries whose bodies return what they mustn't; the first, PASS, is a right one. */
enum {
    RAISE_0 = PASS + 1,
    RAISE_0_AND_FAIL,
    FORGET_REQUEUE,
    FORGET_MOVE,
    REQUEUE_AND_FAIL,
    REQUEUE_TWICE,
    REQUEUE_AND_RAISE,
    NO_REQUEUE,
    WRONG_ENTRIES
};

struct gate {
    int passes, holds;     /* what the barriers of PASS, and of HOLD and HOLD_AND_MOVE, say */
    pobj_protected *other; /* where MOVE goes, to its PASS */
};

static bool passes(pobj_protected *object) {
    const struct gate *gate = object->data;
    return gate->passes == POBJ_RAISED ? pobj_raise_barrier(object) : gate->passes == POBJ_OPEN;
}

static bool holds(pobj_protected *object) {
    const struct gate *gate = object->data;
    return gate->holds == POBJ_OPEN;
}

static int pass(pobj_call *call) {
    int *count = call->parameters;
    ++*count;
    return POBJ_COMPLETED;
}

static int raise_7(pobj_call *call) {
    return pobj_raise(call, 7);
}

static int fail(pobj_call *call) {
    pobj_raise(call, 8);
    return POBJ_FAILED;
}

static int requeue(pobj_call *call) {
    pobj_raise(call, 9); /* the last thing that a body does counts */
    return pobj_requeue(call, HOLD);
}

static int requeue_with_abort(pobj_call *call) {
    return pobj_requeue_with_abort(call, PASS);
}

static int move(pobj_call *call) {
    const struct gate *gate = pobj_data(call);
    return pobj_requeue_elsewhere(call, gate->other, PASS);
}

static int move_with_abort(pobj_call *call) {
    const struct gate *gate = pobj_data(call);
    return pobj_requeue_elsewhere_with_abort(call, gate->other, PASS);
}

static int lose(pobj_call *call) {
    return pobj_requeue(call, ENTRIES);
}

static int lose_elsewhere(pobj_call *call) {
    const struct gate *gate = pobj_data(call);
    return pobj_requeue_elsewhere(call, gate->other, UINT64_MAX);
}

/* Returns what the first of two requeues returned. */
static int mix(pobj_call *call) {
    const struct gate *gate = pobj_data(call);
    int how = pobj_requeue(call, PASS);
    return pobj_requeue_elsewhere(call, gate->other, PASS) == how ? POBJ_COMPLETED : how;
}

static int babble(pobj_call *call) {
    return (int)call->entry + 1000;
}

static int raise_0(pobj_call *call) {
    return pobj_raise(call, 0);
}

static int raise_0_and_fail(pobj_call *call) {
    pobj_raise(call, 0);
    return POBJ_FAILED;
}

static int forget_requeue(pobj_call *call) {
    return pobj_requeue(call, PASS) == POBJ_REQUEUED ? POBJ_COMPLETED : POBJ_FAILED;
}

static int forget_move(pobj_call *call) {
    const struct gate *gate = pobj_data(call);
    return pobj_requeue_elsewhere(call, gate->other, PASS) == POBJ_REQUEUED_ELSEWHERE ? POBJ_COMPLETED : POBJ_FAILED;
}

static int requeue_and_fail(pobj_call *call) {
    return pobj_requeue_with_abort(call, PASS) == POBJ_REQUEUED_WITH_ABORT ? POBJ_FAILED : POBJ_COMPLETED;
}

/* Returns what the first of two requeues to its own object returned. */
static int requeue_twice(pobj_call *call) {
    int how = pobj_requeue(call, PASS);
    return pobj_requeue_with_abort(call, PASS) == how ? POBJ_COMPLETED : how;
}

static int requeue_and_raise(pobj_call *call) {
    int how = pobj_requeue(call, PASS);
    pobj_raise(call, 7);
    return how;
}

static int no_requeue(pobj_call *call) {
    (void)call;
    return POBJ_REQUEUED;
}

static const pobj_entry wrong_entries[WRONG_ENTRIES] = {
    {"pass", passes, pass},
    {"raise 0", NULL, raise_0},
    {"raise 0 and fail", NULL, raise_0_and_fail},
    {"forget requeue", NULL, forget_requeue},
    {"forget move", NULL, forget_move},
    {"requeue and fail", NULL, requeue_and_fail},
    {"requeue twice", NULL, requeue_twice},
    {"requeue and raise", NULL, requeue_and_raise},
    {"no requeue", NULL, no_requeue},
};

static const pobj_entry entries[ENTRIES] = {
    {"pass", passes, pass},
    {"hold", holds, requeue_with_abort},
    {"hold and move", holds, move_with_abort},
    {"raise", NULL, raise_7},
    {"fail", NULL, fail},
    {"requeue", NULL, requeue},
    {"requeue with abort", NULL, requeue_with_abort},
    {"move", NULL, move},
    {"move with abort", NULL, move_with_abort},
    {"lose", NULL, lose},
    {"lose elsewhere", NULL, lose_elsewhere},
    {"mix", NULL, mix},
    {"babble", NULL, babble},
};

static struct gate gates[2];

static void begin(void) {
    gates[0] = (struct gate){POBJ_CLOSED, POBJ_CLOSED, b};
    gates[1] = (struct gate){POBJ_CLOSED, POBJ_CLOSED, a};
    CHECK(pobj_protected_make(a, &gates[0], entries, ENTRIES));
    CHECK(pobj_protected_make(b, &gates[1], entries, ENTRIES));
}

static void set_passes(pobj_protected *object, void *barrier) {
    struct gate *gate = object->data;
    gate->passes = *(int *)barrier;
}

static void set_holds(pobj_protected *object, void *barrier) {
    struct gate *gate = object->data;
    gate->holds = *(int *)barrier;
}

static void let_pass(pobj_protected *object, int barrier) {
    CHECK(pobj_procedure(object, set_passes, &barrier) == POBJ_CALL_COMPLETED);
}

static void let_go(pobj_protected *object, int barrier) {
    CHECK(pobj_procedure(object, set_holds, &barrier) == POBJ_CALL_COMPLETED);
}

/* A thread that makes one call: a timed one if its time is greater than 0, a conditional one if it is less. */
struct caller {
    pthread_t thread;
    pobj_protected *object;
    uint64_t entry;
    int64_t patience;
    int count;
    pobj_outcome outcome;
    pobj_call record;
};

static pobj_outcome call(struct caller *caller) {
    struct timespec until = pobj_time_from_now(caller->patience > 0 ? (uint64_t)caller->patience : 0);
    if (caller->patience < 0)
        return pobj_conditional_call(caller->object, caller->entry, &caller->count, &caller->record);
    if (caller->patience > 0)
        return pobj_timed_call(caller->object, caller->entry, &caller->count, &until, &caller->record);
    return pobj_entry_call(caller->object, caller->entry, &caller->count, &caller->record);
}

static void *call_once(void *argument) {
    struct caller *caller = argument;
    caller->outcome = call(caller);
    return NULL;
}

static const int64_t conditional = -1, untimed = 0, short_time = 20000000;

static void start_call(struct caller *caller, pobj_protected *object, uint64_t entry, int64_t patience) {
    *caller = (struct caller){.object = object, .entry = entry, .patience = patience};
    start(&caller->thread, call_once, caller);
}

static void await_count(pobj_protected *object, uint64_t entry, uint64_t count) {
    while (pobj_entry_count(object, entry) != count)
        pause_for(100000);
}

/* Starts a call, and waits until it is queued alone on this entry of this object. */
static void start_waiting(
    struct caller *caller, pobj_protected *object, uint64_t entry, int64_t patience, pobj_protected *where, uint64_t on) {
    start_call(caller, object, entry, patience);
    await_count(where, on, 1);
}

static pobj_outcome outcome_of(struct caller *caller) {
    pthread_join(caller->thread, NULL);
    return caller->outcome;
}

static bool has_passed(struct caller *caller) {
    return outcome_of(caller) == POBJ_CALL_COMPLETED && caller->count == 1;
}

/* Makes a call in this thread. */
static pobj_outcome try_call(pobj_protected *object, uint64_t entry, int64_t patience) {
    struct caller caller = {.object = object, .entry = entry, .patience = patience};
    return call(&caller);
}

static void outcomes(void) {
    int count = 0;
    pobj_call record = {0};
    struct timespec wrong = {0, 1000000000}, past = {0, 0};
    begin();
    CHECK(pobj_entry_call(a, RAISE, NULL, &record) == POBJ_CALL_ERROR && record.error == 7);
    CHECK(pobj_entry_call(a, RAISE, NULL, NULL) == POBJ_CALL_ERROR);
    CHECK(pobj_conditional_call(a, PASS, &count, &record) == POBJ_CALL_EXPIRED && record.error == 0);
    CHECK(pobj_timed_call(a, PASS, &count, &past, &record) == POBJ_CALL_EXPIRED && count == 0);
    let_pass(a, POBJ_OPEN);
    CHECK(pobj_entry_call(a, PASS, &count, &record) == POBJ_CALL_COMPLETED && count == 1 && record.error == 0);
    CHECK(pobj_conditional_call(a, PASS, &count, NULL) == POBJ_CALL_COMPLETED && count == 2);
    CHECK(pobj_timed_call(a, PASS, &count, &past, NULL) == POBJ_CALL_COMPLETED && count == 3);
    CHECK(pobj_entry_call(a, ENTRIES, NULL, NULL) == POBJ_CALL_MISUSE);
    CHECK(pobj_entry_call(a, UINT64_MAX, NULL, &record) == POBJ_CALL_MISUSE);
    CHECK(pobj_timed_call(a, PASS, &count, &wrong, NULL) == POBJ_CALL_MISUSE);
    CHECK(pobj_timed_call(a, PASS, &count, NULL, NULL) == POBJ_CALL_MISUSE && count == 3);
    CHECK(try_call(a, LOSE, untimed) == POBJ_CALL_MISUSE && try_call(a, LOSE_ELSEWHERE, untimed) == POBJ_CALL_MISUSE);
    CHECK(try_call(a, BABBLE, untimed) == POBJ_CALL_MISUSE && try_call(a, MIX, untimed) == POBJ_CALL_MISUSE);
    CHECK(try_call(a, PASS, untimed) == POBJ_CALL_COMPLETED);
    CHECK(!pobj_protected_limit(a, ENTRIES, 1) && pobj_entry_count(a, ENTRIES) == 0);
    finish();
    CHECK(!pobj_protected_make(a, NULL, entries, 65536) && !pobj_protected_make_fixed(a, NULL, entries, 65536, 1));
}

/* An object is made only if each entry has a body. */
static void bodies(void) {
    static const pobj_entry bodiless[] = {{"pass", passes, pass}, {"no body", passes, NULL}, {"pass", NULL, pass}};
    CHECK(!pobj_protected_make(a, NULL, bodiless, 3) && !pobj_protected_make_fixed(a, NULL, bodiless, 3, 1));
    CHECK(!pobj_protected_make(a, NULL, bodiless, 2) && !pobj_protected_make_fixed(a, NULL, bodiless, 2, 1));
    CHECK(!pobj_protected_make(a, NULL, NULL, 1) && !pobj_protected_make_fixed(a, NULL, NULL, 1, 1));
    CHECK(pobj_protected_make(a, NULL, NULL, 0) && pobj_protected_make_fixed(b, NULL, bodiless, 1, 1));
    finish();
}

/* A call ends by misuse if its body raises 0, or returns another number than its last pobj_raise or requeue did. No requeue is
   carried out then. A call that is queued stays, unless the body fails. */
static void wrong_numbers(void) {
    struct caller caller;
    begin();
    pobj_protected_destroy(a);
    CHECK(pobj_protected_make(a, &gates[0], wrong_entries, WRONG_ENTRIES));
    for (uint64_t entry = RAISE_0; entry < WRONG_ENTRIES; entry++) {
        bool fails = entry == RAISE_0_AND_FAIL || entry == REQUEUE_AND_FAIL;
        start_waiting(&caller, a, PASS, untimed, a, PASS);
        CHECK(try_call(a, entry, conditional) == POBJ_CALL_MISUSE);
        CHECK(pobj_entry_count(a, PASS) == !fails && pobj_entry_count(b, PASS) == 0);
        let_pass(a, POBJ_OPEN);
        CHECK(fails ? outcome_of(&caller) == POBJ_CALL_PROGRAM_ERROR : has_passed(&caller));
        let_pass(a, POBJ_CLOSED);
    }
    finish();
}

static void meddle(pobj_protected *object, void *done) {
    pobj_call record = {0};
    CHECK(pobj_entry_call(object, RAISE, NULL, &record) == POBJ_CALL_MISUSE);
    CHECK(pobj_entry_call(object, RAISE, NULL, &record) == POBJ_CALL_MISUSE);
    CHECK(pobj_conditional_call(object, RAISE, NULL, NULL) == POBJ_CALL_MISUSE);
    CHECK(pobj_procedure(object, meddle, NULL) == POBJ_CALL_MISUSE);
    CHECK(pobj_function(object, meddle, NULL) == POBJ_CALL_MISUSE);
    CHECK(!pobj_protected_limit(object, PASS, 1) && !pobj_protected_finalize(object));
    CHECK(pobj_entry_count(object, PASS) == 1);
    ++*(int *)done;
}

/* A record that is in use, and a thread that is inside the object already. */
static void misuse(void) {
    struct caller caller;
    int done = 0;
    begin();
    start_waiting(&caller, a, PASS, untimed, a, PASS);
    CHECK(pobj_entry_call(a, RAISE, NULL, &caller.record) == POBJ_CALL_MISUSE);
    CHECK(pobj_procedure(a, meddle, &done) == POBJ_CALL_COMPLETED && pobj_function(a, meddle, &done) == POBJ_CALL_COMPLETED);
    CHECK(done == 2);
    let_pass(a, POBJ_OPEN);
    CHECK(has_passed(&caller));
    finish();
}

/* A call that has ended, but whose thread isn't woken yet: its record is still in use. Meanwhile a body keeps the lock. */
static pthread_mutex_t kept = PTHREAD_MUTEX_INITIALIZER;

static int keep(pobj_call *call) {
    int *count = call->parameters;
    ++*count;
    pthread_mutex_lock(&kept);
    pthread_mutex_unlock(&kept);
    return POBJ_COMPLETED;
}

static void *open_all(void *object) {
    let_pass(object, POBJ_OPEN);
    return NULL;
}

static void ended_in_use(void) {
    static const pobj_entry two[] = {{"pass", passes, pass}, {"keep", passes, keep}};
    struct gate gate = {POBJ_CLOSED, POBJ_CLOSED, b};
    struct caller callers[2];
    pthread_t opener;
    begin();
    pobj_protected_destroy(a);
    CHECK(pobj_protected_make(a, &gate, two, 2));
    start_waiting(&callers[0], a, 0, untimed, a, 0);
    start_waiting(&callers[1], a, 1, untimed, a, 1);
    pthread_mutex_lock(&kept);
    start(&opener, open_all, a);
    while (__atomic_load_n(&callers[0].record.object, __ATOMIC_ACQUIRE) != NULL)
        pause_for(100000);
    CHECK(pobj_entry_call(b, RAISE, NULL, &callers[0].record) == POBJ_CALL_MISUSE);
    pthread_mutex_unlock(&kept);
    pthread_join(opener, NULL);
    CHECK(has_passed(&callers[0]) && has_passed(&callers[1]));
    finish();
}

/* Program_Error by a barrier, a body that fails, a full queue. */
static void program_errors(void) {
    struct caller callers[2];
    begin();
    start_waiting(&callers[0], a, PASS, untimed, a, PASS);
    CHECK(pobj_protected_limit(a, PASS, 1) && try_call(a, PASS, untimed) == POBJ_CALL_PROGRAM_ERROR);
    CHECK(try_call(a, PASS, conditional) == POBJ_CALL_PROGRAM_ERROR);
    CHECK(try_call(a, PASS, short_time) == POBJ_CALL_PROGRAM_ERROR);
    start_waiting(&callers[1], a, HOLD, untimed, a, HOLD);
    let_pass(a, POBJ_RAISED);
    CHECK(outcome_of(&callers[0]) == POBJ_CALL_PROGRAM_ERROR && outcome_of(&callers[1]) == POBJ_CALL_PROGRAM_ERROR);
    start_waiting(&callers[0], a, HOLD, untimed, a, HOLD);
    CHECK(try_call(a, PASS, untimed) == POBJ_CALL_PROGRAM_ERROR && outcome_of(&callers[0]) == POBJ_CALL_PROGRAM_ERROR);
    start_waiting(&callers[0], a, HOLD, short_time * 100, a, HOLD);
    CHECK(try_call(a, FAIL, untimed) == POBJ_CALL_ERROR && outcome_of(&callers[0]) == POBJ_CALL_PROGRAM_ERROR);
    finish();
}

static void times(void) {
    struct caller caller;
    struct timespec soon = pobj_time_from_now((uint64_t)short_time), never = pobj_time_from_now(UINT64_MAX / 2);
    int count = 0;
    begin();
    CHECK(pobj_timed_call(a, PASS, &count, &soon, NULL) == POBJ_CALL_EXPIRED && is_past(&soon) && !is_past(&never));
    start_waiting(&caller, a, PASS, short_time * 1000, a, PASS);
    let_pass(a, POBJ_OPEN);
    CHECK(has_passed(&caller));
    finish();
}

static void aborts(void) {
    struct caller caller;
    pobj_call record = {0};
    begin();
    start_waiting(&caller, a, PASS, untimed, a, PASS);
    CHECK(pobj_abort(&caller.record) == POBJ_CANCEL_MADE && outcome_of(&caller) == POBJ_CALL_ABORTED);
    CHECK(pobj_abort(&caller.record) == POBJ_CANCEL_UNKNOWN && pobj_entry_count(a, PASS) == 0);
    let_pass(a, POBJ_OPEN);
    CHECK(pobj_entry_call(a, PASS, &caller.count, &caller.record) == POBJ_CALL_ABORTED && caller.count == 0);
    let_pass(a, POBJ_CLOSED);
    CHECK(pobj_abort(&record) == POBJ_CANCEL_UNKNOWN && pobj_entry_call(a, PASS, NULL, &record) == POBJ_CALL_ABORTED);
    start_waiting(&caller, a, REQUEUE, untimed, a, HOLD);
    CHECK(pobj_abort(&caller.record) == POBJ_CANCEL_KEPT && pobj_entry_count(a, HOLD) == 1);
    let_go(a, POBJ_OPEN);
    CHECK(outcome_of(&caller) == POBJ_CALL_ABORTED && caller.count == 0);
    start_waiting(&caller, a, REQUEUE_WITH_ABORT, untimed, a, PASS);
    CHECK(pobj_abort(&caller.record) == POBJ_CANCEL_MADE && outcome_of(&caller) == POBJ_CALL_ABORTED);
    finish();
}

/* A body whose own caller is aborted while it runs, and which then requeues its call as it is told. */
static int abort_own(pobj_call *call) {
    int (*const *next)(pobj_call *call) = call->parameters;
    CHECK(pobj_abort(call) == POBJ_CANCEL_REFUSED);
    return (*next)(call);
}

/* Makes a call whose body is that of abort_own, and then this one. */
static pobj_outcome abort_meanwhile(int (*next)(pobj_call *call), uint64_t entry) {
    pobj_call record = {0};
    return pobj_entry_call(a, entry, &next, &record);
}

static int complete(pobj_call *call) {
    (void)call;
    return POBJ_COMPLETED;
}

static int move_back(pobj_call *call) {
    return pobj_requeue_elsewhere_with_abort(call, call->object, PASS);
}

/* An abort that comes while a body runs counts once its call is requeued with abort. */
static void aborted_meanwhile(void) {
    enum { AT_ONCE = 1, LATER };
    static const pobj_entry three[] = {{"pass", passes, complete}, {"at once", NULL, abort_own}, {"later", holds, abort_own}};
    struct gate gate = {POBJ_OPEN, POBJ_OPEN, b};
    begin();
    pobj_protected_destroy(a);
    CHECK(pobj_protected_make(a, &gate, three, 3));
    for (uint64_t entry = AT_ONCE; entry <= LATER; entry++) {
        CHECK(abort_meanwhile(complete, entry) == POBJ_CALL_COMPLETED && abort_meanwhile(raise_7, entry) == POBJ_CALL_ERROR);
        CHECK(abort_meanwhile(requeue_with_abort, entry) == POBJ_CALL_ABORTED);
        CHECK(abort_meanwhile(move_back, entry) == POBJ_CALL_ABORTED);
        CHECK(abort_meanwhile(move_with_abort, entry) == POBJ_CALL_ABORTED);
    }
    finish();
}

static void abort_inside(pobj_protected *object, void *record) {
    (void)object;
    CHECK(pobj_abort(record) == POBJ_CANCEL_REFUSED);
}

static void abort_from_inside(void) {
    struct caller caller;
    begin();
    start_waiting(&caller, a, HOLD, untimed, a, HOLD);
    CHECK(pobj_procedure(a, abort_inside, &caller.record) == POBJ_CALL_COMPLETED);
    let_go(a, POBJ_OPEN);
    CHECK(outcome_of(&caller) == POBJ_CALL_ABORTED);
    finish();
}

/* REQUEUE waits on HOLD and then on PASS. It can't be cancelled on HOLD, but can be on PASS. */
static void requeues(void) {
    struct caller caller;
    begin();
    start_waiting(&caller, a, REQUEUE, short_time, a, HOLD);
    pause_for((uint64_t)short_time * 2);
    CHECK(pobj_entry_count(a, HOLD) == 1);
    let_go(a, POBJ_OPEN);
    CHECK(outcome_of(&caller) == POBJ_CALL_EXPIRED && caller.count == 0);
    CHECK(try_call(a, REQUEUE_WITH_ABORT, short_time) == POBJ_CALL_EXPIRED);
    CHECK(try_call(a, REQUEUE, short_time) == POBJ_CALL_EXPIRED && try_call(a, REQUEUE, conditional) == POBJ_CALL_EXPIRED);
    CHECK(try_call(a, REQUEUE_WITH_ABORT, conditional) == POBJ_CALL_EXPIRED);
    let_go(a, POBJ_CLOSED);
    start_waiting(&caller, a, REQUEUE, conditional, a, HOLD);
    let_go(a, POBJ_OPEN);
    CHECK(outcome_of(&caller) == POBJ_CALL_EXPIRED);
    start_waiting(&caller, a, REQUEUE, untimed, a, PASS);
    let_pass(a, POBJ_OPEN);
    CHECK(has_passed(&caller) && try_call(a, REQUEUE, conditional) == POBJ_CALL_COMPLETED);
    finish();
}

/* The same with a requeue to another object, and with one to the object itself as if it were another. */
static void moves(void) {
    struct caller caller;
    begin();
    CHECK(try_call(a, MOVE_WITH_ABORT, conditional) == POBJ_CALL_EXPIRED);
    CHECK(try_call(a, MOVE_WITH_ABORT, short_time) == POBJ_CALL_EXPIRED);
    start_waiting(&caller, a, MOVE_WITH_ABORT, untimed, b, PASS);
    CHECK(pobj_abort(&caller.record) == POBJ_CANCEL_MADE && outcome_of(&caller) == POBJ_CALL_ABORTED);
    start_waiting(&caller, a, MOVE, conditional, b, PASS);
    CHECK(pobj_abort(&caller.record) == POBJ_CANCEL_KEPT && pobj_entry_count(b, PASS) == 1);
    let_pass(b, POBJ_OPEN);
    CHECK(has_passed(&caller) && try_call(a, MOVE, conditional) == POBJ_CALL_COMPLETED);
    let_pass(b, POBJ_CLOSED);
    start_waiting(&caller, a, MOVE, short_time, b, PASS);
    pause_for((uint64_t)short_time * 2);
    CHECK(pobj_entry_count(b, PASS) == 1);
    let_pass(b, POBJ_OPEN);
    CHECK(has_passed(&caller) && try_call(a, MOVE_WITH_ABORT, untimed) == POBJ_CALL_COMPLETED);
    gates[0].other = a;
    start_waiting(&caller, a, MOVE, untimed, a, PASS);
    let_pass(a, POBJ_OPEN);
    CHECK(has_passed(&caller));
    finish();
}

static void let_go_of_a(pobj_protected *object, void *barrier) {
    (void)object;
    let_go(a, *(int *)barrier);
}

/* A call that waits, and that another thread takes from there to the other object. */
static void moved_by_others(void) {
    struct caller callers[3];
    int open = POBJ_OPEN;
    begin();
    start_waiting(&callers[0], a, HOLD_AND_MOVE, untimed, a, HOLD_AND_MOVE);
    let_go(a, POBJ_OPEN);
    CHECK(pobj_entry_count(a, HOLD_AND_MOVE) == 0 && pobj_entry_count(b, PASS) == 1);
    let_pass(b, POBJ_OPEN);
    CHECK(has_passed(&callers[0]));
    let_go(a, POBJ_CLOSED);
    let_pass(b, POBJ_CLOSED);
    start_waiting(&callers[1], a, HOLD_AND_MOVE, short_time * 25, a, HOLD_AND_MOVE);
    let_go(a, POBJ_OPEN);
    CHECK(outcome_of(&callers[1]) == POBJ_CALL_EXPIRED);
    let_go(a, POBJ_CLOSED);
    start_waiting(&callers[2], a, HOLD_AND_MOVE, untimed, a, HOLD_AND_MOVE);
    CHECK(pobj_procedure(b, let_go_of_a, &open) == POBJ_CALL_COMPLETED);
    CHECK(outcome_of(&callers[2]) == POBJ_CALL_MISUSE);
    CHECK(pobj_protected_finalize(b) && try_call(a, MOVE, untimed) == POBJ_CALL_PROGRAM_ERROR);
    finish();
}

/* An object of fixed memory. */
static void memory(void) {
    struct caller caller;
    begin();
    pobj_protected_destroy(b);
    CHECK(pobj_protected_make_fixed(b, &gates[1], entries, ENTRIES, 1));
    start_waiting(&caller, b, PASS, untimed, b, PASS);
    CHECK(try_call(b, PASS, untimed) == POBJ_CALL_NO_MEMORY && try_call(b, RAISE, untimed) == POBJ_CALL_NO_MEMORY);
    CHECK(try_call(a, MOVE, untimed) == POBJ_CALL_NO_MEMORY && pobj_entry_count(b, PASS) == 1);
    let_pass(b, POBJ_OPEN);
    CHECK(has_passed(&caller) && try_call(a, MOVE, untimed) == POBJ_CALL_COMPLETED);
    finish();
}

/* A family of entries with one barrier and one body, which look at the member's number (9.5.2). */

enum { FAMILY = 4 };

static bool is_chosen(pobj_protected *object) {
    const uint64_t *chosen = object->data;
    return object->evaluated == *chosen;
}

static int tell(pobj_call *call) {
    uint64_t *chosen = pobj_data(call);
    *(int *)call->parameters = (int)call->entry + 100;
    *chosen = FAMILY;
    return POBJ_COMPLETED;
}

static void choose(pobj_protected *object, void *entry) {
    uint64_t *chosen = object->data;
    *chosen = *(uint64_t *)entry;
}

static void family(void) {
    static const pobj_entry members[FAMILY] = {
        {"0", is_chosen, tell}, {"1", is_chosen, tell}, {"2", is_chosen, tell}, {"3", is_chosen, tell}};
    struct caller callers[FAMILY];
    uint64_t chosen = FAMILY;
    CHECK(pobj_protected_make(a, &chosen, members, FAMILY));
    for (uint64_t i = 0; i < FAMILY; i++)
        start_waiting(&callers[i], a, i, untimed, a, i);
    for (uint64_t i = FAMILY; i-- > 0;) {
        CHECK(pobj_procedure(a, choose, &i) == POBJ_CALL_COMPLETED && pobj_entry_count(a, i) == 0);
        CHECK(outcome_of(&callers[i]) == POBJ_CALL_COMPLETED && callers[i].count == (int)i + 100);
        CHECK(i == 0 || pobj_entry_count(a, i - 1) == 1);
    }
    CHECK(pobj_protected_finalize(a));
    pobj_protected_destroy(a);
}

/* A barrier that asks how many calls are queued on its entry: the call that arrives is queued, and then counts too (9.9). */
static bool has_calls(pobj_protected *object) {
    const uint64_t *enough = object->data;
    return pobj_entry_count(object, object->evaluated) >= *enough;
}

static void counting(void) {
    static const pobj_entry counted[] = {{"counted", has_calls, pass}};
    struct caller caller;
    uint64_t enough = 1;
    CHECK(pobj_protected_make(a, &enough, counted, 1));
    CHECK(try_call(a, 0, conditional) == POBJ_CALL_COMPLETED && try_call(a, 0, short_time) == POBJ_CALL_COMPLETED);
    CHECK(try_call(a, 0, untimed) == POBJ_CALL_COMPLETED && pobj_entry_count(a, 0) == 0);
    enough = 2;
    CHECK(try_call(a, 0, conditional) == POBJ_CALL_EXPIRED && try_call(a, 0, short_time) == POBJ_CALL_EXPIRED);
    start_waiting(&caller, a, 0, untimed, a, 0);
    CHECK(try_call(a, 0, conditional) == POBJ_CALL_EXPIRED && has_passed(&caller));
    CHECK(pobj_protected_finalize(a));
    pobj_protected_destroy(a);
}

/* The finalization of an object ends the calls of all who wait on it. */
static void sleepers(void) {
    static struct caller callers[THREADS];
    begin();
    for (int i = 0; i < THREADS; i++)
        start_call(&callers[i], a, i % 2 == 0 ? PASS : REQUEUE, i % 3 == 0 ? short_time * 1000 : untimed);
    await_count(a, PASS, THREADS / 2);
    await_count(a, HOLD, THREADS / 2);
    CHECK(pobj_protected_finalize(a) && pobj_entry_count(a, PASS) == 0);
    for (int i = 0; i < THREADS; i++)
        CHECK(outcome_of(&callers[i]) == POBJ_CALL_PROGRAM_ERROR && callers[i].count == 0);
    CHECK(try_call(a, RAISE, untimed) == POBJ_CALL_PROGRAM_ERROR);
    CHECK(try_call(a, PASS, conditional) == POBJ_CALL_PROGRAM_ERROR);
    CHECK(pobj_procedure(a, set_passes, NULL) == POBJ_CALL_PROGRAM_ERROR);
    CHECK(pobj_function(a, set_passes, NULL) == POBJ_CALL_PROGRAM_ERROR);
    finish();
}

void test_operations(void) {
    outcomes();
    bodies();
    wrong_numbers();
    misuse();
    ended_in_use();
    program_errors();
    times();
    aborts();
    aborted_meanwhile();
    abort_from_inside();
    requeues();
    moves();
    moved_by_others();
    memory();
    family();
    counting();
    sleepers();
}
