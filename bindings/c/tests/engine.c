/* Tests of the functions of pobj.h, one by one. A test takes the steps by hand, or leaves them to carry_out, whose barriers and
   bodies do what the test has set. */
#include "pobj.h"
#include "check.h"

#include <malloc.h>
#include <string.h>

enum { ENTRIES = 3, CALLERS = 2000, FEW = 10 };

/* What has become of a caller's call. */
enum { NONE, QUEUED, COMPLETED, CANCELLED, PROGRAM_ERROR, NO_MEMORY, ELSEWHERE };

static struct {
    int state;
    size_t key;
    uint64_t number;
} calls[CALLERS];

static struct {
    long permits; /* how many calls the barrier lets through; less than 0: it raises */
    pobj_body_end how; /* how the body ends, with the next two */
    uint64_t target;
    pobj_marks marks;
} entries[ENTRIES];

static pobj_object object;
static pobj_step step;
static uint64_t order[CALLERS]; /* the callers whose calls have ended, in that order */
static size_t ended;

static pobj_barrier barrier(uint64_t entry) {
    if (entries[entry].permits < 0)
        return POBJ_RAISED;
    return entries[entry].permits > 0 ? POBJ_OPEN : POBJ_CLOSED;
}

static void end(uint64_t caller, int state) {
    calls[caller].state = state;
    order[ended++ % CALLERS] = caller;
}

static uint64_t run(uint64_t caller, uint64_t entry) {
    static const int states[] = {COMPLETED, COMPLETED, NONE, NONE, ELSEWHERE};
    pobj_body_end how = entries[entry].how;
    entries[entry].permits--;
    if (states[how] != NONE)
        end(caller, states[how]);
    return pobj_body_ended(&object, how, entries[entry].target, entries[entry].marks, &step);
}

static uint64_t queued(uint64_t caller, uint64_t asked) {
    calls[caller].state = QUEUED;
    calls[caller].key = step.key;
    calls[caller].number = step.number;
    return pobj_answer(&object, barrier(asked), &step);
}

static uint64_t ended_so(uint64_t caller, int state) {
    end(caller, state);
    return pobj_next(&object, &step);
}

static uint64_t carry_out_one(uint64_t answer) {
    uint64_t entry = pobj_entry_of(answer);
    switch (pobj_action_of(answer)) {
    case POBJ_EVALUATE:
        return pobj_answer(&object, barrier(entry), &step);
    case POBJ_RUN:
        return run(step.caller, entry);
    case POBJ_QUEUED:
        return queued(step.caller, entry);
    case POBJ_CANCELLED:
        return ended_so(step.caller, CANCELLED);
    case POBJ_PROGRAM_ERROR:
        return ended_so(step.caller, PROGRAM_ERROR);
    default:
        CHECK(pobj_action_of(answer) != POBJ_REFUSED && pobj_action_of(answer) != POBJ_NO_MEMORY);
        return POBJ_REST;
    }
}

static void carry_out(uint64_t answer) {
    while (pobj_action_of(answer) != POBJ_REST)
        answer = carry_out_one(answer);
}

/* Issues a call and carries out its protected action. Returns what has become of the call then. */
static int issue(uint64_t caller, uint64_t entry, pobj_marks marks) {
    uint64_t answer = pobj_issue(&object, caller, entry, marks, barrier(entry), &step);
    calls[caller].state = NONE;
    if (pobj_action_of(answer) == POBJ_NO_MEMORY)
        return NO_MEMORY;
    carry_out(answer);
    return calls[caller].state;
}

static pobj_cancellation cancel(uint64_t caller, uint64_t expired) {
    return pobj_cancel(&object, calls[caller].key, calls[caller].number, expired);
}

static void next(void) {
    carry_out(pobj_next(&object, &step));
}

/* Lets `permits` calls pass the barrier from now on, as a procedure would. */
static void permit(uint64_t entry, long permits) {
    entries[entry].permits = permits;
    next();
}

static void set_body(uint64_t entry, pobj_body_end how, uint64_t target, pobj_marks marks) {
    entries[entry].how = how;
    entries[entry].target = target;
    entries[entry].marks = marks;
}

static void forget(void) {
    memset(entries, 0, sizeof entries);
    memset(calls, 0, sizeof calls);
    ended = 0;
}

static void begin(void) {
    forget();
    CHECK(pobj_make(&object, ENTRIES));
}

static bool is(uint64_t answer, pobj_action action, uint64_t entry) {
    return pobj_action_of(answer) == action && pobj_entry_of(answer) == entry;
}

static bool is_of(uint64_t answer, pobj_action action, uint64_t caller) {
    return pobj_action_of(answer) == action && step.caller == caller;
}

static bool is_rest(uint64_t answer) {
    return pobj_action_of(answer) == POBJ_REST;
}

/* Each action names its entry and its caller. */
static void actions(void) {
    begin();
    CHECK(is(pobj_issue(&object, 7, 1, 0, POBJ_OPEN, &step), POBJ_RUN, 1) && step.caller == 7);
    CHECK(is_rest(pobj_body_ended(&object, POBJ_COMPLETED, 0, 0, &step)));
    CHECK(is(pobj_issue(&object, UINT64_MAX, 1, 0, POBJ_CLOSED, &step), POBJ_QUEUED, 1));
    CHECK(step.caller == UINT64_MAX && step.number >= 1 && pobj_count(&object, 1) == 1);
    CHECK(is_rest(pobj_answer(&object, POBJ_CLOSED, &step)));
    CHECK(is(pobj_issue(&object, 9, 2, POBJ_DUE, POBJ_CLOSED, &step), POBJ_QUEUED, 1) && step.caller == 9);
    CHECK(is(pobj_answer(&object, POBJ_CLOSED, &step), POBJ_EVALUATE, 2));
    CHECK(is_of(pobj_answer(&object, POBJ_CLOSED, &step), POBJ_CANCELLED, 9) && pobj_count(&object, 2) == 0);
    CHECK(is(pobj_next(&object, &step), POBJ_EVALUATE, 1));
    CHECK(is(pobj_answer(&object, POBJ_OPEN, &step), POBJ_RUN, 1) && step.caller == UINT64_MAX);
    CHECK(pobj_count(&object, 1) == 0);
    CHECK(is_rest(pobj_body_ended(&object, POBJ_COMPLETED, 0, 0, &step)) && is_rest(pobj_next(&object, &step)));
    CHECK(is_of(pobj_issue(&object, 5, 0, 0, POBJ_RAISED, &step), POBJ_PROGRAM_ERROR, 5));
    CHECK(is_rest(pobj_next(&object, &step)));
    CHECK(is_of(pobj_issue(&object, 6, 0, POBJ_ABORTED, POBJ_CLOSED, &step), POBJ_CANCELLED, 6));
    CHECK(is_rest(pobj_next(&object, &step)));
    pobj_free(&object);
}

enum { ISSUE = 1, ANSWER = 2, ENDED = 4, NEXT = 8, CANCEL = 16, FINALIZE = 32, READY = 64 };

/* Checks that each function that does several steps is refused. */
static void refuses_steps_in_one(pobj_step *scrap) {
    CHECK(pobj_ready(&object) == POBJ_REFUSED);
    for (pobj_body_end how = POBJ_COMPLETED; how <= POBJ_REQUEUED_ELSEWHERE; how++) {
        CHECK(pobj_served(&object, 99, 0, 0, how, 0, 0, scrap) == POBJ_REFUSED);
        CHECK(!pobj_served_twice(&object, 99, 0, 0, how, 0, 0));
    }
    for (pobj_marks marks = POBJ_NO_MARKS; marks <= 7; marks++)
        CHECK(!pobj_wait(&object, 99, 0, marks, scrap) && !pobj_turn_away(&object, 99, 0, marks));
}

/* Checks that every step is refused except the one that the object waits for, and that refusing changes no step and no queue.
   */
static void refuses_all_but(unsigned awaited) {
    pobj_step scrap = {11, 12, 13};
    uint64_t counts[ENTRIES];
    for (uint64_t e = 0; e < ENTRIES; e++)
        counts[e] = pobj_count(&object, e);
    for (pobj_barrier b = POBJ_CLOSED; b <= POBJ_RAISED; b++) {
        CHECK((awaited & ISSUE) || pobj_issue(&object, 99, 0, 0, b, &scrap) == POBJ_REFUSED);
        CHECK((awaited & ANSWER) || pobj_answer(&object, b, &scrap) == POBJ_REFUSED);
    }
    for (pobj_body_end how = POBJ_COMPLETED; how <= POBJ_REQUEUED_ELSEWHERE; how++)
        CHECK((awaited & ENDED) || pobj_body_ended(&object, how, 0, 0, &scrap) == POBJ_REFUSED);
    CHECK((awaited & NEXT) || pobj_next(&object, &scrap) == POBJ_REFUSED);
    CHECK((awaited & CANCEL) || cancel(0, 0) == POBJ_CANCEL_REFUSED);
    CHECK((awaited & CANCEL) || cancel(0, 1) == POBJ_CANCEL_REFUSED);
    CHECK((awaited & FINALIZE) || pobj_finalize(&object, &scrap) == POBJ_REFUSED);
    if (!(awaited & READY))
        refuses_steps_in_one(&scrap);
    for (uint64_t e = 0; e < ENTRIES; e++)
        CHECK(pobj_count(&object, e) == counts[e]);
    CHECK(scrap.caller == 11 && scrap.key == 12 && scrap.number == 13);
}

static const unsigned commands = ISSUE | NEXT | CANCEL | FINALIZE | READY;

/* In each state an object refuses every step that it doesn't wait for, and then goes on as it would have. */
static void refusals(void) {
    begin();
    refuses_all_but(commands);
    CHECK(issue(0, 1, 0) == QUEUED && issue(1, 1, 0) == QUEUED);
    refuses_all_but(commands);
    CHECK(pobj_issue(&object, 2, ENTRIES, 0, POBJ_OPEN, &step) == POBJ_REFUSED);
    CHECK(pobj_issue(&object, 2, UINT64_MAX, 0, POBJ_CLOSED, &step) == POBJ_REFUSED);
    CHECK(is(pobj_next(&object, &step), POBJ_EVALUATE, 1));
    refuses_all_but(ANSWER);
    CHECK(is_of(pobj_answer(&object, POBJ_OPEN, &step), POBJ_RUN, 0));
    refuses_all_but(ENDED);
    CHECK(pobj_body_ended(&object, POBJ_REQUEUED, ENTRIES, 0, &step) == POBJ_REFUSED);
    CHECK(pobj_body_ended(&object, POBJ_REQUEUED_WITH_ABORT, UINT64_MAX, 0, &step) == POBJ_REFUSED);
    CHECK(is(pobj_body_ended(&object, POBJ_COMPLETED, 0, 0, &step), POBJ_EVALUATE, 1));
    CHECK(is_rest(pobj_answer(&object, POBJ_CLOSED, &step)));
    CHECK(is(pobj_issue(&object, 3, 0, 0, POBJ_CLOSED, &step), POBJ_QUEUED, 0));
    refuses_all_but(ANSWER);
    carry_out(pobj_answer(&object, POBJ_CLOSED, &step));
    CHECK(cancel(1, 0) == POBJ_CANCEL_MADE && pobj_count(&object, 1) == 0);
    refuses_all_but(NEXT);
    CHECK(is(pobj_next(&object, &step), POBJ_EVALUATE, 0));
    CHECK(is_of(pobj_answer(&object, POBJ_RAISED, &step), POBJ_PROGRAM_ERROR, 3));
    refuses_all_but(NEXT);
    CHECK(is_rest(pobj_next(&object, &step)));
    CHECK(is_of(pobj_issue(&object, 4, 0, POBJ_ABORTED, POBJ_CLOSED, &step), POBJ_CANCELLED, 4));
    refuses_all_but(NEXT);
    CHECK(is_rest(pobj_next(&object, &step)) && is_rest(pobj_finalize(&object, &step)));
    refuses_all_but(commands & ~(unsigned)(ISSUE | READY));
    pobj_free(&object);
}

/* Any number of calls may be queued, and within an entry the first is served first. */
static void growth(void) {
    enum { MANY = 1500 };
    begin();
    for (uint64_t i = 0; i < MANY; i++)
        CHECK(issue(i, i % 2, 0) == QUEUED && pobj_count(&object, i % 2) == i / 2 + 1);
    permit(0, MANY);
    permit(1, MANY);
    CHECK(ended == MANY && pobj_count(&object, 0) == 0 && pobj_count(&object, 1) == 0);
    for (uint64_t i = 0; i < MANY; i++)
        CHECK(calls[i].state == COMPLETED && order[i] == (i < MANY / 2 ? 2 * i : 2 * (i - MANY / 2) + 1));
    pobj_free(&object);
}

/* An object of fixed memory takes none after it is made, and has no room for one more call. */
static void fixed(void) {
    forget();
    CHECK(pobj_make_fixed(&object, ENTRIES, FEW));
    size_t before = mallinfo2().uordblks;
    for (int round = 0; round < 1000; round++) {
        for (uint64_t i = 0; i < FEW; i++)
            CHECK(issue(i, i % 2, 0) == QUEUED);
        entries[2].permits = 1;
        CHECK(issue(FEW, 0, 0) == NO_MEMORY && issue(FEW, 1, POBJ_DUE) == NO_MEMORY && issue(FEW, 2, 0) == NO_MEMORY);
        CHECK(pobj_count(&object, 0) == FEW / 2 && pobj_count(&object, 1) == FEW / 2 && pobj_count(&object, 2) == 0);
        CHECK(cancel(1, 0) == POBJ_CANCEL_MADE);
        next();
        CHECK(issue(FEW, 2, 0) == COMPLETED && issue(FEW, 1, POBJ_DUE) == CANCELLED);
        permit(0, FEW);
        permit(1, FEW);
        entries[0].permits = entries[1].permits = 0;
        CHECK(calls[0].state == COMPLETED && calls[FEW - 1].state == COMPLETED);
    }
    CHECK(mallinfo2().uordblks == before);
    pobj_free(&object);
    CHECK(pobj_make_fixed(&object, ENTRIES, 0) && issue(0, 0, 0) == NO_MEMORY);
    pobj_free(&object);
}

/* The first entry with an open barrier is served first, and after each body all barriers are evaluated again. */
static void service_order(void) {
    begin();
    for (uint64_t i = 0; i < 6; i++)
        CHECK(issue(i, 2 - i % 3, 0) == QUEUED);
    entries[1].permits = 2;
    permit(2, 1);
    CHECK(ended == 3 && order[0] == 1 && order[1] == 4 && order[2] == 0);
    CHECK(is(pobj_next(&object, &step), POBJ_EVALUATE, 0) && is(pobj_answer(&object, POBJ_CLOSED, &step), POBJ_EVALUATE, 2));
    CHECK(is_of(pobj_answer(&object, POBJ_OPEN, &step), POBJ_RUN, 3));
    CHECK(is(pobj_body_ended(&object, POBJ_COMPLETED, 0, 0, &step), POBJ_EVALUATE, 0));
    CHECK(is_of(pobj_answer(&object, POBJ_OPEN, &step), POBJ_RUN, 2));
    CHECK(is(pobj_body_ended(&object, POBJ_COMPLETED, 0, 0, &step), POBJ_EVALUATE, 0));
    CHECK(is_rest(pobj_answer(&object, POBJ_CLOSED, &step)));
    pobj_free(&object);
}

/* Requeues within the object, with and without abort, and with each mark. */
static void requeues(void) {
    begin();
    entries[0].permits = 100;
    set_body(0, POBJ_REQUEUED, 1, 0);
    CHECK(issue(0, 0, 0) == QUEUED && pobj_count(&object, 1) == 1 && issue(1, 1, 0) == QUEUED);
    CHECK(cancel(0, 0) == POBJ_CANCEL_KEPT && cancel(0, 1) == POBJ_CANCEL_KEPT && pobj_count(&object, 1) == 2);
    set_body(0, POBJ_REQUEUED_WITH_ABORT, 1, 0);
    CHECK(issue(2, 0, 0) == QUEUED && cancel(2, 1) == POBJ_CANCEL_MADE);
    next();
    CHECK(issue(2, 0, 0) == QUEUED && cancel(2, 0) == POBJ_CANCEL_MADE);
    next();
    set_body(0, POBJ_REQUEUED_WITH_ABORT, 1, POBJ_DUE);
    CHECK(issue(3, 0, 0) == CANCELLED);
    set_body(0, POBJ_REQUEUED_WITH_ABORT, 1, POBJ_ABORTED);
    CHECK(issue(4, 0, 0) == CANCELLED);
    set_body(0, POBJ_REQUEUED, 1, POBJ_DUE | POBJ_ABORTED);
    CHECK(issue(5, 0, 0) == QUEUED && pobj_count(&object, 1) == 3);
    ended = 0;
    permit(1, 3);
    CHECK(ended == 3 && order[0] == 0 && order[1] == 1 && order[2] == 5 && calls[5].state == COMPLETED);
    CHECK(cancel(0, 0) == POBJ_CANCEL_UNKNOWN);
    pobj_free(&object);
}

/* A requeued call comes after those queued on its new entry, and may be served there in the same protected action. */
static void requeued_behind(void) {
    begin();
    for (uint64_t i = 0; i < FEW; i++)
        CHECK(issue(i, 1, 0) == QUEUED);
    set_body(1, POBJ_REQUEUED, 1, 0);
    permit(1, 4);
    set_body(1, POBJ_COMPLETED, 0, 0);
    permit(1, FEW);
    for (uint64_t i = 0; i < FEW; i++)
        CHECK(order[i] == (i + 4) % FEW);
    entries[0].permits = entries[1].permits = 1;
    set_body(0, POBJ_REQUEUED_WITH_ABORT, 1, POBJ_DUE);
    CHECK(issue(0, 0, POBJ_DUE) == COMPLETED);
    pobj_free(&object);
}

/* If a call is requeued without abort, an abort is remembered, and a later requeue with abort cancels the call. Its time isn't
   remembered: the client marks the requeue as due. */
static void remembered_abort(void) {
    begin();
    entries[0].permits = 100;
    set_body(0, POBJ_REQUEUED, 1, 0);
    set_body(1, POBJ_REQUEUED_WITH_ABORT, 2, 0);
    CHECK(issue(0, 0, 0) == QUEUED && issue(1, 0, 0) == QUEUED);
    CHECK(cancel(0, 0) == POBJ_CANCEL_KEPT && cancel(1, 1) == POBJ_CANCEL_KEPT);
    permit(1, 2);
    CHECK(calls[0].state == CANCELLED && calls[1].state == QUEUED && pobj_count(&object, 2) == 1);
    entries[1].permits = 0;
    CHECK(issue(2, 1, POBJ_WITHOUT_ABORT | POBJ_ABORTED) == QUEUED);
    permit(1, 1);
    CHECK(calls[2].state == CANCELLED && pobj_count(&object, 2) == 1);
    pobj_free(&object);
}

/* A call that leaves the object is no longer one of its calls, and the queued ones' barriers are evaluated again. */
static void elsewhere(void) {
    begin();
    entries[0].permits = 1;
    set_body(0, POBJ_REQUEUED_ELSEWHERE, 0, 0);
    CHECK(issue(0, 1, 0) == QUEUED);
    CHECK(is_of(pobj_issue(&object, 1, 0, 0, POBJ_OPEN, &step), POBJ_RUN, 1));
    CHECK(is(pobj_body_ended(&object, POBJ_REQUEUED_ELSEWHERE, 0, 0, &step), POBJ_EVALUATE, 1));
    CHECK(is_of(pobj_answer(&object, POBJ_OPEN, &step), POBJ_RUN, 0));
    CHECK(is_rest(pobj_body_ended(&object, POBJ_REQUEUED_ELSEWHERE, 0, 0, &step)));
    CHECK(issue(2, 0, 0) == ELSEWHERE && pobj_count(&object, 0) == 0 && pobj_count(&object, 1) == 0);
    pobj_free(&object);
}

/* A call that is due is served if it can be in this protected action, and cancelled if not. */
static void conditional(void) {
    begin();
    CHECK(issue(0, 1, POBJ_DUE) == CANCELLED && pobj_count(&object, 1) == 0);
    entries[1].permits = 1;
    CHECK(issue(0, 1, POBJ_DUE) == COMPLETED);
    CHECK(issue(1, 1, POBJ_DUE | POBJ_WITHOUT_ABORT) == QUEUED && cancel(1, 1) == POBJ_CANCEL_KEPT);
    CHECK(is(pobj_issue(&object, 2, 2, POBJ_DUE, POBJ_CLOSED, &step), POBJ_QUEUED, 1) && pobj_count(&object, 2) == 1);
    CHECK(is(pobj_answer(&object, POBJ_CLOSED, &step), POBJ_EVALUATE, 2));
    CHECK(is_of(pobj_answer(&object, POBJ_OPEN, &step), POBJ_RUN, 2));
    carry_out(pobj_body_ended(&object, POBJ_COMPLETED, 0, 0, &step));
    permit(1, 1);
    CHECK(calls[1].state == COMPLETED);
    pobj_free(&object);
}

/* The four answers of an attempt to cancel. */
static void cancellation(void) {
    begin();
    CHECK(issue(0, 1, 0) == QUEUED && issue(1, 1, 0) == QUEUED && issue(2, 1, POBJ_WITHOUT_ABORT) == QUEUED);
    CHECK(pobj_cancel(&object, calls[0].key, calls[0].number + 100, 0) == POBJ_CANCEL_UNKNOWN);
    CHECK(pobj_cancel(&object, calls[0].key, 0, 0) == POBJ_CANCEL_UNKNOWN);
    CHECK(pobj_cancel(&object, 1000, calls[0].number, 1) == POBJ_CANCEL_UNKNOWN);
    CHECK(pobj_cancel(&object, SIZE_MAX, UINT64_MAX, 1) == POBJ_CANCEL_UNKNOWN && pobj_count(&object, 1) == 3);
    CHECK(cancel(0, 1) == POBJ_CANCEL_MADE && cancel(1, 0) == POBJ_CANCEL_REFUSED && pobj_count(&object, 1) == 2);
    CHECK(is(pobj_next(&object, &step), POBJ_EVALUATE, 1) && cancel(1, 0) == POBJ_CANCEL_REFUSED);
    CHECK(is_of(pobj_answer(&object, POBJ_OPEN, &step), POBJ_RUN, 1) && cancel(2, 0) == POBJ_CANCEL_REFUSED);
    carry_out(pobj_body_ended(&object, POBJ_COMPLETED, 0, 0, &step));
    CHECK(cancel(0, 0) == POBJ_CANCEL_UNKNOWN && cancel(1, 1) == POBJ_CANCEL_UNKNOWN);
    CHECK(cancel(2, 1) == POBJ_CANCEL_KEPT && cancel(2, 0) == POBJ_CANCEL_KEPT && pobj_count(&object, 1) == 1);
    permit(1, 1);
    CHECK(calls[2].state == COMPLETED && cancel(2, 0) == POBJ_CANCEL_UNKNOWN);
    pobj_free(&object);
}

/* A queue has no more calls than its limit, whether they are issued or requeued. */
static void limit(void) {
    begin();
    CHECK(pobj_limit(&object, 1, 2) && !pobj_limit(&object, ENTRIES, 2) && !pobj_limit(&object, UINT64_MAX, 2));
    CHECK(issue(0, 1, 0) == QUEUED && issue(1, 1, 0) == QUEUED && issue(2, 1, 0) == PROGRAM_ERROR);
    CHECK(issue(2, 0, 0) == QUEUED && issue(3, 0, 0) == QUEUED && issue(4, 0, 0) == QUEUED);
    set_body(0, POBJ_REQUEUED, 1, 0);
    permit(0, 1);
    CHECK(calls[2].state == PROGRAM_ERROR && pobj_count(&object, 0) == 2 && pobj_count(&object, 1) == 2);
    entries[1].permits = 1;
    CHECK(issue(5, 1, 0) == COMPLETED && pobj_count(&object, 1) == 2);
    CHECK(pobj_limit(&object, 1, 0) && issue(6, 1, 0) == QUEUED && pobj_limit(&object, 1, 1) && pobj_count(&object, 1) == 3);
    CHECK(issue(7, 1, 0) == PROGRAM_ERROR && calls[0].state == QUEUED);
    pobj_free(&object);
}

/* A barrier that raises ends all queued calls, and the one being issued last. */
static void raising(void) {
    bool is_ended[FEW] = {false};
    begin();
    for (uint64_t i = 0; i < FEW; i++)
        CHECK(issue(i, i % 2, i == 3 ? POBJ_WITHOUT_ABORT : 0) == QUEUED);
    entries[2].permits = -1;
    CHECK(issue(FEW, 2, 0) == PROGRAM_ERROR && ended == FEW + 1 && order[FEW] == FEW);
    for (size_t i = 0; i < FEW; i++)
        is_ended[order[i]] = calls[order[i]].state == PROGRAM_ERROR;
    for (size_t i = 0; i < FEW; i++)
        CHECK(is_ended[i]);
    CHECK(issue(0, 0, 0) == QUEUED && issue(1, 1, 0) == QUEUED);
    permit(0, -1);
    CHECK(calls[0].state == PROGRAM_ERROR && calls[1].state == PROGRAM_ERROR);
    CHECK(is_of(pobj_issue(&object, 2, 0, POBJ_DUE, (pobj_barrier)UINT64_MAX, &step), POBJ_PROGRAM_ERROR, 2));
    next();
    CHECK(issue(3, 1, 0) == QUEUED && pobj_count(&object, 1) == 1);
    pobj_free(&object);
}

/* A body that fails ends its own call, and all queued calls. */
static void failing(void) {
    begin();
    for (uint64_t i = 0; i < FEW; i++)
        CHECK(issue(i, 1 + i % 2, 0) == QUEUED);
    entries[0].permits = 1;
    set_body(0, POBJ_FAILED, 0, 0);
    CHECK(issue(FEW, 0, 0) == COMPLETED && ended == FEW + 1 && order[0] == FEW);
    for (uint64_t i = 0; i < FEW; i++)
        CHECK(calls[i].state == PROGRAM_ERROR);
    CHECK(issue(0, 1, 0) == QUEUED && pobj_count(&object, 1) == 1);
    pobj_free(&object);
}

static void finalization(void) {
    begin();
    for (uint64_t i = 0; i < FEW; i++)
        CHECK(issue(i, i % 3, i == 1 ? POBJ_WITHOUT_ABORT : 0) == QUEUED);
    carry_out(pobj_finalize(&object, &step));
    CHECK(ended == FEW);
    for (uint64_t i = 0; i < FEW; i++)
        CHECK(calls[i].state == PROGRAM_ERROR && pobj_count(&object, i % 3) == 0);
    CHECK(pobj_issue(&object, 1, 0, 0, POBJ_OPEN, &step) == POBJ_REFUSED && cancel(0, 0) == POBJ_CANCEL_UNKNOWN);
    CHECK(is_rest(pobj_next(&object, &step)));
    pobj_free(&object);
}

/* How many entries an object may have. */
static void sizes(void) {
    forget();
    CHECK(!pobj_make(&object, 65536) && !pobj_make(&object, UINT64_MAX));
    CHECK(!pobj_make_fixed(&object, 65536, 1) && !pobj_make_fixed(&object, UINT64_MAX, 1));
    CHECK(pobj_make(&object, 65535));
    CHECK(is(pobj_issue(&object, 1, 65534, 0, POBJ_CLOSED, &step), POBJ_QUEUED, 65534) && pobj_count(&object, 65534) == 1);
    CHECK(is_rest(pobj_answer(&object, POBJ_CLOSED, &step)));
    CHECK(pobj_limit(&object, 65534, 1) && !pobj_limit(&object, 65535, 1));
    CHECK(is(pobj_next(&object, &step), POBJ_EVALUATE, 65534));
    CHECK(is(pobj_answer(&object, POBJ_OPEN, &step), POBJ_RUN, 65534));
    CHECK(is_rest(pobj_body_ended(&object, POBJ_COMPLETED, 0, 0, &step)) && pobj_count(&object, 65535) == 0);
    CHECK(pobj_issue(&object, 1, 65535, 0, POBJ_CLOSED, &step) == POBJ_REFUSED);
    pobj_free(&object);
    CHECK(pobj_make(&object, 0) && pobj_count(&object, 0) == 0 && is_rest(pobj_next(&object, &step)));
    CHECK(pobj_issue(&object, 1, 0, 0, POBJ_OPEN, &step) == POBJ_REFUSED);
    pobj_free(&object);
}

/* An object that isn't made refuses every step, and stays so: not yet made, freed, and freed once more. */
static void none(void) {
    const pobj_step before = {7, 8, 9};
    for (int times = 0; times < 2; times++) {
        forget();
        step = before;
        CHECK(pobj_issue(&object, 1, 0, 0, POBJ_OPEN, &step) == POBJ_REFUSED);
        CHECK(pobj_answer(&object, POBJ_OPEN, &step) == POBJ_REFUSED && pobj_next(&object, &step) == POBJ_REFUSED);
        CHECK(pobj_body_ended(&object, POBJ_COMPLETED, 0, 0, &step) == POBJ_REFUSED);
        CHECK(pobj_finalize(&object, &step) == POBJ_REFUSED && pobj_cancel(&object, 0, 1, 0) == POBJ_CANCEL_REFUSED);
        refuses_steps_in_one(&step);
        CHECK(!pobj_limit(&object, 0, 1) && pobj_count(&object, 0) == 0 && !pobj_is_idle(&object));
        CHECK(step.caller == before.caller && step.key == before.key && step.number == before.number && object.at == NULL);
        pobj_free(&object);
        CHECK(object.at == NULL && pobj_make(&object, ENTRIES));
        pobj_free(&object);
        CHECK(object.at == NULL);
    }
}

/* A call may be requeued any number of times in one protected action. */
static void many_requeues(void) {
    begin();
    uint64_t answer = pobj_issue(&object, 5, 0, 0, POBJ_OPEN, &step);
    for (uint64_t i = 0; i < 300000; i++) {
        CHECK(is_of(answer, POBJ_RUN, 5));
        answer = pobj_body_ended(&object, i % 2 == 0 ? POBJ_REQUEUED : POBJ_REQUEUED_WITH_ABORT, i % ENTRIES, 0, &step);
        CHECK(is(answer, POBJ_QUEUED, i % ENTRIES));
        answer = pobj_answer(&object, POBJ_OPEN, &step);
    }
    CHECK(is_of(answer, POBJ_RUN, 5) && is_rest(pobj_body_ended(&object, POBJ_COMPLETED, 0, 0, &step)));
    pobj_free(&object);
}

/* Makes one call that is served at once, one that waits, and one that is cancelled, again and again. */
static void rounds(int times) {
    for (int i = 0; i < times; i++) {
        pobj_issue(&object, 1, 0, 0, POBJ_OPEN, &step);
        CHECK(is_rest(pobj_body_ended(&object, POBJ_COMPLETED, 0, 0, &step)));
        pobj_issue(&object, 2, 1, 0, POBJ_CLOSED, &step);
        CHECK(is_rest(pobj_answer(&object, POBJ_CLOSED, &step)));
        pobj_next(&object, &step);
        CHECK(is_of(pobj_answer(&object, POBJ_OPEN, &step), POBJ_RUN, 2));
        CHECK(is_rest(pobj_body_ended(&object, POBJ_COMPLETED, 0, 0, &step)));
        pobj_issue(&object, 3, 1, POBJ_DUE, POBJ_CLOSED, &step);
        CHECK(is_of(pobj_answer(&object, POBJ_CLOSED, &step), POBJ_CANCELLED, 3) && is_rest(pobj_next(&object, &step)));
    }
}

/* The same by functions that do several steps. */
static void rounds_in_one(int times) {
    for (int i = 0; i < times; i++) {
        CHECK(is_rest(pobj_ready(&object)) && is_rest(pobj_served(&object, 1, 0, 0, POBJ_COMPLETED, 0, 0, &step)));
        CHECK(pobj_wait(&object, 2, 1, 0, &step) && is(pobj_next(&object, &step), POBJ_EVALUATE, 1));
        CHECK(is_of(pobj_answer(&object, POBJ_OPEN, &step), POBJ_RUN, 2));
        CHECK(is_rest(pobj_body_ended(&object, POBJ_COMPLETED, 0, 0, &step)));
        CHECK(pobj_turn_away(&object, 3, 1, POBJ_DUE) && pobj_served_twice(&object, 4, 0, 0, POBJ_REQUEUED, 1, 0));
    }
}

static void memory(void) {
    begin();
    rounds(1000);
    size_t before = mallinfo2().uordblks + mallinfo2().hblkhd;
    rounds(2000000 / 3);
    rounds_in_one(2000000 / 3);
    CHECK(mallinfo2().uordblks + mallinfo2().hblkhd <= before);
    pobj_free(&object);
}

/* pobj_ready says whether there is room for one more call, and changes nothing else. */
static void ready(void) {
    begin();
    CHECK(is_rest(pobj_ready(&object)) && issue(0, 1, 0) == QUEUED && is_rest(pobj_ready(&object)));
    CHECK(pobj_count(&object, 1) == 1 && issue(1, 1, 0) == QUEUED && cancel(0, 0) == POBJ_CANCEL_MADE);
    next();
    carry_out(pobj_finalize(&object, &step));
    CHECK(pobj_ready(&object) == POBJ_REFUSED && calls[1].state == PROGRAM_ERROR);
    pobj_free(&object);
    forget();
    CHECK(pobj_make_fixed(&object, ENTRIES, 2) && issue(0, 1, 0) == QUEUED);
    CHECK(is_rest(pobj_ready(&object)) && is_rest(pobj_ready(&object)) && issue(1, 1, 0) == QUEUED);
    step.caller = 99;
    CHECK(pobj_ready(&object) == POBJ_NO_MEMORY && pobj_ready(&object) == POBJ_NO_MEMORY && step.caller == 99);
    CHECK(pobj_served(&object, 2, 0, 0, POBJ_REQUEUED, 1, 0, &step) == POBJ_NO_MEMORY && step.caller == 99);
    CHECK(pobj_count(&object, 1) == 2 && cancel(1, 0) == POBJ_CANCEL_MADE);
    next();
    CHECK(is_rest(pobj_ready(&object)) && cancel(0, 1) == POBJ_CANCEL_MADE);
    pobj_free(&object);
}

/* Issues a call whose body has ended, and carries out what is next. Returns what has become of the call then. */
static int serve(
    uint64_t caller, uint64_t entry, pobj_marks marks, pobj_body_end how, uint64_t target, pobj_marks target_marks) {
    calls[caller].state = NONE;
    CHECK(is_rest(pobj_ready(&object)));
    carry_out(pobj_served(&object, caller, entry, marks, how, target, target_marks, &step));
    return calls[caller].state;
}

/* Calls that are issued when their bodies have ended. Then come the queued calls: their barriers, or their ends by a failure. */
static void served(void) {
    begin();
    for (uint64_t entry = 0; entry < ENTRIES; entry++) {
        CHECK(is_rest(pobj_served(&object, 1, entry, 0, POBJ_COMPLETED, 0, 0, &step)));
        CHECK(is_rest(pobj_served(&object, 1, entry, POBJ_DUE, POBJ_FAILED, ENTRIES, 0, &step)));
        CHECK(is_rest(pobj_served(&object, 1, entry, POBJ_WITHOUT_ABORT, POBJ_REQUEUED_ELSEWHERE, 9, 0, &step)));
    }
    CHECK(issue(0, 1, 0) == QUEUED && issue(1, 2, 0) == QUEUED);
    CHECK(is(pobj_served(&object, 2, 0, 0, POBJ_COMPLETED, 0, 0, &step), POBJ_EVALUATE, 1));
    refuses_all_but(ANSWER);
    CHECK(is(pobj_answer(&object, POBJ_CLOSED, &step), POBJ_EVALUATE, 2) && is_rest(pobj_answer(&object, POBJ_CLOSED, &step)));
    CHECK(is(pobj_served(&object, 2, 0, 0, POBJ_REQUEUED_ELSEWHERE, 0, 0, &step), POBJ_EVALUATE, 1));
    CHECK(is_of(pobj_answer(&object, POBJ_OPEN, &step), POBJ_RUN, 0));
    carry_out(pobj_body_ended(&object, POBJ_COMPLETED, 0, 0, &step));
    CHECK(issue(0, 0, 0) == QUEUED && pobj_count(&object, 2) == 1);
    CHECK(is_of(pobj_served(&object, 2, 0, 0, POBJ_FAILED, 0, 0, &step), POBJ_PROGRAM_ERROR, 1));
    carry_out(ended_so(1, PROGRAM_ERROR));
    CHECK(calls[0].state == PROGRAM_ERROR && ended == 2 && is_rest(pobj_next(&object, &step)));
    pobj_free(&object);
}

/* Such calls that are requeued within the object. */
static void served_and_requeued(void) {
    begin();
    CHECK(serve(0, 0, 0, POBJ_REQUEUED, 1, 0) == QUEUED);
    CHECK(cancel(0, 0) == POBJ_CANCEL_KEPT && cancel(0, 1) == POBJ_CANCEL_KEPT);
    CHECK(serve(1, 0, 0, POBJ_REQUEUED_WITH_ABORT, 1, 0) == QUEUED && cancel(1, 1) == POBJ_CANCEL_MADE);
    next();
    CHECK(serve(2, 0, 0, POBJ_REQUEUED_WITH_ABORT, 1, POBJ_DUE) == CANCELLED);
    CHECK(serve(3, 0, POBJ_DUE, POBJ_REQUEUED_WITH_ABORT, 1, 0) == CANCELLED);
    CHECK(serve(4, 0, 0, POBJ_REQUEUED_WITH_ABORT, 1, POBJ_ABORTED) == CANCELLED);
    CHECK(serve(5, 0, POBJ_WITHOUT_ABORT | POBJ_ABORTED, POBJ_REQUEUED_WITH_ABORT, 1, 0) == CANCELLED);
    CHECK(serve(6, 0, POBJ_DUE, POBJ_REQUEUED, 1, POBJ_DUE | POBJ_ABORTED) == QUEUED && pobj_count(&object, 1) == 2);
    CHECK(pobj_limit(&object, 1, 2) && serve(7, 0, 0, POBJ_REQUEUED, 1, 0) == PROGRAM_ERROR);
    entries[2].permits = 1;
    CHECK(serve(8, 0, POBJ_DUE, POBJ_REQUEUED_WITH_ABORT, 2, 0) == COMPLETED);
    ended = 0;
    permit(1, 2);
    CHECK(ended == 2 && order[0] == 0 && order[1] == 6 && cancel(0, 0) == POBJ_CANCEL_UNKNOWN);
    pobj_free(&object);
}

/* Such calls that are refused, which changes nothing: no such entry, target or body end, or an abort. */
static void not_served(void) {
    const uint64_t no_entries[] = {ENTRIES, 65535, UINT64_MAX}, no_ends[] = {5, 256, UINT64_MAX};
    pobj_step scrap = {11, 12, 13};
    begin();
    CHECK(issue(0, 1, 0) == QUEUED && is_rest(pobj_ready(&object)));
    for (int i = 0; i < 3; i++) {
        CHECK(pobj_served(&object, 1, no_entries[i], 0, POBJ_COMPLETED, 0, 0, &scrap) == POBJ_REFUSED);
        CHECK(pobj_served(&object, 1, 0, 0, POBJ_REQUEUED, no_entries[i], 0, &scrap) == POBJ_REFUSED);
        CHECK(pobj_served(&object, 1, 0, 0, POBJ_REQUEUED_WITH_ABORT, no_entries[i], 0, &scrap) == POBJ_REFUSED);
        CHECK(pobj_served(&object, 1, 0, 0, (pobj_body_end)no_ends[i], 0, 0, &scrap) == POBJ_REFUSED);
    }
    for (pobj_body_end how = POBJ_COMPLETED; how <= POBJ_REQUEUED_ELSEWHERE; how++) {
        CHECK(pobj_served(&object, 1, 0, POBJ_ABORTED, how, 0, 0, &scrap) == POBJ_REFUSED);
        CHECK(pobj_served(&object, 1, 0, POBJ_ABORTED | POBJ_DUE, how, 0, 0, &scrap) == POBJ_REFUSED);
    }
    CHECK(scrap.caller == 11 && scrap.key == 12 && scrap.number == 13);
    CHECK(pobj_count(&object, 1) == 1 && serve(1, 0, 0, POBJ_COMPLETED, 0, 0) == NONE && cancel(0, 0) == POBJ_CANCEL_MADE);
    pobj_free(&object);
}

/* An object is idle if it waits for a command, and no call is queued. Asking changes nothing. */
static void idle(void) {
    begin();
    CHECK(pobj_is_idle(&object) && is(pobj_issue(&object, 0, 0, 0, POBJ_OPEN, &step), POBJ_RUN, 0) && !pobj_is_idle(&object));
    CHECK(is(pobj_body_ended(&object, POBJ_REQUEUED, 1, 0, &step), POBJ_QUEUED, 1) && !pobj_is_idle(&object));
    CHECK(is(pobj_answer(&object, POBJ_OPEN, &step), POBJ_RUN, 1) && step.caller == 0 && !pobj_is_idle(&object));
    CHECK(is_rest(pobj_body_ended(&object, POBJ_COMPLETED, 0, 0, &step)) && pobj_is_idle(&object));
    CHECK(issue(0, 2, 0) == QUEUED && !pobj_is_idle(&object));
    CHECK(is(pobj_next(&object, &step), POBJ_EVALUATE, 2) && !pobj_is_idle(&object));
    CHECK(is_rest(pobj_answer(&object, POBJ_CLOSED, &step)) && !pobj_is_idle(&object));
    CHECK(cancel(0, 1) == POBJ_CANCEL_MADE && pobj_count(&object, 2) == 0 && !pobj_is_idle(&object));
    CHECK(is_rest(pobj_next(&object, &step)) && pobj_is_idle(&object) && issue(0, 1, 0) == QUEUED);
    CHECK(is_of(pobj_finalize(&object, &step), POBJ_PROGRAM_ERROR, 0) && !pobj_is_idle(&object));
    CHECK(is_rest(pobj_next(&object, &step)) && pobj_is_idle(&object) && object.at != NULL);
    pobj_free(&object);
    CHECK(!pobj_is_idle(&object));
}

static bool serve_twice(uint64_t entry, pobj_marks marks, pobj_body_end how, uint64_t target, pobj_marks target_marks) {
    return pobj_served_twice(&object, 99, entry, marks, how, target, target_marks);
}

/* Calls that two bodies have served. Each leaves the object at rest, and no call queued. */
static void served_twice(void) {
    begin();
    CHECK(pobj_limit(&object, 1, 1));
    for (uint64_t i = 0; i < ENTRIES * ENTRIES; i++) {
        CHECK(serve_twice(i / ENTRIES, 0, POBJ_REQUEUED, i % ENTRIES, 0));
        CHECK(serve_twice(i / ENTRIES, 0, POBJ_REQUEUED_WITH_ABORT, i % ENTRIES, 0) && pobj_is_idle(&object));
    }
    refuses_all_but(commands);
    for (pobj_body_end how = POBJ_REQUEUED; how <= POBJ_REQUEUED_WITH_ABORT; how++) {
        CHECK(serve_twice(0, POBJ_DUE, how, 1, 0) && serve_twice(0, POBJ_WITHOUT_ABORT, how, 1, 0));
        CHECK(serve_twice(0, POBJ_DUE | POBJ_WITHOUT_ABORT, how, 1, 0));
    }
    CHECK(serve_twice(0, 0, POBJ_REQUEUED, 1, POBJ_ABORTED));
    CHECK(serve_twice(0, POBJ_WITHOUT_ABORT | POBJ_ABORTED, POBJ_REQUEUED, 1, POBJ_ABORTED));
    CHECK(is_rest(pobj_next(&object, &step)) && issue(0, 1, 0) == QUEUED && pobj_count(&object, 1) == 1);
    pobj_free(&object);
    CHECK(pobj_make_fixed(&object, ENTRIES, 0) && serve_twice(0, 0, POBJ_REQUEUED, 1, 0) && issue(0, 1, 0) == NO_MEMORY);
    pobj_free(&object);
}

/* Checks that a call that two bodies have served isn't taken in one step, however it is requeued. */
static void refuses_twice(uint64_t entry, pobj_marks marks, uint64_t target, pobj_marks target_marks) {
    CHECK(!serve_twice(entry, marks, POBJ_REQUEUED, target, target_marks));
    CHECK(!serve_twice(entry, marks, POBJ_REQUEUED_WITH_ABORT, target, target_marks));
}

/* Such calls that aren't taken in one step, which changes nothing. */
static void not_served_twice(void) {
    const uint64_t no_entries[] = {ENTRIES, 65535, UINT64_MAX}, no_requeues[] = {0, 1, 4, 5, 256, UINT64_MAX};
    begin();
    for (int i = 0; i < 3; i++) {
        refuses_twice(no_entries[i], 0, 1, 0);
        refuses_twice(0, 0, no_entries[i], 0);
    }
    for (int i = 0; i < 6; i++)
        CHECK(!serve_twice(0, 0, (pobj_body_end)no_requeues[i], 1, 0));
    refuses_twice(0, POBJ_ABORTED, 1, 0);
    refuses_twice(0, POBJ_ABORTED | POBJ_DUE, 1, 0);
    refuses_twice(0, 0, 1, POBJ_DUE);
    CHECK(!serve_twice(0, 0, POBJ_REQUEUED_WITH_ABORT, 1, POBJ_ABORTED));
    CHECK(!serve_twice(0, POBJ_WITHOUT_ABORT | POBJ_ABORTED, POBJ_REQUEUED_WITH_ABORT, 1, 0) && pobj_is_idle(&object));
    CHECK(issue(0, 2, 0) == QUEUED);
    for (uint64_t entry = 0; entry < ENTRIES; entry++)
        refuses_twice(entry, 0, 2, 0);
    CHECK(pobj_count(&object, 2) == 1 && cancel(0, 1) == POBJ_CANCEL_MADE);
    refuses_twice(0, 0, 1, 0);
    CHECK(is_rest(pobj_next(&object, &step)) && serve_twice(0, 0, POBJ_REQUEUED, 1, 0) && is_rest(pobj_finalize(&object, &step)));
    refuses_twice(0, 0, 1, 0);
    pobj_free(&object);
}

/* Calls that wait alone, and calls that can't. */
static void waits(void) {
    begin();
    CHECK(pobj_wait(&object, 7, 1, 0, &step) && step.caller == 7 && step.number >= 1 && pobj_count(&object, 1) == 1);
    refuses_all_but(commands);
    CHECK(!pobj_wait(&object, 8, 1, 0, &step) && !pobj_wait(&object, 8, 2, 0, &step) && step.caller == 7);
    CHECK(is(pobj_next(&object, &step), POBJ_EVALUATE, 1) && is_rest(pobj_answer(&object, POBJ_CLOSED, &step)));
    CHECK(pobj_cancel(&object, step.key, step.number, 1) == POBJ_CANCEL_MADE);
    next();
    CHECK(!pobj_wait(&object, 8, 1, POBJ_DUE, &step) && !pobj_wait(&object, 8, 1, POBJ_ABORTED, &step));
    CHECK(!pobj_wait(&object, 8, ENTRIES, 0, &step) && !pobj_wait(&object, 8, UINT64_MAX, 0, &step) && step.caller == 7);
    CHECK(pobj_limit(&object, 2, 1) && pobj_wait(&object, 8, 2, POBJ_WITHOUT_ABORT, &step) && pobj_count(&object, 2) == 1);
    CHECK(pobj_cancel(&object, step.key, step.number, 0) == POBJ_CANCEL_KEPT);
    set_body(2, POBJ_REQUEUED_WITH_ABORT, 1, 0);
    permit(2, 1);
    CHECK(calls[8].state == CANCELLED && is_rest(pobj_next(&object, &step)));
    CHECK(pobj_wait(&object, 9, 2, POBJ_WITHOUT_ABORT | POBJ_ABORTED, &step));
    permit(2, 1);
    CHECK(calls[9].state == CANCELLED);
    pobj_free(&object);
    CHECK(pobj_make_fixed(&object, ENTRIES, 0) && !pobj_wait(&object, 1, 0, 0, &step) && issue(1, 0, 0) == NO_MEMORY);
    pobj_free(&object);
}

/* Calls that are turned away, and calls that can't be. */
static void turned_away(void) {
    begin();
    CHECK(pobj_limit(&object, 1, 1) && pobj_turn_away(&object, 7, 1, POBJ_DUE) && pobj_turn_away(&object, 7, 1, POBJ_DUE));
    CHECK(pobj_count(&object, 1) == 0 && is_rest(pobj_next(&object, &step)));
    refuses_all_but(commands);
    CHECK(!pobj_turn_away(&object, 7, ENTRIES, POBJ_DUE) && !pobj_turn_away(&object, 7, UINT64_MAX, POBJ_DUE));
    CHECK(!pobj_turn_away(&object, 7, 1, 0) && issue(7, 1, 0) == QUEUED);
    CHECK(!pobj_turn_away(&object, 8, 1, POBJ_DUE) && !pobj_turn_away(&object, 8, 2, POBJ_DUE) && pobj_count(&object, 1) == 1);
    CHECK(issue(8, 1, POBJ_DUE) == PROGRAM_ERROR && issue(8, 2, POBJ_DUE) == CANCELLED && cancel(7, 1) == POBJ_CANCEL_MADE);
    next();
    CHECK(!pobj_turn_away(&object, 7, 1, POBJ_DUE | POBJ_ABORTED) && issue(7, 1, POBJ_DUE | POBJ_ABORTED) == CANCELLED);
    CHECK(!pobj_turn_away(&object, 7, 1, POBJ_DUE | POBJ_WITHOUT_ABORT));
    CHECK(issue(7, 1, POBJ_DUE | POBJ_WITHOUT_ABORT) == QUEUED && pobj_count(&object, 1) == 1);
    pobj_free(&object);
}

int main(void) {
    actions();
    refusals();
    growth();
    fixed();
    service_order();
    requeues();
    requeued_behind();
    remembered_abort();
    elsewhere();
    conditional();
    cancellation();
    limit();
    raising();
    failing();
    finalization();
    sizes();
    none();
    ready();
    served();
    served_and_requeued();
    not_served();
    idle();
    served_twice();
    not_served_twice();
    waits();
    turned_away();
    many_requeues();
    memory();
    printf("engine: passed\n");
    return 0;
}
