/* SPDX-License-Identifier: MIT */
/* Random commands on two objects: one takes several steps by one function, the other takes each step by itself. Both give the
   same answers, name the same calls, count the same, and answer the same about their own tickets. */
#include "pobj.h"
#include "check.h"

#include <string.h>

enum { ENTRIES = 4, CALLERS = 12, GAMES = 600, COMMANDS = 200, ENDS = POBJ_REQUEUED_ELSEWHERE + 1 };

struct side {
    pobj_object object;
    pobj_step step;
    pobj_step tickets[CALLERS]; /* the last one of each caller */
};

/* A call that arrives, and how its body ends if it runs at once. */
struct arrival {
    uint64_t caller, entry;
    pobj_marks marks;
    pobj_barrier barrier;
    pobj_body_end how;
    uint64_t target;
    pobj_marks target_marks;
};

static struct side in_one, by_steps;
static bool is_queued[CALLERS];
static uint64_t random_bits = 0x9e3779b97f4a7c15;
static uint64_t served[ENDS], served_twice[ENDS], waited, turned_away, refused, without_memory; /* how often */

static uint64_t below(uint64_t limit) {
    random_bits ^= random_bits << 13;
    random_bits ^= random_bits >> 7;
    random_bits ^= random_bits << 17;
    return (random_bits >> 11) % limit;
}

static pobj_barrier some_barrier(void) {
    uint64_t number = below(20);
    return number == 0 ? POBJ_RAISED : number < 8 ? POBJ_OPEN : POBJ_CLOSED;
}

static pobj_marks some_marks(void) {
    return (pobj_marks)(below(2) == 0 ? 0 : below(8));
}

static bool is_same(const pobj_step *one, const pobj_step *other) {
    return one->caller == other->caller && one->key == other->key && one->number == other->number;
}

static void keep(struct side *side) {
    side->tickets[side->step.caller] = side->step;
}

static uint64_t answer(struct side *side, pobj_barrier barrier) {
    return pobj_answer(&side->object, barrier, &side->step);
}

static uint64_t next(struct side *side) {
    return pobj_next(&side->object, &side->step);
}

static uint64_t issue(struct side *side, const struct arrival *call) {
    return pobj_issue(&side->object, call->caller, call->entry, call->marks, call->barrier, &side->step);
}

static uint64_t body_ended(struct side *side, const struct arrival *call) {
    return pobj_body_ended(&side->object, call->how, call->target, call->target_marks, &side->step);
}

static uint64_t serve(const struct arrival *call) {
    return pobj_served(
        &in_one.object, call->caller, call->entry, call->marks, call->how, call->target, call->target_marks, &in_one.step);
}

/* Takes the same step on both sides. Returns their answer, which has to be the same. */
static uint64_t same(uint64_t one, uint64_t other) {
    pobj_action action = pobj_action_of(one);
    CHECK(one == other);
    if (action == POBJ_RUN || action == POBJ_QUEUED || action == POBJ_CANCELLED || action == POBJ_PROGRAM_ERROR)
        CHECK(in_one.step.caller == by_steps.step.caller && in_one.step.caller < CALLERS);
    return one;
}

static uint64_t evaluate(void) {
    pobj_barrier barrier = some_barrier();
    return same(answer(&in_one, barrier), answer(&by_steps, barrier));
}

static uint64_t queue(void) {
    is_queued[in_one.step.caller] = true;
    keep(&in_one);
    keep(&by_steps);
    return evaluate();
}

static struct arrival some_body(void) {
    struct arrival call = {.how = (pobj_body_end)below(ENDS), .target = below(ENTRIES), .target_marks = some_marks()};
    return call;
}

static uint64_t run(void) {
    struct arrival call = some_body();
    is_queued[in_one.step.caller] = false;
    return same(body_ended(&in_one, &call), body_ended(&by_steps, &call));
}

static uint64_t go_on_after(uint64_t caller) {
    is_queued[caller] = false;
    return same(next(&in_one), next(&by_steps));
}

static uint64_t carry_out_one(uint64_t what) {
    switch (pobj_action_of(what)) {
    case POBJ_EVALUATE:
        return evaluate();
    case POBJ_QUEUED:
        return queue();
    case POBJ_RUN:
        return run();
    default:
        return go_on_after(in_one.step.caller);
    }
}

/* Carries out the protected action on both sides. */
static void carry_out(uint64_t what) {
    while (pobj_action_of(what) != POBJ_REST && pobj_action_of(what) != POBJ_NO_MEMORY && pobj_action_of(what) != POBJ_REFUSED)
        what = carry_out_one(what);
}

static uint64_t count_of(const bool is_one[CALLERS]) {
    uint64_t count = 0;
    for (uint64_t i = 0; i < CALLERS; i++)
        count += is_one[i];
    return count;
}

/* Checks that the step is refused on the side that takes several steps by one function, and changes nothing that can be seen.
   */
static void is_not_served(const struct arrival *call) {
    const pobj_step before = in_one.step;
    CHECK(serve(call) == POBJ_REFUSED && is_same(&in_one.step, &before));
    refused++;
}

/* A call whose barrier is open. */
static void pass(const struct arrival *call) {
    uint64_t ready = pobj_ready(&in_one.object), other = issue(&by_steps, call);
    if (pobj_action_of(other) == POBJ_RUN) {
        CHECK(ready == POBJ_REST && pobj_entry_of(other) == call->entry);
        served[call->how]++;
        carry_out(same(serve(call), body_ended(&by_steps, call)));
        return;
    }
    if (pobj_action_of(other) == POBJ_NO_MEMORY) {
        CHECK(ready == POBJ_NO_MEMORY);
        without_memory++;
    } else {
        CHECK(pobj_action_of(other) == POBJ_CANCELLED);
        is_not_served(call);
    }
    carry_out(same(issue(&in_one, call), other));
}

/* Returns whether the answer is this action, of this entry and of this call. */
static bool is(uint64_t what, pobj_action action, uint64_t entry, const struct arrival *call) {
    return pobj_action_of(what) == action && pobj_entry_of(what) == entry && by_steps.step.caller == call->caller;
}

/* Takes the steps that serve a call alone, requeue it, and serve it there. */
static void pass_twice_by_steps(const struct arrival *call) {
    CHECK(is(issue(&by_steps, call), POBJ_RUN, call->entry, call));
    CHECK(is(body_ended(&by_steps, call), POBJ_QUEUED, call->target, call));
    keep(&by_steps);
    CHECK(is(answer(&by_steps, POBJ_OPEN), POBJ_RUN, call->target, call));
    uint64_t what = pobj_body_ended(&by_steps.object, POBJ_COMPLETED, 0, POBJ_NO_MARKS, &by_steps.step);
    CHECK(pobj_action_of(what) == POBJ_REST);
}

/* Returns whether the body requeues the call within the object, neither due nor cancelled then. */
static bool moves(const struct arrival *call) {
    bool is_aborted = ((call->marks | call->target_marks) & POBJ_ABORTED) != 0, is_due = (call->target_marks & POBJ_DUE) != 0;
    return !is_due && (call->how == POBJ_REQUEUED || (call->how == POBJ_REQUEUED_WITH_ABORT && !is_aborted));
}

/* A call whose barrier is open, as is that of its target whatever the number of queued calls. Returns whether it is served. */
static bool pass_twice(const struct arrival *call) {
    bool is_cancelled = (call->marks & POBJ_ABORTED) && !(call->marks & POBJ_WITHOUT_ABORT);
    bool passes = pobj_served_twice(
        &in_one.object, call->caller, call->entry, call->marks, call->how, call->target, call->target_marks);
    CHECK(passes == (count_of(is_queued) == 0 && !is_cancelled && moves(call)));
    if (passes) {
        pass_twice_by_steps(call);
        served_twice[call->how]++;
    }
    return passes;
}

/* Takes the steps that queue a call alone, or turn it away. */
static void stop_by_steps(const struct arrival *call) {
    uint64_t what = issue(&by_steps, call);
    CHECK(is(what, POBJ_QUEUED, call->entry, call));
    keep(&by_steps);
    what = answer(&by_steps, POBJ_CLOSED);
    if (call->marks & POBJ_DUE) {
        CHECK(pobj_action_of(what) == POBJ_CANCELLED && by_steps.step.caller == call->caller);
        what = next(&by_steps);
    }
    CHECK(pobj_action_of(what) == POBJ_REST);
}

static bool stop_in_one(const struct arrival *call) {
    const pobj_step before = in_one.step;
    if (call->marks & POBJ_DUE)
        return pobj_turn_away(&in_one.object, call->caller, call->entry, call->marks);
    bool waits = pobj_wait(&in_one.object, call->caller, call->entry, call->marks, &in_one.step);
    CHECK(waits ? in_one.step.caller == call->caller : is_same(&in_one.step, &before));
    return waits;
}

/* A call whose barrier is closed whatever the number of queued calls. */
static void stop(const struct arrival *call) {
    bool is_due = (call->marks & POBJ_DUE) != 0, stays = (call->marks & POBJ_WITHOUT_ABORT) != 0;
    bool is_aborted = (call->marks & POBJ_ABORTED) != 0;
    bool stops = stop_in_one(call);
    CHECK(stops == (count_of(is_queued) == 0 && (stays ? !is_due : !is_aborted)));
    if (!stops) {
        carry_out(same(issue(&in_one, call), issue(&by_steps, call)));
        return;
    }
    stop_by_steps(call);
    is_queued[call->caller] = !is_due;
    if (!is_due)
        keep(&in_one);
    *(is_due ? &turned_away : &waited) += 1;
}

static void arrive(void) {
    struct arrival call = some_body();
    do
        call.caller = below(CALLERS);
    while (is_queued[call.caller]);
    call.entry = below(ENTRIES);
    call.marks = some_marks();
    call.barrier = some_barrier();
    if (call.barrier == POBJ_OPEN && below(4) > 0 && pass_twice(&call))
        return;
    if (call.barrier == POBJ_OPEN)
        pass(&call);
    else if (call.barrier == POBJ_CLOSED)
        stop(&call);
    else
        carry_out(same(issue(&in_one, &call), issue(&by_steps, &call)));
}

/* Attempts to cancel a call by each side's own ticket, which may be an old one. */
static void cancel(void) {
    uint64_t caller = below(CALLERS), expired = below(2);
    const pobj_step *one = &in_one.tickets[caller], *other = &by_steps.tickets[caller];
    pobj_cancellation made = pobj_cancel(&in_one.object, one->key, one->number, expired);
    CHECK(made == pobj_cancel(&by_steps.object, other->key, other->number, expired));
    CHECK((made == POBJ_CANCEL_UNKNOWN) == !is_queued[caller]);
    if (made == POBJ_CANCEL_MADE)
        carry_out(go_on_after(caller));
}

static void limit(void) {
    uint64_t entry = below(ENTRIES), longest = below(4);
    CHECK(pobj_limit(&in_one.object, entry, longest) && pobj_limit(&by_steps.object, entry, longest));
}

static void command(void) {
    uint64_t which = below(16);
    if (which < 10 && count_of(is_queued) < CALLERS)
        arrive();
    else if (which < 13)
        cancel();
    else if (which < 15)
        carry_out(same(next(&in_one), next(&by_steps)));
    else
        limit();
}

static void counts_are_same(void) {
    uint64_t count = 0;
    for (uint64_t entry = 0; entry < ENTRIES; entry++) {
        CHECK(pobj_count(&in_one.object, entry) == pobj_count(&by_steps.object, entry));
        count += pobj_count(&in_one.object, entry);
    }
    CHECK(count == count_of(is_queued));
    CHECK(pobj_is_idle(&in_one.object) == (count == 0) && pobj_is_idle(&by_steps.object) == (count == 0));
}

static bool make(struct side *side, size_t calls) {
    memset(side, 0, sizeof *side);
    return calls == 0 ? pobj_make(&side->object, ENTRIES) : pobj_make_fixed(&side->object, ENTRIES, calls);
}

static void play(size_t calls) {
    CHECK(make(&in_one, calls) && make(&by_steps, calls));
    memset(is_queued, 0, sizeof is_queued);
    for (int i = 0; i < COMMANDS; i++) {
        command();
        counts_are_same();
    }
    carry_out(same(pobj_finalize(&in_one.object, &in_one.step), pobj_finalize(&by_steps.object, &by_steps.step)));
    CHECK(count_of(is_queued) == 0);
    counts_are_same();
    pobj_free(&in_one.object);
    pobj_free(&by_steps.object);
}

int main(void) {
    for (size_t i = 0; i < GAMES; i++)
        play(i % 2 == 0 ? 0 : 1 + i % CALLERS);
    for (int how = 0; how < ENDS; how++)
        CHECK(served[how] > GAMES);
    CHECK(served_twice[POBJ_REQUEUED] > GAMES && served_twice[POBJ_REQUEUED_WITH_ABORT] > GAMES);
    CHECK(waited > GAMES && turned_away > GAMES && refused > GAMES && without_memory > GAMES);
    printf("both_ways: passed\n");
    return 0;
}
