/* SPDX-License-Identifier: MIT */
/* Whether POBJ_ARENA_BYTES is what the arena of bindings/c/bare counts, for many shapes of objects; whether an object in an arena
   that is sealed takes calls and asks for nothing; and whether an arena that is too small or sealed refuses. */
#include "check.h"
#include "pobj.h"
#include "pobj_arena.h"

enum { ARENA_BYTES = 1 << 26 };
_Alignas(16) unsigned char pobj_arena[ARENA_BYTES];
const size_t pobj_arena_size = ARENA_BYTES;

static const uint64_t entries_of[] = {0, 1, 2, 3, 5, 32, 63, 64, 65, 1000, 65535};
static const size_t calls_of[] = {0, 1, 2, 3, 4, 5, 6, 7, 16, 17, 64, 1000};

/* Makes an object of this shape, and compares. */
static void compare(uint64_t entries, size_t calls) {
    pobj_object object = {0};
    size_t before = pobj_arena_used();
    CHECK(pobj_make_fixed(&object, entries, calls));
    CHECK(pobj_arena_used() - before == POBJ_ARENA_BYTES(entries, calls));
    pobj_free(&object);
}

static void compare_all(void) {
    for (size_t i = 0; i < sizeof entries_of / sizeof *entries_of; i++)
        for (size_t j = 0; j < sizeof calls_of / sizeof *calls_of; j++)
            compare(entries_of[i], calls_of[j]);
}

/* Queues this many calls, and serves them all, of an object in a sealed arena. */
static void use(pobj_object *object, uint64_t calls) {
    pobj_step step = {0};
    for (uint64_t caller = 0; caller < calls; caller++) {
        CHECK(pobj_action_of(pobj_issue(object, caller, 0, POBJ_NO_MARKS, POBJ_CLOSED, &step)) == POBJ_QUEUED);
        uint64_t answer = pobj_answer(object, POBJ_CLOSED, &step);
        while (pobj_action_of(answer) == POBJ_EVALUATE)
            answer = pobj_answer(object, POBJ_CLOSED, &step);
        CHECK(pobj_action_of(answer) == POBJ_REST);
    }
    CHECK(pobj_action_of(pobj_issue(object, calls, 0, POBJ_NO_MARKS, POBJ_CLOSED, &step)) == POBJ_NO_MEMORY);
    uint64_t answer = pobj_next(object, &step);
    for (uint64_t caller = 0; caller < calls; caller++) {
        CHECK(pobj_action_of(answer) == POBJ_EVALUATE);
        CHECK(pobj_action_of(pobj_answer(object, POBJ_OPEN, &step)) == POBJ_RUN && step.caller == caller);
        answer = pobj_body_ended(object, POBJ_COMPLETED, 0, POBJ_NO_MARKS, &step);
    }
    CHECK(pobj_action_of(answer) == POBJ_REST);
}

/* Whether an object for one call more than there is room for is refused. */
static void refuse(void) {
    pobj_object object = {0};
    size_t calls = 0, before = pobj_arena_used();
    while (POBJ_ARENA_BYTES(2, calls + 1) <= ARENA_BYTES - before)
        calls++;
    CHECK(!pobj_make_fixed(&object, 2, calls + 1) && object.at == NULL);
    CHECK(pobj_arena_used() > before); /* nothing is given back */
}

int main(void) {
    pobj_object object = {0};
    compare_all();
    CHECK(pobj_make_fixed(&object, 2, 12));
    refuse();
    pobj_arena_seal();
    for (int again = 0; again < 100; again++)
        use(&object, 12);
    CHECK(pobj_arena_late() == 0);
    pobj_object late = {0};
    CHECK(!pobj_make_fixed(&late, 1, 1) && pobj_arena_late() > 0);
    printf("arena: passed\n");
    return 0;
}
