/* SPDX-License-Identifier: MIT */
/* A control loop with no operating system, no threads, and no memory asked for after the start. In each period a sensor puts a
   sample into a bounded buffer by a conditional call, a controller takes the samples out, and a watcher waits for the event that it
   is too hot, by a timed call. The machine is in machine.h. */
#include "machine.h"
#include "pobj.h"
#include "pobj_arena.h"

enum { PUT, GET, BUFFER_ENTRIES };
enum { AWAIT, EVENT_ENTRIES };
enum { SENSOR, CONTROLLER, WATCHER, TASKS };
enum { BUFFER_CALLS = 2, EVENT_CALLS = 1 }; /* as many as tasks may be queued or served at once */
enum { PERIODS = 3000, ROOM = 8, WANTED = 500, TOO_HOT = 560, PATIENCE = 150 };

#define ARENA_BYTES (POBJ_ARENA_BYTES(BUFFER_ENTRIES, BUFFER_CALLS) + POBJ_ARENA_BYTES(EVENT_ENTRIES, EVENT_CALLS))
_Alignas(16) unsigned char pobj_arena[ARENA_BYTES];
const size_t pobj_arena_size = ARENA_BYTES;

_Noreturn static void give_up(const char *what) {
    say(what);
    say(": failed\n");
    leave(1);
}

/* A task of the loop, and what has become of its last call. */
struct sample {
    unsigned number;
    int temperature;
};
typedef struct {
    enum { NO_CALL, WAITS, SERVED, CANCELLED } call;
    pobj_step ticket; /* while it waits */
    struct sample sample;
} task;
static task tasks[TASKS];

/* A protected object: its calls, its barriers and its bodies. */
typedef struct {
    pobj_object calls;
    bool (*is_open)(uint64_t entry);
    void (*body)(uint64_t entry, task *caller);
} object;

static pobj_barrier barrier_of(const object *of, uint64_t entry) {
    return of->is_open(entry) ? POBJ_OPEN : POBJ_CLOSED;
}

/* Does what the engine answers. Returns what it answers then. */
static uint64_t carry_out(object *of, uint64_t answer, pobj_step *step) {
    task *caller = &tasks[step->caller];
    switch (pobj_action_of(answer)) {
    case POBJ_QUEUED:
        caller->call = WAITS;
        caller->ticket = *step;
        return pobj_answer(&of->calls, barrier_of(of, pobj_entry_of(answer)), step);
    case POBJ_EVALUATE:
        return pobj_answer(&of->calls, barrier_of(of, pobj_entry_of(answer)), step);
    case POBJ_RUN:
        of->body(pobj_entry_of(answer), caller);
        caller->call = SERVED;
        return pobj_body_ended(&of->calls, POBJ_COMPLETED, 0, POBJ_NO_MARKS, step);
    case POBJ_CANCELLED:
        caller->call = CANCELLED;
        return pobj_next(&of->calls, step);
    default: /* no room for the call, or a step that the object doesn't wait for */
        give_up("an answer of the engine");
    }
}

/* Does so until the protected action is over. */
static void drive(object *of, uint64_t answer, pobj_step *step) {
    while (pobj_action_of(answer) != POBJ_REST)
        answer = carry_out(of, answer, step);
}

/* Issues a call of the task's: a conditional one if it is due at once. */
static void issue(object *of, uint64_t caller, uint64_t entry, pobj_marks marks) {
    pobj_step step = {0};
    drive(of, pobj_issue(&of->calls, caller, entry, marks, barrier_of(of, entry), &step), &step);
}

/* Ends the task's call, whose time has come. */
static void expire(object *of, task *caller) {
    pobj_step step = {0};
    if (pobj_cancel(&of->calls, caller->ticket.key, caller->ticket.number, true) != POBJ_CANCEL_MADE)
        give_up("a timed call");
    caller->call = CANCELLED;
    drive(of, pobj_next(&of->calls, &step), &step);
}

/* The bounded buffer of samples. */
static struct sample samples[ROOM];
static unsigned first, used;

static bool buffer_is_open(uint64_t entry) {
    return entry == PUT ? used < ROOM : used > 0;
}

static void buffer_body(uint64_t entry, task *caller) {
    if (entry == PUT) {
        samples[(first + used++) % ROOM] = caller->sample;
    } else {
        caller->sample = samples[first];
        first = (first + 1) % ROOM;
        used--;
    }
}

static object buffer = {{0}, buffer_is_open, buffer_body};

/* The event. Whoever waited for it takes it. */
static bool is_set;

static bool event_is_open(uint64_t entry) {
    (void)entry;
    return is_set;
}

static void event_body(uint64_t entry, task *caller) {
    (void)entry;
    (void)caller;
    is_set = false;
}

static object event = {{0}, event_is_open, event_body};

/* A procedure of the event's. */
static void set_event(void) {
    pobj_step step = {0};
    is_set = true;
    drive(&event, pobj_next(&event.calls, &step), &step);
}

/* The plant, in tenths of a degree, and what has happened. */
static int temperature = 200;
static bool heats;
static unsigned lost, taken, waited, alarms, quiet;

static void sense(unsigned period) {
    static unsigned noise = 1;
    noise = noise * 1103515245u + 12345u;
    temperature += (heats ? 5 : -3) + (int)(noise >> 16) % 3 - 1;
    tasks[SENSOR].sample = (struct sample){period, temperature};
    issue(&buffer, SENSOR, PUT, POBJ_DUE);
    lost += tasks[SENSOR].call == CANCELLED;
}

static void regulate(struct sample now) {
    static unsigned last;
    static bool was_too_hot;
    bool is_too_hot = now.temperature > TOO_HOT;
    if (taken++ > 0 && now.number <= last)
        give_up("the order of the samples");
    last = now.number;
    heats = now.temperature < WANTED;
    if (is_too_hot && !was_too_hot)
        set_event();
    was_too_hot = is_too_hot;
}

/* Takes what samples there are, and then waits for the next one. Every now and then it has something else to do for a while. */
static void control(unsigned period) {
    task *self = &tasks[CONTROLLER];
    if (period % 300 < 20)
        return;
    while (self->call != WAITS) {
        if (self->call == SERVED)
            regulate(self->sample);
        issue(&buffer, CONTROLLER, GET, POBJ_NO_MARKS);
        waited += self->call == WAITS;
    }
}

static void watch(unsigned period) {
    static unsigned until;
    task *self = &tasks[WATCHER];
    if (self->call == WAITS && period == until)
        expire(&event, self);
    if (self->call == WAITS)
        return;
    alarms += self->call == SERVED;
    quiet += self->call == CANCELLED;
    until = period + PATIENCE;
    issue(&event, WATCHER, AWAIT, POBJ_NO_MARKS);
}

static void say_number(const char *before, unsigned long number) {
    char text[24], *at = text + sizeof text;
    *--at = 0;
    *--at = '\n';
    do
        *--at = (char)('0' + number % 10);
    while ((number /= 10) != 0);
    say(before);
    say(at);
}

/* How much of the stack was used: below this, it is as it was marked. */
enum { MARK = 0xa5 };

static void mark_stack(void) {
    uintptr_t here = (uintptr_t)__builtin_frame_address(0);
    for (volatile unsigned char *at = stack; (uintptr_t)at < here - 256; at++)
        *at = MARK;
}

static unsigned long stack_used(void) {
    unsigned long free = 0;
    while (stack[free] == MARK)
        free++;
    return STACK_BYTES - free;
}

/* Makes the objects, and with them takes all memory. */
static void make_objects(void) {
    if (!pobj_make_fixed(&buffer.calls, BUFFER_ENTRIES, BUFFER_CALLS) ||
        !pobj_make_fixed(&event.calls, EVENT_ENTRIES, EVENT_CALLS))
        give_up("memory");
    pobj_arena_seal();
}

static void say_what_happened(unsigned long to_make, unsigned long to_run) {
    if (taken + used + lost != PERIODS || pobj_arena_used() != pobj_arena_size)
        give_up("the sums");
    say_number("samples lost, for want of room: ", lost);
    say_number("times that the controller waited: ", waited);
    say_number("alarms: ", alarms);
    say_number("timed calls whose time came: ", quiet);
    say_number("arena bytes: ", pobj_arena_used());
    say_number("stack bytes, to make the objects: ", to_make);
    say_number("stack bytes, in the loop: ", to_run);
    say_number("memory asked for after the start: ", pobj_arena_late());
}

_Noreturn void control_main(void) {
    unsigned long to_make;
    mark_stack();
    make_objects();
    to_make = stack_used();
    mark_stack();
    begin_periods();
    for (unsigned period = 0; period < PERIODS; period++) {
        wait_for_period();
        sense(period);
        control(period);
        watch(period);
    }
    say_what_happened(to_make, stack_used());
    leave(pobj_arena_late() != 0);
}
