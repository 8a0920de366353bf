/* The eight units. All data begin as zero. */
#include "units.h"

#include <string.h>

/* This follows the last declaration. */
#define NO_DECLARATION {NULL, false, 0}

static pobj_barrier open_if(bool condition) {
    return condition ? POBJ_OPEN : POBJ_CLOSED;
}

static uint64_t count(const unit *self, uint64_t entry) {
    return pobj_count(self->object, entry);
}

static unit_reply returned(uint64_t value) {
    return (unit_reply){false, value};
}

static unit_reply raised(uint64_t exception) {
    return (unit_reply){true, exception};
}

static unit_outcome completed(unit_reply reply) {
    return (unit_outcome){POBJ_COMPLETED, 0, reply};
}

static unit_outcome requeued(uint64_t target, uint64_t value) {
    return (unit_outcome){POBJ_REQUEUED, target, returned(value)};
}

static unit_outcome requeued_with_abort(uint64_t target, uint64_t value) {
    return (unit_outcome){POBJ_REQUEUED_WITH_ABORT, target, returned(value)};
}

/* The buffer: Put adds a value, and Get takes the first one. */

enum { BUFFER_PUT, BUFFER_GET };

static const unit_declaration buffer_declarations[] = {{"Put", true, 0}, {"Get", true, 0}, NO_DECLARATION};

static pobj_barrier buffer_barrier(const unit *self, uint64_t entry) {
    const uint64_t length = self->buffer.length;
    return open_if(entry == BUFFER_PUT ? length < self->size : length > 0);
}

static void put(unit *self, uint64_t value) {
    const uint64_t last = self->buffer.first + self->buffer.length;
    self->buffer.values[last % self->size] = value;
    self->buffer.length++;
}

static uint64_t get(unit *self) {
    const uint64_t first = self->buffer.first;
    self->buffer.first = (first + 1) % self->size;
    self->buffer.length--;
    return self->buffer.values[first];
}

static unit_outcome buffer_body(unit *self, uint64_t entry, uint64_t value) {
    if (entry == BUFFER_GET) {
        return completed(returned(get(self)));
    }
    put(self, value);
    return completed(returned(value));
}

static uint64_t buffer_state(const unit *self) {
    return self->buffer.length;
}

/* The signal: Send lets one call on Wait go, now or later. */

static const unit_declaration signal_declarations[] = {{"Wait", true, 0}, NO_DECLARATION};

static pobj_barrier signal_barrier(const unit *self, uint64_t entry) {
    (void)entry;
    return open_if(self->signal.is_set);
}

static unit_outcome signal_body(unit *self, uint64_t entry, uint64_t value) {
    (void)entry;
    self->signal.is_set = false;
    return completed(returned(value));
}

static unit_reply signal_send(unit *self, uint64_t value) {
    self->signal.is_set = true;
    return returned(value);
}

static uint64_t signal_state(const unit *self) {
    return self->signal.is_set;
}

/* The broadcast: Send gives its value to each call that is queued on Receive. */

enum { BROADCAST_RECEIVE };

static const unit_declaration broadcast_declarations[] = {{"Receive", true, 0}, NO_DECLARATION};

static pobj_barrier broadcast_barrier(const unit *self, uint64_t entry) {
    (void)entry;
    return open_if(self->broadcast.has_arrived);
}

static unit_outcome broadcast_body(unit *self, uint64_t entry, uint64_t value) {
    (void)value;
    if (count(self, entry) == 0) {
        self->broadcast.has_arrived = false;
    }
    return completed(returned(self->broadcast.message));
}

static unit_reply broadcast_send(unit *self, uint64_t value) {
    self->broadcast.message = value;
    if (count(self, BROADCAST_RECEIVE) > 0) {
        self->broadcast.has_arrived = true;
    }
    return returned(value);
}

static uint64_t broadcast_state(const unit *self) {
    return self->broadcast.message;
}

/* The pulse: Signal lets all calls on Wait go, and ends after them, on Reset. */

enum { PULSE_WAIT, PULSE_SIGNAL, PULSE_RESET };

static const unit_declaration pulse_declarations[] = {
    {"Wait", true, 0}, {"Signal", true, 0}, {"Reset", false, 0}, NO_DECLARATION};

static pobj_barrier pulse_barrier(const unit *self, uint64_t entry) {
    if (entry == PULSE_WAIT) {
        return open_if(self->pulse.has_occurred);
    }
    return open_if(entry == PULSE_SIGNAL || count(self, PULSE_WAIT) == 0);
}

static unit_outcome pulse_signal(unit *self, uint64_t value) {
    if (count(self, PULSE_WAIT) == 0) {
        return completed(returned(value));
    }
    self->pulse.has_occurred = true;
    return requeued(PULSE_RESET, value);
}

static unit_outcome pulse_body(unit *self, uint64_t entry, uint64_t value) {
    if (entry == PULSE_SIGNAL) {
        return pulse_signal(self, value);
    }
    if (entry == PULSE_RESET) {
        self->pulse.has_occurred = false;
    }
    return completed(returned(value));
}

static uint64_t pulse_state(const unit *self) {
    return self->pulse.has_occurred;
}

/* The meeting: calls go together, as many as its size. */

enum { MEETING_WAIT };

static const unit_declaration meeting_declarations[] = {{"Wait", true, 0}, NO_DECLARATION};

static pobj_barrier meeting_barrier(const unit *self, uint64_t entry) {
    return open_if(self->meeting.is_leaving || count(self, entry) == self->size);
}

static unit_outcome meeting_body(unit *self, uint64_t entry, uint64_t value) {
    self->meeting.is_leaving = count(self, entry) > 0;
    return completed(returned(value));
}

static uint64_t meeting_state(const unit *self) {
    return count(self, MEETING_WAIT);
}

/* The allocator: Request, with abort, and Claim, without, requeue to the Grant of the number that they ask for. */

enum { ALLOCATOR_REQUEST, ALLOCATOR_CLAIM, ALLOCATOR_GRANT };

enum {
    ALLOCATOR_NOT_TAKEN = 1, /* the exception of a Release of nothing, or of more than is taken */
    ALLOCATOR_NEVER_FREE = 2 /* the exception of a call for nothing, or for more than there is */
};

static const unit_declaration allocator_declarations[] = {
    {"Request", true, 0}, {"Claim", true, 0}, {"Grant", false, UNIT_SIZE_MEMBERS}, NO_DECLARATION};

static uint64_t allocator_state(const unit *self) {
    return self->size - self->allocator.taken;
}

/* Returns how many the entry grants: Grant (1) is the first of its family. */
static uint64_t granted_by(uint64_t entry) {
    return entry - ALLOCATOR_GRANT + 1;
}

static pobj_barrier allocator_barrier(const unit *self, uint64_t entry) {
    return open_if(entry < ALLOCATOR_GRANT || granted_by(entry) <= allocator_state(self));
}

static bool is_within(uint64_t value, uint64_t most) {
    return value >= 1 && value <= most;
}

static unit_outcome allocator_body(unit *self, uint64_t entry, uint64_t value) {
    if (entry >= ALLOCATOR_GRANT) {
        self->allocator.taken += granted_by(entry);
        return completed(returned(value));
    }
    if (!is_within(value, self->size)) {
        return completed(raised(ALLOCATOR_NEVER_FREE));
    }
    const uint64_t target = ALLOCATOR_GRANT + value - 1;
    return entry == ALLOCATOR_REQUEST ? requeued_with_abort(target, value) : requeued(target, value);
}

static unit_reply allocator_release(unit *self, uint64_t value) {
    if (!is_within(value, self->allocator.taken)) {
        return raised(ALLOCATOR_NOT_TAKEN);
    }
    self->allocator.taken -= value;
    return returned(value);
}

/* The relay: First requeues to Second without abort, and Second to Third with abort, as the level allows. */

enum { RELAY_FIRST, RELAY_SECOND, RELAY_THIRD };

static const unit_declaration relay_declarations[] = {
    {"First", true, 0}, {"Second", false, 0}, {"Third", false, 0}, NO_DECLARATION};

static pobj_barrier relay_barrier(const unit *self, uint64_t entry) {
    return open_if(self->relay.level >= entry);
}

static unit_outcome relay_body(unit *self, uint64_t entry, uint64_t value) {
    (void)self;
    if (entry == RELAY_FIRST) {
        return requeued(RELAY_SECOND, value);
    }
    return entry == RELAY_SECOND ? requeued_with_abort(RELAY_THIRD, value) : completed(returned(value));
}

static unit_reply relay_set(unit *self, uint64_t value) {
    self->relay.level = value;
    return returned(value);
}

static uint64_t relay_state(const unit *self) {
    return self->relay.level;
}

/* The trap: barriers that raise, a body that raises, and a barrier on a count. */

enum { TRAP_FAIL = 3, TRAP_EXACT = 4 };

static const uint64_t trap_raising_level = 13;
static const uint64_t trap_greatest_exception = UINT32_MAX;

static const unit_declaration trap_declarations[] = {
    {"Wait", true, 3}, {"Fail", true, 0}, {"Exact", true, 0}, NO_DECLARATION};

static pobj_barrier trap_wait_barrier(uint64_t level, uint64_t index) {
    return level == trap_raising_level ? POBJ_RAISED : open_if(level >= index);
}

static pobj_barrier trap_barrier(const unit *self, uint64_t entry) {
    const uint64_t level = self->trap.level;
    switch (entry) {
    case TRAP_FAIL:
        return POBJ_OPEN;
    case TRAP_EXACT:
        return open_if(level > 0 && count(self, TRAP_EXACT) == level);
    default:
        return trap_wait_barrier(level, entry + 1);
    }
}

static unit_outcome trap_body(unit *self, uint64_t entry, uint64_t value) {
    if (entry != TRAP_FAIL) {
        return completed(returned(value));
    }
    self->trap.level = value;
    return completed(raised(value < trap_greatest_exception ? value : trap_greatest_exception));
}

static unit_reply trap_set(unit *self, uint64_t value) {
    self->trap.level = value;
    return returned(value);
}

static uint64_t trap_state(const unit *self) {
    return self->trap.level;
}

/* All of them. */

const unit_kind unit_kinds[UNIT_KINDS] = {
    {"buffer", true, buffer_declarations, NULL, buffer_barrier, buffer_body, NULL, buffer_state},
    {"signal", false, signal_declarations, "Send", signal_barrier, signal_body, signal_send, signal_state},
    {"broadcast", false, broadcast_declarations, "Send", broadcast_barrier, broadcast_body, broadcast_send, broadcast_state},
    {"pulse", false, pulse_declarations, NULL, pulse_barrier, pulse_body, NULL, pulse_state},
    {"meeting", true, meeting_declarations, NULL, meeting_barrier, meeting_body, NULL, meeting_state},
    {"allocator", true, allocator_declarations, "Release", allocator_barrier, allocator_body, allocator_release,
     allocator_state},
    {"relay", false, relay_declarations, "Set", relay_barrier, relay_body, relay_set, relay_state},
    {"trap", false, trap_declarations, "Set", trap_barrier, trap_body, trap_set, trap_state}};

void unit_begin(unit *self, const unit_kind *kind, uint64_t size, pobj_object *object) {
    memset(self, 0, sizeof *self);
    self->kind = kind;
    self->object = object;
    self->size = size;
}

uint64_t unit_members(const unit_declaration *declaration, uint64_t size) {
    return declaration->members == UNIT_SIZE_MEMBERS ? size : declaration->members;
}

uint64_t unit_width(const unit_declaration *declaration, uint64_t size) {
    return declaration->members == 0 ? 1 : unit_members(declaration, size);
}

uint64_t unit_entries(const unit_kind *kind, uint64_t size) {
    uint64_t entries = 0;
    for (const unit_declaration *declared = kind->declarations; declared->name != NULL; declared++) {
        entries += unit_width(declared, size);
    }
    return entries;
}
