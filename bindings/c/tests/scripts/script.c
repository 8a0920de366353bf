/* Reads a script on standard input, and carries it out over the engine in one thread, as `pobj run` does. Statuses: 0, it was
   carried out; 1, memory ran out, a read or a write failed, or the engine gave an answer that it mustn't; 77, the script has a
   fault, or asks for something that the engine lacks. Then nothing is written, and standard error says what it is.

   The engine lacks service orders other than the textual one, and queues without room (max 0). */
#include "language.h"

#include <inttypes.h>
#include <stdio.h>
#include <stdlib.h>

enum { NOT_EXPRESSIBLE = 77 };

/* Why a command is refused: docs/SCRIPTS.md, "Refusals". */
enum {
    NO_REFUSAL = 0,
    NO_SUCH_ENTRY = 1,
    PRIVATE_ENTRY = 2,
    BAD_INDEX = 3,
    NO_SUCH_OPERATION = 4,
    UNKNOWN_CALL = 5,
    ENDED_CALL = 6,
    FINALIZED = 7
};

/* A call, which waits or has ended. */
typedef struct {
    uint64_t value;
    bool is_timed;
    uint64_t time;
    bool is_waiting;
    size_t key; /* of its ticket while it waits, like the next part */
    uint64_t ticket_number;
    uint64_t arrival; /* how many calls had been queued when it was, including this one */
    uint64_t before;  /* the number of the waiting call that was queued last before it; 0: none */
    uint64_t behind;  /* the same of the one queued next after it */
} call;

/* An object, and what its client keeps. */
typedef struct {
    pobj_object object;
    pobj_step step;
    unit unit;
    call *calls; /* by their numbers; number 0 is both before the first that waits and after the last */
    uint64_t room;
    uint64_t next;
    uint64_t arrivals;
    uint64_t clock;
    bool is_final;
} session;

_Noreturn static void stop(int status, const char *reason) {
    fprintf(stderr, "script: %s\n", reason);
    exit(status);
}

_Noreturn static void fail(const char *reason) {
    stop(EXIT_FAILURE, reason);
}

/* Enlarges memory to `count` things of this size, and keeps its contents. */
static void *grown(void *memory, uint64_t count, size_t size) {
    void *larger = count > SIZE_MAX / size ? NULL : realloc(memory, (size_t)count * size);
    if (larger == NULL) {
        fail("out of memory");
    }
    return larger;
}

/* ---- The calls that wait, in the order in which they were queued. */

static void make_room(session *self) {
    if (self->next < self->room) {
        return;
    }
    self->room = self->room * 2 + 16;
    self->calls = grown(self->calls, self->room, sizeof *self->calls);
}

/* Makes a new call. Returns its number. */
static uint64_t new_call(session *self, const command *says) {
    make_room(self);
    self->calls[self->next] = (call){.value = says->number, .is_timed = says->is_timed, .time = says->time};
    return self->next++;
}

/* Notes that the last step's call is queued, with the step's ticket. */
static void note_queued(session *self) {
    call *queued = &self->calls[self->step.caller];
    queued->is_waiting = true;
    queued->key = self->step.key;
    queued->ticket_number = self->step.number;
    queued->arrival = ++self->arrivals;
    queued->before = self->calls[0].before;
    queued->behind = 0;
    self->calls[queued->before].behind = self->step.caller;
    self->calls[0].before = self->step.caller;
}

/* Notes that the call doesn't wait any more, if it did. */
static void note_gone(session *self, uint64_t number) {
    call *gone = &self->calls[number];
    if (!gone->is_waiting) {
        return;
    }
    gone->is_waiting = false;
    self->calls[gone->before].behind = gone->behind;
    self->calls[gone->behind].before = gone->before;
}

static bool is_due(const session *self, const call *one) {
    return one->is_timed && one->time <= self->clock;
}

/* Returns the number of the first waiting call that is due and was queued after this arrival, or 0 if there is none. */
static uint64_t first_due(const session *self, uint64_t arrival) {
    uint64_t number = self->calls[0].behind;
    while (number != 0 && !(self->calls[number].arrival > arrival && is_due(self, &self->calls[number]))) {
        number = self->calls[number].behind;
    }
    return number;
}

/* ---- Lines of answers. */

static void tell_number(const char *before, uint64_t number) {
    printf("%s%" PRIu64 "\n", before, number);
}

static void tell_end(uint64_t number, const char *end) {
    printf("%" PRIu64 " %s\n", number, end);
}

static void tell_reply(const char *of_value, unit_reply reply) {
    tell_number(reply.is_raised ? "raised " : of_value, reply.value);
}

static void tell_completed(uint64_t number, unit_reply reply) {
    printf("%" PRIu64 " ", number);
    tell_reply("done ", reply);
}

/* ---- What the engine asks for, until it answers rest. */

static pobj_barrier barrier(const session *self, uint64_t entry) {
    return self->unit.kind->barrier(&self->unit, entry);
}

static pobj_marks marks_of(const session *self, const call *one) {
    return is_due(self, one) ? POBJ_DUE : POBJ_NO_MARKS;
}

static uint64_t evaluate(session *self, uint64_t entry) {
    return pobj_answer(&self->object, barrier(self, entry), &self->step);
}

static uint64_t run_body(session *self, uint64_t entry) {
    const uint64_t number = self->step.caller;
    call *served = &self->calls[number];
    note_gone(self, number);
    const unit_outcome outcome = self->unit.kind->body(&self->unit, entry, served->value);
    if (outcome.how == POBJ_COMPLETED) {
        tell_completed(number, outcome.reply);
    }
    served->value = outcome.reply.value;
    return pobj_body_ended(&self->object, outcome.how, outcome.target, marks_of(self, served), &self->step);
}

static uint64_t call_ended(session *self, const char *end) {
    note_gone(self, self->step.caller);
    tell_end(self->step.caller, end);
    return pobj_next(&self->object, &self->step);
}

/* Does what the engine answered, and returns its next answer. */
static uint64_t carry_on(session *self, uint64_t answer) {
    const uint64_t entry = pobj_entry_of(answer);
    switch (pobj_action_of(answer)) {
    case POBJ_EVALUATE:
        return evaluate(self, entry);
    case POBJ_RUN:
        return run_body(self, entry);
    case POBJ_QUEUED:
        note_queued(self);
        return evaluate(self, entry);
    case POBJ_CANCELLED:
        return call_ended(self, "cancelled");
    case POBJ_PROGRAM_ERROR:
        return call_ended(self, "program_error");
    case POBJ_NO_MEMORY:
        fail("out of memory");
    default:
        fail("the engine refused a step");
    }
}

static void drive(session *self, uint64_t answer) {
    while (pobj_action_of(answer) != POBJ_REST) {
        answer = carry_on(self, answer);
    }
}

/* ---- The commands. */

static void refuse(unsigned refusal) {
    tell_number("refused ", refusal);
}

static void make_object(session *self, uint64_t entries) {
    if (!pobj_make(&self->object, entries)) {
        fail("no object was made");
    }
}

static void limit_queues(session *self, uint64_t entries, uint64_t longest) {
    for (uint64_t entry = 0; entry < entries; entry++) {
        if (!pobj_limit(&self->object, entry, longest)) {
            fail("an entry has no limit");
        }
    }
}

static void begin(session *self, const command *says) {
    const uint64_t entries = unit_entries(says->kind, says->size);
    make_object(self, entries);
    if (says->has_longest) {
        limit_queues(self, entries, says->longest);
    }
    unit_begin(&self->unit, says->kind, says->size, &self->object);
}

/* Returns the declaration of the name, and sets the number of its first entry. Returns NULL if there is none. */
static const unit_declaration *declaration_of(const session *self, text name, uint64_t *first) {
    const unit_declaration *declared = self->unit.kind->declarations;
    for (*first = 0; declared->name != NULL; declared++) {
        if (text_is(name, declared->name)) {
            return declared;
        }
        *first += unit_width(declared, self->unit.size);
    }
    return NULL;
}

/* Returns whether the declaration has an entry with this index, or without one. */
static bool has_member(const session *self, const unit_declaration *declared, const command *says) {
    const uint64_t members = unit_members(declared, self->unit.size);
    if (!says->has_index) {
        return members == 0;
    }
    return says->index >= 1 && (uint64_t)says->index <= members;
}

/* Returns the refusal of a call, or sets the number of its entry. */
static unsigned find_entry(const session *self, const command *says, uint64_t *entry) {
    const unit_declaration *declared = declaration_of(self, says->name, entry);
    if (declared == NULL) {
        return NO_SUCH_ENTRY;
    }
    if (!declared->is_public) {
        return PRIVATE_ENTRY;
    }
    if (!has_member(self, declared, says)) {
        return BAD_INDEX;
    }
    *entry += says->has_index ? (uint64_t)says->index - 1 : 0;
    return self->is_final ? FINALIZED : NO_REFUSAL;
}

static void issue_on(session *self, const command *says, uint64_t entry) {
    const uint64_t number = new_call(self, says);
    const pobj_marks marks = marks_of(self, &self->calls[number]);
    tell_number("#", number);
    drive(self, pobj_issue(&self->object, number, entry, marks, barrier(self, entry), &self->step));
}

static void issue(session *self, const command *says) {
    uint64_t entry = 0;
    const unsigned refusal = find_entry(self, says, &entry);
    if (refusal == NO_REFUSAL) {
        issue_on(self, says, entry);
    } else {
        refuse(refusal);
    }
}

/* Returns the refusal of a procedure or a function. `name` is the unit's own, or NULL if it has none. */
static unsigned operation_refusal(const session *self, const command *says, const char *name) {
    if (name == NULL || !text_is(says->name, name)) {
        return NO_SUCH_OPERATION;
    }
    return self->is_final ? FINALIZED : NO_REFUSAL;
}

static void run_procedure(session *self, const command *says) {
    const unsigned refusal = operation_refusal(self, says, self->unit.kind->procedure);
    if (refusal != NO_REFUSAL) {
        refuse(refusal);
        return;
    }
    tell_reply("done ", self->unit.kind->run(&self->unit, says->number));
    drive(self, pobj_next(&self->object, &self->step));
}

static void call_function(session *self, const command *says) {
    const unsigned refusal = operation_refusal(self, says, "State");
    if (refusal != NO_REFUSAL) {
        refuse(refusal);
        return;
    }
    tell_number("value ", self->unit.kind->state(&self->unit));
}

/* Tries to cancel a call that waits. Returns false if it is kept. */
static bool withdraw(session *self, uint64_t number, bool is_expired) {
    const call *waiting = &self->calls[number];
    const pobj_cancellation came = pobj_cancel(&self->object, waiting->key, waiting->ticket_number, is_expired);
    if (came == POBJ_CANCEL_KEPT) {
        return false;
    }
    if (came != POBJ_CANCEL_MADE) {
        fail("the engine doesn't know a call that waits");
    }
    self->step.caller = number;
    drive(self, call_ended(self, "cancelled"));
    return true;
}

static unsigned cancel_refusal(const session *self, uint64_t number) {
    if (number == 0 || number >= self->next) {
        return UNKNOWN_CALL;
    }
    return self->calls[number].is_waiting ? NO_REFUSAL : ENDED_CALL;
}

static void cancel(session *self, const command *says) {
    const unsigned refusal = cancel_refusal(self, says->number);
    if (refusal != NO_REFUSAL) {
        refuse(refusal);
    } else if (!withdraw(self, says->number, false)) {
        puts("kept");
    }
}

/* Cancels the calls that are due, in the order in which they were queued. Calls that a cancellation lets go are served before
   the next one. */
static void expire(session *self) {
    uint64_t number = first_due(self, 0);
    while (number != 0) {
        const uint64_t arrival = self->calls[number].arrival;
        withdraw(self, number, true);
        number = first_due(self, arrival);
    }
}

static void tick(session *self, const command *says) {
    if (self->is_final) {
        refuse(FINALIZED);
        return;
    }
    self->clock = says->number > self->clock ? says->number : self->clock;
    tell_number("clock ", self->clock);
    expire(self);
}

static void finalize(session *self, const command *says) {
    (void)says;
    if (self->is_final) {
        refuse(FINALIZED);
        return;
    }
    self->is_final = true;
    puts("final");
    drive(self, pobj_finalize(&self->object, &self->step));
}

/* Writes a line for the entry, or one for each member of the family, whose first has this number. */
static void show_entries(session *self, const unit_declaration *declared, uint64_t first) {
    const uint64_t members = unit_members(declared, self->unit.size);
    if (members == 0) {
        printf("%s %" PRIu64 "\n", declared->name, pobj_count(&self->object, first));
    }
    for (uint64_t index = 1; index <= members; index++) {
        printf("%s(%" PRIu64 ") %" PRIu64 "\n", declared->name, index, pobj_count(&self->object, first + index - 1));
    }
}

static void show(session *self, const command *says) {
    (void)says;
    uint64_t first = 0;
    for (const unit_declaration *declared = self->unit.kind->declarations; declared->name != NULL; declared++) {
        show_entries(self, declared, first);
        first += unit_width(declared, self->unit.size);
    }
    tell_number("clock ", self->clock);
    tell_number("next ", self->next);
}

static void skip(session *self, const command *says) {
    (void)self;
    (void)says;
}

static void carry_out(session *self, const command *says) {
    static void (*const handlers[])(session *, const command *) = {
        [SAYS_NOTHING] = skip,
        [SAYS_UNIT] = begin,
        [SAYS_CALL] = issue,
        [SAYS_PROC] = run_procedure,
        [SAYS_FUNC] = call_function,
        [SAYS_CANCEL] = cancel,
        [SAYS_TICK] = tick,
        [SAYS_FINAL] = finalize,
        [SAYS_SHOW] = show};
    handlers[says->verb](self, says);
}

/* ---- The script. */

/* Returns what the command needs and the engine lacks, or NULL. */
static const char *lacking(const command *says) {
    if (says->order != TEXTUAL) {
        return "the engine has no other service order than the textual one";
    }
    return says->has_longest && says->longest == 0 ? "to the engine a limit of 0 is none" : NULL;
}

/* Checks a line. Returns whether a unit is begun after it. Ends the program if the line can't be carried out. */
static bool judge(text line, bool is_begun) {
    command says;
    if (!read_line(line, is_begun, &says)) {
        stop(NOT_EXPRESSIBLE, "the script has a fault");
    }
    if (lacking(&says) != NULL) {
        stop(NOT_EXPRESSIBLE, lacking(&says));
    }
    return is_begun || says.verb == SAYS_UNIT;
}

static void judge_all(text script) {
    bool is_begun = false;
    text line;
    while (next_line(&script, &line)) {
        is_begun = judge(line, is_begun);
    }
}

static session session_begun(void) {
    session self = {.next = 1};
    make_room(&self);
    self.calls[0] = (call){.is_waiting = false};
    return self;
}

static void session_ended(session *self) {
    if (self->unit.kind != NULL) {
        pobj_free(&self->object);
    }
    free(self->calls);
}

static void carry_out_all(text script) {
    session self = session_begun();
    text line;
    while (next_line(&script, &line)) {
        command says;
        read_line(line, self.unit.kind != NULL, &says);
        carry_out(&self, &says);
    }
    session_ended(&self);
}

/* Reads standard input, up to one byte more than a script may have. */
static char *read_script(size_t *length) {
    const size_t most = (size_t)GREATEST_SCRIPT + 1;
    char *bytes = grown(NULL, most, 1);
    *length = fread(bytes, 1, most, stdin);
    if (ferror(stdin)) {
        fail("read failed");
    }
    return bytes;
}

int main(void) {
    size_t length = 0;
    char *bytes = read_script(&length);
    if (length > GREATEST_SCRIPT) {
        stop(NOT_EXPRESSIBLE, "the script has a fault");
    }
    judge_all((text){bytes, length});
    carry_out_all((text){bytes, length});
    free(bytes);
    if (fflush(stdout) != 0 || ferror(stdout)) {
        fail("write failed");
    }
    return EXIT_SUCCESS;
}
