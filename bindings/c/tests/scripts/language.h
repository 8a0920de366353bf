/* What the lines of a script say: docs/SCRIPTS.md, and crates/po_language/specs. */
#ifndef LANGUAGE_H
#define LANGUAGE_H

#include "units.h"

enum {
    GREATEST_LINE = 4096,      /* bytes, without the newline */
    GREATEST_SCRIPT = 67108864 /* bytes */
};

/* Bytes of the script: a line, a word, or what is left. */
typedef struct {
    const char *at;
    size_t length;
} text;

typedef enum { SAYS_NOTHING, SAYS_UNIT, SAYS_CALL, SAYS_PROC, SAYS_FUNC, SAYS_CANCEL, SAYS_TICK, SAYS_FINAL, SAYS_SHOW } verb;

/* Which entry is served first. */
typedef enum { TEXTUAL, OLDEST, ROTATING } service_order;

/* A command. The parts that its verb doesn't use are zero. */
typedef struct {
    verb verb;
    text name; /* of an entry, a procedure or a function */
    bool has_index;
    int64_t index;
    bool is_timed; /* a conditional call is a timed one whose time is 0 */
    uint64_t time;
    uint64_t number; /* the value, the number of a call, or the time of a tick */
    const unit_kind *kind;
    uint64_t size;
    service_order order;
    bool has_longest; /* there is a limit for queues */
    uint64_t longest;
} command;

/* Whether the text is this name. */
bool text_is(text self, const char *name);

/* Takes the next line, without its newline, off a script. Returns false if there is none. */
bool next_line(text *script, text *line);

/* Reads the line, given whether a unit is begun. Returns false if it has a fault. */
bool read_line(text line, bool is_begun, command *says);

#endif
