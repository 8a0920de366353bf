/* The eight units that a script may name, as a client of the engine writes them: their data, barriers, bodies, procedures and
   functions. docs/UNITS.md says what each is for, and crates/po_classic_units/specs what it means.

   Entries are numbered from 0 in the order of their declarations, those of a family from its lowest index up. A unit has at
   most one procedure, and one function, State. */
#ifndef UNITS_H
#define UNITS_H

#include "pobj.h"

enum {
    UNIT_KINDS = 8,
    UNIT_GREATEST_SIZE = 1024
};

typedef struct unit unit;

/* An entry, or a family of entries with the indices 1, 2 and so on. */
typedef struct {
    const char *name; /* NULL after the last declaration */
    bool is_public;
    uint64_t members; /* of a family; 0 means a single entry */
} unit_declaration;

/* The family has as many members as the unit's size says. */
#define UNIT_SIZE_MEMBERS UINT64_MAX

/* What an operation returns: a value, or the number of the exception that it raised. */
typedef struct {
    bool is_raised;
    uint64_t value;
} unit_reply;

/* How a body ended: completed with a reply, or requeued with a value to an entry of the same object. */
typedef struct {
    pobj_body_end how;
    uint64_t target;
    unit_reply reply;
} unit_outcome;

/* What all units of a name share. */
typedef struct {
    const char *name;
    bool has_size;
    const unit_declaration *declarations;
    const char *procedure; /* NULL: there is none */
    pobj_barrier (*barrier)(const unit *self, uint64_t entry);
    unit_outcome (*body)(unit *self, uint64_t entry, uint64_t value);
    unit_reply (*run)(unit *self, uint64_t value);
    uint64_t (*state)(const unit *self);
} unit_kind;

/* A unit, and the object whose counts its barriers and bodies read. */
struct unit {
    const unit_kind *kind;
    pobj_object *object;
    uint64_t size; /* 0 if the kind has none */
    union {
        struct {
            uint64_t values[UNIT_GREATEST_SIZE];
            uint64_t first;
            uint64_t length;
        } buffer;
        struct {
            bool is_set;
        } signal;
        struct {
            bool has_arrived;
            uint64_t message;
        } broadcast;
        struct {
            bool has_occurred;
        } pulse;
        struct {
            bool is_leaving;
        } meeting;
        struct {
            uint64_t taken;
        } allocator;
        struct {
            uint64_t level;
        } relay;
        struct {
            uint64_t level;
        } trap;
    };
};

extern const unit_kind unit_kinds[UNIT_KINDS];

/* Returns a new unit of this kind and size. */
void unit_begin(unit *self, const unit_kind *kind, uint64_t size, pobj_object *object);

/* Returns how many members the declared family has, or 0 if it is a single entry. */
uint64_t unit_members(const unit_declaration *declaration, uint64_t size);

/* Returns how many entries the declaration declares. */
uint64_t unit_width(const unit_declaration *declaration, uint64_t size);

/* Returns how many entries the kind has at this size. */
uint64_t unit_entries(const unit_kind *kind, uint64_t size);

#endif
