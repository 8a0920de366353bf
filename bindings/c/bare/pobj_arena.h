/* SPDX-License-Identifier: MIT */
/* Memory for the engine out of one array (arena.c), for programs without an operating system. Nothing is given back, so this is
   for objects of pobj_make_fixed: make them all, then seal the arena, and the program never takes memory again. */
#ifndef POBJ_ARENA_H
#define POBJ_ARENA_H

#include <stdbool.h>
#include <stddef.h>

#ifdef __cplusplus
extern "C" {
#endif

/* How many bytes of the arena pobj_make_fixed takes, for this many entries and calls: exactly, on each target, as
   bindings/c/tests/arena.c compares with what the arena counts. */
#define POBJ_ARENA_BYTES(entries, calls) (544 + POBJ_ARENA_OF_ENTRIES((size_t)(entries)) + POBJ_ARENA_OF_CALLS((size_t)(calls)))

/* The parts of it: arrays by entry, two sets of bits if there are 64 entries or more, and arrays by call, of four elements or more. */
#define POBJ_ARENA_OF_ENTRIES(n) (32 * (n) + 2 * POBJ_ARENA_ROUNDED(8 * (n)) + ((n) < 64 ? 0 : POBJ_ARENA_OF_BITS((n) - 64)))
#define POBJ_ARENA_OF_BITS(n) (POBJ_ARENA_ROUNDED((n) / 64 * 8 + 8) + POBJ_ARENA_ROUNDED((n) / 4096 * 8 + 8))
#define POBJ_ARENA_OF_CALLS(n) ((n) == 0 ? 0 : 112 * (n) + 160 * POBJ_ARENA_MOST(n, 4) + 64 * POBJ_ARENA_MOST(2 * (n) - 1, 4))
#define POBJ_ARENA_MOST(a, b) ((a) > (b) ? (a) : (b))
#define POBJ_ARENA_ROUNDED(bytes) (((bytes) + 15) / 16 * 16)

/* The array, which the program defines: static storage, and its size in bytes. */
extern unsigned char pobj_arena[];
extern const size_t pobj_arena_size;

/* How many bytes are taken. */
size_t pobj_arena_used(void);

/* Ends the time in which memory may be taken. */
void pobj_arena_seal(void);

/* How many times memory was asked for since then, and refused. */
unsigned pobj_arena_late(void);

#ifdef __cplusplus
}
#endif

#endif
