/* SPDX-License-Identifier: MIT */
/* All that the engine needs of its surroundings: three functions of memory, out of the program's arena, and memcpy, memmove and
   memset. Compile it with -ffreestanding -fno-builtin -fno-tree-loop-distribute-patterns (clang: without the last), or a compiler
   makes a loop a call of the function that it is in. */
#include "pobj_arena.h"

#include <stdint.h>

static size_t used;
static bool is_sealed;
static unsigned late;

size_t pobj_arena_used(void) {
    return used;
}

void pobj_arena_seal(void) {
    is_sealed = true;
}

unsigned pobj_arena_late(void) {
    return late;
}

/* An answer is two words in two registers. */
struct tried {
    uint64_t ok; /* 0 or 1 */
    void *at;    /* not null, even of a refusal */
};

/* Each alignment divides 16, and a size is below 2^63. */
static struct tried take(uint64_t bytes) {
    size_t start = used;
    late += is_sealed;
    if (is_sealed || POBJ_ARENA_ROUNDED(bytes) > pobj_arena_size - used)
        return (struct tried){0, pobj_arena};
    used += POBJ_ARENA_ROUNDED(bytes);
    return (struct tried){1, pobj_arena + start};
}

struct tried rattle_alloc(uint64_t bytes, uint64_t align) {
    return take(bytes == 0 ? align : bytes);
}

/* pobj_make_fixed never asks for it; pobj_make does. */
struct tried rattle_realloc(void *at, uint64_t kept, uint64_t bytes, uint64_t align) {
    struct tried got = take(bytes == 0 ? align : bytes);
    const unsigned char *from = at;
    unsigned char *to = got.at;
    for (uint64_t i = 0; got.ok && i < kept && i < bytes; i++)
        to[i] = from[i];
    return got;
}

void rattle_dealloc(void *at) {
    (void)at;
}

void *memcpy(void *to, const void *from, size_t bytes) {
    unsigned char *t = to;
    const unsigned char *f = from;
    while (bytes-- > 0)
        *t++ = *f++;
    return to;
}

void *memmove(void *to, const void *from, size_t bytes) {
    unsigned char *t = to;
    const unsigned char *f = from;
    if ((uintptr_t)t <= (uintptr_t)f)
        return memcpy(to, from, bytes);
    while (bytes-- > 0)
        t[bytes] = f[bytes];
    return to;
}

void *memset(void *to, int value, size_t bytes) {
    unsigned char *t = to;
    while (bytes-- > 0)
        *t++ = (unsigned char)value;
    return to;
}
