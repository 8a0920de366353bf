/* SPDX-License-Identifier: MIT */
/* The three functions of memory that the engine needs, over malloc, realloc and free: for targets other than x86-64, for which the
   kit has none. rattle/libc/src/heap.rt of the kit states their contracts: alignments divide 16, as malloc's do; a size is below
   2^63; a refusal's address isn't null. */
#include <stdint.h>
#include <stdlib.h>

/* An answer is two words in two registers. */
struct tried {
    uint64_t ok; /* 0 or 1 */
    void *at;
};

static _Alignas(16) char nothing[16];

static struct tried tried_of(void *at) {
    return at == NULL ? (struct tried){0, nothing} : (struct tried){1, at};
}

struct tried rattle_alloc(uint64_t bytes, uint64_t align) {
    return tried_of(malloc(bytes == 0 ? align : bytes));
}

/* `kept` bytes stay, which realloc sees to: it keeps them all. */
struct tried rattle_realloc(void *at, uint64_t kept, uint64_t bytes, uint64_t align) {
    (void)kept;
    return tried_of(realloc(at, bytes == 0 ? align : bytes));
}

void rattle_dealloc(void *at) {
    free(at);
}
