/* What the tests of pobj_threads.h by threads share. */
#ifndef THREADS_H
#define THREADS_H

#include "pobj_threads.h"
#include "../check.h"

enum { THREADS = 64 };

/* The two objects of a test, and their end. */
extern pobj_protected both[2], *const a, *const b;
void finish(void);

/* Each operation and each answer alone. */
void test_operations(void);

/* Many threads at once, for this many seconds. */
void test_stress(double seconds);

static inline void start(pthread_t *thread, void *(*what)(void *), void *argument) {
    CHECK(pthread_create(thread, NULL, what, argument) == 0);
}

static inline void pause_for(uint64_t nanoseconds) {
    struct timespec until = pobj_time_from_now(nanoseconds);
    while (clock_nanosleep(CLOCK_MONOTONIC, TIMER_ABSTIME, &until, NULL) != 0)
        continue;
}

#endif
