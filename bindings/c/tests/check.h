/* What the tests share: a condition that doesn't hold ends the program with its line. */
#ifndef CHECK_H
#define CHECK_H

#include <stdio.h>
#include <stdlib.h>

#define CHECK(condition) ((condition) ? (void)0 : check_failed(__FILE__, __LINE__, #condition))

static inline void check_failed(const char *file, int line, const char *condition) {
    printf("%s:%d: failed: %s\n", file, line, condition);
    fflush(stdout);
    _Exit(1);
}

#endif
