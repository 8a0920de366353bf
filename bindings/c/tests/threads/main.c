/* Tests of pobj_threads.h by threads: first each operation and each answer alone, then 64 threads at once for a number of
   seconds (threads SECONDS; without it, 2). A watchdog ends a program that hangs. */
#define _POSIX_C_SOURCE 200809L

#include "threads.h"

#include <signal.h>
#include <unistd.h>

pobj_protected both[2], *const a = &both[0], *const b = &both[1];

void finish(void) {
    CHECK(pobj_protected_finalize(a) && pobj_protected_finalize(b));
    pobj_protected_destroy(a);
    pobj_protected_destroy(b);
}

static void say_that_it_hangs(int signal) {
    static const char text[] = "threads: hangs\n";
    ssize_t written = write(STDOUT_FILENO, text, sizeof text - 1);
    (void)signal;
    (void)written;
    abort();
}

int main(int number, char **arguments) {
    double seconds = number > 1 ? strtod(arguments[1], NULL) : 2;
    signal(SIGALRM, say_that_it_hangs);
    alarm((unsigned)(3 * seconds) + 60);
    test_operations();
    test_stress(seconds);
    printf("threads: passed\n");
    return 0;
}
