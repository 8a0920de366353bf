/* Two threads lock two objects in opposite orders, one thread after the other. So neither waits here, but the thread sanitizer
   reports the orders (see run.sh). */
#define _POSIX_C_SOURCE 200809L

#include "pobj_threads.h"
#include "check.h"

#include <stdio.h>

static pobj_protected left, right;

static void do_nothing(pobj_protected *object, void *parameters) {
    (void)object, (void)parameters;
}

/* A procedure that runs one of another object. */
static void go_on(pobj_protected *object, void *other) {
    (void)object;
    CHECK(pobj_procedure(other, do_nothing, NULL) == POBJ_CALL_COMPLETED);
}

static void *from_left_to_right(void *unused) {
    CHECK(pobj_procedure(&left, go_on, &right) == POBJ_CALL_COMPLETED);
    return unused;
}

static void *from_right_to_left(void *unused) {
    CHECK(pobj_procedure(&right, go_on, &left) == POBJ_CALL_COMPLETED);
    return unused;
}

static void run(void *(*work)(void *)) {
    pthread_t thread;
    CHECK(pthread_create(&thread, NULL, work, NULL) == 0 && pthread_join(thread, NULL) == 0);
}

int main(void) {
    CHECK(pobj_protected_make(&left, NULL, NULL, 0) && pobj_protected_make(&right, NULL, NULL, 0));
    run(from_left_to_right);
    run(from_right_to_left);
    pobj_protected_destroy(&left);
    pobj_protected_destroy(&right);
    puts("opposite: passed");
    return 0;
}
