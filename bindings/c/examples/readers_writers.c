/* SPDX-License-Identifier: MIT */
/* Readers and writers: any number of threads read at once, and one writes alone. A writer that has come keeps new readers out,
   and is requeued to wait until those that are inside have left (ISO/IEC 8652:2023, 9.5.4). By then it has closed the door, so
   it mustn't be cancelled any more: the requeue is without abort. */
#define _POSIX_C_SOURCE 200809L

#include "pobj_threads.h"

#include <stdio.h>

enum { READ, WRITE, AWAIT_READERS, ENTRIES };
enum { READERS = 4, WRITERS = 2, TIMES = 500 };

struct door {
    unsigned readers; /* the number of readers inside */
    bool is_writing;  /* a writer is inside, or waits for the readers to leave */
};

static bool is_free(pobj_protected *object) {
    const struct door *door = object->data;
    return !door->is_writing;
}

static bool has_no_reader(pobj_protected *object) {
    const struct door *door = object->data;
    return door->readers == 0;
}

static int begin_read(pobj_call *call) {
    struct door *door = pobj_data(call);
    door->readers++;
    return POBJ_COMPLETED;
}

static int begin_write(pobj_call *call) {
    struct door *door = pobj_data(call);
    door->is_writing = true;
    return door->readers == 0 ? POBJ_COMPLETED : pobj_requeue(call, AWAIT_READERS);
}

static int readers_have_left(pobj_call *call) {
    (void)call;
    return POBJ_COMPLETED;
}

static void end_read(pobj_protected *object, void *none) {
    struct door *door = object->data;
    (void)none;
    door->readers--;
}

static void end_write(pobj_protected *object, void *none) {
    struct door *door = object->data;
    (void)none;
    door->is_writing = false;
}

static const pobj_entry entries[ENTRIES] = {
    {"read", is_free, begin_read},
    {"write", is_free, begin_write},
    {"await readers", has_no_reader, readers_have_left},
};

static struct door door;
static pobj_protected object;
static long left, right; /* what is read and written: it is outside the object, which guards it; both are always equal */

static void *read_often(void *differences) {
    for (int i = 0; i < TIMES; i++) {
        if (pobj_entry_call(&object, READ, NULL, NULL) != POBJ_CALL_COMPLETED)
            abort();
        *(long *)differences += left != right;
        if (pobj_procedure(&object, end_read, NULL) != POBJ_CALL_COMPLETED)
            abort();
    }
    return NULL;
}

static void *write_often(void *none) {
    for (int i = 0; i < TIMES; i++) {
        if (pobj_entry_call(&object, WRITE, NULL, NULL) != POBJ_CALL_COMPLETED)
            abort();
        left++;
        right++;
        if (pobj_procedure(&object, end_write, NULL) != POBJ_CALL_COMPLETED)
            abort();
    }
    return none;
}

static void start(pthread_t *thread, void *(*what)(void *), void *argument) {
    if (pthread_create(thread, NULL, what, argument) != 0)
        abort();
}

int main(void) {
    pthread_t threads[READERS + WRITERS];
    long differences[READERS] = {0}, sum = 0;
    if (!pobj_protected_make(&object, &door, entries, ENTRIES))
        return 1;
    for (int i = 0; i < READERS; i++)
        start(&threads[i], read_often, &differences[i]);
    for (int i = 0; i < WRITERS; i++)
        start(&threads[READERS + i], write_often, NULL);
    for (int i = 0; i < READERS + WRITERS; i++)
        pthread_join(threads[i], NULL);
    for (int i = 0; i < READERS; i++)
        sum += differences[i];
    printf("the writers wrote %ld times\n", left);
    printf("the readers saw %ld differences\n", sum);
    if (!pobj_protected_finalize(&object))
        return 1;
    pobj_protected_destroy(&object);
    return 0;
}
