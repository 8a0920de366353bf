/* SPDX-License-Identifier: MIT */
/* A bounded buffer (ISO/IEC 8652:2023, 9.11): producers put numbers into it and consumers get them, each number once. An entry
   call waits while the buffer is full or empty; a conditional call doesn't, and a timed call doesn't for long. */
#define _POSIX_C_SOURCE 200809L

#include "pobj_threads.h"

#include <stdio.h>

enum { PUT, GET, ENTRIES };
enum { ROOM = 8, PAIRS = 3, EACH = 1000 };

struct buffer {
    int items[ROOM];
    unsigned first, used;
};

static bool has_room(pobj_protected *object) {
    const struct buffer *buffer = object->data;
    return buffer->used < ROOM;
}

static bool has_item(pobj_protected *object) {
    const struct buffer *buffer = object->data;
    return buffer->used > 0;
}

static int put(pobj_call *call) {
    struct buffer *buffer = pobj_data(call);
    const int *item = call->parameters;
    buffer->items[(buffer->first + buffer->used++) % ROOM] = *item;
    return POBJ_COMPLETED;
}

static int get(pobj_call *call) {
    struct buffer *buffer = pobj_data(call);
    int *item = call->parameters;
    *item = buffer->items[buffer->first];
    buffer->first = (buffer->first + 1) % ROOM;
    buffer->used--;
    return POBJ_COMPLETED;
}

static const pobj_entry entries[ENTRIES] = {{"put", has_room, put}, {"get", has_item, get}};

static struct buffer buffer;
static pobj_protected object;

static void *produce(void *none) {
    for (int item = 1; item <= EACH; item++)
        if (pobj_entry_call(&object, PUT, &item, NULL) != POBJ_CALL_COMPLETED)
            abort();
    return none;
}

static void *consume(void *total) {
    int item;
    for (int i = 0; i < EACH; i++) {
        if (pobj_entry_call(&object, GET, &item, NULL) != POBJ_CALL_COMPLETED)
            abort();
        *(long *)total += item;
    }
    return NULL;
}

static void start(pthread_t *thread, void *(*what)(void *), void *argument) {
    if (pthread_create(thread, NULL, what, argument) != 0)
        abort();
}

/* Runs as many producers as consumers. Returns the sum of what the consumers got. */
static long share_out(void) {
    pthread_t producers[PAIRS], consumers[PAIRS];
    long totals[PAIRS] = {0}, sum = 0;
    for (int i = 0; i < PAIRS; i++) {
        start(&producers[i], produce, NULL);
        start(&consumers[i], consume, &totals[i]);
    }
    for (int i = 0; i < PAIRS; i++) {
        pthread_join(producers[i], NULL);
        pthread_join(consumers[i], NULL);
        sum += totals[i];
    }
    return sum;
}

static const char *said(pobj_outcome outcome) {
    return outcome == POBJ_CALL_COMPLETED ? "an item" : outcome == POBJ_CALL_EXPIRED ? "nothing" : "an error";
}

int main(void) {
    int item = 7;
    if (!pobj_protected_make(&object, &buffer, entries, ENTRIES))
        return 1;
    printf("the consumers got numbers with the sum %ld\n", share_out());
    printf("a conditional get of the empty buffer gets %s\n", said(pobj_conditional_call(&object, GET, &item, NULL)));
    struct timespec soon = pobj_time_from_now(10000000);
    printf("a timed get of the empty buffer gets %s\n", said(pobj_timed_call(&object, GET, &item, &soon, NULL)));
    if (pobj_entry_call(&object, PUT, &item, NULL) != POBJ_CALL_COMPLETED)
        return 1;
    printf("a conditional get after a put gets %s\n", said(pobj_conditional_call(&object, GET, &item, NULL)));
    if (!pobj_protected_finalize(&object))
        return 1;
    printf("a get after the end gets %s\n", said(pobj_entry_call(&object, GET, &item, NULL)));
    pobj_protected_destroy(&object);
    return 0;
}
