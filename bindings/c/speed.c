/* SPDX-License-Identifier: MIT */
/* What calls cost by the library, and the same work by a mutex and condition variables alone. A row has the nanoseconds of one
   call, or of one item of a buffer, each way: medians of 41 short rounds, which take turns, so that they hold on a busy machine
   too. */
#define _POSIX_C_SOURCE 200809L

#include "pobj_threads.h"

#include <stdio.h>
#include <unistd.h>

enum { COUNT, CLOSED, PUT, GET, ENTRIES };
enum { ROUNDS = 41, CALLS = 20000, ITEMS = 8000, ROOM = 16, MOST_PAIRS = 2 };

struct data {
    uint64_t counter;
    int items[ROOM];
    unsigned first, used;
    bool is_open;
};

static void add(struct data *data, int item) {
    data->items[(data->first + data->used++) % ROOM] = item;
}

static int take(struct data *data) {
    int item = data->items[data->first];
    data->first = (data->first + 1) % ROOM;
    data->used--;
    return item;
}

/* Here: by the library. */

static struct data here;
static pobj_protected object;

static bool is_countable(pobj_protected *of) {
    const struct data *data = of->data;
    return data->counter < UINT64_MAX;
}

static bool is_open(pobj_protected *of) {
    const struct data *data = of->data;
    return data->is_open;
}

static bool has_room(pobj_protected *of) {
    const struct data *data = of->data;
    return data->used < ROOM;
}

static bool has_item(pobj_protected *of) {
    const struct data *data = of->data;
    return data->used > 0;
}

static int count(pobj_call *call) {
    struct data *data = pobj_data(call);
    data->counter++;
    return POBJ_COMPLETED;
}

static int put(pobj_call *call) {
    add(pobj_data(call), *(int *)call->parameters);
    return POBJ_COMPLETED;
}

static int get(pobj_call *call) {
    *(int *)call->parameters = take(pobj_data(call));
    return POBJ_COMPLETED;
}

static const pobj_entry entries[ENTRIES] = {
    {"count", is_countable, count},
    {"closed", is_open, count},
    {"put", has_room, put},
    {"get", has_item, get},
};

static void count_up(pobj_protected *of, void *none) {
    struct data *data = of->data;
    (void)none;
    data->counter++;
}

static void ends(pobj_outcome outcome, pobj_outcome wanted) {
    if (outcome != wanted)
        abort();
}

static void call_open_entry(void) {
    for (int i = 0; i < CALLS; i++)
        ends(pobj_entry_call(&object, COUNT, NULL, NULL), POBJ_CALL_COMPLETED);
}

static void call_closed_entry(void) {
    for (int i = 0; i < CALLS; i++)
        ends(pobj_conditional_call(&object, CLOSED, NULL, NULL), POBJ_CALL_EXPIRED);
}

static void call_procedure(void) {
    for (int i = 0; i < CALLS; i++)
        ends(pobj_procedure(&object, count_up, NULL), POBJ_CALL_COMPLETED);
}

static void *put_all(void *none) {
    for (int i = 0; i < ITEMS; i++)
        ends(pobj_entry_call(&object, PUT, &i, NULL), POBJ_CALL_COMPLETED);
    return none;
}

static void *get_all(void *none) {
    int item;
    for (int i = 0; i < ITEMS; i++)
        ends(pobj_entry_call(&object, GET, &item, NULL), POBJ_CALL_COMPLETED);
    return none;
}

/* There: by a mutex and condition variables. */

static struct data there;
static pthread_mutex_t mutex = PTHREAD_MUTEX_INITIALIZER;
static pthread_cond_t not_full = PTHREAD_COND_INITIALIZER, not_empty = PTHREAD_COND_INITIALIZER;

static void lock_and_count(void) {
    for (int i = 0; i < CALLS; i++) {
        pthread_mutex_lock(&mutex);
        there.counter++;
        pthread_mutex_unlock(&mutex);
    }
}

static void lock_and_look(void) {
    for (int i = 0; i < CALLS; i++) {
        pthread_mutex_lock(&mutex);
        there.counter += there.is_open;
        pthread_mutex_unlock(&mutex);
    }
}

static void *put_all_by_conditions(void *none) {
    for (int i = 0; i < ITEMS; i++) {
        pthread_mutex_lock(&mutex);
        while (there.used == ROOM)
            pthread_cond_wait(&not_full, &mutex);
        add(&there, i);
        pthread_cond_signal(&not_empty);
        pthread_mutex_unlock(&mutex);
    }
    return none;
}

static void *get_all_by_conditions(void *none) {
    for (int i = 0; i < ITEMS; i++) {
        pthread_mutex_lock(&mutex);
        while (there.used == 0)
            pthread_cond_wait(&not_empty, &mutex);
        take(&there);
        pthread_cond_signal(&not_full);
        pthread_mutex_unlock(&mutex);
    }
    return none;
}

/* What measures both. */

static void start(pthread_t *thread, void *(*what)(void *), void *argument) {
    if (pthread_create(thread, NULL, what, argument) != 0)
        abort();
}

static void pass_through(int pairs, void *(*puts)(void *), void *(*gets)(void *)) {
    pthread_t threads[2 * MOST_PAIRS];
    for (int i = 0; i < pairs; i++) {
        start(&threads[2 * i], puts, NULL);
        start(&threads[2 * i + 1], gets, NULL);
    }
    for (int i = 0; i < 2 * pairs; i++)
        pthread_join(threads[i], NULL);
}

static void buffer_of_2(void) {
    pass_through(1, put_all, get_all);
}

static void buffer_of_2_by_conditions(void) {
    pass_through(1, put_all_by_conditions, get_all_by_conditions);
}

static void buffer_of_4(void) {
    pass_through(2, put_all, get_all);
}

static void buffer_of_4_by_conditions(void) {
    pass_through(2, put_all_by_conditions, get_all_by_conditions);
}

static double time_of(void (*job)(void), int times) {
    struct timespec before = pobj_time_from_now(0);
    job();
    struct timespec after = pobj_time_from_now(0);
    return ((double)(after.tv_sec - before.tv_sec) * 1e9 + (double)(after.tv_nsec - before.tv_nsec)) / times;
}

static int compare(const void *left, const void *right) {
    double l = *(const double *)left, r = *(const double *)right;
    return (l > r) - (l < r);
}

static double median(double rounds[ROUNDS]) {
    qsort(rounds, ROUNDS, sizeof *rounds, compare);
    return rounds[ROUNDS / 2];
}

static void row(const char *name, int times, void (*job_here)(void), void (*job_there)(void)) {
    double times_here[ROUNDS], times_there[ROUNDS];
    for (int i = 0; i < ROUNDS; i++) {
        times_here[i] = time_of(job_here, times);
        times_there[i] = time_of(job_there, times);
    }
    printf("%-40s%10.1f%10.1f\n", name, median(times_here), median(times_there));
}

/* A second thread, which sleeps, makes the locks those of a program with threads. */
static void *sleep_for_good(void *none) {
    for (;;)
        pause();
    return none;
}

int main(void) {
    pthread_t sleeper;
    if (!pobj_protected_make(&object, &here, entries, ENTRIES))
        return 1;
    start(&sleeper, sleep_for_good, NULL);
    printf("%-40s%10s%10s\n", "nanoseconds", "pobj", "pthreads");
    row("open entry call; lock and count", CALLS, call_open_entry, lock_and_count);
    row("conditional call, closed; lock and look", CALLS, call_closed_entry, lock_and_look);
    row("procedure; lock and count", CALLS, call_procedure, lock_and_count);
    row("item of a buffer, 2 threads", ITEMS, buffer_of_2, buffer_of_2_by_conditions);
    row("item of a buffer, 4 threads", 2 * ITEMS, buffer_of_4, buffer_of_4_by_conditions);
    pobj_protected_destroy(&object);
    return 0;
}
