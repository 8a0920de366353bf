/* Many threads at once, which call in all ways and abort each other's calls. */
#define _POSIX_C_SOURCE 200809L

#include "threads.h"

/* Calls in all ways, by many threads. A record is published under its worker's mutex, so that others can abort it. */

struct worker {
    pthread_t thread;
    unsigned number;
    uint64_t random;
    pthread_mutex_t mutex;
    pobj_call *record;
    uint64_t outcomes[POBJ_CALL_MISUSE + 1];
    uint64_t sum;
};

static struct worker workers[THREADS];
static bool stops;

static bool goes_on(void) {
    return !__atomic_load_n(&stops, __ATOMIC_RELAXED);
}

static uint64_t random_of(struct worker *worker) {
    worker->random ^= worker->random << 13;
    worker->random ^= worker->random >> 7;
    worker->random ^= worker->random << 17;
    return worker->random;
}

static void publish(struct worker *worker, pobj_call *record) {
    pthread_mutex_lock(&worker->mutex);
    worker->record = record;
    pthread_mutex_unlock(&worker->mutex);
}

static pobj_outcome call_in_some_way(
    struct worker *worker, pobj_protected *object, uint64_t entry, void *parameters, pobj_call *record) {
    uint64_t way = random_of(worker) % 8;
    struct timespec until = pobj_time_from_now(random_of(worker) % 300000);
    if (way < 2)
        return pobj_conditional_call(object, entry, parameters, record);
    if (way < 4)
        return pobj_timed_call(object, entry, parameters, &until, record);
    return pobj_entry_call(object, entry, parameters, way == 4 ? NULL : record);
}

static bool completes(struct worker *worker, pobj_protected *object, uint64_t entry, void *parameters) {
    pobj_call record = {0};
    publish(worker, &record);
    pobj_outcome outcome = call_in_some_way(worker, object, entry, parameters, &record);
    publish(worker, NULL);
    __atomic_add_fetch(&worker->outcomes[outcome], 1, __ATOMIC_RELAXED);
    return outcome == POBJ_CALL_COMPLETED;
}

/* Runs a procedure or a function, unless the object is finalized. */
static void run(
    pobj_outcome (*operation)(pobj_protected *, void (*)(pobj_protected *, void *), void *), pobj_protected *object,
    void (*what)(pobj_protected *, void *), void *parameters) {
    pobj_outcome outcome = operation(object, what, parameters);
    CHECK(outcome == POBJ_CALL_COMPLETED || outcome == POBJ_CALL_PROGRAM_ERROR);
}

/* A thread that aborts the calls of others. */
static void *abort_others(void *argument) {
    struct worker *worker = argument;
    while (goes_on()) {
        struct worker *other = &workers[random_of(worker) % THREADS];
        pthread_mutex_lock(&other->mutex);
        if (other->record != NULL)
            pobj_abort(other->record);
        pthread_mutex_unlock(&other->mutex);
        pause_for(random_of(worker) % 100000);
    }
    return NULL;
}

static uint64_t total_of(pobj_outcome outcome) {
    uint64_t total = 0;
    for (unsigned i = 0; i < THREADS; i++)
        total += __atomic_load_n(&workers[i].outcomes[outcome], __ATOMIC_RELAXED);
    return total;
}

/* Whether every outcome has come that has to. */
static bool has_seen_all(void) {
    return total_of(POBJ_CALL_COMPLETED) > 0 && total_of(POBJ_CALL_ABORTED) > 0 && total_of(POBJ_CALL_EXPIRED) > 0;
}

enum { KINDS = 8 };

/* Lets 64 threads of eight kinds work for this many seconds, up to ten times if not every outcome has come yet, then stops them
   by finalizing both objects. */
static void work(void *(*const what[KINDS])(void *), double seconds) {
    __atomic_store_n(&stops, false, __ATOMIC_RELAXED);
    for (unsigned i = 0; i < THREADS; i++)
        workers[i] = (struct worker){.number = i, .random = 0x9e3779b97f4a7c15 * (i + 1), .mutex = PTHREAD_MUTEX_INITIALIZER};
    for (unsigned i = 0; i < THREADS; i++)
        start(&workers[i].thread, what[i % KINDS], &workers[i]);
    for (int i = 0; i < 10 && (i == 0 || !has_seen_all()); i++)
        pause_for((uint64_t)(seconds * 1e9));
    __atomic_store_n(&stops, true, __ATOMIC_RELAXED);
    CHECK(pobj_protected_finalize(a) && pobj_protected_finalize(b));
    for (unsigned i = 0; i < THREADS; i++)
        pthread_join(workers[i].thread, NULL);
}

/* Checks that every outcome that has to come has come, and none that mustn't. */
static void check_outcomes(void) {
    CHECK(has_seen_all());
    CHECK(total_of(POBJ_CALL_ERROR) == 0 && total_of(POBJ_CALL_NO_MEMORY) == 0 && total_of(POBJ_CALL_MISUSE) == 0);
}

/* A buffer: the values taken out are those put in, those of each producer in the order in which it put them. */

enum { PUT, GET, BUFFER_ENTRIES, ROOM = 8 };

struct item {
    unsigned producer;
    uint64_t number;
};

static struct buffer {
    struct item items[ROOM];
    uint64_t put, got;
    uint64_t put_by[THREADS], got_by[THREADS];
    bool is_out_of_order;
} buffer;

static bool has_room(pobj_protected *object) {
    const struct buffer *all = object->data;
    return all->put - all->got < ROOM;
}

static bool has_item(pobj_protected *object) {
    const struct buffer *all = object->data;
    return all->put > all->got;
}

static int put(pobj_call *call) {
    struct buffer *all = pobj_data(call);
    struct item *item = call->parameters;
    item->number = all->put_by[item->producer]++;
    all->items[all->put++ % ROOM] = *item;
    return POBJ_COMPLETED;
}

static int get(pobj_call *call) {
    struct buffer *all = pobj_data(call);
    struct item *item = call->parameters;
    *item = all->items[all->got++ % ROOM];
    if (item->number != all->got_by[item->producer]++)
        all->is_out_of_order = true;
    return POBJ_COMPLETED;
}

static const pobj_entry buffer_entries[BUFFER_ENTRIES] = {{"put", has_room, put}, {"get", has_item, get}};

static uint64_t sum_of(struct item item) {
    return (item.number * THREADS + item.producer) * 0x9e3779b97f4a7c15;
}

static void *put_often(void *argument) {
    struct worker *worker = argument;
    while (goes_on()) {
        struct item item = {worker->number, 0};
        if (completes(worker, a, PUT, &item))
            worker->sum += sum_of(item);
    }
    return NULL;
}

static void *get_often(void *argument) {
    struct worker *worker = argument;
    while (goes_on()) {
        struct item item = {0, 0};
        if (completes(worker, a, GET, &item))
            worker->sum -= sum_of(item);
    }
    return NULL;
}

static void look_in(pobj_protected *object, void *none) {
    const struct buffer *all = object->data;
    (void)none;
    CHECK(all->put >= all->got && all->put - all->got <= ROOM && !all->is_out_of_order);
}

static void *look_often(void *none) {
    while (goes_on()) {
        run(pobj_function, a, look_in, NULL);
        run(pobj_procedure, a, look_in, NULL);
        pause_for(pobj_entry_count(a, GET) * 1000);
    }
    return none;
}

static void stress_buffer(double seconds) {
    static void *(*const what[KINDS])(void *) = {
        put_often, get_often, put_often, get_often, put_often, get_often, look_often, abort_others};
    uint64_t sum = 0;
    buffer = (struct buffer){.put = 0};
    CHECK(pobj_protected_make(a, &buffer, buffer_entries, BUFFER_ENTRIES));
    CHECK(pobj_protected_make(b, &buffer, buffer_entries, BUFFER_ENTRIES));
    work(what, seconds);
    check_outcomes();
    for (unsigned i = 0; i < THREADS; i++)
        sum += workers[i].sum;
    CHECK(total_of(POBJ_CALL_COMPLETED) == buffer.put + buffer.got && !buffer.is_out_of_order);
    for (; buffer.got < buffer.put; buffer.got++)
        sum -= sum_of(buffer.items[buffer.got % ROOM]);
    CHECK(sum == 0);
    finish();
}

/* Readers and writers: a writer is requeued to wait for the readers to leave. */

enum { READ, WRITE, AWAIT_READERS, DOOR_ENTRIES };

static struct door {
    int readers;
    bool is_writing;
} door;

static int readers_inside, writers_inside;

static bool is_free(pobj_protected *object) {
    const struct door *this_door = object->data;
    return !this_door->is_writing;
}

static bool has_no_reader(pobj_protected *object) {
    const struct door *this_door = object->data;
    return this_door->readers == 0;
}

static int begin_read(pobj_call *call) {
    struct door *this_door = pobj_data(call);
    this_door->readers++;
    return POBJ_COMPLETED;
}

static int begin_write(pobj_call *call) {
    struct door *this_door = pobj_data(call);
    this_door->is_writing = true;
    return this_door->readers == 0 ? POBJ_COMPLETED : pobj_requeue(call, AWAIT_READERS);
}

static int do_nothing(pobj_call *call) {
    (void)call;
    return POBJ_COMPLETED;
}

static const pobj_entry door_entries[DOOR_ENTRIES] = {
    {"read", is_free, begin_read},
    {"write", is_free, begin_write},
    {"await readers", has_no_reader, do_nothing},
};

static void end_read(pobj_protected *object, void *none) {
    (void)none;
    ((struct door *)object->data)->readers--;
}

static void end_write(pobj_protected *object, void *none) {
    (void)none;
    ((struct door *)object->data)->is_writing = false;
}

static void *read_often(void *argument) {
    while (goes_on())
        if (completes(argument, a, READ, NULL)) {
            __atomic_add_fetch(&readers_inside, 1, __ATOMIC_RELAXED);
            CHECK(__atomic_load_n(&writers_inside, __ATOMIC_RELAXED) == 0);
            __atomic_sub_fetch(&readers_inside, 1, __ATOMIC_RELAXED);
            run(pobj_procedure, a, end_read, NULL);
        }
    return NULL;
}

static void *write_often(void *argument) {
    while (goes_on())
        if (completes(argument, a, WRITE, NULL)) {
            CHECK(__atomic_add_fetch(&writers_inside, 1, __ATOMIC_RELAXED) == 1);
            CHECK(__atomic_load_n(&readers_inside, __ATOMIC_RELAXED) == 0);
            __atomic_sub_fetch(&writers_inside, 1, __ATOMIC_RELAXED);
            run(pobj_procedure, a, end_write, NULL);
        }
    return NULL;
}

static void stress_door(double seconds) {
    static void *(*const what[KINDS])(void *) = {
        read_often, read_often, read_often, write_often, read_often, write_often, read_often, abort_others};
    door = (struct door){0, false};
    CHECK(pobj_protected_make(a, &door, door_entries, DOOR_ENTRIES));
    CHECK(pobj_protected_make(b, &door, door_entries, DOOR_ENTRIES));
    work(what, seconds);
    check_outcomes();
    finish();
}

/* Two objects that hand calls over to each other. In the end each call takes a token in one of them. */

enum { SEND, TAKE, RELAY_ENTRIES };

struct relay {
    uint64_t tokens, taken;
    pobj_protected *other;
};

static struct relay relays[2];

struct journey {
    unsigned hops;
    bool with_abort;
};

static bool has_token(pobj_protected *object) {
    const struct relay *relay = object->data;
    return relay->tokens > 0;
}

static int send(pobj_call *call) {
    const struct relay *relay = pobj_data(call);
    struct journey *journey = call->parameters;
    if (journey->hops == 0)
        return journey->with_abort ? pobj_requeue_with_abort(call, TAKE) : pobj_requeue(call, TAKE);
    journey->hops--;
    if (journey->with_abort)
        return pobj_requeue_elsewhere_with_abort(call, relay->other, SEND);
    return pobj_requeue_elsewhere(call, relay->other, SEND);
}

static int take(pobj_call *call) {
    struct relay *relay = pobj_data(call);
    struct journey *journey = call->parameters;
    if (journey->hops > 0)
        return send(call);
    relay->tokens--;
    relay->taken++;
    return POBJ_COMPLETED;
}

static const pobj_entry relay_entries[RELAY_ENTRIES] = {{"send", NULL, send}, {"take", has_token, take}};

static void *send_often(void *argument) {
    struct worker *worker = argument;
    while (goes_on()) {
        struct journey journey = {(unsigned)(random_of(worker) % 4), random_of(worker) % 2 == 0};
        completes(worker, &both[random_of(worker) % 2], random_of(worker) % 2 == 0 ? SEND : TAKE, &journey);
    }
    return NULL;
}

static void add_token(pobj_protected *object, void *sum) {
    struct relay *relay = object->data;
    relay->tokens++;
    ++*(uint64_t *)sum;
}

static void *feed_often(void *argument) {
    struct worker *worker = argument;
    while (goes_on()) {
        run(pobj_procedure, &both[random_of(worker) % 2], add_token, &worker->sum);
        if (worker->sum % 64 == 0)
            pause_for(50000);
    }
    return NULL;
}

static void stress_relay(double seconds) {
    static void *(*const what[KINDS])(void *) = {
        send_often, send_often, send_often, send_often, send_often, send_often, feed_often, abort_others};
    uint64_t fed = 0;
    relays[0] = (struct relay){0, 0, b};
    relays[1] = (struct relay){0, 0, a};
    CHECK(pobj_protected_make(a, &relays[0], relay_entries, RELAY_ENTRIES));
    CHECK(pobj_protected_make(b, &relays[1], relay_entries, RELAY_ENTRIES));
    work(what, seconds);
    check_outcomes();
    for (unsigned i = 0; i < THREADS; i++)
        fed += workers[i].sum;
    CHECK(total_of(POBJ_CALL_COMPLETED) == relays[0].taken + relays[1].taken);
    CHECK(fed == relays[0].taken + relays[1].taken + relays[0].tokens + relays[1].tokens);
    finish();
}

void test_stress(double seconds) {
    stress_buffer(seconds);
    stress_door(seconds / 2);
    stress_relay(seconds / 2);
}
