/* Threads that call the C library without a break, for benches/threads.py:
 *
 *   threads_bench WAY CALL THREADS MILLISECONDS
 *   threads_bench alone CALL
 *
 * WAY is `own`: one thread and a host of its own; `mutex`: a host of their own under one pthread_mutex_t, each thread with a
 * context; or `shared`: each thread with an end of a shared host. CALL is `handle_get`, `handle_new` (with handle_free), or `mix`.
 * Printed are the calls of all threads and of the one that made least, each a second, and the busy answers of all a second.
 * `alone` prints what a call takes one thread, in nanoseconds, by its own host, by the mutex and by an end of a shared host: each
 * the least of 4,000 short windows, all three in turn, so that what else a machine does is left out. */
#define _GNU_SOURCE
#include "hdt.h"
#include <pthread.h>
#include <stdatomic.h>
#include <stdio.h>
#include <stdlib.h>
#include <string.h>
#include <time.h>

enum { MOST = 16 };
enum { OBJECT, OTHER, RESULT }; /* locals */

struct worker {
    hdt_host *host;
    hdt_context c;
    hdt_handle kept;
    hdt_status worst;
    uint64_t calls, busy;
    char apart[128]; /* so that no two threads write to one line of the cache */
};

static hdt_host ends[MOST]; /* all bytes 0: closed */
static struct worker workers[MOST];
static pthread_mutex_t mutex = PTHREAD_MUTEX_INITIALIZER;
static bool is_locked;
static atomic_bool is_over;
static pthread_barrier_t all;
static void (*round_of)(struct worker *me);

static void fail(const char *why) {
    fprintf(stderr, "threads_bench: %s\n", why);
    exit(1);
}

static void done(hdt_status status, const char *what) {
    if (status != HDT_OK) fail(what);
}

/* One call by the way that is measured. */
#define MAKE(status, call)                                        \
    do {                                                          \
        if (is_locked) pthread_mutex_lock(&mutex);                \
        while (((status) = (call)) == HDT_BUSY) {                 \
            me->busy++;                                           \
            (void)hdt_retry(HDT_BUSY);                            \
        }                                                         \
        if (is_locked) pthread_mutex_unlock(&mutex);              \
        me->calls++;                                              \
    } while (0)
#define MAKE_WELL(call)                         \
    do {                                        \
        hdt_status came_;                       \
        MAKE(came_, call);                      \
        if (came_ != HDT_OK) me->worst = came_; \
    } while (0)

static void handle_get(struct worker *me) {
    hdt_id id;
    MAKE_WELL(hdt_handle_get(me->host, me->c, me->kept, RESULT, &id));
}

static void handle_new(struct worker *me) {
    hdt_handle made;
    MAKE_WELL(hdt_handle_new(me->host, me->c, HDT_STRONG, OBJECT, 0, &made));
    MAKE_WELL(hdt_handle_free(me->host, made));
}

static void object_new(struct worker *me) {
    hdt_id id;
    hdt_report report;
    hdt_status status;
    MAKE(status, hdt_object_new(me->host, me->c, RESULT, 2, 0, &id));
    if (status == HDT_HEAP_FULL) MAKE_WELL(hdt_collect(me->host, 0, &report));
    else if (status != HDT_OK) me->worst = status;
}

/* Sixteen calls, half of them loads. */
static void mix(struct worker *me) {
    hdt_id id;
    uint64_t value;
    for (int i = 0; i < 6; i++) handle_get(me);
    MAKE_WELL(hdt_field_get(me->host, me->c, RESULT, OBJECT, 0, &id));
    MAKE_WELL(hdt_value_get(me->host, me->c, OBJECT, &value));
    MAKE_WELL(hdt_field_set(me->host, me->c, OBJECT, 1, OTHER));
    MAKE_WELL(hdt_value_set(me->host, me->c, OBJECT, 7));
    MAKE_WELL(hdt_local_copy(me->host, me->c, RESULT, OTHER));
    MAKE_WELL(hdt_local_clear(me->host, me->c, RESULT));
    MAKE_WELL(hdt_static_set(me->host, me->c, 0, OBJECT));
    handle_new(me);
    object_new(me);
}

static void set_scene(struct worker *me) {
    hdt_id id;
    done(hdt_object_new(me->host, me->c, OBJECT, 4, 0, &id), "no object");
    done(hdt_object_new(me->host, me->c, OTHER, 4, 0, &id), "no object");
    done(hdt_handle_new(me->host, me->c, HDT_STRONG, OBJECT, 0, &me->kept), "no handle");
}

static void *call_until_the_end(void *given) {
    struct worker *me = (struct worker *)given;
    pthread_barrier_wait(&all);
    while (!atomic_load_explicit(&is_over, memory_order_relaxed))
        for (int i = 0; i < 16; i++) round_of(me);
    return NULL;
}

static double now(void) {
    struct timespec time;
    clock_gettime(CLOCK_MONOTONIC, &time);
    return (double)time.tv_sec + (double)time.tv_nsec * 1e-9;
}

static double run(unsigned threads, unsigned long milliseconds) {
    pthread_t thread[MOST];
    struct timespec time = { (time_t)(milliseconds / 1000), (long)(milliseconds % 1000) * 1000000 };
    pthread_barrier_init(&all, NULL, threads + 1);
    for (unsigned i = 0; i < threads; i++)
        if (pthread_create(&thread[i], NULL, call_until_the_end, &workers[i]) != 0) fail("no thread");
    pthread_barrier_wait(&all);
    double start = now();
    nanosleep(&time, NULL);
    atomic_store(&is_over, true);
    double seconds = now() - start;
    for (unsigned i = 0; i < threads; i++) pthread_join(thread[i], NULL);
    return seconds;
}

static void open_all(const char *way, unsigned threads) {
    bool is_shared = strcmp(way, "shared") == 0;
    hdt_limits limits = { 1000000, 64, threads };
    is_locked = strcmp(way, "mutex") == 0;
    if (!is_locked && !is_shared && (strcmp(way, "own") != 0 || threads != 1)) fail("no such way");
    done(is_shared ? hdt_open_shared(ends, threads, &limits) : hdt_open(&ends[0], &limits), "not opened");
    for (unsigned i = 0; i < threads; i++) {
        workers[i].host = is_shared ? &ends[i] : &ends[0];
        workers[i].c = is_shared ? 0 : i;
        set_scene(&workers[i]);
    }
}

/* Nanoseconds a call, in one window of some microseconds. */
static double window(struct worker *me, unsigned rounds) {
    uint64_t before = me->calls;
    double start = now();
    for (unsigned i = 0; i < rounds; i++) round_of(me);
    return (now() - start) * 1e9 / (double)(me->calls - before);
}

/* A second thread, without which the C library would leave out the mutex' locks. */
static void *wait_for_the_end(void *none) {
    pthread_barrier_wait(&all);
    return none;
}

static void run_alone(void) {
    enum { OWN, MUTEX, SHARED, WAYS };
    double least[WAYS] = { 1e9, 1e9, 1e9 };
    hdt_limits limits = { 1000000, 64, 1 };
    pthread_t other;
    pthread_barrier_init(&all, NULL, 2);
    if (pthread_create(&other, NULL, wait_for_the_end, NULL) != 0) fail("no thread");
    for (unsigned way = 0; way < WAYS; way++) {
        done(way == SHARED ? hdt_open_shared(&ends[way], 1, &limits) : hdt_open(&ends[way], &limits), "not opened");
        workers[way].host = &ends[way];
        set_scene(&workers[way]);
    }
    for (unsigned n = 0; n < 4000; n++) {
        for (unsigned way = 0; way < WAYS; way++) {
            is_locked = way == MUTEX;
            double time = window(&workers[way], round_of == mix ? 64 : 1000);
            if (time < least[way]) least[way] = time;
        }
    }
    pthread_barrier_wait(&all);
    pthread_join(other, NULL);
    for (unsigned way = 0; way < WAYS; way++) {
        if (workers[way].worst != HDT_OK) fail(hdt_status_name(workers[way].worst));
        hdt_close(&ends[way]);
    }
    printf("%.1f %.1f %.1f\n", least[OWN], least[MUTEX], least[SHARED]);
}

int main(int count, char **words) {
    bool is_alone = count == 3 && strcmp(words[1], "alone") == 0;
    if (count != 5 && !is_alone) fail("usage: threads_bench own|mutex|shared|alone handle_get|handle_new|mix [THREADS MILLISECONDS]");
    round_of = strcmp(words[2], "mix") == 0 ? mix : strcmp(words[2], "handle_new") == 0 ? handle_new : handle_get;
    if (is_alone) {
        run_alone();
        return 0;
    }
    unsigned threads = (unsigned)atoi(words[3]);
    if (threads < 1 || threads > MOST) fail("1 to 16 threads");
    open_all(words[1], threads);
    double seconds = run(threads, strtoul(words[4], NULL, 10));
    uint64_t calls = 0, busy = 0, least = UINT64_MAX;
    for (unsigned i = 0; i < threads; i++) {
        if (workers[i].worst != HDT_OK) fail(hdt_status_name(workers[i].worst));
        calls += workers[i].calls;
        busy += workers[i].busy;
        if (workers[i].calls < least) least = workers[i].calls;
    }
    printf("%.0f %.0f %.0f\n", (double)calls / seconds, (double)least / seconds, (double)busy / seconds);
    for (unsigned i = 0; i < threads; i++) hdt_close(&ends[i]);
    return 0;
}
