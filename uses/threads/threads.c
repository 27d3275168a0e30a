/* A cache that threads share, without a lock around the host: four look values up by key, one collects, one takes what is to
 * be finalized. The cache has weak handles, so a value that nobody uses goes, and its native buffer with it. What is printed is
 * the same at each run. uses/threads/README.md says what is shown. It is C11, and C++17, with POSIX threads. */
#include "hdt.h"
#include <pthread.h>
#include <sched.h>
#include <stdio.h>
#include <stdlib.h>

enum { USERS = 4, COLLECTOR = USERS, FINALIZER, ENDS, KEYS = 32, LOOKUPS = 10000, IN_USE = 8, TAKEN = 15 };

static void check(hdt_status status, const char *what) {
    if (status == HDT_OK) return;
    fprintf(stderr, "threads: %s: %s\n", what, hdt_status_name(status));
    exit(1);
}

/* A call, made again as long as another end has its turn. */
#define TURN(status, call) do (status) = (call); while (hdt_retry(status))
#define DO(call) do { hdt_status came_; TURN(came_, call); check(came_, #call); } while (0)

static hdt_host ends[ENDS]; /* all bytes 0: closed; each is one thread's */

/* ---- what the program has for itself, under a lock that no call of the host is made under */
static pthread_mutex_t lock = PTHREAD_MUTEX_INITIALIZER;
static hdt_handle entries[KEYS]; /* 0: none yet */
static long made, given_back;
static bool is_over;

static hdt_handle entry_of(unsigned key) {
    pthread_mutex_lock(&lock);
    hdt_handle found = entries[key];
    pthread_mutex_unlock(&lock);
    return found;
}

/* Whether the entry was still the one that was found; it is the other now. Handles have stamps, so no later one is equal. */
static bool replace(unsigned key, hdt_handle found, hdt_handle other) {
    pthread_mutex_lock(&lock);
    bool same = entries[key] == found;
    if (same) entries[key] = other;
    pthread_mutex_unlock(&lock);
    return same;
}

static void count(long *of) {
    pthread_mutex_lock(&lock);
    ++*of;
    pthread_mutex_unlock(&lock);
}

static bool over(void) {
    pthread_mutex_lock(&lock);
    bool is = is_over;
    pthread_mutex_unlock(&lock);
    return is;
}

/* ---- a value: an object whose value is the address of its native buffer */
struct buffer {
    unsigned key;
};

static void make(hdt_host *end, hdt_local dst, unsigned key) {
    hdt_id id;
    hdt_status status;
    struct buffer *buffer = (struct buffer *)malloc(sizeof *buffer);
    if (!buffer) check(HDT_NO_MEMORY, "a buffer");
    buffer->key = key;
    count(&made);
    for (;;) {
        TURN(status, hdt_object_new(end, 0, dst, 0, HDT_FINALIZABLE, &id));
        if (status != HDT_HEAP_FULL) break;
        sched_yield(); /* until the other two have made room */
    }
    check(status, "a value");
    DO(hdt_value_set(end, 0, dst, (uint64_t)(uintptr_t)buffer));
}

/* The local references the value of the key, and keeps it. Whether it was there. */
static bool look(hdt_host *end, hdt_local dst, unsigned key) {
    for (;;) {
        hdt_handle found = entry_of(key), own;
        hdt_status status;
        hdt_id id = 0;
        TURN(status, hdt_handle_get(end, 0, found, dst, &id));
        if (status == HDT_OK && id != 0) return true;
        if (status != HDT_OK && status != HDT_STALE) check(status, "a look");
        make(end, dst, key);
        DO(hdt_handle_new(end, 0, HDT_WEAK_SHORT, dst, 0, &own));
        bool first = replace(key, found, own);
        if (found != 0 && first) DO(hdt_handle_free(end, found));
        if (first) return false;
        DO(hdt_handle_free(end, own)); /* another thread was first; what was made here is finalized like any other value */
    }
}

static unsigned key_of(hdt_host *end, hdt_local value) {
    uint64_t at;
    DO(hdt_value_get(end, 0, value, &at));
    return ((struct buffer *)(uintptr_t)at)->key;
}

/* Gives back the buffer of the first value of the queue, if there is one. A weak short handle is null by then, so nobody gets at
 * the value any more. */
static bool finalize(hdt_host *end) {
    hdt_id id;
    uint64_t at;
    hdt_status status;
    TURN(status, hdt_final_next(end, 0, TAKEN, &id));
    if (status == HDT_NONE) return false;
    check(status, "the queue");
    DO(hdt_value_get(end, 0, TAKEN, &at));
    free((void *)(uintptr_t)at);
    count(&given_back);
    DO(hdt_local_clear(end, 0, TAKEN));
    return true;
}

/* ---- the threads */
static void *uses(void *given) {
    hdt_host *end = (hdt_host *)given;
    unsigned chance = (unsigned)(end - ends) + 1;
    for (int i = 0; i < LOOKUPS; i++) {
        hdt_local value = HDT_LOCAL((unsigned)i % IN_USE); /* the last eight are in use */
        chance = chance * 1103515245u + 12345u;
        unsigned key = (chance >> 16) % KEYS;
        look(end, value, key);
        if (key_of(end, value) != key) check(HDT_ARGUMENT, "the value of another key");
    }
    for (unsigned value = 0; value < IN_USE; value++) DO(hdt_local_clear(end, 0, HDT_LOCAL(value)));
    return NULL;
}

static void *collects(void *given) {
    hdt_host *end = (hdt_host *)given;
    hdt_report report;
    for (unsigned i = 0; !over(); i++) {
        DO(hdt_collect(end, i % 3, &report));
        sched_yield();
    }
    return NULL;
}

static void *finalizes(void *given) {
    hdt_host *end = (hdt_host *)given;
    while (!over()) {
        if (!finalize(end)) sched_yield();
    }
    return NULL;
}

static pthread_t started(void *(*what)(void *), hdt_host *end) {
    pthread_t thread;
    if (pthread_create(&thread, NULL, what, end) != 0) check(HDT_NO_MEMORY, "a thread");
    return thread;
}

static void run_threads(void) {
    pthread_t users[USERS];
    pthread_t collector = started(collects, &ends[COLLECTOR]), finalizer = started(finalizes, &ends[FINALIZER]);
    for (int i = 0; i < USERS; i++) users[i] = started(uses, &ends[i]);
    for (int i = 0; i < USERS; i++) pthread_join(users[i], NULL);
    pthread_mutex_lock(&lock);
    is_over = true;
    pthread_mutex_unlock(&lock);
    pthread_join(collector, NULL);
    pthread_join(finalizer, NULL);
}

/* One thread may call by all ends; it does so before others are started, and once they are joined. */
static void collect_and_finalize(void) {
    hdt_report report;
    DO(hdt_collect(&ends[COLLECTOR], 2, &report));
    while (finalize(&ends[FINALIZER])) {}
}

static void show_one_value(void) {
    hdt_id id;
    puts("-- one value, and two ends");
    printf("end 0 finds it: %d\n", look(&ends[0], HDT_LOCAL(0), 0));
    printf("end 1 finds it: %d\n", look(&ends[1], HDT_LOCAL(0), 0));
    DO(hdt_local_clear(&ends[0], 0, HDT_LOCAL(0)));
    collect_and_finalize();
    printf("end 0 lets go, end 1 has it: buffers given back: %ld\n", given_back);
    printf("end 0 finds it: %d\n", look(&ends[0], HDT_LOCAL(0), 0));
    DO(hdt_local_clear(&ends[0], 0, HDT_LOCAL(0)));
    DO(hdt_local_clear(&ends[1], 0, HDT_LOCAL(0)));
    collect_and_finalize();
    printf("both let go: buffers given back: %ld\n", given_back);
    DO(hdt_handle_get(&ends[0], 0, entries[0], HDT_LOCAL(0), &id));
    printf("its handle is null: %d\n", id == 0);
}

int main(void) {
    hdt_limits limits = { 100000, 64, ENDS }; /* one context for each end */
    hdt_stats_out stats;
    check(hdt_open_shared(ends, ENDS, &limits), "open");
    show_one_value();

    puts("-- four threads look values up, one collects, one finalizes");
    run_threads();
    printf("%d lookups, each came to the value of its key\n", USERS * LOOKUPS);

    puts("-- nobody uses the cache any more");
    for (int key = 0; key < KEYS; key++) {
        if (entries[key] != 0) DO(hdt_handle_free(&ends[0], entries[key]));
    }
    collect_and_finalize();
    collect_and_finalize();
    printf("each buffer is given back: %d\n", made == given_back);
    DO(hdt_stats(&ends[0], &stats));
    printf("%u handles, %u objects left\n", (unsigned)stats.handles, (unsigned)stats.objects);
    for (int i = 0; i < ENDS; i++) hdt_close(&ends[i]);
    return 0;
}
