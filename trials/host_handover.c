/* A host of the C library that goes from thread to thread: one opens it, others call under a mutex, the last closes it.
 *
 *   host_handover [ROUNDS]     four threads go so many rounds, 20,000 where none is named, of an object, a handle to it, a load
 *                              by it and a free of the one before, on a host that another thread opened and another closes
 *
 * Each call is ordered after the one before by the mutex or by a join. What each must come to is known. */
#define _GNU_SOURCE
#include "hdt.h"
#include <pthread.h>
#include <stdio.h>
#include <stdlib.h>

enum { THREADS = 4, LOCALS = 4 };

static hdt_host host = HDT_CLOSED_HOST;
static pthread_mutex_t mutex = PTHREAD_MUTEX_INITIALIZER;
static unsigned long rounds = 20000;
static hdt_handle kept[THREADS]; /* the last handle of each thread, which the thread that closes frees */

static void must(hdt_status status, hdt_status due, const char *what) {
    if (status == due) return;
    fprintf(stderr, "host_handover: %s: %u\n", what, (unsigned)status);
    exit(1);
}

static void *opens(void *unused) {
    hdt_limits limits = { 1000, 8, THREADS };
    must(hdt_open(&host, &limits), HDT_OK, "open");
    must(hdt_open(&host, &limits), HDT_IS_OPEN, "open again");
    return unused;
}

/* One thread: a new object in a local of its own, a handle to it, and the one before is freed. */
static void *makes(void *own) {
    size_t me = *(size_t *)own;
    hdt_context c = (hdt_context)me;
    for (unsigned long n = 0; n < rounds; n++) {
        hdt_id id, same;
        hdt_report report;
        hdt_local at = HDT_LOCAL((unsigned)(n % LOCALS));
        must(pthread_mutex_lock(&mutex), 0, "lock");
        hdt_status status = hdt_object_new(&host, c, at, (unsigned)(n % 3), 0, &id);
        if (status == HDT_HEAP_FULL) {
            must(hdt_collect(&host, 2, &report), HDT_OK, "collect");
            status = hdt_object_new(&host, c, at, (unsigned)(n % 3), 0, &id);
        }
        must(status, HDT_OK, "object_new");
        if (n) must(hdt_handle_free(&host, kept[me]), HDT_OK, "handle_free");
        hdt_handle before = kept[me];
        must(hdt_handle_new(&host, c, HDT_WEAK_SHORT, at, 0, &kept[me]), HDT_OK, "handle_new");
        if (n) must(hdt_handle_get(&host, c, before, HDT_LOCAL(LOCALS), &same), HDT_STALE, "a handle that was freed");
        must(hdt_handle_get(&host, c, kept[me], HDT_LOCAL(LOCALS), &same), HDT_OK, "handle_get");
        if (same != id) must(1, 0, "another object");
        must(pthread_mutex_unlock(&mutex), 0, "unlock");
    }
    return NULL;
}

static void *closes(void *unused) {
    hdt_stats_out stats;
    hdt_report report;
    must(hdt_stats(&host, &stats), HDT_OK, "stats");
    if (stats.handles != THREADS) must(1, 0, "another number of handles");
    for (size_t t = 0; t < THREADS; t++) must(hdt_handle_free(&host, kept[t]), HDT_OK, "handle_free");
    for (hdt_context c = 0; c < THREADS; c++)
        for (unsigned d = 0; d <= LOCALS; d++) must(hdt_local_clear(&host, c, HDT_LOCAL(d)), HDT_OK, "local_clear");
    must(hdt_collect(&host, 2, &report), HDT_OK, "collect");
    must(hdt_stats(&host, &stats), HDT_OK, "stats");
    if (stats.objects || stats.handles) must(1, 0, "something is left");
    hdt_close(&host);
    must(hdt_stats(&host, &stats), HDT_CLOSED, "stats of a closed host");
    return unused;
}

static void run(void *(*what)(void *)) {
    pthread_t thread;
    must((hdt_status)pthread_create(&thread, NULL, what, NULL), 0, "create");
    must((hdt_status)pthread_join(thread, NULL), 0, "join");
}

int main(int count, char **words) {
    pthread_t threads[THREADS];
    size_t numbers[THREADS];
    if (count > 1) rounds = strtoul(words[1], NULL, 10);
    run(opens);
    for (size_t t = 0; t < THREADS; t++) {
        numbers[t] = t;
        must((hdt_status)pthread_create(&threads[t], NULL, makes, &numbers[t]), 0, "create");
    }
    for (size_t t = 0; t < THREADS; t++) must((hdt_status)pthread_join(threads[t], NULL), 0, "join");
    run(closes);
    printf("%d threads, %lu rounds each\n", THREADS, rounds);
    return 0;
}
