/* Objects on two sides, as in COM: native ones that count references, and managed ones that a collector keeps. It prints each
 * step and checks that each native object is released exactly once. uses/interop/README.md says what is shown. It is C11, and
 * C++17. */
#include "hdt.h"
#include <stdio.h>
#include <stdlib.h>

enum { PEERS = 3 };

static hdt_host host = HDT_CLOSED_HOST;

static void check(hdt_status status, const char *what) {
    if (status == HDT_OK) return;
    fprintf(stderr, "interop: %s: %s\n", what, hdt_status_name(status));
    exit(1);
}

/* ---- a native object, which managed ones may wrap */
struct peer {
    const char *name;
    unsigned references, releases;
    hdt_handle wrapper; /* weak long, so it names the wrapper until that is gone for good; 0 while there is none */
    hdt_handle sink;    /* dependent: what is called with the peer's events lives as long as the wrapper */
};

static struct peer peers[PEERS] = { { "file", 1, 0, 0, 0 }, { "window", 1, 0, 0, 0 }, { "timer", 1, 0, 0, 0 } };

static void peer_release(struct peer *peer) {
    if (--peer->references > 0) return;
    peer->releases++;
    printf("%s is released\n", peer->name);
}

/* The local gets the wrapper of the peer: the one that there is, or a new one, which counts as one reference. */
static hdt_id wrap(unsigned number, hdt_local dst) {
    struct peer *peer = &peers[number];
    hdt_id id = 0;
    if (peer->wrapper != 0) check(hdt_handle_get(&host, 0, peer->wrapper, dst, &id), "wrapper");
    if (id != 0) return id;
    check(hdt_object_make(&host, 0, dst, HDT_FINALIZABLE, number, &dst, 0, &id), "a new wrapper");
    check(hdt_handle_new(&host, 0, HDT_WEAK_LONG, dst, 0, &peer->wrapper), "its handle");
    peer->references++;
    printf("%s is wrapped\n", peer->name);
    return id;
}

/* A managed object that gets the peer's events as long as the wrapper is there; it keeps neither of them. */
static void listen(unsigned number, hdt_local wrapper, hdt_local listener) {
    check(hdt_handle_new(&host, 0, HDT_DEPENDENT, wrapper, listener, &peers[number].sink), "a sink");
}

static void fire(unsigned number) {
    hdt_id id = 0;
    uint64_t value;
    if (peers[number].sink != 0) check(hdt_secondary_get(&host, 0, peers[number].sink, HDT_LOCAL(15), &id), "sink");
    if (id == 0) {
        printf("nobody hears %s\n", peers[number].name);
        return;
    }
    check(hdt_value_get(&host, 0, HDT_LOCAL(15), &value), "listener");
    printf("listener %u hears %s\n", (unsigned)value, peers[number].name);
    check(hdt_local_clear(&host, 0, HDT_LOCAL(15)), "clear");
}

/* ---- what native code has of a managed object: a count, and as long as it is above 0 the object is kept */
struct callable {
    hdt_handle handle;
};

static struct callable callable_of(hdt_local object) {
    struct callable made;
    check(hdt_handle_new(&host, 0, HDT_COUNTED, object, 0, &made.handle), "a counted handle");
    return made;
}

static void callable_add(struct callable of) {
    uint64_t count;
    check(hdt_count_up(&host, of.handle, &count), "one more");
    printf("native code has it %u times\n", (unsigned)count);
}

static void callable_release(struct callable of) {
    uint64_t count;
    check(hdt_count_down(&host, of.handle, &count), "one less");
    printf("native code has it %u times\n", (unsigned)count);
}

/* Whether native code can still call it. It may be called, too, while nobody counts it but managed code has it. */
static void callable_call(struct callable of) {
    hdt_id id;
    uint64_t value;
    check(hdt_handle_load(&host, 0, of.handle, HDT_LOCAL(15), &id, &value), "target");
    if (id == 0) {
        printf("it is gone\n");
        return;
    }
    printf("object %u is called\n", (unsigned)value);
    check(hdt_local_clear(&host, 0, HDT_LOCAL(15)), "clear");
}

/* ---- a collection: finalizers first; a peer is released when its wrapper is gone for good, since until then another finalizer,
 * or a static, may bring the wrapper back */
static bool keeps_windows;

static void finalize(hdt_local object) {
    uint64_t number;
    check(hdt_value_get(&host, 0, object, &number), "whose wrapper");
    printf("the wrapper of %s is finalized\n", peers[number].name);
    if (keeps_windows && number == 1) {
        printf("and kept after all\n");
        check(hdt_static_set(&host, 0, 0, object), "static");
        check(hdt_reregister(&host, 0, object), "to be finalized again");
    }
}

static void collect(uint32_t generation) {
    hdt_report report;
    hdt_id id;
    check(hdt_collect(&host, generation, &report), "collection");
    while (hdt_final_next(&host, 0, HDT_LOCAL(15), &id) == HDT_OK) finalize(HDT_LOCAL(15));
    for (unsigned number = 0; number < PEERS; number++) {
        struct peer *peer = &peers[number];
        if (peer->wrapper == 0) continue;
        check(hdt_handle_id(&host, peer->wrapper, &id), "wrapper");
        if (id != 0) continue;
        check(hdt_handle_free(&host, peer->wrapper), "free");
        if (peer->sink != 0) check(hdt_handle_free(&host, peer->sink), "free");
        peer->wrapper = peer->sink = 0;
        peer_release(peer);
    }
}

static hdt_id make(hdt_local dst, uint64_t value) {
    hdt_id id;
    check(hdt_local_clear(&host, 0, dst), "clear");
    check(hdt_object_make(&host, 0, dst, 0, value, &dst, 1, &id), "an object"); /* its field is null, as the local was */
    return id;
}

int main(void) {
    const hdt_local wrapper = HDT_LOCAL(0), object = HDT_LOCAL(1);
    hdt_limits limits = { 10000, 32, 1 };
    check(hdt_open(&host, &limits), "open");

    puts("-- one wrapper for one native object");
    hdt_id first = wrap(0, wrapper);
    printf("the same again: %d\n", wrap(0, HDT_LOCAL(2)) == first);
    make(object, 7);
    listen(0, wrapper, object);
    hdt_local_clear(&host, 0, object);
    hdt_local_clear(&host, 0, HDT_LOCAL(2));
    collect(0);
    fire(0);
    peer_release(&peers[0]); /* native code lets go of it: the wrapper still has it */

    puts("-- managed code lets go of the wrapper");
    hdt_local_clear(&host, 0, wrapper);
    collect(2);
    collect(2);
    fire(0);

    puts("-- a wrapper that its finalizer keeps");
    wrap(1, wrapper);
    peer_release(&peers[1]);
    hdt_local_clear(&host, 0, wrapper);
    keeps_windows = true;
    collect(2);
    collect(2);
    keeps_windows = false;
    hdt_static_set(&host, 0, 0, wrapper);
    collect(2);
    collect(2);

    puts("-- a managed object that native code has");
    make(object, 8);
    struct callable callable = callable_of(object);
    callable_add(callable);
    hdt_local_clear(&host, 0, object);
    collect(2);
    callable_call(callable);
    callable_release(callable);
    callable_release(callable);
    collect(2);
    callable_call(callable);
    check(hdt_handle_free(&host, callable.handle), "free");

    puts("-- a ring over both sides: the native timer has the object, which has the timer's wrapper");
    wrap(2, wrapper);
    make(object, 9);
    check(hdt_field_set(&host, 0, object, 0, wrapper), "field");
    callable = callable_of(object);
    peer_release(&peers[2]);
    hdt_local_clear(&host, 0, wrapper);
    hdt_local_clear(&host, 0, object);
    collect(2);
    callable_call(callable);
    callable_release(callable); /* the timer stops: it lets go of the object */
    collect(2);
    collect(2);
    callable_call(callable);
    check(hdt_handle_free(&host, callable.handle), "free");

    for (unsigned number = 0; number < PEERS; number++) {
        if (peers[number].releases != 1) check(HDT_ARGUMENT, "a peer is not released exactly once");
    }
    hdt_stats_out stats;
    check(hdt_stats(&host, &stats), "stats");
    printf("each released once; %u handles, %u objects left\n", stats.handles, stats.objects);
    uint32_t given;
    check(hdt_trim_all(&host, &given), "trim");
    printf("of %u blocks %u are given back\n", stats.blocks, given);
    hdt_close(&host);
    return 0;
}
