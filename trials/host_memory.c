/* The C library where memory is refused, and over many calls. It is linked with -Wl,--wrap=malloc,--wrap=realloc,--wrap=free.
 *
 *   host_memory refuse      each request for memory refused in turn: the call says HDT_NO_MEMORY and changes nothing, and done
 *                           again, the program goes on to its end and comes to the same; or the call does without. So too
 *                           where the ends of a shared host are opened
 *   host_memory long N      N calls, which begin by filling heap and table; the most memory that is held is that of the first
 *                           10,000, and none is held after the close
 */
#define _GNU_SOURCE
#include "hdt.h"
#include <malloc.h>
#include <stdio.h>
#include <stdlib.h>
#include <string.h>

void *__real_malloc(size_t size);
void *__real_realloc(void *at, size_t size);
void __real_free(void *at);

static unsigned long requests, refused; /* `refused` is the number of the request that is refused, 0 for none */
static size_t held, most;

static void *taken(void *at) {
    if (at) held += malloc_usable_size(at);
    if (held > most) most = held;
    return at;
}

void *__wrap_malloc(size_t size) { return ++requests == refused ? NULL : taken(__real_malloc(size)); }

void *__wrap_realloc(void *at, size_t size) {
    if (++requests == refused) return NULL;
    if (at) held -= malloc_usable_size(at);
    void *to = __real_realloc(at, size);
    return to ? taken(to) : (taken(at), NULL);
}

void __wrap_free(void *at) {
    if (at) held -= malloc_usable_size(at);
    __real_free(at);
}

static hdt_host host = HDT_CLOSED_HOST;
static unsigned long number; /* of the call */
static unsigned long without; /* calls that did without memory that was refused */

static void fail(const char *why, hdt_status status) {
    fprintf(stderr, "host_memory: call %lu, request %lu refused: %s (%u)\n", number, refused, why, (unsigned)status);
    exit(1);
}

/* ---- what a host shows */

struct shown {
    hdt_stats_out stats;
    hdt_change last;
    hdt_id locals[2][16];
    hdt_handle_info handles[512];
    size_t count;
};

static void show(struct shown *all) {
    memset(all, 0, sizeof *all);
    uint32_t next;
    if (hdt_stats(&host, &all->stats) != HDT_OK) return;
    hdt_last(&host, &all->last);
    for (hdt_context c = 0; c < 2; c++)
        for (hdt_local i = 0; i < 16; i++) hdt_local_id(&host, c, i, &all->locals[c][i]);
    hdt_handles(&host, 0, all->handles, 512, &all->count, &next);
}

/* ---- the calls */

static uint64_t digest;
static void note(uint64_t value) { digest = (digest ^ value) * 1099511628211u; }

static hdt_handle kept[64];
static size_t kept_count;
static uint64_t seed = 1;
static uint32_t any(uint32_t below) {
    seed = seed * 6364136223846793005u + 1442695040888963407u;
    return (uint32_t)(seed >> 33) % below;
}

/* What call i is, so that it can be made again. */
struct call {
    unsigned what;
    uint32_t a, b, c, d;
};

static struct call next_call(void) {
    struct call call = { any(20), any(2), any(16), any(16), any(64) };
    return call;
}

/* Calls that do several commands in a row, or one of a host alone. */
static hdt_status make_wider_call(const struct call *call, hdt_handle handle) {
    const hdt_local src[4] = { call->b, call->c, call->d % 16, call->b };
    hdt_id id = 0;
    uint64_t value = 0;
    uint32_t given = 0;
    hdt_status status;
    switch (call->what) {
    case 13:
    case 14: status = hdt_object_make(&host, call->a, call->c, call->d & 1, call->d, src, call->d % 5, &id); break;
    case 15: status = hdt_field_load(&host, call->a, call->b, call->c, call->d % 4, &id, &value); break;
    case 16: status = hdt_handle_load(&host, call->a, handle, call->b, &id, &value); break;
    case 17: status = hdt_table_set(&host, call->a, call->b, call->c); break;
    case 18:
        if (call->d % 4 == 0) return hdt_locals_clear(&host, call->a, call->b, call->d % (17 - call->b));
        status = hdt_local_pass(&host, 1 - call->a, call->b, call->a, call->c, &id);
        break;
    default: status = hdt_trim_all(&host, &given);
    }
    if (status == HDT_OK) note(id + value + given);
    return status;
}

static hdt_status make_call(const struct call *call) {
    hdt_id id = 0;
    hdt_report report;
    hdt_handle handle = kept_count ? kept[call->d % kept_count] : 0;
    hdt_status status;
    uint32_t given = 0;
    hdt_root root;
    switch (call->what) {
    case 0:
    case 1:
        status = hdt_object_new(&host, call->a, call->b, call->c, call->d & 1, &id);
        if (status == HDT_OK) note(id);
        return status;
    case 2:
        if (kept_count == 64) return HDT_OK;
        status = hdt_handle_new(&host, call->a, call->d % 4, call->b, 0, &handle);
        if (status == HDT_OK) note(kept[kept_count++] = handle);
        return status;
    case 3:
        status = hdt_handle_free(&host, handle);
        if (status == HDT_OK) {
            size_t at = call->d % kept_count;
            kept[at] = kept[--kept_count];
        }
        return status;
    case 4:
        status = hdt_handle_get(&host, call->a, handle, call->b, &id);
        note(id);
        return status;
    case 5: return hdt_handle_set(&host, call->a, handle, call->b);
    case 6: return hdt_field_set(&host, call->a, call->b, call->d % 4, call->c);
    case 7: return hdt_table_add(&host, call->a, call->b, call->c);
    case 8:
        status = hdt_table_find(&host, call->a, call->c, call->b, &id);
        note(id);
        return status;
    case 9:
        if (call->d % 8 != 0) return hdt_local_clear(&host, call->a, call->b);
        status = hdt_collect(&host, call->c % 3, &report);
        if (status == HDT_OK) note(report.kept * 65536u + report.removed);
        return status;
    case 10:
        status = hdt_root_of(&host, call->a, call->b, &root);
        if (status == HDT_OK) note(root.from + root.arrows);
        return status;
    case 11:
        status = hdt_final_next(&host, call->a, call->b, &id);
        note(id);
        return status;
    case 12:
        status = hdt_trim(&host, call->d % 7, &given);
        note(given);
        return status;
    default: return make_wider_call(call, handle);
    }
}

static const hdt_limits limits = { 3000, 8, 2 };

/* Whether a call of this kind may take memory: those that make an object, collect, or look for what keeps one. */
static bool takes_memory(const struct call *call) {
    return call->what <= 1 || call->what == 9 || call->what == 10 || call->what == 13 || call->what == 14;
}

/* The calls of a run, and how many requests there had been before each, where none is refused. */
enum { CALLS = 3000 };
static unsigned long before_call[CALLS + 2];

static void begin(void) {
    digest = 14695981039346656037u;
    seed = 1;
    kept_count = 0;
    requests = 0;
    number = 0;
}

/* The same program; a call that finds no memory is made again. */
static void run(void) {
    static struct shown before, after;
    begin();
    hdt_status status = hdt_open(&host, &limits);
    if (status == HDT_NO_MEMORY && refused) {
        if (hdt_local_clear(&host, 0, 0) != HDT_CLOSED || held != 0) fail("the host is not closed", status);
        status = hdt_open(&host, &limits);
    }
    if (status != HDT_OK) fail("not opened", status);
    for (number = 1; number <= CALLS; number++) {
        struct call call = next_call();
        bool is_refused = refused > before_call[number] && refused <= before_call[number + 1];
        if (is_refused) show(&before);
        if (!refused) before_call[number] = requests;
        status = make_call(&call);
        if (!is_refused && status == HDT_NO_MEMORY) fail("another call was refused memory", status);
        if (is_refused && !takes_memory(&call)) fail("a call takes memory that is to take none", status);
        if (is_refused && status != HDT_NO_MEMORY) without++;
        if (is_refused && status == HDT_NO_MEMORY) {
            show(&after);
            if (memcmp(&before, &after, sizeof before) != 0) fail("the host is not as it was", status);
            status = make_call(&call);
            if (status == HDT_NO_MEMORY) fail("again no memory", status);
        }
        if (status == HDT_CLOSED || status == HDT_ARGUMENT) fail("a call that is not one", status);
        note(status);
    }
    if (!refused) before_call[CALLS + 1] = requests;
    hdt_close(&host);
    if (held != 0) fail("memory is held after the close", 0);
}

/* ---- a host that ends share */

enum { ENDS = 5 };

/* Opens one with a request refused: no end is open, no memory is held, and again it opens; each end collects, and is closed. How
 * many requests there were. */
static unsigned long run_shared(void) {
    hdt_host ends[ENDS] = { HDT_CLOSED_HOST };
    hdt_limits of_all = { 3000, 8, 2 * ENDS };
    hdt_report report;
    hdt_id id;
    begin();
    hdt_status status = hdt_open_shared(ends, ENDS, &of_all);
    if (status != (refused ? HDT_NO_MEMORY : HDT_OK)) fail("ends are opened", status);
    unsigned long all = requests;
    if (refused) {
        for (int i = 0; i < ENDS; i++)
            if (hdt_local_clear(&ends[i], 0, 0) != HDT_CLOSED || held != 0) fail("an end is not closed", status);
        if (hdt_open_shared(ends, ENDS, &of_all) != HDT_OK) fail("ends are not opened", status);
    }
    for (int i = 0; i < ENDS; i++) {
        if (hdt_object_new(&ends[i], 1, 0, 2, 0, &id) != HDT_OK) fail("no object", 0);
        if (hdt_collect(&ends[i], 2, &report) != HDT_OK) fail("not collected", 0);
        hdt_close(&ends[i]);
    }
    if (held != 0) fail("memory is held after the last close", 0);
    return all;
}

/* ---- a long run */

/* A list in local 0, until the heap is full; local 2 has its last object. Each object gets a handle that pins it, or an entry of
 * the table, or a handle with a second object, as long as there is room, where `handles` has room for them. */
static size_t fill(hdt_handle *handles, uint32_t flags) {
    size_t count = 0;
    hdt_id id;
    hdt_local_clear(&host, 0, 0);
    while (hdt_object_new(&host, 0, 1, 1, flags, &id) == HDT_OK) {
        if (hdt_field_set(&host, 0, 1, 0, 0) != HDT_OK || hdt_local_copy(&host, 0, 0, 1) != HDT_OK) fail("no list", 0);
        if (!handles) continue;
        if (count == 0) hdt_local_copy(&host, 0, 2, 1);
        if (id % 16 == 0) count += hdt_handle_new(&host, 0, HDT_PINNED, 1, 0, &handles[count]) == HDT_OK;
        else if (id % 4 == 1) hdt_table_add(&host, 0, 1, 0);
        else count += hdt_handle_new(&host, 0, HDT_DEPENDENT, 1, 0, &handles[count]) == HDT_OK;
    }
    return count;
}

/* Takes all objects from the queue, and releases what the locals lead to. */
static void let_go(void) {
    hdt_id id;
    while (hdt_final_next(&host, 0, 0, &id) == HDT_OK) {}
    for (hdt_local i = 0; i < 32; i++) hdt_local_clear(&host, i & 1, i / 2);
}

static void collect(uint32_t generation) {
    hdt_report report;
    if (hdt_collect(&host, generation, &report) != HDT_OK) fail("not collected", 0);
}

/* All objects are queued but one, which is looked for among them. */
static void search_queue(void) {
    hdt_root root;
    hdt_id id;
    fill(NULL, HDT_FINALIZABLE);
    hdt_static_set(&host, 0, 1, 0);
    hdt_field_set(&host, 0, 0, 0, 3);
    let_go();
    collect(2);
    hdt_static_get(&host, 0, 0, 1, &id);
    hdt_static_set(&host, 0, 1, 3);
    if (hdt_root_of(&host, 0, 0, &root) != HDT_NONE) fail("a root", 0);
    let_go();
}

/* The most that a host can take: collections and a search where all is alive, then all of it queued, and then a full heap between
 * objects that do not move. */
enum { FILLING = 8000 }; /* calls at most */

static void fill_all(void) {
    static hdt_handle handles[8 * 64];
    hdt_root root;
    size_t count = fill(handles, HDT_FINALIZABLE);
    for (uint32_t generation = 0; generation < 3; generation++) collect(generation);
    if (hdt_static_set(&host, 0, 0, 0) != HDT_OK || hdt_root_of(&host, 0, 2, &root) != HDT_OK) fail("no root", 0);
    hdt_static_set(&host, 0, 0, 3);
    let_go();
    collect(2);
    let_go();
    collect(2);
    fill(NULL, 0);
    collect(2);
    while (count) hdt_handle_free(&host, handles[--count]);
    for (int i = 0; i < 2; i++) {
        let_go();
        collect(2);
    }
    let_go();
    search_queue();
}

static int run_long(unsigned long calls) {
    size_t early = 0;
    begin();
    if (hdt_open(&host, &limits) != HDT_OK) fail("not opened", 0);
    fill_all();
    for (number = 1; number <= calls; number++) {
        struct call call = next_call();
        if (number == 10000 - FILLING) early = most;
        if (make_call(&call) != HDT_HEAP_FULL) continue;
        let_go();
        collect(2);
    }
    hdt_close(&host);
    printf("%lu calls: %zu bytes at most in the first 10,000, %zu in all, %zu after the close\n", calls, early, most, held);
    return early == most && held == 0 ? 0 : 1;
}

int main(int count, char **words) {
    if (count == 2 && strcmp(words[1], "refuse") == 0) {
        run();
        unsigned long all = requests;
        uint64_t wanted = digest;
        for (refused = 1; refused <= all; refused++) {
            run();
            if (digest != wanted) fail("it came to something else", 0);
        }
        refused = 0;
        unsigned long of_ends = run_shared();
        for (refused = 1; refused <= of_ends; refused++) run_shared();
        printf("%lu requests, each refused in turn; %lu times the call did without\n", all, without);
        printf("%lu requests of %d ends that are opened, each refused in turn\n", of_ends, ENDS);
        return 0;
    }
    if (count == 3 && strcmp(words[1], "long") == 0) return run_long(strtoul(words[2], NULL, 10));
    fprintf(stderr, "usage: host_memory refuse | host_memory long N\n");
    return 2;
}
