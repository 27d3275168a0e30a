/* What a host of the C library takes and how its calls take time, by its size, for benches/size.py. It is linked with
 * -Wl,--wrap=malloc,--wrap=realloc,--wrap=free, and each prints what it measured:
 *
 *   size open CELLS BLOCKS CONTEXTS     bytes that hdt_open takes, and nanoseconds
 *   size table HANDLES                  bytes a handle that are held, and the most while one was made; the longest call of those
 *                                       that asked for no memory, in nanoseconds
 *   size objects OBJECTS                bytes an object of two fields; nanoseconds an object of a full collection; the most that
 *                                       is held, as a multiple of the cells of all
 *   size young OBJECTS KEYS             nanoseconds of `collect 0` of one young object that a young handle and an entry
 *                                       reference, beside so many old ones of eight cells and so many keys with full tables
 *   size calls BLOCKS CONTEXTS CALL N   a call N times, where blocks of all kinds and of the weak table are full
 */
#define _GNU_SOURCE
#include "hdt.h"
#include <malloc.h>
#include <stdio.h>
#include <stdlib.h>
#include <string.h>
#include <time.h>

void *__real_malloc(size_t size);
void *__real_realloc(void *at, size_t size);
void __real_free(void *at);

static bool is_host;
static size_t held, most;
static unsigned long requests;

static void *taken(void *at) {
    if (!is_host) return at;
    requests++;
    if (at) held += malloc_usable_size(at);
    if (held > most) most = held;
    return at;
}

void *__wrap_malloc(size_t size) { return taken(__real_malloc(size)); }

void *__wrap_realloc(void *at, size_t size) {
    if (is_host && at) held -= malloc_usable_size(at);
    return taken(__real_realloc(at, size));
}

void __wrap_free(void *at) {
    if (is_host && at) held -= malloc_usable_size(at);
    __real_free(at);
}

static hdt_host host = HDT_CLOSED_HOST;

static void must(hdt_status status, const char *what) {
    if (status == HDT_OK) return;
    fprintf(stderr, "size: %s: %s\n", what, hdt_status_name(status));
    exit(1);
}

static double nanoseconds(void) {
    struct timespec now;
    clock_gettime(CLOCK_THREAD_CPUTIME_ID, &now);
    return 1e9 * (double)now.tv_sec + (double)now.tv_nsec;
}

static uint32_t number_of(const char *word) { return (uint32_t)strtoul(word, NULL, 10); }

static double opened(uint32_t cells, uint32_t blocks, uint32_t contexts) {
    const hdt_limits limits = { cells, blocks, contexts };
    is_host = true;
    double before = nanoseconds();
    must(hdt_open(&host, &limits), "hdt_open");
    return nanoseconds() - before;
}

static void made(hdt_context context, hdt_local dst, uint32_t fields) {
    hdt_id id;
    must(hdt_object_new(&host, context, dst, fields, 0, &id), "hdt_object_new");
}

static hdt_handle handle_of(hdt_kind kind, hdt_local target) {
    hdt_handle handle;
    uint32_t extra = kind == HDT_VARIABLE ? (uint32_t)HDT_STRONG : kind == HDT_DEPENDENT ? target : 0;
    must(hdt_handle_new(&host, 0, kind, target, extra, &handle), "hdt_handle_new");
    return handle;
}

static double collected(uint32_t generation) {
    hdt_report report;
    double before = nanoseconds();
    must(hdt_collect(&host, generation, &report), "hdt_collect");
    return nanoseconds() - before;
}

/* ---- memory */

static void print_open(char **words) {
    double time = opened(number_of(words[0]), number_of(words[1]), number_of(words[2]));
    printf("%zu %.0f\n", held, time);
}

static void print_table(char **words) {
    uint32_t count = number_of(words[0]);
    double longest = 0;
    opened(1000000, HDT_MOST_BLOCKS, 1);
    made(0, 0, 2);
    for (uint32_t i = 0; i < count; i++) {
        unsigned long before = requests;
        double began = nanoseconds();
        (void)handle_of(HDT_STRONG, 0);
        double time = nanoseconds() - began;
        if (requests == before && time > longest) longest = time;
    }
    printf("%.1f %.1f %.0f\n", (double)held / count, (double)most / count, longest);
}

/* A list of objects that static 0 keeps. */
static void make_list(uint32_t count, uint32_t fields) {
    made(0, 0, fields);
    must(hdt_static_set(&host, 0, 0, 0), "hdt_static_set");
    for (uint32_t i = 1; i < count; i++) {
        made(0, 1, fields);
        must(hdt_field_set(&host, 0, 0, 0, 1), "hdt_field_set");
        must(hdt_local_copy(&host, 0, 0, 1), "hdt_local_copy");
    }
}

static void print_objects(char **words) {
    uint32_t count = number_of(words[0]);
    opened(HDT_MOST_CELLS, 64, 1);
    size_t before = held;
    make_list(count, 2);
    double bytes = (double)(held - before) / count;
    double time = collected(2);
    printf("%.1f %.1f %.2f\n", bytes, time / count, (double)(most - before) / (40.0 * count));
}

/* ---- collections of generation 0 */

static void print_young(char **words) {
    uint32_t objects = number_of(words[0]), keys = number_of(words[1]);
    opened(HDT_MOST_CELLS, HDT_MOST_BLOCKS, 1);
    if (objects) make_list(objects, 5);
    made(0, 2, 2);
    for (uint32_t i = 0; i < keys; i++) {
        made(0, 3, 2);
        must(hdt_table_add(&host, 0, 3, 2), "hdt_table_add");
        (void)handle_of(HDT_STRONG, 3);
    }
    /* the rest of the table, kind by kind: three of them take two blocks */
    for (hdt_kind kind = 0; keys && kind <= HDT_DEPENDENT; kind++)
        for (uint32_t i = 0; i < keys / 9; i++) (void)handle_of(kind, 2);
    collected(2);
    collected(2);
    double least = 0;
    for (int run = 0; run < 21; run++) {
        made(0, 4, 2);
        hdt_handle young[HDT_DEPENDENT + 1];
        for (hdt_kind kind = 0; kind <= HDT_DEPENDENT; kind++) young[kind] = handle_of(kind, 4);
        must(hdt_table_add(&host, 0, 4, 2), "hdt_table_add");
        must(hdt_local_clear(&host, 0, 4), "hdt_local_clear");
        for (hdt_kind kind = 0; kind <= HDT_DEPENDENT; kind++)
            if (kind != HDT_WEAK_SHORT) must(hdt_handle_free(&host, young[kind]), "hdt_handle_free");
        double time = collected(0);
        if (run == 0 || time < least) least = time;
        must(hdt_handle_free(&host, young[HDT_WEAK_SHORT]), "hdt_handle_free");
    }
    printf("%.0f\n", least);
}

/* ---- calls */

static hdt_handle *handles;
static uint32_t handle_count, next = 1;

static uint32_t any(uint32_t bound) {
    next = next * 1664525u + 1013904223u;
    return (uint32_t)(((uint64_t)next * bound) >> 32);
}

/* Handles of each kind in an eighth of the blocks, and as many entries, whose keys are made by all contexts in turn. */
static void fill(uint32_t blocks, uint32_t contexts) {
    uint32_t share = (blocks - 16) / 12; /* four kinds take one of these, and three and the weak table two */
    handles = __real_malloc(sizeof *handles * 64 * 7 * (size_t)share);
    made(0, 0, 2);
    for (hdt_kind kind = 0; kind <= HDT_DEPENDENT; kind++)
        for (uint32_t i = 0; i < 64 * share; i++) handles[handle_count++] = handle_of(kind, 0);
    for (uint32_t i = 0; i < 64 * share; i++) {
        hdt_id id;
        hdt_context context = i % contexts;
        must(hdt_object_new(&host, context, 2, 2, 0, &id), "hdt_object_new");
        must(hdt_table_add(&host, context, 2, 2), "hdt_table_add");
    }
    made(0, 1, 2);
}

static void call_once(const char *call) {
    hdt_id id;
    uint32_t given, at = any(handle_count);
    if (strcmp(call, "none") == 0) return;
    if (strcmp(call, "handle_get") == 0) {
        must(hdt_handle_get(&host, 0, handles[at], 3, &id), call);
    } else if (strcmp(call, "handle_set") == 0) {
        must(hdt_handle_set(&host, 0, handles[at / 7], 0), call);
    } else if (strcmp(call, "handle_free, _new") == 0) {
        must(hdt_handle_free(&host, handles[at]), call);
        handles[at] = handle_of((hdt_kind)(at / (handle_count / 7)), 0);
    } else if (strcmp(call, "table_add, _remove") == 0) {
        must(hdt_table_add(&host, 0, 1, 0), call);
        must(hdt_table_remove(&host, 0, 1), call);
    } else if (strcmp(call, "table_find") == 0) {
        (void)hdt_table_find(&host, 0, 3, 2, &id);
    } else if (strcmp(call, "block") == 0 || strcmp(call, "block, trim") == 0) {
        uint32_t first = at / 7 / 64 * 64; /* of a block of the first kind */
        for (uint32_t i = first; i < first + 64; i++) must(hdt_handle_free(&host, handles[i]), call);
        if (strcmp(call, "block, trim") == 0) must(hdt_trim(&host, HDT_WEAK_SHORT, &given), call);
        for (uint32_t i = first; i < first + 64; i++) handles[i] = handle_of(HDT_WEAK_SHORT, 0);
    } else {
        must(HDT_ARGUMENT, call);
    }
}

static void make_calls(char **words) {
    uint32_t blocks = number_of(words[0]), contexts = number_of(words[1]);
    opened(HDT_MOST_CELLS, blocks, contexts);
    fill(blocks, contexts);
    for (uint32_t i = 0; i < number_of(words[3]); i++) call_once(words[2]);
}

int main(int count, char **words) {
    static const struct { const char *name; int words; void (*does)(char **); } modes[] = {
        { "open", 3, print_open }, { "table", 1, print_table }, { "objects", 1, print_objects }, { "young", 2, print_young },
        { "calls", 4, make_calls } };
    for (size_t i = 0; i < sizeof modes / sizeof *modes; i++)
        if (count == modes[i].words + 2 && strcmp(words[1], modes[i].name) == 0) {
            modes[i].does(words + 2);
            return 0;
        }
    fprintf(stderr, "size: what is measured is said at the head of size.c\n");
    return 2;
}
