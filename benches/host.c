/* One call of the C library, many times, for benches/host.py:
 *
 *   host_bench SCENE CALL N       prints the nanoseconds of each, of the time that the processor gave the thread
 *   host_bench calls              prints the names of the calls
 *
 * SCENE is `near`: each call is of one object, one handle or one static, always the same; or `scattered`: of objects of 1 to 61
 * fields in the locals of 16 contexts, and of 1,000 live handles of all kinds, taken at random. No object is null. A call that
 * has a counterpart (handle_new, table_add, ..) is made with it, so that the host is as before. Where the heap is full,
 * object_new collects. */
#define _GNU_SOURCE
#include "hdt.h"
#include <stdio.h>
#include <stdlib.h>
#include <string.h>
#include <time.h>

enum { CONTEXTS = 16, KEYS = 7, OBJECTS = 14, RESULT = 14, SPARE = 15, KINDS = 7, HANDLES = 1000, PICKS = 1024 };

/* The operands of one call. */
struct pick {
    hdt_context context;
    hdt_local object, other; /* `object` is a key of the weak table, `other` is none */
    hdt_local both[10];      /* these in turn */
    uint32_t fields, field, number;
    hdt_kind kind;
    hdt_handle any, settable, of_kind[KINDS]; /* `settable` is not dependent */
};

static hdt_host host = HDT_CLOSED_HOST;
static struct pick picks[PICKS];
static hdt_handle handles[KINDS][HANDLES];
static uint32_t made[KINDS], sizes[CONTEXTS][OBJECTS];

static void fail(const char *why) {
    fprintf(stderr, "host_bench: %s\n", why);
    exit(1);
}

static void done(hdt_status status, const char *what) {
    if (status != HDT_OK) fail(what);
}

static uint32_t below(uint32_t bound) {
    static uint64_t state = 88172645463325252u;
    state ^= state << 13;
    state ^= state >> 7;
    state ^= state << 17;
    return (uint32_t)((state >> 32) % bound);
}

/* What handle_new is given besides: a strength, or the local of the secondary. */
static uint32_t extra_of(hdt_kind kind, hdt_local other) {
    return kind == HDT_VARIABLE ? (uint32_t)HDT_STRONG : kind == HDT_DEPENDENT ? other : 0;
}

static void make_handle(hdt_kind kind, hdt_context context, hdt_local target) {
    hdt_handle *place = &handles[kind][made[kind]++];
    done(hdt_handle_new(&host, context, kind, target, extra_of(kind, target), place), "no handle");
}

static void make_objects(hdt_context context, bool scattered) {
    hdt_id id;
    for (hdt_local local = 0; local < OBJECTS; local++) {
        sizes[context][local] = scattered ? 1 + below(61) : 4;
        done(hdt_object_new(&host, context, local, sizes[context][local], HDT_FINALIZABLE, &id), "no object");
    }
    for (hdt_local key = 0; key < KEYS; key++) done(hdt_table_add(&host, context, key, KEYS), "no entry");
}

/* Live handles with free slots between them. */
static void make_handles(bool scattered) {
    for (uint32_t left = scattered ? 2 * HANDLES : KINDS; left > 0; left--)
        make_handle(left % KINDS, scattered ? below(CONTEXTS) : 0, scattered ? below(OBJECTS) : 0);
    for (uint32_t left = scattered ? HANDLES : 0; left > 0;) {
        hdt_kind kind = below(KINDS);
        if (made[kind] < 2) continue;
        uint32_t which = below(made[kind]);
        done(hdt_handle_free(&host, handles[kind][which]), "not freed");
        handles[kind][which] = handles[kind][--made[kind]];
        left--;
    }
}

static void choose(struct pick *pick, bool scattered) {
    pick->context = scattered ? below(CONTEXTS) : 0;
    pick->object = scattered ? below(KEYS) : 0;
    pick->other = scattered ? KEYS + below(OBJECTS - KEYS) : KEYS;
    for (int i = 0; i < 10; i++) pick->both[i] = i % 2 == 0 ? pick->object : pick->other;
    pick->field = scattered ? below(sizes[pick->context][pick->object]) : 1;
    pick->fields = scattered ? below(62) : 2;
    pick->number = scattered ? below(16) : 3;
    pick->kind = scattered ? below(KINDS) : (hdt_kind)HDT_STRONG;
    for (hdt_kind kind = 0; kind < KINDS; kind++) pick->of_kind[kind] = handles[kind][below(made[kind])];
    pick->any = pick->of_kind[pick->kind];
    pick->settable = pick->of_kind[scattered ? below(HDT_DEPENDENT) : (hdt_kind)HDT_STRONG];
}

static void set_scene(bool scattered) {
    hdt_limits limits = { 1000000, 256, CONTEXTS };
    done(hdt_open(&host, &limits), "not opened");
    for (hdt_context context = 0; context < (scattered ? CONTEXTS : 1); context++) make_objects(context, scattered);
    make_handles(scattered);
    for (uint32_t number = 0; number < 16; number++) done(hdt_static_set(&host, 0, number, 0), "no static");
    for (int i = 0; i < PICKS; i++) choose(&picks[i], scattered);
}

/* ---- the calls */
static hdt_id id;
static uint64_t value;
static uint32_t number, next;
static hdt_report report;
static hdt_root root;
static hdt_stats_out sums;
static hdt_change change;
static hdt_handle_info rows[16];
static size_t count;
static hdt_object_out shown;
static hdt_id ids[16];

#define CALL(name, ...) static hdt_status name(const struct pick *p) { (void)p; return __VA_ARGS__; }
CALL(abi, hdt_abi() != HDT_ABI)
CALL(field_get, hdt_field_get(&host, p->context, RESULT, p->object, p->field, &id))
CALL(field_set, hdt_field_set(&host, p->context, p->object, p->field, p->other))
CALL(value_get, hdt_value_get(&host, p->context, p->object, &value))
CALL(value_set, hdt_value_set(&host, p->context, p->object, p->field))
CALL(generation, hdt_generation(&host, p->context, p->object, &number))
CALL(reregister, hdt_suppress(&host, p->context, p->object) | hdt_reregister(&host, p->context, p->object))
CALL(local_id, hdt_local_id(&host, p->context, p->object, &id))
CALL(local_copy, hdt_local_copy(&host, p->context, RESULT, p->object))
CALL(local_clear, hdt_local_clear(&host, p->context, SPARE))
CALL(static_get, hdt_static_get(&host, p->context, RESULT, p->number, &id))
CALL(static_set, hdt_static_set(&host, p->context, p->number, p->object))
CALL(handle_get, hdt_handle_get(&host, p->context, p->any, RESULT, &id))
CALL(handle_set, hdt_handle_set(&host, p->context, p->settable, p->other))
CALL(handle_kind, hdt_handle_kind(&host, p->any, &number))
CALL(secondary_get, hdt_secondary_get(&host, p->context, p->of_kind[HDT_DEPENDENT], RESULT, &id))
CALL(secondary_set, hdt_secondary_set(&host, p->context, p->of_kind[HDT_DEPENDENT], p->other))
CALL(strength_set, hdt_strength_set(&host, p->of_kind[HDT_VARIABLE], p->number % 4))
CALL(count_up, hdt_count_up(&host, p->of_kind[HDT_COUNTED], &value) | hdt_count_down(&host, p->of_kind[HDT_COUNTED], &value))
CALL(address, hdt_address(&host, p->of_kind[HDT_PINNED], &number))
CALL(table_add, hdt_table_add(&host, p->context, p->other, p->object) | hdt_table_remove(&host, p->context, p->other))
CALL(table_find, hdt_table_find(&host, p->context, RESULT, p->object, &id))
CALL(final_next, hdt_final_next(&host, p->context, SPARE, &id) != HDT_NONE)
CALL(stats, hdt_stats(&host, &sums))
CALL(last, hdt_last(&host, &change))
CALL(trim, hdt_trim(&host, p->kind % HDT_VARIABLE, &number))
CALL(list, hdt_handles(&host, 0, rows, 16, &count, &next))
CALL(list_cleared, hdt_handles_of(&host, 127, 1, 0, rows, 16, &count, &next))
CALL(field_load, hdt_field_load(&host, p->context, RESULT, p->object, p->field, &id, &value))
CALL(handle_load, hdt_handle_load(&host, p->context, p->any, RESULT, &id, &value))
CALL(local_pass, hdt_local_pass(&host, p->context, RESULT, p->context, p->object, &id))
CALL(locals_clear, hdt_locals_clear(&host, CONTEXTS - 1, 0, 16))
CALL(table_set, hdt_table_set(&host, p->context, p->object, p->other))
CALL(handle_id, hdt_handle_id(&host, p->any, &id))
CALL(object_info, hdt_object_info(&host, p->context, p->object, &shown))
CALL(locals, hdt_locals(&host, p->context, ids, 16))
CALL(context_left, hdt_context_left(&host, p->context, &number))
CALL(root_of, hdt_root_of(&host, p->context, p->object, &root) % HDT_NONE)
CALL(collect, hdt_collect(&host, 0, &report))

static hdt_status free_again(const struct pick *p, hdt_kind kind) {
    hdt_handle handle;
    hdt_status status = hdt_handle_new(&host, p->context, kind, p->object, extra_of(kind, p->other), &handle);
    return status | hdt_handle_free(&host, handle);
}
CALL(handle_new, free_again(p, p->kind % HDT_VARIABLE))
CALL(paired_new, free_again(p, HDT_DEPENDENT))

/* A collection is out of line, so that the rows count no register that is saved for it. */
__attribute__((noinline)) static hdt_status new_in_full_heap(const struct pick *p, uint32_t fields) {
    return hdt_collect(&host, 0, &report) | hdt_object_new(&host, p->context, RESULT, fields, 0, &id);
}

static hdt_status new_object(const struct pick *p, uint32_t fields) {
    hdt_status status = hdt_object_new(&host, p->context, RESULT, fields, 0, &id);
    return status == HDT_OK ? HDT_OK : new_in_full_heap(p, fields);
}

__attribute__((noinline)) static hdt_status filled_in_full_heap(const struct pick *p, size_t fields) {
    return hdt_collect(&host, 0, &report)
           | hdt_object_make(&host, p->context, RESULT, 0, p->field, p->both, fields, &id);
}

static hdt_status filled(const struct pick *p, size_t fields) {
    hdt_status status = hdt_object_make(&host, p->context, RESULT, 0, p->field, p->both, fields, &id);
    return status == HDT_OK ? HDT_OK : filled_in_full_heap(p, fields);
}
CALL(object_new, new_object(p, p->fields))
CALL(new_two, new_object(p, 2))
CALL(new_ten, new_object(p, 10))
CALL(make_two, filled(p, 2))
CALL(make_ten, filled(p, 10))

#define ROW(name) { #name, name }
static const struct { const char *name; hdt_status (*make)(const struct pick *); } calls[] = {
    ROW(abi), ROW(handle_get), ROW(handle_new), ROW(paired_new), ROW(handle_set), ROW(handle_kind), ROW(object_new),
    ROW(field_set), ROW(field_get), ROW(value_get), ROW(value_set), ROW(local_id), ROW(local_copy), ROW(local_clear),
    ROW(static_get), ROW(static_set), ROW(generation), ROW(reregister), ROW(secondary_get), ROW(secondary_set),
    ROW(strength_set), ROW(count_up), ROW(address), ROW(table_find), ROW(table_add), ROW(final_next), ROW(stats),
    ROW(last), ROW(trim), ROW(list), ROW(list_cleared), ROW(root_of), ROW(collect), ROW(field_load), ROW(handle_load),
    ROW(new_two), ROW(make_two), ROW(new_ten), ROW(make_ten), ROW(local_pass), ROW(locals_clear), ROW(table_set), ROW(handle_id),
    ROW(object_info), ROW(locals), ROW(context_left),
};
enum { CALLS = sizeof calls / sizeof *calls };

static double now(void) {
    struct timespec time;
    clock_gettime(CLOCK_THREAD_CPUTIME_ID, &time);
    return (double)time.tv_sec * 1e9 + (double)time.tv_nsec;
}

int main(int length, char **words) {
    if (length == 2 && strcmp(words[1], "calls") == 0) {
        for (int i = 0; i < CALLS; i++) puts(calls[i].name);
        return 0;
    }
    if (length != 4) fail("usage: host_bench near|scattered CALL N");
    int which = 0;
    while (which < CALLS && strcmp(words[2], calls[which].name) != 0) which++;
    if (which == CALLS) fail("no such call");
    unsigned long times = strtoul(words[3], NULL, 10);
    set_scene(strcmp(words[1], "scattered") == 0);
    hdt_status status = HDT_OK;
    double start = now();
    for (unsigned long i = 0; i < times; i++) status |= calls[which].make(&picks[i % PICKS]);
    double taken = now() - start;
    if (status != HDT_OK) fail("a call was refused");
    printf("%.2f\n", taken / (double)times);
    hdt_close(&host);
    return 0;
}
