/* What a host does with hdt.h: what its opening shows, and six of examples/ by calls. Each prints what its script prints.
 *
 *   host               the opening
 *   host EXAMPLE       weak_cache, host, interop_pin, resurrection, weak_table or leak
 *
 * It is C11, and C++17. */
#include "hdt.h"
#include <inttypes.h>
#include <stdio.h>
#include <string.h>

static hdt_host host = HDT_CLOSED_HOST;
static unsigned lines, collections;

static void put_id(hdt_id id) { printf("%u.%u", (unsigned)(id >> 32), (unsigned)(id & 0xffffffffu)); }

/* The text of a status that is no success. */
static const char *refusal(hdt_status status) {
    switch (status) {
    case HDT_CLOSED: return "closed";
    case HDT_IS_OPEN: return "open";
    case HDT_ARGUMENT: return "argument";
    case HDT_NO_MEMORY: return "memory";
    case HDT_EXHAUSTED: return "exhausted";
    case HDT_STALE: return "notlive";
    case HDT_WRONG_KIND: return "wrongkind";
    case HDT_COUNT_ZERO: return "countzero";
    case HDT_NULL: return "nullref";
    case HDT_NO_FIELD: return "badfield";
    case HDT_PRESENT: return "present";
    case HDT_HEAP_FULL: return "heapfull";
    case HDT_TABLE_FULL: return "tablefull";
    default: return "?";
    }
}

/* The number of the line, and whether its call was done. */
static bool begin(hdt_status status) {
    printf("0 %u ", ++lines);
    if (status == HDT_OK) return true;
    printf("%s\n", refusal(status));
    return false;
}

static void say(hdt_status status) {
    if (begin(status)) puts("ok");
}

/* A load: the object, or null. */
static void say_loaded(hdt_status status, hdt_id id) {
    if (!begin(status)) return;
    if (id == 0) {
        puts("null");
        return;
    }
    printf("obj ");
    put_id(id);
    puts("");
}

static void object_new(hdt_local dst, uint32_t fields, uint32_t flags) {
    hdt_id id = 0;
    hdt_status status = hdt_object_new(&host, 0, dst, fields, flags, &id);
    say_loaded(status, id);
}

static void field_get(hdt_local dst, hdt_local object, uint32_t i) {
    hdt_id id = 0;
    hdt_status status = hdt_field_get(&host, 0, dst, object, i, &id);
    say_loaded(status, id);
}

static void field_set(hdt_local object, uint32_t i, hdt_local src) { say(hdt_field_set(&host, 0, object, i, src)); }

static void value_set(hdt_local object, uint64_t value) { say(hdt_value_set(&host, 0, object, value)); }

static void value_get(hdt_local object) {
    uint64_t value = 0;
    if (begin(hdt_value_get(&host, 0, object, &value))) printf("value %" PRIu64 "\n", value);
}

static void clear(hdt_local dst) { say(hdt_local_clear(&host, 0, dst)); }

static void static_set(uint32_t k, hdt_local src) { say(hdt_static_set(&host, 0, k, src)); }

static void static_get(hdt_local dst, uint32_t k) {
    hdt_id id = 0;
    hdt_status status = hdt_static_get(&host, 0, dst, k, &id);
    say_loaded(status, id);
}

static hdt_handle handle_new(hdt_kind kind, hdt_local target, uint32_t extra) {
    hdt_handle handle = 0;
    say(hdt_handle_new(&host, 0, kind, target, extra, &handle));
    return handle;
}

static void handle_get(hdt_local dst, hdt_handle handle) {
    hdt_id id = 0;
    hdt_status status = hdt_handle_get(&host, 0, handle, dst, &id);
    say_loaded(status, id);
}

static void handle_set(hdt_handle handle, hdt_local src) { say(hdt_handle_set(&host, 0, handle, src)); }

static void secondary_get(hdt_local dst, hdt_handle handle) {
    hdt_id id = 0;
    hdt_status status = hdt_secondary_get(&host, 0, handle, dst, &id);
    say_loaded(status, id);
}

static void handle_free(hdt_handle handle) { say(hdt_handle_free(&host, handle)); }

static void address(hdt_handle handle) {
    uint32_t cell = 0;
    if (begin(hdt_address(&host, handle, &cell))) printf("addr %u\n", (unsigned)cell);
}

static void collect(uint32_t generation) {
    hdt_report report;
    hdt_status status = hdt_collect(&host, generation, &report);
    if (!begin(status)) return;
    collections++;
    printf("kept %u removed %u short %u long %u dep %u revived %u\n", (unsigned)report.kept, (unsigned)report.removed,
           (unsigned)report.cleared_short, (unsigned)report.cleared_long, (unsigned)report.cleared_dependent,
           (unsigned)report.revived);
}

static void final_next(hdt_local dst) {
    hdt_id id = 0;
    hdt_status status = hdt_final_next(&host, 0, dst, &id);
    if (status == HDT_NONE) {
        printf("0 %u none\n", ++lines);
        return;
    }
    say_loaded(status, id);
}

static void add(hdt_local key, hdt_local value) { say(hdt_table_add(&host, 0, key, value)); }

static void find(hdt_local dst, hdt_local key) {
    hdt_id id = 0;
    hdt_status status = hdt_table_find(&host, 0, dst, key, &id);
    if (status == HDT_NONE) {
        printf("0 %u absent\n", ++lines);
        return;
    }
    say_loaded(status, id);
}

static void take_out(hdt_local key) {
    hdt_status status = hdt_table_remove(&host, 0, key);
    if (status == HDT_NONE) {
        printf("0 %u absent\n", ++lines);
        return;
    }
    say(status);
}

static void root_of(hdt_local object) {
    hdt_root root;
    hdt_status status = hdt_root_of(&host, 0, object, &root);
    if (status == HDT_NONE) {
        printf("0 %u unrooted\n", ++lines);
        return;
    }
    if (!begin(status)) return;
    printf("root ");
    put_id(root.from);
    printf(" %u\n", (unsigned)root.arrows);
}

/* ---- the examples; r15 is null throughout */

static void weak_cache(void) {
    object_new(0, 0, 0);
    value_set(0, 100);
    object_new(1, 0, 0);
    value_set(1, 200);
    hdt_handle h0 = handle_new(HDT_WEAK_SHORT, 0, 0);
    hdt_handle h1 = handle_new(HDT_WEAK_SHORT, 1, 0);
    clear(1);
    handle_get(2, h1);
    value_get(2);
    clear(2);
    collect(0);
    handle_get(2, h0);
    handle_get(3, h1);
    object_new(1, 0, 0);
    value_set(1, 200);
    handle_set(h1, 1);
    handle_get(3, h1);
    clear(1);
    clear(3);
    clear(0);
    clear(2);
    collect(0);
    handle_get(2, h0);
    clear(2);
    collect(1);
    handle_get(2, h0);
    handle_free(h0);
    handle_free(h1);
}

static void a_host(void) {
    object_new(0, 4, 0);
    static_set(0, 0);
    object_new(1, 16, 0);
    value_set(1, 4096);
    hdt_handle h0 = handle_new(HDT_PINNED, 1, 0);
    object_new(2, 0, 0);
    field_set(0, 0, 2);
    handle_new(HDT_WEAK_SHORT, 2, 0);
    object_new(3, 1, HDT_FINALIZABLE);
    object_new(4, 0, 0);
    hdt_handle h2 = handle_new(HDT_DEPENDENT, 3, HDT_LOCAL(4));
    handle_new(HDT_WEAK_LONG, 3, 0);
    for (hdt_local i = 0; i < 5; i++) clear(i);
    collect(0);
    final_next(5);
    secondary_get(6, h2);
    clear(5);
    clear(6);
    static_get(0, 0);
    field_set(0, 0, 15);
    collect(2);
    handle_get(7, h0);
    value_get(7);
}

static void interop_pin(void) {
    object_new(0, 8, 0);
    object_new(1, 4, 0);
    value_set(1, 77);
    object_new(2, 1, 0);
    field_set(2, 0, 1);
    hdt_handle h0 = handle_new(HDT_PINNED, 1, 0);
    address(h0);
    clear(0);
    collect(0);
    address(h0);
    object_new(3, 60, 0);
    clear(3);
    collect(1);
    address(h0);
    field_get(4, 2, 0);
    value_get(4);
    clear(1);
    clear(4);
    field_set(2, 0, 15);
    collect(2);
    address(h0);
    handle_get(4, h0);
    value_get(4);
    clear(4);
    hdt_handle h1 = handle_new(HDT_VARIABLE, 2, HDT_PINNED);
    say(hdt_strength_set(&host, h1, HDT_STRONG));
    address(h1);
    handle_free(h0);
    collect(2);
}

static void resurrection(void) {
    object_new(0, 1, HDT_FINALIZABLE);
    object_new(1, 0, 0);
    field_set(0, 0, 1);
    hdt_handle h0 = handle_new(HDT_WEAK_SHORT, 0, 0);
    hdt_handle h1 = handle_new(HDT_WEAK_LONG, 0, 0);
    clear(0);
    clear(1);
    collect(0);
    handle_get(2, h0);
    handle_get(2, h1);
    final_next(3);
    static_set(0, 3);
    say(hdt_reregister(&host, 0, HDT_LOCAL(3)));
    clear(2);
    clear(3);
    collect(2);
    final_next(3);
    static_get(3, 0);
    field_get(4, 3, 0);
    clear(4);
    clear(3);
    static_set(0, 3);
    collect(2);
    final_next(3);
    clear(3);
    collect(2);
    handle_get(2, h1);
    object_new(5, 0, HDT_FINALIZABLE);
    say(hdt_suppress(&host, 0, HDT_LOCAL(5)));
    clear(5);
    collect(0);
}

static void weak_table(void) {
    object_new(0, 0, 0);
    object_new(1, 0, 0);
    value_set(1, 100);
    find(2, 0);
    add(0, 1);
    add(0, 1);
    add(1, 15);
    find(2, 1);
    take_out(1);
    take_out(1);
    add(15, 1);
    clear(1);
    collect(2);
    find(2, 0);
    value_get(2);
    clear(2);
    clear(0);
    collect(2);
    object_new(0, 0, 0);
    object_new(1, 1, 0);
    field_set(1, 0, 0);
    add(0, 1);
    clear(0);
    clear(1);
    collect(0);
    object_new(0, 0, 0);
    object_new(1, 0, 0);
    object_new(2, 0, 0);
    add(1, 2);
    add(0, 1);
    clear(1);
    clear(2);
    collect(0);
    find(1, 0);
    find(2, 1);
    take_out(1);
    clear(1);
    clear(2);
    collect(1);
    object_new(3, 0, HDT_FINALIZABLE);
    add(3, 0);
    clear(0);
    clear(3);
    collect(2);
    final_next(3);
    find(0, 3);
    find(1, 0);
    clear(0);
    clear(1);
    clear(3);
    collect(2);
}

static void leak(void) {
    object_new(0, 1, 0);
    static_set(0, 0);
    object_new(1, 1, 0);
    object_new(2, 0, 0);
    field_set(0, 0, 1);
    field_set(1, 0, 2);
    root_of(2);
    field_set(0, 0, 15);
    root_of(2);
    root_of(0);
    hdt_handle h0 = handle_new(HDT_PINNED, 2, 0);
    root_of(2);
    root_of(1);
    handle_free(h0);
    root_of(2);
    object_new(3, 0, 0);
    object_new(4, 0, 0);
    hdt_handle h1 = handle_new(HDT_DEPENDENT, 1, HDT_LOCAL(3));
    add(3, 4);
    root_of(4);
    field_set(0, 0, 1);
    root_of(4);
    handle_free(h1);
    root_of(4);
    static_set(1, 4);
    root_of(4);
    object_new(5, 1, 0);
    field_set(5, 0, 1);
    static_set(2, 5);
    root_of(1);
    static_set(0, 15);
    root_of(1);
    object_new(6, 1, HDT_FINALIZABLE);
    field_set(6, 0, 3);
    clear(6);
    root_of(3);
    collect(0);
    root_of(3);
    final_next(6);
    root_of(3);
    root_of(15);
}

/* What the opening of hdt.h shows, with the statuses that it leaves out. */
static int opening(void) {
    hdt_limits limits = { 100000, 64, 1 };
    if (hdt_open(&host, &limits) != HDT_OK) return 1;
    hdt_handle weak;
    hdt_report report;
    hdt_id target;
    if (hdt_object_new(&host, 0, HDT_LOCAL(0), 2, HDT_FINALIZABLE, &target) != HDT_OK) return 2;
    if (hdt_handle_new(&host, 0, HDT_WEAK_LONG, HDT_LOCAL(0), 0, &weak) != HDT_OK) return 3;
    if (hdt_local_clear(&host, 0, HDT_LOCAL(0)) != HDT_OK) return 4;
    if (hdt_collect(&host, 0, &report) != HDT_OK || report.revived != 1) return 5;
    if (hdt_handle_get(&host, 0, weak, HDT_LOCAL(1), &target) != HDT_OK || target == 0) return 6;
    if (hdt_handle_free(&host, weak) != HDT_OK) return 7;
    if (hdt_handle_get(&host, 0, weak, HDT_LOCAL(1), &target) != HDT_STALE) return 8;
    hdt_close(&host);
    hdt_close(&host);
    if (hdt_local_clear(&host, 0, HDT_LOCAL(0)) != HDT_CLOSED) return 9;
    printf("revived %u, found again %u.%u\n", (unsigned)report.revived, (unsigned)(target >> 32), (unsigned)target);
    return 0;
}

int main(int count, char **words) {
    static const struct {
        const char *name;
        void (*run)(void);
    } examples[] = { { "weak_cache", weak_cache },     { "host", a_host },           { "interop_pin", interop_pin },
                     { "resurrection", resurrection }, { "weak_table", weak_table }, { "leak", leak } };
    if (hdt_abi() != HDT_ABI) return 100;
    if (count == 1) return opening();
    for (size_t i = 0; i < sizeof examples / sizeof examples[0]; i++) {
        if (strcmp(words[1], examples[i].name) != 0) continue;
        hdt_limits limits = { 1000000, 256, 1 };
        hdt_stats_out stats;
        if (hdt_open(&host, &limits) != HDT_OK) return 101;
        examples[i].run();
        if (hdt_stats(&host, &stats) != HDT_OK) return 102;
        printf("end handles %u objects %u collections %u\n", (unsigned)stats.handles, (unsigned)stats.objects, collections);
        hdt_close(&host);
        return 0;
    }
    return 103;
}
