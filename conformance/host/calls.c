/* Calls of the C library, each with what it came to: what a host sees of handles that were freed, of refusals, and of each export
 * once with memory at hand. What it prints is calls.stdout. It is C11. */
#include "hdt.h"
#include <inttypes.h>
#include <stdio.h>

static hdt_host host = HDT_CLOSED_HOST;

static const char *text_of(hdt_status status) {
    static const char *const texts[] = { "ok",        "closed",    "open",     "argument", "memory",   "exhausted", "notlive",
                                         "wrongkind", "countzero", "nullref",  "badfield", "present",  "heapfull",  "tablefull",
                                         "none",      "busy",      "room" };
    return status < sizeof texts / sizeof texts[0] ? texts[status] : "?";
}

static void said(const char *call, hdt_status status) { printf("  %s: %s\n", call, text_of(status)); }

/* A call that gives an object, or null. */
static void gave_id(const char *call, hdt_status status, hdt_id id) {
    if (status != HDT_OK) said(call, status);
    else if (id == 0) printf("  %s: null\n", call);
    else printf("  %s: obj %u.%u\n", call, (unsigned)(id >> 32), (unsigned)(id & 0xffffffffu));
}

static void gave_number(const char *call, hdt_status status, uint64_t number) {
    if (status != HDT_OK) said(call, status);
    else printf("  %s: %" PRIu64 "\n", call, number);
}

static void stats(void) {
    hdt_stats_out out = { 0, 0, 0, 0, 0 };
    if (hdt_stats(&host, &out) != HDT_OK) said("stats", HDT_CLOSED);
    else printf("  stats: objects %u cells %u handles %u blocks %u queued %u\n", (unsigned)out.objects, (unsigned)out.cells,
                (unsigned)out.handles, (unsigned)out.blocks, (unsigned)out.queued);
}

static void numbers_of(const char *what, const uint32_t *numbers, int count) {
    printf(" %s", what);
    for (int i = 0; i < count; i++) printf(" %u", (unsigned)numbers[i]);
}

static void sizes(void) {
    hdt_sizes_out out = { { 0 }, { 0 }, { 0 }, { 0 }, 0 };
    if (hdt_sizes(&host, &out) != HDT_OK) { said("sizes", HDT_CLOSED); return; }
    printf("  sizes:");
    numbers_of("objects", out.objects, 3);
    numbers_of("cells", out.cells, 3);
    numbers_of("regions", out.regions, 3);
    numbers_of("free", out.free_slots, 7);
    numbers_of("idle", &out.idle_slots, 1);
    puts("");
}

static void last(void) {
    hdt_change out = { 0, 0, 0, 0, 0 };
    if (hdt_last(&host, &out) != HDT_OK) said("last", HDT_CLOSED);
    else printf("  last: slot %u block %u data %u given back %u\n", (unsigned)out.slot, (unsigned)out.block,
                (unsigned)out.data_block, (unsigned)out.given_back);
}

/* A host of two contexts, of its own for each part. */
static void begin(const char *part, uint32_t cells, uint32_t blocks) {
    hdt_limits limits = { cells, blocks, 2 };
    printf("%s\n", part);
    hdt_close(&host);
    said("open", hdt_open(&host, &limits));
}

/* ---- each call by its short name */

static void object_new(hdt_context c, hdt_local dst, uint32_t fields, uint32_t flags) {
    hdt_id id = 0;
    hdt_status status = hdt_object_new(&host, c, dst, fields, flags, &id);
    gave_id("object_new", status, id);
}

static void field_get(hdt_local dst, hdt_local object, uint32_t i) {
    hdt_id id = 0;
    hdt_status status = hdt_field_get(&host, 0, dst, object, i, &id);
    gave_id("field_get", status, id);
}

static void field_set(hdt_local object, uint32_t i, hdt_local src) {
    said("field_set", hdt_field_set(&host, 0, object, i, src));
}

static void value_get(hdt_local object) {
    uint64_t value = 0;
    hdt_status status = hdt_value_get(&host, 0, object, &value);
    gave_number("value_get", status, value);
}

static void generation(hdt_local object) {
    uint32_t number = 0;
    hdt_status status = hdt_generation(&host, 0, object, &number);
    gave_number("generation", status, number);
}

static void local_id(hdt_local src) {
    hdt_id id = 0;
    hdt_status status = hdt_local_id(&host, 0, src, &id);
    gave_id("local_id", status, id);
}

static void static_get(hdt_context c, hdt_local dst, uint32_t k) {
    hdt_id id = 0;
    hdt_status status = hdt_static_get(&host, c, dst, k, &id);
    gave_id("static_get", status, id);
}

static void local_clear(hdt_local dst) { said("local_clear", hdt_local_clear(&host, 0, dst)); }

static hdt_handle handle_new(hdt_kind kind, hdt_local target, uint32_t extra) {
    hdt_handle handle = 0;
    said("handle_new", hdt_handle_new(&host, 0, kind, target, extra, &handle));
    return handle;
}

static void handle_free(hdt_handle handle) { said("handle_free", hdt_handle_free(&host, handle)); }

static void handle_get(hdt_local dst, hdt_handle handle) {
    hdt_id id = 0;
    hdt_status status = hdt_handle_get(&host, 0, handle, dst, &id);
    gave_id("handle_get", status, id);
}

static void handle_set(hdt_handle handle, hdt_local src) { said("handle_set", hdt_handle_set(&host, 0, handle, src)); }

static void handle_kind(hdt_handle handle) {
    hdt_kind kind = 0;
    hdt_status status = hdt_handle_kind(&host, handle, &kind);
    gave_number("handle_kind", status, kind);
}

static void secondary_get(hdt_local dst, hdt_handle handle) {
    hdt_id id = 0;
    hdt_status status = hdt_secondary_get(&host, 0, handle, dst, &id);
    gave_id("secondary_get", status, id);
}

static void count_up(hdt_handle handle) {
    uint64_t count = 0;
    hdt_status status = hdt_count_up(&host, handle, &count);
    gave_number("count_up", status, count);
}

static void count_down(hdt_handle handle) {
    uint64_t count = 0;
    hdt_status status = hdt_count_down(&host, handle, &count);
    gave_number("count_down", status, count);
}

/* Of an object that is pinned: its cell is one of this project's own choice, and does not change. */
static uint32_t address(hdt_handle handle) {
    uint32_t cell = 0;
    said("address", hdt_address(&host, handle, &cell));
    return cell;
}

static void table_add(hdt_local key, hdt_local value) { said("table_add", hdt_table_add(&host, 0, key, value)); }

static void table_find(hdt_local dst, hdt_local key) {
    hdt_id id = 0;
    hdt_status status = hdt_table_find(&host, 0, dst, key, &id);
    gave_id("table_find", status, id);
}

static void table_remove(hdt_local key) { said("table_remove", hdt_table_remove(&host, 0, key)); }

static void collect(uint32_t number) {
    hdt_report r = { 0, 0, 0, 0, 0, 0 };
    hdt_status status = hdt_collect(&host, number, &r);
    if (status != HDT_OK) said("collect", status);
    else printf("  collect: kept %u removed %u short %u long %u dep %u revived %u\n", (unsigned)r.kept, (unsigned)r.removed,
                (unsigned)r.cleared_short, (unsigned)r.cleared_long, (unsigned)r.cleared_dependent, (unsigned)r.revived);
}

static void final_next(hdt_local dst) {
    hdt_id id = 0;
    hdt_status status = hdt_final_next(&host, 0, dst, &id);
    gave_id("final_next", status, id);
}

static void trim(hdt_kind kind) {
    uint32_t given = 0;
    hdt_status status = hdt_trim(&host, kind, &given);
    gave_number("trim", status, given);
}

static void trim_all(void) {
    uint32_t given = 0;
    hdt_status status = hdt_trim_all(&host, &given);
    gave_number("trim_all", status, given);
}

static void root_of(hdt_context c, hdt_local object) {
    hdt_root root = { 0, 0 };
    hdt_status status = hdt_root_of(&host, c, object, &root);
    if (status != HDT_OK) said("root_of", status);
    else printf("  root_of: %u.%u %u\n", (unsigned)(root.from >> 32), (unsigned)(root.from & 0xffffffffu), (unsigned)root.arrows);
}

/* The live handles from a place on, at most two, and where to go on. */
static void handles(uint32_t from) {
    hdt_handle_info found[2];
    size_t count = 0;
    uint32_t next = 0;
    hdt_status status = hdt_handles(&host, from, found, 2, &count, &next);
    if (status != HDT_OK) {
        said("handles", status);
        return;
    }
    printf("  handles: %u, next %u\n", (unsigned)count, (unsigned)next);
    for (size_t i = 0; i < count; i++) {
        printf("    slot %u kind %u target %u.%u extra %u\n", (unsigned)(found[i].handle & 0xffffff), (unsigned)found[i].kind,
               (unsigned)(found[i].target >> 32), (unsigned)(found[i].target & 0xffffffffu), (unsigned)found[i].extra);
    }
}

/* ---- the parts */

static void finalization(void) {
    begin("a weak long handle outlives finalization", 100000, 64);
    object_new(0, 0, 2, HDT_FINALIZABLE);
    hdt_handle weak = handle_new(HDT_WEAK_LONG, 0, 0);
    local_clear(0);
    collect(0);
    handle_get(1, weak);
    local_id(1);
    handle_kind(weak);
    generation(1);
    final_next(2);
    final_next(2);
    local_id(2);
    handle_free(weak);
    handle_free(weak);
}

static void registration(void) {
    begin("an object is registered for finalization again", 1000, 1);
    object_new(0, 0, 0, HDT_FINALIZABLE);
    said("suppress", hdt_suppress(&host, 0, 0));
    said("reregister", hdt_reregister(&host, 0, 0));
    said("local_copy", hdt_local_copy(&host, 0, 1, 0));
    local_clear(0);
    local_clear(1);
    collect(2);
    stats();
    final_next(0);
    said("suppress", hdt_suppress(&host, 0, 0));
    local_clear(0);
    collect(2);
    stats();
}

static void staleness(void) {
    begin("a freed handle stays stale", 1000, 1);
    object_new(0, 0, 0, 0);
    hdt_handle first = handle_new(HDT_STRONG, 0, 0);
    last();
    handle_free(first);
    /* The same slot, under another stamp. */
    hdt_handle second = handle_new(HDT_STRONG, 0, 0);
    last();
    printf("  the same handle: %s\n", first == second ? "yes" : "no");
    handle_get(1, first);
    handle_set(first, 1);
    handle_kind(first);
    handle_free(first);
    handle_get(1, second);
    handle_free(second);
}

static void trimming(void) {
    begin("a freed handle stays stale over a trim", 1000, 1);
    object_new(0, 0, 0, 0);
    hdt_handle first = handle_new(HDT_STRONG, 0, 0);
    trim(HDT_STRONG);
    handle_free(first);
    trim(HDT_STRONG);
    last();
    trim(HDT_STRONG);
    /* The same slot, of another kind. */
    hdt_handle second = handle_new(HDT_WEAK_SHORT, 0, 0);
    last();
    handle_get(1, first);
    handle_kind(second);
}

static void blocks(void) {
    begin("blocks of every kind come back", 1000, 4);
    object_new(0, 0, 0, 0);
    hdt_handle dependent = handle_new(HDT_DEPENDENT, 0, HDT_LOCAL(0));
    table_add(0, 0);
    hdt_handle counted = handle_new(HDT_COUNTED, 0, 0);
    last();
    handle_new(HDT_STRONG, 0, 0);
    trim(HDT_COUNTED);
    handle_free(counted);
    trim(HDT_COUNTED);
    last();
    trim(HDT_DEPENDENT);
    table_remove(0);
    trim(HDT_DEPENDENT);
    handle_free(dependent);
    handle_new(HDT_STRONG, 0, 0);
    trim_all();
    last();
    stats();
    handle_get(1, dependent);
    /* The same slots, of other kinds; and the weak table takes a block of its own again. */
    hdt_handle pinned = handle_new(HDT_PINNED, 0, 0);
    last();
    table_add(0, 0);
    last();
    trim_all();
    handle_free(pinned);
    table_remove(0);
    trim(7);
    trim_all();
    stats();
}

static void numbers(void) {
    begin("numbers that no handle has are stale", 1000, 1);
    object_new(0, 0, 0, 0);
    handle_new(HDT_STRONG, 0, 0);
    handle_get(1, 0);
    handle_get(1, 65);
    handle_get(1, (1u << 24) - 1);
    handle_get(1, UINT64_MAX);
}

static void generations(void) {
    begin("what a host has of each generation, and what is free", 1000, 8);
    sizes();
    object_new(0, 0, 2, 0);
    object_new(0, 1, 0, 0);
    sizes();
    collect(0);
    object_new(0, 2, 61, 0);
    sizes();
    hdt_handle strong = handle_new(HDT_STRONG, 0, 0);
    handle_new(HDT_COUNTED, 0, 0);
    table_add(0, 1);
    sizes();
    collect(1);
    table_remove(0);
    handle_free(strong);
    sizes();
    local_clear(0);
    collect(2);
    sizes();
}

static void objects(void) {
    begin("refusals leave a host as it was", 10, 2);
    field_get(1, 0, 0);
    object_new(0, 0, 2, 0);
    object_new(1, 0, 2, 0);
    object_new(0, 1, 0, 0);
    stats();
    field_set(0, 2, 0);
    field_set(0, 1, 0);
    field_get(1, 0, 1);
    said("value_set", hdt_value_set(&host, 0, 0, 7));
    value_get(1);
    stats();
}

static void kinds(void) {
    begin("refused handles leave a host as it was", 10, 2);
    object_new(0, 0, 2, 0);
    hdt_handle counted = handle_new(HDT_COUNTED, 0, 0);
    count_up(counted);
    count_down(counted);
    count_down(counted);
    count_down(counted);
    secondary_get(1, counted);
    said("strength_set", hdt_strength_set(&host, counted, HDT_WEAK_SHORT));
    address(counted);
    handle_new(HDT_STRONG, 0, 0);
    table_add(0, 1);
    table_find(2, 0);
    table_remove(0);
    stats();
}

static void table(void) {
    begin("a host has a weak table", 1000, 4);
    object_new(0, 0, 1, 0);
    object_new(0, 1, 0, 0);
    table_add(0, 1);
    last();
    table_add(0, 1);
    table_find(2, 0);
    hdt_handle dependent = handle_new(HDT_DEPENDENT, 0, HDT_LOCAL(1));
    last();
    handle_set(dependent, 1);
    secondary_get(3, dependent);
    handles(0);
    handles(66);
    said("secondary_set", hdt_secondary_set(&host, 0, dependent, 0));
    secondary_get(3, dependent);
    handle_set(dependent, 15);
    handle_get(3, dependent);
    table_remove(0);
    table_remove(0);
}

static void pins(void) {
    begin("a pin holds its object where it is", 1000, 4);
    object_new(0, 0, 0, 0);
    object_new(0, 1, 0, 0);
    hdt_handle pin = handle_new(HDT_VARIABLE, 1, HDT_PINNED);
    uint32_t before = address(pin);
    local_clear(0);
    local_clear(1);
    collect(0);
    printf("  the same address: %s\n", address(pin) == before ? "yes" : "no");
    handles(0);
    said("strength_set", hdt_strength_set(&host, pin, HDT_WEAK_SHORT));
    collect(2);
    handle_get(0, pin);
}

static void statics(void) {
    begin("a static keeps its object", 1000, 4);
    object_new(0, 0, 1, 0);
    said("static_set", hdt_static_set(&host, 0, 3, 0));
    static_get(1, 5, 3);
    root_of(1, 5);
    object_new(0, 1, 0, 0);
    root_of(0, 1);
    root_of(0, 2);
}

/* ---- ends of a shared host, by one thread: each has contexts, a last call and turns of its own */

static hdt_host ends[17]; /* all bytes 0: closed */

static void open_ends(const char *what, size_t first, size_t n, uint32_t contexts) {
    hdt_limits limits = { 1000, 8, contexts };
    said(what, hdt_open_shared(&ends[first], n, &limits));
}

static void end_last(size_t end) {
    hdt_change out = { 0, 0, 0, 0, 0 };
    if (hdt_last(&ends[end], &out) != HDT_OK) said("last", HDT_CLOSED);
    else printf("  last of end %u: slot %u block %u turn %u\n", (unsigned)end, (unsigned)out.slot, (unsigned)out.block,
                (unsigned)out.turn);
}

static void end_new(size_t end, hdt_context c) {
    hdt_id id = 0;
    hdt_status status = hdt_object_new(&ends[end], c, 0, 0, 0, &id);
    gave_id("object_new", status, id);
}

static void end_get(size_t end, hdt_handle handle) {
    hdt_id id = 0;
    hdt_status status = hdt_handle_get(&ends[end], 1, handle, 1, &id);
    gave_id("handle_get", status, id);
}

static void shared_ends(void) {
    hdt_handle strong = 0;
    hdt_report report;
    puts("ends of a shared host");
    open_ends("no ends", 0, 0, 4);
    open_ends("17 ends", 0, 17, 17);
    open_ends("3 contexts for 2 ends", 0, 2, 3);
    open_ends("no contexts", 0, 2, 0);
    open_ends("2 ends", 0, 2, 4);
    open_ends("one of them is open", 1, 2, 4);
    end_last(0);
    end_new(0, 0);
    end_new(1, 1);
    end_new(1, 2);
    end_last(0);
    end_last(1);
    said("handle_new", hdt_handle_new(&ends[0], 0, HDT_STRONG, 0, 0, &strong));
    end_get(1, strong);
    end_last(0);
    end_last(1);
    said("handle_free", hdt_handle_free(&ends[1], strong));
    end_get(0, strong);
    end_last(0);
    end_last(1);
    said("local_clear", hdt_local_clear(&ends[1], 1, 0));
    hdt_close(&ends[0]);
    end_new(0, 0);
    said("collect", hdt_collect(&ends[1], 2, &report));
    printf("  what the closed end had is kept: %u, removed %u\n", (unsigned)report.kept, (unsigned)report.removed);
    hdt_close(&ends[1]);
    said("collect", hdt_collect(&ends[1], 2, &report));
    open_ends("3 ends", 0, 3, 3);
    for (int i = 0; i < 3; i++) hdt_close(&ends[i]);
}

/* ---- the limits of a host: each one more than the most is refused, and contexts of any number below theirs make objects */

static void open_to(const char *what, uint32_t cells, uint32_t blocks, uint32_t contexts) {
    hdt_limits limits = { cells, blocks, contexts };
    hdt_close(&host);
    said(what, hdt_open(&host, &limits));
}

static void most(void) {
    puts("the limits of a host");
    open_to("one cell more", HDT_MOST_CELLS + 1u, 1, 1);
    open_to("one block more", 100, HDT_MOST_BLOCKS + 1, 1);
    open_to("one context more", 100, 1, HDT_MOST_CONTEXTS + 1);
    open_to("the most cells and contexts", HDT_MOST_CELLS, 300, HDT_MOST_CONTEXTS);
    object_new(HDT_MOST_CONTEXTS - 1, 0, 0, 0);
    object_new(HDT_MOST_CONTEXTS, 0, 0, 0);
    collect(2);
}

int main(void) {
    printf("abi %u\n", (unsigned)hdt_abi());
    finalization();
    registration();
    staleness();
    trimming();
    blocks();
    numbers();
    generations();
    objects();
    kinds();
    table();
    pins();
    statics();
    shared_ends();
    most();
    hdt_close(&host);
    hdt_close(&host);
    puts("closed");
    local_clear(0);
    stats();
    sizes();
    return 0;
}
