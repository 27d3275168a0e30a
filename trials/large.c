/* A large host of the C library beside the program's own table. It is linked with -Wl,--wrap=malloc,--wrap=realloc,--wrap=free.
 *
 *   large [PER_MILLE [SEED]]      1,000 for the whole: 4,000,000 handles of all kinds over 3,000,000 objects, freed and made in
 *                                 random order, then a weak table of 1,000,000 entries, 50 collections of generation 0 and
 *                                 three full ones. Memory is refused at 1,000 places spread over it.
 *
 * The objects are the leaves of a tree of objects of 61 fields that static 0 references: each is kept or dropped by a field. What
 * a collection must leave is computed from that, from the handles that hold, and from what dependent handles and entries attach;
 * after each full collection the target of every live handle is compared, after each other that of one in 40. A call whose memory
 * is refused says HDT_NO_MEMORY, leaves the numbers of the host as they were, and is made again; or it does without. */
#define _GNU_SOURCE
#include "hdt.h"
#include <malloc.h>
#include <stdio.h>
#include <stdlib.h>
#include <string.h>
#include <time.h>

/* ---- memory */

void *__real_malloc(size_t size);
void *__real_realloc(void *at, size_t size);
void __real_free(void *at);

static bool is_host, is_again; /* whether a call of the host is made, and made again */
static size_t held, most;
static unsigned long requests, every = 50, refused, without; /* each request of so many is refused */

static bool is_refused(void) {
    if (!is_host || ++requests % every || is_again) return false;
    refused++;
    return true;
}

static void *taken(void *at) {
    if (is_host && at) held += malloc_usable_size(at);
    if (held > most) most = held;
    return at;
}

void *__wrap_malloc(size_t size) { return is_refused() ? NULL : taken(__real_malloc(size)); }

void *__wrap_realloc(void *at, size_t size) {
    if (is_refused()) return NULL;
    if (is_host && at) held -= malloc_usable_size(at);
    void *to = __real_realloc(at, size);
    return to ? taken(to) : (taken(at), NULL);
}

void __wrap_free(void *at) {
    if (is_host && at) held -= malloc_usable_size(at);
    __real_free(at);
}

/* ---- what there is */

enum { KINDS = 7, FIELDS = 61, LEVELS = 4, TREE = 16, LOADED = 5, OTHER = 6 }; /* locals: of the tree above TREE - LEVELS */
enum { CELLS = 1000000000, BLOCKS = 65536, PLACES = 1000, YOUNG = 50 };

struct object {
    hdt_id id;
    uint32_t holds;    /* handles that keep it */
    uint32_t value;    /* what its entry of the weak table attaches, by number, 0 for none */
    uint8_t generation;
    bool is_leaf, is_there, is_marked;
};

struct handle {
    hdt_handle handle;
    uint32_t object, second; /* by number; `second` of a dependent one */
    uint8_t kind, strength;  /* what a variable one is; of a counted one 1 where its count is 1 */
};

static hdt_host host = HDT_CLOSED_HOST;
static struct object *objects; /* by number from 1 */
static struct handle *handles;
static uint32_t *leaves; /* the number of the object at each leaf, 0 for none */
static uint32_t leaf_count, object_count, object_room, handle_count, handle_room, per_mille = 1000;
static uint32_t *dependents, dependent_count; /* what collections look at */
static uint32_t *work, work_count;
static uint64_t seed = 1;

static void fail(const char *what, uint32_t number, hdt_status status) {
    fprintf(stderr, "large: %s of %u: %s\n", what, number, hdt_status_name(status));
    exit(1);
}

static uint32_t below(uint32_t bound) {
    seed ^= seed << 13;
    seed ^= seed >> 7;
    seed ^= seed << 17;
    return (uint32_t)((seed >> 32) % bound);
}

static uint32_t scaled(uint32_t whole) { return (uint32_t)((uint64_t)whole * per_mille / 1000); }

static void *room_for(size_t count, size_t size) {
    void *at = calloc(count, size);
    if (!at) fail("the program's own memory", (uint32_t)count, HDT_NO_MEMORY);
    return at;
}

/* ---- calls, each made again where its memory is refused */

static hdt_stats_out stats(void) {
    hdt_stats_out out;
    hdt_status status = hdt_stats(&host, &out);
    if (status != HDT_OK) fail("stats", 0, status);
    return out;
}

#define CALL(STATUS, EXPRESSION) \
    do { \
        unsigned long refused_before = refused; \
        hdt_stats_out before = stats(); \
        is_host = true; \
        STATUS = (EXPRESSION); \
        is_host = false; \
        if (STATUS == HDT_NO_MEMORY) { \
            hdt_stats_out after = stats(); \
            if (refused == refused_before || memcmp(&before, &after, sizeof after)) fail("a call without memory", 0, STATUS); \
            is_host = is_again = true; \
            STATUS = (EXPRESSION); \
            is_host = is_again = false; \
        } else { \
            without += refused - refused_before; \
        } \
    } while (0)

static void must(hdt_status status, const char *what, uint32_t number) {
    if (status != HDT_OK) fail(what, number, status);
}

/* ---- the tree: leaf i is field i % 61 of the node of its level, and so on */

static uint32_t divisor(int level) {
    uint32_t by = 1;
    while (level-- > 0) by *= FIELDS;
    return by;
}

/* Local TREE - LEVELS + level gets the node above the leaf. */
static hdt_local node_above(uint32_t leaf) {
    hdt_id id;
    must(hdt_static_get(&host, 0, TREE - LEVELS, 0, &id), "the root", leaf);
    for (int level = 1; level < LEVELS; level++)
        must(hdt_field_get(&host, 0, (hdt_local)(TREE - LEVELS + level), (hdt_local)(TREE - LEVELS + level - 1),
                           leaf / divisor(LEVELS - level) % FIELDS, &id), "a node", leaf);
    return TREE - 1;
}

static void make_node(hdt_local local) {
    hdt_id id;
    hdt_status status;
    CALL(status, hdt_object_new(&host, 0, local, FIELDS, 0, &id));
    must(status, "a node", local);
}

/* The nodes, each made below the one before it. */
static void make_tree(void) {
    make_node(TREE - LEVELS);
    must(hdt_static_set(&host, 0, 0, TREE - LEVELS), "the root", 0);
    for (int level = 1; level < LEVELS; level++)
        for (uint32_t leaf = 0; leaf < leaf_count; leaf += divisor(LEVELS - level)) {
            hdt_id id;
            for (int above = 1; above < level; above++)
                must(hdt_field_get(&host, 0, (hdt_local)(TREE - LEVELS + above), (hdt_local)(TREE - LEVELS + above - 1),
                                   leaf / divisor(LEVELS - above) % FIELDS, &id), "a node", leaf);
            make_node((hdt_local)(TREE - LEVELS + level));
            must(hdt_field_set(&host, 0, (hdt_local)(TREE - LEVELS + level - 1), leaf / divisor(LEVELS - level) % FIELDS,
                               (hdt_local)(TREE - LEVELS + level)), "a node", leaf);
        }
}

static uint32_t load_leaf(uint32_t leaf, hdt_local dst) {
    hdt_id id;
    must(hdt_field_get(&host, 0, dst, node_above(leaf), leaf % FIELDS, &id), "a leaf", leaf);
    uint32_t number = leaves[leaf];
    if (id != (number ? objects[number].id : 0)) fail("another object at leaf", leaf, HDT_OK);
    return number;
}

/* Any leaf with an object, which is loaded. */
static uint32_t load_any(hdt_local dst) {
    uint32_t leaf;
    do leaf = below(leaf_count);
    while (!leaves[leaf]);
    return load_leaf(leaf, dst);
}

/* ---- objects */

static void drop_leaf(uint32_t leaf) {
    uint32_t number = leaves[leaf];
    if (!number) return;
    must(hdt_local_clear(&host, 0, LOADED), "a local", leaf);
    must(hdt_field_set(&host, 0, node_above(leaf), leaf % FIELDS, LOADED), "a leaf", leaf);
    objects[number].is_leaf = false;
    leaves[leaf] = 0;
}

static void make_leaf(uint32_t leaf) {
    hdt_id id;
    hdt_status status;
    drop_leaf(leaf);
    if (object_count + 1 == object_room) return;
    CALL(status, hdt_object_new(&host, 0, LOADED, 2, 0, &id));
    must(status, "an object", leaf);
    must(hdt_value_set(&host, 0, LOADED, ++object_count), "a value", leaf);
    must(hdt_field_set(&host, 0, node_above(leaf), leaf % FIELDS, LOADED), "a leaf", leaf);
    objects[object_count] = (struct object){ .id = id, .is_leaf = true, .is_there = true };
    leaves[leaf] = object_count;
}

/* ---- handles */

static bool holds(const struct handle *it) {
    if (it->kind == HDT_VARIABLE) return it->strength == HDT_STRONG || it->strength == HDT_PINNED;
    return it->kind == HDT_STRONG || it->kind == HDT_PINNED || (it->kind == HDT_COUNTED && it->strength);
}

static void make_handle(hdt_kind kind) {
    hdt_status status;
    struct handle it = { .kind = (uint8_t)kind, .object = load_any(LOADED) };
    if (kind == HDT_DEPENDENT) it.second = load_any(OTHER);
    if (kind == HDT_VARIABLE) it.strength = (uint8_t)below(4);
    if (kind == HDT_COUNTED) it.strength = 1;
    uint32_t extra = kind == HDT_DEPENDENT ? OTHER : kind == HDT_VARIABLE ? it.strength : 0;
    CALL(status, hdt_handle_new(&host, 0, kind, LOADED, extra, &it.handle));
    must(status, "a handle", handle_count);
    if (kind == HDT_COUNTED && below(2)) {
        uint64_t count;
        must(hdt_count_down(&host, it.handle, &count), "a count", handle_count);
        it.strength = 0;
    }
    if (holds(&it)) objects[it.object].holds++;
    handles[handle_count++] = it;
}

static void free_handle(uint32_t at) {
    must(hdt_handle_free(&host, handles[at].handle), "a handle that is freed", at);
    if (holds(&handles[at])) objects[handles[at].object].holds--;
    handles[at] = handles[--handle_count];
}

static void check_handle(uint32_t at) {
    const struct handle *it = &handles[at];
    hdt_id id, wanted = objects[it->object].is_there ? objects[it->object].id : 0;
    uint64_t value;
    must(hdt_handle_load(&host, 0, it->handle, LOADED, &id, &value), "a target", at);
    if (id != wanted || value != (wanted ? it->object : 0)) fail("another target", at, HDT_OK);
    if (it->kind != HDT_DEPENDENT) return;
    must(hdt_secondary_get(&host, 0, it->handle, LOADED, &id), "a secondary", at);
    if (id != (wanted ? objects[it->second].id : 0)) fail("another secondary", at, HDT_OK);
}

/* ---- the weak table */

/* An entry of a key that may have one. */
static uint32_t add_entry(void) {
    hdt_status status;
    uint32_t key = load_any(LOADED), value = load_any(OTHER);
    CALL(status, hdt_table_add(&host, 0, LOADED, OTHER));
    if (objects[key].value && status == HDT_PRESENT) return 0;
    must(status, "an entry", key);
    if (objects[key].value) fail("a second entry", key, status);
    objects[key].value = value;
    return 1;
}

static void check_entry(void) {
    hdt_id id = 0;
    uint32_t key = load_any(LOADED);
    hdt_status status = hdt_table_find(&host, 0, OTHER, LOADED, &id);
    if (status != (objects[key].value ? HDT_OK : HDT_NONE)) fail("a search", key, status);
    if (objects[key].value && id != objects[objects[key].value].id) fail("another value", key, status);
}

/* ---- collections */

static void mark(uint32_t number) {
    if (!number || objects[number].is_marked) return;
    objects[number].is_marked = true;
    work[work_count++] = number;
}

/* What stays: what is older, at a leaf or held, and what is attached to that. */
static void mark_all(uint32_t generation) {
    for (uint32_t i = 1; i <= object_count; i++) objects[i].is_marked = false;
    for (uint32_t i = 1; i <= object_count; i++) {
        const struct object *it = &objects[i];
        if (it->is_there && (it->generation > generation || it->is_leaf || it->holds)) mark(i);
    }
    bool goes_on = true;
    while (goes_on) {
        while (work_count) mark(objects[work[--work_count]].value);
        goes_on = false;
        for (uint32_t i = 0; i < dependent_count; i++) {
            const struct handle *it = &handles[dependents[i]];
            if (!objects[it->object].is_marked || objects[it->second].is_marked) continue;
            mark(it->second);
            goes_on = true;
        }
    }
}

static void collect(uint32_t generation) {
    hdt_report report;
    hdt_status status;
    uint32_t kept = 0, removed = 0;
    for (hdt_local local = 0; local < TREE; local++) must(hdt_local_clear(&host, 0, local), "a local", local);
    dependent_count = 0;
    for (uint32_t i = 0; i < handle_count; i++)
        if (handles[i].kind == HDT_DEPENDENT) dependents[dependent_count++] = i;
    mark_all(generation);
    CALL(status, hdt_collect(&host, generation, &report));
    must(status, "a collection", generation);
    for (uint32_t i = 1; i <= object_count; i++) {
        struct object *it = &objects[i];
        if (!it->is_there || it->generation > generation) continue;
        it->is_there = it->is_marked;
        if (it->generation < 2) it->generation++;
        kept += it->is_there;
        removed += !it->is_there;
    }
    /* the nodes of the tree are kept besides */
    if (report.kept < kept || report.removed != removed) fail("objects that stay", report.kept, HDT_OK);
}

static double seconds(void) {
    struct timespec now;
    clock_gettime(CLOCK_MONOTONIC, &now);
    return (double)now.tv_sec + 1e-9 * (double)now.tv_nsec;
}

static double began;
static void tell(const char *what) {
    hdt_stats_out it = stats();
    printf("%6.1f s  %-31s %8u objects %8u handles %5u blocks, %4zu MB, %4zu at most; refused %lu of %lu, %lu without\n",
           seconds() - began, what, it.objects, it.handles, it.blocks, held >> 20, most >> 20, refused, requests, without);
    fflush(stdout);
}

static void collect_all(uint32_t generation, const char *what) {
    collect(generation);
    for (uint32_t i = 0; i < handle_count; i += generation == 2 ? 1 : 1 + below(79)) check_handle(i);
    for (uint32_t i = 0; i < scaled(100000); i++) check_entry();
    if (what) tell(what);
}

/* ---- the whole */

static void change_some(uint32_t number, bool with_handles) {
    for (uint32_t i = 0; i < number; i++) {
        uint32_t leaf = below(leaf_count);
        if (below(8) == 0) make_leaf(leaf);
        if (!with_handles || !handle_count) continue;
        uint32_t at = below(handle_count);
        hdt_kind kind = handles[at].kind;
        free_handle(at);
        make_handle(kind);
    }
}

int main(int count, char **words) {
    static const uint32_t of_kind[KINDS] = { 1000000, 1000000, 1000000, 850000, 50000, 50000, 50000 };
    hdt_limits limits = { CELLS, BLOCKS, 1 };
    uint32_t given;
    if (count > 1) per_mille = (uint32_t)strtoul(words[1], NULL, 10);
    if (count > 2) seed += strtoull(words[2], NULL, 10);
    began = seconds();
    leaf_count = scaled(3000000);
    handle_room = scaled(4000000) + KINDS;
    object_room = scaled(8000000) + 1;
    objects = room_for(object_room, sizeof *objects);
    work = room_for(object_room, sizeof *work);
    leaves = room_for(leaf_count, sizeof *leaves);
    handles = room_for(handle_room, sizeof *handles);
    dependents = room_for(handle_room, sizeof *dependents);
    is_host = true;
    must(hdt_open(&host, &limits), "hdt_open", 0);
    is_host = false;
    tell("opened");

    make_tree();
    for (uint32_t leaf = 0; leaf < leaf_count; leaf++) make_leaf(leaf);
    tell("objects are made");
    every = 3;
    /* the kinds in random order, each as often as it comes to */
    uint32_t left[KINDS], all = 0;
    for (int kind = 0; kind < KINDS; kind++) all += left[kind] = scaled(of_kind[kind]);
    while (all) {
        hdt_kind kind = 0;
        for (uint32_t at = below(all); at >= left[kind]; kind++) at -= left[kind];
        make_handle(kind);
        left[kind]--;
        all--;
    }
    tell("handles are made");
    change_some(scaled(2000000), true);
    tell("freed and made in random order");
    collect_all(2, "collect 2");
    for (int i = 0; i < YOUNG / 2; i++) {
        change_some(scaled(40000), true);
        collect_all(0, i + 1 == YOUNG / 2 ? "25 times collect 0" : NULL);
    }

    /* the weak table needs the blocks of two kinds */
    for (uint32_t i = handle_count; i-- > 0;)
        if (handles[i].kind == HDT_WEAK_SHORT || handles[i].kind == HDT_WEAK_LONG) free_handle(i);
    must(hdt_trim_all(&host, &given), "hdt_trim_all", 0);
    tell("half of the handles are freed");
    for (uint32_t entries = 0; entries < scaled(1000000);) entries += add_entry();
    tell("entries are added");
    collect_all(2, "collect 2");
    for (int i = 0; i < YOUNG / 2; i++) {
        change_some(scaled(40000), i % 2);
        collect_all(0, i + 1 == YOUNG / 2 ? "25 times collect 0" : NULL);
    }
    collect_all(2, "collect 2");
    tell("the end");

    is_host = true;
    hdt_close(&host);
    is_host = false;
    if (held) fail("memory that is held after hdt_close", (uint32_t)held, HDT_OK);
    if (per_mille >= 1000 && refused < PLACES) fail("places at which memory was refused", (uint32_t)refused, HDT_OK);
    return 0;
}
