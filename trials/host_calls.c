/* Calls of the C library at random, by one thread, beside a model of what a host has: locals and statics; objects with their
 * fields, values, generations and registrations; handles, entries of the weak table and the slots that it leaves idle; blocks by
 * kind; and counts. Each call is made as the model has it, or is to be refused, and then writes nothing.
 *
 *   host_calls [CALLS [SEED]]      100,000 calls where no number is named
 */
#include "hdt.h"
#include <stdio.h>
#include <stdlib.h>
#include <string.h>

enum { CONTEXTS = 3, LOCALS = 16, STATICS = 16, FIELDS = 4, CELLS = 3000, OBJECTS = CELLS / 3 + 2, BLOCKS = 12, ROWS = 64,
       REGION = 256, SLOTS = ROWS * (BLOCKS + 1), KINDS = 7, UNUSED = -1 };

/* Objects are numbered in the model; 0 is null. */
struct object {
    hdt_id id; /* 0: it is not there */
    uint64_t value;
    int fields[FIELDS];
    uint32_t count, generation;
    bool is_registered, is_reached;
};

struct row {
    enum { FREE, HANDLE, IDLE, ENTRY } is;
    hdt_handle handle;
    hdt_kind kind;
    int target, second; /* or key and value */
    uint32_t extra;     /* strength or count */
};

/* What calls write. */
struct out {
    hdt_id id, ids[LOCALS];
    uint64_t value;
    hdt_handle handle;
    size_t count;
    uint32_t number, next;
    hdt_object_out object;
    hdt_report report;
    hdt_stats_out stats;
    hdt_sizes_out sizes;
    hdt_handle_info rows[24];
};

static hdt_host host = HDT_CLOSED_HOST;
static struct object objects[OBJECTS];
static int locals[CONTEXTS][LOCALS], statics[STATICS], queue[OBJECTS];
static uint32_t made[CONTEXTS];
static struct row rows[SLOTS];
static int uses[BLOCKS + 1]; /* a kind, or UNUSED; what has the data of paired kinds is counted alone */
static uint32_t data_blocks, queued;
static unsigned long number, done[64];
static uint64_t chance;
static hdt_status status;
static struct out out, untouched;
static const char *what = "";

static void expect(bool is, const char *why) {
    if (is) return;
    fprintf(stderr, "host_calls: call %lu, %s, %s: %s\n", number, what, hdt_status_name(status), why);
    exit(1);
}

static uint32_t any(uint32_t below) {
    chance = chance * 6364136223846793005u + 1442695040888963407u;
    return (uint32_t)(chance >> 33) % below;
}

/* A call by its name. Where it is not done it writes nothing. */
#define CALL(name, ...)                                                                                          \
    do {                                                                                                         \
        what = #name;                                                                                            \
        memcpy(&out, &untouched, sizeof out);                                                                    \
        status = hdt_##name(&host, __VA_ARGS__);                                                                 \
        expect(status == HDT_OK || memcmp(&out, &untouched, sizeof out) == 0, "not done, but something is written"); \
    } while (0)

static void due(hdt_status wanted) { expect(status == wanted, hdt_status_name(wanted)); }

/* ---- objects of the model */

static uint32_t cells_used(void) {
    uint32_t used = 0;
    for (int i = 1; i < OBJECTS; i++)
        if (objects[i].id) used += objects[i].count + 3;
    return used;
}

static hdt_id id_of(int object) { return objects[object].id; }

/* The new object of a context in a local; its fields are what the locals referenced before, or null. */
static void add_object(hdt_context c, hdt_local dst, uint32_t flags, uint64_t value, const hdt_local *src, uint32_t fields) {
    int at = 1;
    while (objects[at].id) at++;
    struct object *object = &objects[at];
    memset(object, 0, sizeof *object);
    object->id = (hdt_id)c << 32 | ++made[c];
    object->value = value;
    object->count = fields;
    object->is_registered = flags == HDT_FINALIZABLE;
    for (uint32_t i = 0; i < fields; i++) object->fields[i] = src ? locals[c][src[i]] : 0;
    locals[c][dst] = at;
    expect(out.id == object->id, "another identity");
}

static void reach(int object) {
    if (object == 0 || objects[object].is_reached) return;
    objects[object].is_reached = true;
    for (uint32_t i = 0; i < objects[object].count; i++) reach(objects[object].fields[i]);
}

static bool holds(const struct row *row) {
    if (row->is != HANDLE) return false;
    if (row->kind == HDT_VARIABLE) return row->extra >= HDT_STRONG;
    return row->kind == HDT_STRONG || row->kind == HDT_PINNED || (row->kind == HDT_COUNTED && row->extra > 0);
}

static bool is_short(const struct row *row) {
    return row->kind == HDT_WEAK_SHORT || (row->kind == HDT_VARIABLE && row->extra == HDT_WEAK_SHORT);
}

static bool is_pair(const struct row *row) { return row->is == ENTRY || (row->is == HANDLE && row->kind == HDT_DEPENDENT); }

/* What pairs attach to what is reached. */
static void reach_seconds(void) {
    for (bool again = true; again;) {
        again = false;
        for (int slot = ROWS; slot < SLOTS; slot++) {
            const struct row *row = &rows[slot];
            if (!is_pair(row) || !objects[row->target].is_reached || row->second == 0 || objects[row->second].is_reached) continue;
            reach(row->second);
            again = true;
        }
    }
}

static void reach_roots(uint32_t generation) {
    for (int i = 0; i < OBJECTS; i++) objects[i].is_reached = false;
    for (int c = 0; c < CONTEXTS; c++)
        for (int i = 0; i < LOCALS; i++) reach(locals[c][i]);
    for (int i = 0; i < STATICS; i++) reach(statics[i]);
    for (uint32_t i = 0; i < queued; i++) reach(queue[i]);
    for (int slot = ROWS; slot < SLOTS; slot++)
        if (holds(&rows[slot])) reach(rows[slot].target);
    for (int i = 1; i < OBJECTS; i++)
        if (objects[i].id && objects[i].generation > generation) reach(i);
    reach_seconds();
}

static int by_identity(const void *one, const void *other) {
    hdt_id a = id_of(*(const int *)one), b = id_of(*(const int *)other);
    return a < b ? -1 : a > b;
}

/* What is registered and not reached joins the queue, by rising identity. */
static void queue_unreached(hdt_report *report) {
    uint32_t first = queued;
    for (int i = 1; i < OBJECTS; i++) {
        if (!objects[i].id || !objects[i].is_registered || objects[i].is_reached) continue;
        objects[i].is_registered = false;
        queue[queued++] = i;
    }
    qsort(queue + first, queued - first, sizeof *queue, by_identity);
    report->revived = queued - first;
    for (uint32_t i = first; i < queued; i++) reach(queue[i]);
    reach_seconds();
}

/* Handles that do not hold, and are short or are not, and entries, whose target is not reached. */
static void clear_unreached(bool shorts, hdt_report *report) {
    for (int slot = ROWS; slot < SLOTS; slot++) {
        struct row *row = &rows[slot];
        if (row->is == FREE || row->is == IDLE || holds(row) || (row->is == HANDLE && is_short(row)) != shorts) continue;
        if (row->target == 0 || objects[row->target].is_reached) continue;
        if (shorts) report->cleared_short++;
        else if (is_pair(row)) report->cleared_dependent++;
        else report->cleared_long++;
        row->target = row->second = 0;
        if (row->is == ENTRY) row->is = IDLE;
    }
}

static void collect(uint32_t generation) {
    hdt_report due_report = { 0, 0, 0, 0, 0, 0 };
    CALL(collect, generation, &out.report);
    due(HDT_OK);
    reach_roots(generation);
    clear_unreached(true, &due_report);
    queue_unreached(&due_report);
    clear_unreached(false, &due_report);
    for (int i = 1; i < OBJECTS; i++) {
        struct object *object = &objects[i];
        if (!object->id) continue;
        if (!object->is_reached) {
            object->id = 0;
            due_report.removed++;
        } else if (object->generation <= generation) {
            due_report.kept++;
            if (object->generation < 2) object->generation++;
        }
    }
    expect(memcmp(&due_report, &out.report, sizeof due_report) == 0, "another report");
}

/* ---- slots of the model */

static bool is_paired(hdt_kind kind) { return kind >= HDT_VARIABLE; }

static uint32_t blocks_used(void) {
    uint32_t used = data_blocks;
    for (int block = 1; block <= BLOCKS; block++) used += uses[block] != UNUSED;
    return used;
}

static bool has_free(hdt_kind kind) {
    for (int slot = ROWS; slot < SLOTS; slot++)
        if (uses[slot / ROWS] == (int)kind && rows[slot].is == FREE) return true;
    return false;
}

/* Whether a call that needs a slot of a kind finds one; the slot that it then gave, and the block by which the table grew. */
static bool finds_slot(hdt_kind kind, bool *grows) {
    *grows = !has_free(kind);
    return !*grows || blocks_used() + 1 + is_paired(kind) <= BLOCKS;
}

static struct row *given_slot(hdt_kind kind, bool grows, int idle) {
    hdt_change change;
    expect(hdt_last(&host, &change) == HDT_OK, "no last change");
    uint32_t block = change.slot / ROWS;
    expect(change.slot >= ROWS && change.slot < SLOTS, "a slot out of range");
    expect((change.block != 0) == grows && (change.data_block != 0) == (grows && is_paired(kind)), "another growth");
    if (idle) expect(change.slot == (uint32_t)idle, "not the least idle slot");
    if (grows) {
        expect(change.block == block && uses[block] == UNUSED, "the table grew by a block that is in use");
        uses[block] = (int)kind;
        data_blocks += is_paired(kind);
    }
    expect(uses[block] == (int)kind && (idle || rows[change.slot].is == FREE), "a slot that is not free");
    return &rows[change.slot];
}

static int entry_of(int key) {
    for (int slot = ROWS; slot < SLOTS; slot++)
        if (rows[slot].is == ENTRY && rows[slot].target == key) return slot;
    return 0;
}

static int least_idle(void) {
    for (int slot = ROWS; slot < SLOTS; slot++)
        if (rows[slot].is == IDLE) return slot;
    return 0;
}

static int any_handle(void) {
    int from = ROWS + (int)any(SLOTS - ROWS);
    for (int i = 0; i < SLOTS - ROWS; i++) {
        int slot = ROWS + (from + i) % (SLOTS - ROWS);
        if (rows[slot].is == HANDLE) return slot;
    }
    return 0;
}

static bool is_spare(int block) {
    for (int slot = block * ROWS; slot < block * ROWS + ROWS; slot++)
        if (rows[slot].is != FREE && rows[slot].is != IDLE) return false;
    return true;
}

/* The least spare block of a kind is given back, if there is one, with its data block; how many these are. */
static uint32_t give_back(hdt_kind kind, int *which) {
    for (*which = 1; *which <= BLOCKS; ++*which) {
        if (uses[*which] != (int)kind || !is_spare(*which)) continue;
        uses[*which] = UNUSED;
        for (int slot = *which * ROWS; slot < *which * ROWS + ROWS; slot++) rows[slot].is = FREE;
        data_blocks -= is_paired(kind);
        return 1 + is_paired(kind);
    }
    return *which = 0;
}

/* ---- the calls, each at random and beside the model */

static hdt_context c;
static hdt_local a, b, d; /* at random, for each call */

static void object_new(void) {
    uint32_t fields = any(FIELDS + 1), flags = any(4) == 0 ? HDT_FINALIZABLE : 0;
    CALL(object_new, c, d, fields, flags, &out.id);
    if (status == HDT_OK) add_object(c, d, flags, 0, NULL, fields);
    else due(HDT_HEAP_FULL);
    if (status == HDT_HEAP_FULL) expect(cells_used() + fields + 3 > CELLS, "it is not full");
    if (status == HDT_HEAP_FULL) collect(any(2) * 2);
}

static void object_make(void) {
    uint32_t fields = any(FIELDS + 1), flags = any(4) == 0 ? HDT_FINALIZABLE : 0;
    uint64_t value = (uint64_t)any(1u << 31) << 33 | any(1u << 31);
    hdt_local src[FIELDS];
    for (int i = 0; i < FIELDS; i++) src[i] = any(LOCALS);
    bool is_full = cells_used() + fields + 3 > CELLS;
    CALL(object_make, c, d, flags, value, src, fields, &out.id);
    due(is_full ? HDT_HEAP_FULL : HDT_OK);
    if (is_full) collect(any(2) * 2);
    else add_object(c, d, flags, value, src, fields);
}

static void field_load(void) {
    const struct object *object = &objects[locals[c][a]];
    uint32_t i = any(FIELDS);
    CALL(field_load, c, d, a, i, &out.id, &out.value);
    due(!object->id ? HDT_NULL : i >= object->count ? HDT_NO_FIELD : HDT_OK);
    if (status != HDT_OK) return;
    int found = object->fields[i];
    expect(out.id == id_of(found) && out.value == (found ? objects[found].value : 0), "another field");
    locals[c][d] = found;
}

static void field_set(void) {
    struct object *object = &objects[locals[c][a]];
    uint32_t i = any(FIELDS);
    CALL(field_set, c, a, i, b);
    due(!object->id ? HDT_NULL : i >= object->count ? HDT_NO_FIELD : HDT_OK);
    if (status == HDT_OK) object->fields[i] = locals[c][b];
}

static void value_set(void) {
    CALL(value_set, c, a, number);
    due(locals[c][a] ? HDT_OK : HDT_NULL);
    if (status == HDT_OK) objects[locals[c][a]].value = number;
}

static void registration(void) {
    bool is_on = any(2);
    if (is_on) CALL(reregister, c, a);
    else CALL(suppress, c, a);
    due(locals[c][a] ? HDT_OK : HDT_NULL);
    if (status == HDT_OK) objects[locals[c][a]].is_registered = is_on;
}

static void object_info(void) {
    const struct object *object = &objects[locals[c][a]];
    CALL(object_info, c, a, &out.object);
    due(object->id ? HDT_OK : HDT_NULL);
    if (!object->id) return;
    expect(out.object.id == object->id && out.object.value == object->value, "another object");
    expect(out.object.fields == object->count, "another number of fields");
    expect(out.object.generation == object->generation, "another generation");
    expect(out.object.finalizable == object->is_registered, "another registration");
}

static void local_pass(void) {
    hdt_context to = any(CONTEXTS);
    CALL(local_pass, to, d, c, a, &out.id);
    due(HDT_OK);
    locals[to][d] = locals[c][a];
    expect(out.id == id_of(locals[c][a]), "another object");
}

static void locals_clear(void) {
    uint32_t n = any(LOCALS + 1 - a);
    CALL(locals_clear, c, a, n);
    due(HDT_OK);
    for (uint32_t i = a; i < a + n; i++) locals[c][i] = 0;
}

static void all_locals(void) {
    CALL(locals, c, out.ids, LOCALS);
    due(HDT_OK);
    for (int i = 0; i < LOCALS; i++) expect(out.ids[i] == id_of(locals[c][i]), "another object in a local");
}

static void context_left(void) {
    CALL(context_left, c, &out.number);
    due(HDT_OK);
    expect(out.number == UINT32_MAX - made[c], "another number of objects");
}

static void a_static(void) {
    uint32_t k = any(STATICS);
    bool sets = any(2);
    if (sets) CALL(static_set, c, k, a);
    else CALL(static_get, c, d, k, &out.id);
    due(HDT_OK);
    if (sets) statics[k] = locals[c][a];
    if (sets) return;
    expect(out.id == id_of(statics[k]), "another static");
    locals[c][d] = statics[k];
}

static void handle_new(void) {
    hdt_kind kind = any(KINDS);
    uint32_t extra = kind == HDT_VARIABLE ? any(4) : kind == HDT_DEPENDENT ? b : 0;
    bool grows, finds = finds_slot(kind, &grows);
    CALL(handle_new, c, kind, a, extra, &out.handle);
    due(finds ? HDT_OK : HDT_TABLE_FULL);
    if (!finds) return;
    struct row *row = given_slot(kind, grows, 0);
    expect((out.handle & 0xffffff) == (uint64_t)(row - rows), "a handle of another slot");
    int target = locals[c][a], second = kind == HDT_DEPENDENT && target ? locals[c][b] : 0;
    *row = (struct row){ HANDLE, out.handle, kind, target, second, kind == HDT_COUNTED ? 1 : kind == HDT_VARIABLE ? extra : 0 };
}

static void handle_free(void) {
    int slot = any_handle();
    if (slot == 0) return;
    CALL(handle_free, rows[slot].handle);
    due(HDT_OK);
    hdt_handle freed = rows[slot].handle;
    memset(&rows[slot], 0, sizeof rows[slot]);
    CALL(handle_id, freed, &out.id);
    due(HDT_STALE);
    CALL(handle_load, c, freed, d, &out.id, &out.value);
    due(HDT_STALE);
}

static void handle_load(void) {
    int slot = any_handle();
    if (slot == 0) return;
    CALL(handle_load, c, rows[slot].handle, d, &out.id, &out.value);
    due(HDT_OK);
    const struct object *target = &objects[rows[slot].target];
    expect(out.id == target->id && out.value == (target->id ? target->value : 0), "another target");
    locals[c][d] = rows[slot].target;
}

static void handle_id(void) {
    int slot = any_handle();
    if (slot == 0) return;
    CALL(handle_id, rows[slot].handle, &out.id);
    due(HDT_OK);
    expect(out.id == id_of(rows[slot].target), "another target");
}

static void handle_set(void) {
    int slot = any_handle();
    if (slot == 0) return;
    CALL(handle_set, c, rows[slot].handle, a);
    bool is_wrong = rows[slot].kind == HDT_DEPENDENT && locals[c][a];
    due(is_wrong ? HDT_WRONG_KIND : HDT_OK);
    if (is_wrong) return;
    rows[slot].target = locals[c][a];
    rows[slot].second = 0;
}

static void count(void) {
    int slot = any_handle();
    if (slot == 0) return;
    struct row *row = &rows[slot];
    bool is_up = any(2);
    if (is_up) CALL(count_up, row->handle, &out.value);
    else CALL(count_down, row->handle, &out.value);
    due(row->kind != HDT_COUNTED ? HDT_WRONG_KIND : !is_up && row->extra == 0 ? HDT_COUNT_ZERO : HDT_OK);
    if (status != HDT_OK) return;
    row->extra = is_up ? row->extra + 1 : row->extra - 1;
    expect(out.value == row->extra, "another count");
}

static void strength(void) {
    int slot = any_handle();
    if (slot == 0) return;
    hdt_kind to = any(4);
    CALL(strength_set, rows[slot].handle, to);
    due(rows[slot].kind == HDT_VARIABLE ? HDT_OK : HDT_WRONG_KIND);
    if (status == HDT_OK) rows[slot].extra = to;
}

static void secondary(void) {
    int slot = any_handle();
    if (slot == 0) return;
    struct row *row = &rows[slot];
    CALL(secondary_set, c, row->handle, a);
    due(row->kind != HDT_DEPENDENT ? HDT_WRONG_KIND : row->target ? HDT_OK : HDT_NULL);
    if (status == HDT_OK) row->second = locals[c][a];
    CALL(secondary_get, c, row->handle, d, &out.id);
    due(row->kind == HDT_DEPENDENT ? HDT_OK : HDT_WRONG_KIND);
    if (status != HDT_OK) return;
    expect(out.id == id_of(row->second), "another secondary");
    locals[c][d] = row->second;
}

/* The entry of a key, by hdt_table_add, or by hdt_table_set in place of one that it has. */
static void entry(bool sets) {
    int key = locals[c][a], had = key ? entry_of(key) : 0;
    if (sets && had) rows[had].is = IDLE;
    int idle = least_idle();
    bool grows = false, finds = idle != 0 || finds_slot(HDT_DEPENDENT, &grows);
    if (sets) CALL(table_set, c, a, b);
    else CALL(table_add, c, a, b);
    due(!key ? HDT_NULL : had && !sets ? HDT_PRESENT : finds ? HDT_OK : HDT_TABLE_FULL);
    if (status != HDT_OK) return;
    if (sets && had) rows[had].target = rows[had].second = 0;
    struct row *row = given_slot(HDT_DEPENDENT, grows, idle);
    *row = (struct row){ ENTRY, 0, HDT_DEPENDENT, key, locals[c][b], 0 };
}
static void table_add(void) { entry(false); }
static void table_set(void) { entry(true); }

static void table_find(void) {
    int key = locals[c][a], had = key ? entry_of(key) : 0;
    CALL(table_find, c, d, a, &out.id);
    due(!key ? HDT_NULL : had ? HDT_OK : HDT_NONE);
    if (had) expect(out.id == id_of(rows[had].second), "another value");
    if (key) locals[c][d] = had ? rows[had].second : 0;
}

static void table_remove(void) {
    int key = locals[c][a], had = key ? entry_of(key) : 0;
    CALL(table_remove, c, a);
    due(!key ? HDT_NULL : had ? HDT_OK : HDT_NONE);
    if (!had) return;
    memset(&rows[had], 0, sizeof rows[had]);
    rows[had].is = IDLE;
}

/* All live handles of a set of kinds, a few at a time. */
static void handles_of(void) {
    uint32_t kinds = 1 + any((1u << KINDS) - 1), cleared = any(2), from = 0;
    size_t room = any(24) + 1;
    int slot = ROWS;
    do {
        CALL(handles_of, kinds, cleared, from, out.rows, room, &out.count, &out.next);
        due(HDT_OK);
        expect(out.count <= room && (out.next == 0 || out.count == room), "too many or too few");
        for (size_t i = 0; i < out.count; i++, slot++) {
            const hdt_handle_info *info = &out.rows[i];
            while (slot < SLOTS && (rows[slot].is != HANDLE || !(kinds >> rows[slot].kind & 1) || (cleared && rows[slot].target)))
                slot++;
            expect(slot < SLOTS && info->handle == rows[slot].handle && info->kind == rows[slot].kind, "another handle");
            expect(info->target == id_of(rows[slot].target) && info->extra == rows[slot].extra, "another target or extra");
        }
    } while ((from = out.next) != 0);
    for (; slot < SLOTS; slot++)
        expect(rows[slot].is != HANDLE || !(kinds >> rows[slot].kind & 1) || (cleared && rows[slot].target), "one is left out");
}

static void stats(void) {
    hdt_stats_out due_stats = { 0, cells_used(), 0, blocks_used(), queued };
    for (int i = 1; i < OBJECTS; i++) due_stats.objects += objects[i].id != 0;
    for (int slot = ROWS; slot < SLOTS; slot++) due_stats.handles += rows[slot].is == HANDLE;
    CALL(stats, &out.stats);
    expect(memcmp(&due_stats, &out.stats, sizeof due_stats) == 0, "other counts");
}

/* Which regions objects are in is no part of the model. */
static void sizes(void) {
    hdt_sizes_out due_sizes = { { 0 }, { 0 }, { 0 }, { 0 }, 0 };
    CALL(sizes, &out.sizes);
    for (int i = 1; i < OBJECTS; i++) {
        if (!objects[i].id) continue;
        due_sizes.objects[objects[i].generation]++;
        due_sizes.cells[objects[i].generation] += objects[i].count + 3;
    }
    for (int slot = ROWS; slot < SLOTS; slot++) {
        int use = uses[slot / ROWS];
        if (use != UNUSED) due_sizes.free_slots[use] += rows[slot].is == FREE;
        due_sizes.idle_slots += rows[slot].is == IDLE;
    }
    for (int i = 0; i < 3; i++) {
        expect(out.sizes.cells[i] <= REGION * out.sizes.regions[i], "too few regions");
        due_sizes.regions[i] = out.sizes.regions[i];
    }
    expect(memcmp(&due_sizes, &out.sizes, sizeof due_sizes) == 0, "other sizes");
}

static void trim(void) {
    hdt_kind kind = any(KINDS);
    hdt_change change;
    int block;
    CALL(trim, kind, &out.number);
    due(HDT_OK);
    expect(out.number == give_back(kind, &block), "another number of blocks");
    expect(hdt_last(&host, &change) == HDT_OK && change.given_back == (uint32_t)block, "another block");
    expect((change.data_block != 0) == (block != 0 && is_paired(kind)), "another data block");
}

static void trim_all(void) {
    uint32_t given = 0;
    int block;
    CALL(trim_all, &out.number);
    due(HDT_OK);
    for (hdt_kind kind = 0; kind < KINDS; kind++)
        for (uint32_t one; (one = give_back(kind, &block)) != 0;) given += one;
    expect(out.number == given, "another number of blocks");
}

static void collecting(void) { collect(any(3)); }

static void final_next(void) {
    CALL(final_next, c, d, &out.id);
    due(queued ? HDT_OK : HDT_NONE);
    locals[c][d] = queued ? queue[0] : 0;
    if (!queued) return;
    expect(out.id == id_of(queue[0]), "another object of the queue");
    memmove(queue, queue + 1, --queued * sizeof *queue);
}

/* What is out of range is found first, and nothing is done. */
static void out_of_range(void) {
    uint32_t over = 16 + any(1u << 30);
    static hdt_local many[1100]; /* 0 */
    hdt_local src[FIELDS] = { a, b, over, d };
    switch (any(18)) {
    case 0: CALL(object_make, c, d, 0, 0, src, 3, &out.id); break;
    case 1: CALL(object_make, c, d, 2 + any(100), 0, src, 2, &out.id); break;
    case 2: CALL(object_make, c, d, 0, 0, many, 62 + any(1000), &out.id); break;
    case 3: CALL(object_make, CONTEXTS + any(100), d, 0, 0, src, 2, &out.id); break;
    case 4: CALL(field_load, c, over, a, 0, &out.id, &out.value); break;
    case 5: CALL(field_load, c, d, over, 0, &out.id, &out.value); break;
    case 6: CALL(handle_load, c, 0, over, &out.id, &out.value); break;
    case 7: CALL(local_pass, CONTEXTS + any(100), d, c, a, &out.id); break;
    case 8: CALL(local_pass, c, d, CONTEXTS + any(100), a, &out.id); break;
    case 9: CALL(local_pass, c, over, c, a, &out.id); break;
    case 10: CALL(locals_clear, c, 17 + any(100), 0); break;
    case 11: CALL(locals_clear, c, a, 17 - a + any(100)); break;
    case 12: CALL(locals, c, out.ids, any(16)); break;
    case 13: CALL(context_left, CONTEXTS + any(100), &out.number); break;
    case 14: CALL(handles_of, 0, 0, 0, out.rows, 4, &out.count, &out.next); break;
    case 15: CALL(handles_of, 128u << any(24), 0, 0, out.rows, 4, &out.count, &out.next); break;
    case 16: CALL(handles_of, 1, 2 + any(100), 0, out.rows, 4, &out.count, &out.next); break;
    default: CALL(table_set, c, a, over); break;
    }
    due(HDT_ARGUMENT);
}

static void of_no_handle(void) {
    hdt_handle none = (hdt_handle)any(1u << 20) << 44 | (hdt_handle)(1 + any(1u << 16)) << 24 | any(SLOTS + 100);
    if ((none & 0xffffff) < SLOTS && rows[none & 0xffffff].handle == none) return;
    CALL(handle_id, none, &out.id);
    due(HDT_STALE);
    CALL(handle_load, c, none, d, &out.id, &out.value);
    due(HDT_STALE);
}

/* ---- all of it */

#define ROW(name, often) { #name, name, often }
static const struct {
    const char *name;
    void (*call)(void);
    uint32_t often;
} calls[] = {
    ROW(object_new, 3), ROW(object_make, 8), ROW(field_load, 8), ROW(field_set, 4), ROW(value_set, 4), ROW(registration, 1),
    ROW(object_info, 4), ROW(local_pass, 8), ROW(locals_clear, 2), ROW(all_locals, 2), ROW(context_left, 1), ROW(a_static, 2),
    ROW(handle_new, 14), ROW(handle_free, 10), ROW(handle_load, 6), ROW(handle_id, 6), ROW(handle_set, 3), ROW(count, 3),
    ROW(strength, 3), ROW(secondary, 2), ROW(table_add, 4), ROW(table_set, 8), ROW(table_find, 3), ROW(table_remove, 3),
    ROW(handles_of, 2), ROW(sizes, 1), ROW(stats, 1), ROW(trim, 2), ROW(trim_all, 1), ROW(collecting, 1), ROW(final_next, 2),
    ROW(out_of_range, 3), ROW(of_no_handle, 1),
};
enum { CALLS = sizeof calls / sizeof *calls };

/* Now and then most handles and entries go, so that blocks come back. */
static void free_most(void) {
    for (int i = 0; i < 400; i++) handle_free();
    for (c = 0; c < CONTEXTS; c++)
        for (a = 0; a < LOCALS; a++) table_remove();
}

int main(int count, char **words) {
    unsigned long total = count > 1 ? strtoul(words[1], NULL, 10) : 100000;
    uint32_t weights = 0;
    chance = count > 2 ? strtoull(words[2], NULL, 10) : 1;
    memset(&untouched, 0x5a, sizeof untouched);
    for (int block = 0; block <= BLOCKS; block++) uses[block] = UNUSED;
    for (int i = 0; i < CALLS; i++) weights += calls[i].often;
    hdt_limits limits = { CELLS, BLOCKS, CONTEXTS };
    if (hdt_open(&host, &limits) != HDT_OK) return 2;
    for (number = 1; number <= total; number++) {
        int which = 0;
        for (uint32_t at = any(weights); at >= calls[which].often; which++) at -= calls[which].often;
        c = any(CONTEXTS), a = any(LOCALS), b = any(LOCALS), d = any(LOCALS);
        calls[which].call();
        done[which] += status == HDT_OK;
        if (any(20000) == 0) free_most();
    }
    for (int i = 0; i < CALLS; i++) {
        bool is_refused = calls[i].call == out_of_range || calls[i].call == of_no_handle;
        expect(total < 100000 || done[i] > 0 || is_refused, calls[i].name);
    }
    stats();
    hdt_close(&host);
    printf("%lu calls\n", total);
    return 0;
}
