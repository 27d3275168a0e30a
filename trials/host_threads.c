/* Threads that call one host of the C library at once, each by its own end, beside a model of what it alone has.
 *
 *   host_threads [THREADS [CALLS [SEED]]]      2 to 16 threads, 4 where none is named, 100,000 rounds each
 *
 * A round is a call at random, some with calls that look at what it came to. A thread knows what its own locals, statics,
 * objects and entries have, and of each handle that it alone has the target, or that this is gone; handles go from thread to
 * thread over queues of the program. So it finds a slot that is given twice, a handle that is taken though it was freed, an
 * object that is lost, another end's locals or fields, an object that is finalized twice or never, an address that changes while
 * it is pinned, a busy call that did something, and a turn that two ends have or none. Four times the ends go to other threads;
 * each thread closes its own at last, every other with an object in a local, which stays until the last end is closed. With
 * -fsanitize=thread, which does not see the gate, races of the program alone are reported. */
#define _GNU_SOURCE
#include "hdt.h"
#include <pthread.h>
#include <stdatomic.h>
#include <stdio.h>
#include <stdlib.h>
#include <string.h>

enum { MOST = 16, CONTEXTS = 16, LOCALS = 16, PEEK = 15, FIELDS = 3, STATICS = 16, HOLDS = 48, INBOX = 32, GRAVES = 1024 };
enum { CELLS = 200000, BLOCKS = 64, SLOTS = 64 * (BLOCKS + 1), PHASES = 4, ROWS = 16 };
#define NO_CELL UINT32_MAX

/* A local that has kept an object since, if it was not written meanwhile. */
struct home {
    bool is;
    unsigned c, d;
    uint64_t written;
};

/* A handle that one thread has, and what it knows of it. */
struct hold {
    hdt_handle handle;
    hdt_kind kind;
    uint32_t extra, slot, cell;
    hdt_id target, second;
    bool sure; /* the target is that, since it is null or the handle itself has kept it */
    struct home home;
};

/* An object that this end made. */
struct thing {
    hdt_id fields[FIELDS], entry;
    struct home entry_home; /* of the key, since the entry was there */
    bool has_entry;
    uint8_t count, generation;
};

/* What calls write. */
struct out {
    hdt_id id;
    hdt_handle handle;
    uint64_t value;
    size_t count;
    uint32_t number, next;
    hdt_report report;
    hdt_root root;
    hdt_stats_out stats;
    hdt_handle_info rows[ROWS];
    hdt_id ids[LOCALS];
    hdt_object_out object;
    hdt_sizes_out sizes;
};

struct worker {
    hdt_host *end;
    unsigned number;
    uint64_t chance, calls, turns, busy, last_turn;
    hdt_status status;
    struct out out;
    hdt_id locals[CONTEXTS][LOCALS], statics[STATICS];
    uint64_t written[CONTEXTS][LOCALS];
    struct thing *things[CONTEXTS];
    size_t made[CONTEXTS], room[CONTEXTS];
    struct hold holds[HOLDS];
    size_t holding;
    pthread_mutex_t lock; /* of the inbox alone */
    struct hold inbox[INBOX];
    size_t waiting;
};

static hdt_host ends[MOST]; /* all bytes 0: closed */
static struct worker workers[MOST];
static unsigned threads = 4, each; /* contexts of an end */
static unsigned long rounds = 100000;
static struct out untouched;
static _Atomic unsigned char live[SLOTS];          /* whether some thread has a handle there */
static _Atomic unsigned char *registered[CONTEXTS]; /* by context of the host and serial: is to be finalized once */
static _Atomic hdt_handle graves[GRAVES];           /* handles that were freed */
static pthread_barrier_t all;

#ifdef __SANITIZE_THREAD__
const char *__tsan_default_suppressions(void);
const char *__tsan_default_suppressions(void) { return "race:^hdt_\nrace:^rattle_\nrace:::\n"; } /* of the library */
#endif

static void expect(struct worker *me, bool is, const char *what) {
    if (is) return;
    fprintf(stderr, "host_threads: end %u, call %llu, %s: %s\n", me->number, (unsigned long long)me->calls,
            hdt_status_name(me->status), what);
    _Exit(1);
}

static uint32_t any(struct worker *me, uint32_t below) {
    me->chance = me->chance * 6364136223846793005u + 1442695040888963407u;
    return (uint32_t)(me->chance >> 33) % below;
}

/* ---- calls */

static bool is_busy(struct worker *me) {
    if (me->status != HDT_BUSY) return false;
    me->busy++;
    expect(me, memcmp(&me->out, &untouched, sizeof untouched) == 0, "busy, and something is written");
    return hdt_retry(me->status);
}

static void came(struct worker *me) {
    me->calls++;
    me->turns += me->status != HDT_ARGUMENT && me->status != HDT_CLOSED && me->status != HDT_IS_OPEN;
    bool same = me->status == HDT_OK || memcmp(&me->out, &untouched, sizeof untouched) == 0;
    expect(me, same, "not done, and something is written");
}

/* A call, again as long as other ends have their turns. */
#define CALL(call)                                    \
    do {                                              \
        memcpy(&me->out, &untouched, sizeof me->out); \
        do me->status = (call);                       \
        while (is_busy(me));                          \
        came(me);                                     \
    } while (0)

static void must(struct worker *me, hdt_status due, const char *what) { expect(me, me->status == due, what); }

/* The change of the last call; its turn is after all turns of before. */
static hdt_change last(struct worker *me, bool after) {
    hdt_change change;
    me->status = hdt_last(me->end, &change);
    must(me, HDT_OK, "last");
    expect(me, after ? change.turn > me->last_turn : change.turn >= me->last_turn, "a turn that is no later one");
    me->last_turn = change.turn;
    return change;
}

/* ---- the model */

static uint64_t value_of(hdt_id id) { return (id + 1) * 0x9e3779b97f4a7c15u; }

static bool keeps(const struct worker *me, const struct home *home) {
    return home->is && me->written[home->c][home->d] == home->written;
}

static struct home home_of(const struct worker *me, unsigned c, unsigned d) {
    struct home home = { true, c, d, me->written[c][d] };
    return home;
}

static void set_local(struct worker *me, unsigned c, unsigned d, hdt_id id) {
    me->locals[c][d] = id;
    me->written[c][d]++;
}

static struct thing *thing_of(struct worker *me, hdt_id id) {
    uint32_t context = (uint32_t)(id >> 32), serial = (uint32_t)id;
    if (id == 0 || context / each != me->number) return NULL;
    expect(me, serial >= 1 && serial <= me->made[context % each], "an object that was never made");
    return &me->things[context % each][serial - 1];
}

/* The own object that was made last. */
static struct thing *one_more(struct worker *me, unsigned c) {
    if (me->made[c] == me->room[c]) {
        me->room[c] = me->room[c] * 2 + 64;
        me->things[c] = (struct thing *)realloc(me->things[c], me->room[c] * sizeof *me->things[c]);
        expect(me, me->things[c] != NULL, "no memory of the trial");
    }
    struct thing *thing = &me->things[c][me->made[c]++];
    memset(thing, 0, sizeof *thing);
    return thing;
}

/* Whether an object is to be finalized. */
static _Atomic unsigned char *flag_of(struct worker *me, hdt_id id) {
    uint32_t context = (uint32_t)(id >> 32), serial = (uint32_t)id;
    expect(me, context < threads * each && serial >= 1 && serial <= rounds + 1, "an object that was never made");
    return &registered[context][serial];
}

/* Whether a handle keeps its target. */
static bool holds(const struct hold *it) {
    if (it->kind == HDT_VARIABLE) return it->extra == HDT_STRONG || it->extra == HDT_PINNED;
    if (it->kind == HDT_COUNTED) return it->extra > 0;
    return it->kind == HDT_STRONG || it->kind == HDT_PINNED;
}

static bool pins(const struct hold *it) {
    return it->kind == HDT_PINNED || (it->kind == HDT_VARIABLE && it->extra == HDT_PINNED);
}

static bool is_sure(const struct worker *me, const struct hold *it) {
    return it->target == 0 || it->sure || keeps(me, &it->home);
}

/* The target is gone, and of a dependent handle the secondary. */
static void is_gone(struct worker *me, struct hold *it) {
    expect(me, !is_sure(me, it) || it->target == 0, "an object is lost");
    it->target = it->second = 0;
    it->sure = true;
}

/* What a handle was seen to have, in a local if there is one. */
static void has_target(struct worker *me, struct hold *it, hdt_id id, struct home home) {
    if (id == 0) {
        is_gone(me, it);
        return;
    }
    expect(me, id == it->target, "another target");
    it->sure = holds(it);
    if (home.is) it->home = home;
}

/* ---- locals and objects */

struct at {
    unsigned c, d;
};

static struct at any_local(struct worker *me) {
    struct at at = { any(me, each), any(me, LOCALS - 1) };
    return at;
}

/* A local with an object, if one is soon found. */
static bool full_local(struct worker *me, struct at *at) {
    for (int i = 0; i < 8; i++) {
        *at = any_local(me);
        if (me->locals[at->c][at->d] != 0) return true;
    }
    return false;
}

/* The local references an object, whose value is that of its identity. */
static void look_at_value(struct worker *me, struct at at) {
    hdt_id id = me->locals[at.c][at.d];
    CALL(hdt_value_get(me->end, at.c, at.d, &me->out.value));
    must(me, id ? HDT_OK : HDT_NULL, "value_get");
    expect(me, id == 0 || me->out.value == value_of(id), "the value of another object");
}

static void loaded(struct worker *me, struct at at, hdt_id id) {
    set_local(me, at.c, at.d, id);
    if (id != 0) look_at_value(me, at);
}

static void collect(struct worker *me, uint32_t generation) {
    CALL(hdt_collect(me->end, generation, &me->out.report));
    must(me, HDT_OK, "collect");
}

static void clear(struct worker *me, unsigned c, unsigned d) {
    CALL(hdt_local_clear(me->end, c, d));
    must(me, HDT_OK, "local_clear");
    set_local(me, c, d, 0);
}

/* The heap is full: some locals are cleared, and all of it is collected. */
static void make_room(struct worker *me) {
    for (unsigned c = 0; c < each; c++)
        for (unsigned d = 0; d < LOCALS; d++)
            if (any(me, 2)) clear(me, c, d);
    collect(me, 2);
}

static bool make_object(struct worker *me, struct at at, uint32_t fields, bool is_final) {
    CALL(hdt_object_new(me->end, at.c, at.d, fields, is_final ? HDT_FINALIZABLE : 0, &me->out.id));
    if (me->status == HDT_HEAP_FULL) return false;
    must(me, HDT_OK, "object_new");
    hdt_id id = me->out.id;
    one_more(me, at.c)->count = (uint8_t)fields;
    uint32_t context = me->number * each + at.c;
    expect(me, id == ((hdt_id)context << 32 | (hdt_id)me->made[at.c]), "another identity than the next of the context");
    set_local(me, at.c, at.d, id);
    if (is_final) expect(me, atomic_exchange(flag_of(me, id), 1) == 0, "made twice");
    CALL(hdt_value_set(me->end, at.c, at.d, value_of(id)));
    must(me, HDT_OK, "value_set");
    return true;
}

static void on_new(struct worker *me) {
    struct at at = any_local(me);
    bool is_final = any(me, 4) == 0;
    if (!make_object(me, at, any(me, FIELDS + 1), is_final)) {
        make_room(me);
        return;
    }
    if (!is_final || any(me, 8)) return;
    _Atomic unsigned char *is = flag_of(me, me->locals[at.c][at.d]);
    CALL(hdt_suppress(me->end, at.c, at.d));
    must(me, HDT_OK, "suppress");
    atomic_store(is, 0);
    if (any(me, 2)) return;
    CALL(hdt_reregister(me->end, at.c, at.d));
    must(me, HDT_OK, "reregister");
    atomic_store(is, 1);
}

static void on_field_set(struct worker *me) {
    struct at at, from;
    if (!full_local(me, &at)) return;
    struct thing *thing = thing_of(me, me->locals[at.c][at.d]);
    if (!thing) return; /* another end writes its fields */
    from.c = at.c;
    from.d = any(me, LOCALS);
    uint32_t i = any(me, FIELDS + 1);
    CALL(hdt_field_set(me->end, at.c, at.d, i, from.d));
    must(me, i < thing->count ? HDT_OK : HDT_NO_FIELD, "field_set");
    if (i < thing->count) thing->fields[i] = me->locals[from.c][from.d];
}

static void on_field_get(struct worker *me) {
    struct at at, to;
    if (!full_local(me, &at)) return;
    struct thing *thing = thing_of(me, me->locals[at.c][at.d]);
    uint32_t i = any(me, FIELDS + 1);
    to.c = at.c;
    to.d = any(me, LOCALS);
    CALL(hdt_field_get(me->end, at.c, to.d, at.d, i, &me->out.id));
    if (me->status == HDT_NO_FIELD && (!thing || i >= thing->count)) return;
    must(me, HDT_OK, "field_get");
    expect(me, !thing || (i < thing->count && me->out.id == thing->fields[i]), "another field than was written");
    loaded(me, to, me->out.id);
}

static void on_value(struct worker *me) { look_at_value(me, any_local(me)); }

static void on_generation(struct worker *me) {
    struct at at = any_local(me);
    hdt_id id = me->locals[at.c][at.d];
    struct thing *thing = thing_of(me, id);
    CALL(hdt_generation(me->end, at.c, at.d, &me->out.number));
    must(me, id ? HDT_OK : HDT_NULL, "generation");
    if (id) expect(me, me->out.number <= 2 && (!thing || me->out.number >= thing->generation), "it became younger");
    if (thing) thing->generation = (uint8_t)me->out.number;
}

static void look_at_local(struct worker *me, struct at at) {
    CALL(hdt_local_id(me->end, at.c, at.d, &me->out.id));
    must(me, HDT_OK, "local_id");
    expect(me, me->out.id == me->locals[at.c][at.d], "another object than was left in the local");
}

static void on_local(struct worker *me) { look_at_local(me, any_local(me)); }

static void on_copy(struct worker *me) {
    struct at at = any_local(me);
    unsigned from = any(me, LOCALS);
    CALL(hdt_local_copy(me->end, at.c, at.d, from));
    must(me, HDT_OK, "local_copy");
    set_local(me, at.c, at.d, me->locals[at.c][from]);
}

static void on_clear(struct worker *me) {
    struct at at = any_local(me);
    clear(me, at.c, at.d);
}

/* ---- statics, of which each end writes some */

static unsigned own_static(struct worker *me) {
    unsigned own = (STATICS - me->number + threads - 1) / threads;
    return me->number + threads * any(me, own);
}

static void on_static_set(struct worker *me) {
    struct at at = any_local(me);
    unsigned k = own_static(me);
    CALL(hdt_static_set(me->end, at.c, k, at.d));
    must(me, HDT_OK, "static_set");
    me->statics[k] = me->locals[at.c][at.d];
}

static void on_static_get(struct worker *me) {
    struct at at = any_local(me);
    unsigned k = any(me, STATICS);
    CALL(hdt_static_get(me->end, at.c, at.d, k, &me->out.id));
    must(me, HDT_OK, "static_get");
    expect(me, k % threads != me->number || me->out.id == me->statics[k], "another static than was written");
    loaded(me, at, me->out.id);
}

/* ---- handles */

static struct hold *any_hold(struct worker *me) { return me->holding ? &me->holds[any(me, (uint32_t)me->holding)] : NULL; }

static void bury(struct worker *me, hdt_handle handle) { atomic_store(&graves[any(me, GRAVES)], handle); }

static void free_hold(struct worker *me, struct hold *it) {
    expect(me, atomic_exchange(&live[it->slot], 0) == 1, "a slot that nobody has");
    CALL(hdt_handle_free(me->end, it->handle));
    must(me, HDT_OK, "handle_free");
    expect(me, last(me, true).slot == it->slot, "another slot is freed");
    bury(me, it->handle);
    *it = me->holds[--me->holding];
}

static void on_handle_new(struct worker *me) {
    struct at at = any_local(me);
    struct hold it = { .kind = any(me, 7), .cell = NO_CELL };
    unsigned second = any(me, LOCALS);
    if (me->holding == HOLDS) free_hold(me, any_hold(me));
    it.extra = it.kind == HDT_VARIABLE ? any(me, 4) : it.kind == HDT_COUNTED ? 1 : 0;
    uint32_t extra = it.kind == HDT_DEPENDENT ? second : it.kind == HDT_VARIABLE ? it.extra : 0;
    CALL(hdt_handle_new(me->end, at.c, it.kind, at.d, extra, &me->out.handle));
    if (me->status == HDT_TABLE_FULL) return;
    must(me, HDT_OK, "handle_new");
    it.handle = me->out.handle;
    it.slot = last(me, true).slot;
    it.target = me->locals[at.c][at.d];
    it.second = it.kind == HDT_DEPENDENT && it.target ? me->locals[at.c][second] : 0;
    it.sure = it.target == 0 || holds(&it);
    it.home = home_of(me, at.c, at.d);
    expect(me, it.slot < SLOTS && atomic_exchange(&live[it.slot], 1) == 0, "a slot is given twice");
    me->holds[me->holding++] = it;
}

static void on_handle_free(struct worker *me) {
    struct hold *it = any_hold(me);
    if (it && any(me, 3) == 0) free_hold(me, it);
}

static void load(struct worker *me, struct hold *it, struct at at) {
    CALL(hdt_handle_get(me->end, at.c, it->handle, at.d, &me->out.id));
    must(me, HDT_OK, "handle_get");
    hdt_id id = me->out.id;
    bool was_sure = is_sure(me, it);
    expect(me, !was_sure || id == it->target, "the target of an own handle is another");
    set_local(me, at.c, at.d, id);
    if (id == 0 && !was_sure) it->target = 0;
    has_target(me, it, id, home_of(me, at.c, at.d));
    if (id) look_at_value(me, at);
}

static void on_handle_get(struct worker *me) {
    struct hold *it = any_hold(me);
    if (it) load(me, it, any_local(me));
}

static void on_handle_set(struct worker *me) {
    struct hold *it = any_hold(me);
    if (!it) return;
    struct at at = any_local(me);
    hdt_id id = me->locals[at.c][at.d];
    bool is_right = it->kind != HDT_DEPENDENT || id == 0;
    CALL(hdt_handle_set(me->end, at.c, it->handle, at.d));
    must(me, is_right ? HDT_OK : HDT_WRONG_KIND, "handle_set");
    if (!is_right) return;
    it->target = id;
    it->second = 0;
    it->sure = id == 0 || holds(it);
    it->home = home_of(me, at.c, at.d);
    it->cell = NO_CELL;
}

static void on_handle_kind(struct worker *me) {
    struct hold *it = any_hold(me);
    if (!it) return;
    CALL(hdt_handle_kind(me->end, it->handle, &me->out.number));
    must(me, HDT_OK, "handle_kind");
    expect(me, me->out.number == it->kind, "another kind");
}

static void on_secondary_get(struct worker *me) {
    struct hold *it = any_hold(me);
    if (!it) return;
    struct at at = any_local(me);
    CALL(hdt_secondary_get(me->end, at.c, it->handle, at.d, &me->out.id));
    must(me, it->kind == HDT_DEPENDENT ? HDT_OK : HDT_WRONG_KIND, "secondary_get");
    if (it->kind != HDT_DEPENDENT) return;
    hdt_id id = me->out.id;
    bool was_sure = is_sure(me, it);
    expect(me, id == it->second || (id == 0 && !was_sure), "another secondary");
    if (id != it->second) is_gone(me, it);
    loaded(me, at, id);
}

static void on_secondary_set(struct worker *me) {
    struct hold *it = any_hold(me);
    if (!it) return;
    struct at at = any_local(me);
    CALL(hdt_secondary_set(me->end, at.c, it->handle, at.d));
    if (it->kind != HDT_DEPENDENT) {
        must(me, HDT_WRONG_KIND, "secondary_set");
    } else if (me->status == HDT_NULL) {
        is_gone(me, it);
    } else {
        must(me, HDT_OK, "secondary_set");
        expect(me, it->target != 0, "a secondary without a target");
        it->second = me->locals[at.c][at.d];
    }
}

static void on_strength(struct worker *me) {
    struct hold *it = any_hold(me);
    if (!it) return;
    bool was_sure = is_sure(me, it);
    uint32_t strength = any(me, 4);
    CALL(hdt_strength_set(me->end, it->handle, strength));
    must(me, it->kind == HDT_VARIABLE ? HDT_OK : HDT_WRONG_KIND, "strength_set");
    if (it->kind != HDT_VARIABLE) return;
    it->extra = strength;
    it->sure = it->target == 0 || (was_sure && holds(it));
    it->cell = NO_CELL;
}

static void on_count(struct worker *me) {
    struct hold *it = any_hold(me);
    if (!it) return;
    bool was_sure = is_sure(me, it), is = it->kind == HDT_COUNTED, up = any(me, 2);
    if (up) CALL(hdt_count_up(me->end, it->handle, &me->out.value));
    else CALL(hdt_count_down(me->end, it->handle, &me->out.value));
    hdt_status due = !is ? HDT_WRONG_KIND : !up && it->extra == 0 ? HDT_COUNT_ZERO : HDT_OK;
    must(me, due, "count_up, count_down");
    if (due != HDT_OK) return;
    it->extra = up ? it->extra + 1 : it->extra - 1;
    expect(me, me->out.value == it->extra, "another count");
    it->sure = it->target == 0 || (was_sure && holds(it));
}

static void on_address(struct worker *me) {
    struct hold *it = any_hold(me);
    if (!it) return;
    CALL(hdt_address(me->end, it->handle, &me->out.number));
    if (!pins(it)) {
        must(me, HDT_WRONG_KIND, "address");
    } else if (me->status == HDT_NULL) {
        is_gone(me, it);
    } else {
        must(me, HDT_OK, "address");
        expect(me, it->target != 0 && me->out.number != NO_CELL, "the address of nothing");
        expect(me, it->cell == NO_CELL || it->cell == me->out.number, "a pinned object moved");
        it->cell = me->out.number;
        it->sure = true; /* it is there, and the handle keeps it */
    }
}

/* ---- handles that go to other threads, and those that were freed */

static void on_give(struct worker *me) {
    struct hold *it = any_hold(me);
    struct worker *to = &workers[any(me, threads)];
    if (!it || to == me) return;
    pthread_mutex_lock(&to->lock);
    if (to->waiting < INBOX) {
        to->inbox[to->waiting] = *it;
        to->inbox[to->waiting++].home.is = false;
        *it = me->holds[--me->holding];
    }
    pthread_mutex_unlock(&to->lock);
}

static bool take(struct worker *me, struct worker *of) {
    if (me->holding == HOLDS) free_hold(me, any_hold(me));
    pthread_mutex_lock(&of->lock);
    bool is = of->waiting > 0;
    if (is) me->holds[me->holding++] = of->inbox[--of->waiting];
    pthread_mutex_unlock(&of->lock);
    return is;
}

static void on_take(struct worker *me) {
    if (take(me, me)) load(me, &me->holds[me->holding - 1], any_local(me));
}

static void on_stale(struct worker *me) {
    hdt_handle it = atomic_load(&graves[any(me, GRAVES)]);
    struct at at = any_local(me);
    switch (any(me, 12)) {
    case 10: CALL(hdt_handle_load(me->end, at.c, it, at.d, &me->out.id, &me->out.value)); break;
    case 11: CALL(hdt_handle_id(me->end, it, &me->out.id)); break;
    case 0: CALL(hdt_handle_get(me->end, at.c, it, at.d, &me->out.id)); break;
    case 1: CALL(hdt_handle_set(me->end, at.c, it, at.d)); break;
    case 2: CALL(hdt_handle_free(me->end, it)); break;
    case 3: CALL(hdt_handle_kind(me->end, it, &me->out.number)); break;
    case 4: CALL(hdt_secondary_get(me->end, at.c, it, at.d, &me->out.id)); break;
    case 5: CALL(hdt_secondary_set(me->end, at.c, it, at.d)); break;
    case 6: CALL(hdt_strength_set(me->end, it, HDT_STRONG)); break;
    case 7: CALL(hdt_count_up(me->end, it, &me->out.value)); break;
    case 8: CALL(hdt_count_down(me->end, it, &me->out.value)); break;
    default: CALL(hdt_address(me->end, it, &me->out.number));
    }
    must(me, HDT_STALE, "a handle that was freed");
}

/* ---- the weak table, with own objects as keys */

static void on_table(struct worker *me) {
    struct at at, to = any_local(me);
    if (!full_local(me, &at)) return;
    struct thing *thing = thing_of(me, me->locals[at.c][at.d]);
    if (!thing) return;
    bool was_sure = thing->has_entry && keeps(me, &thing->entry_home);
    switch (any(me, 3)) {
    case 0: {
        unsigned value = any(me, LOCALS);
        CALL(hdt_table_add(me->end, at.c, at.d, value));
        if (me->status == HDT_TABLE_FULL) return;
        expect(me, me->status == HDT_OK || (me->status == HDT_PRESENT && thing->has_entry), "table_add");
        expect(me, me->status == HDT_PRESENT || !was_sure, "an entry is lost");
        if (me->status == HDT_OK) thing->entry = me->locals[at.c][value];
        thing->has_entry = true;
        break;
    }
    case 1:
        to.c = at.c;
        CALL(hdt_table_find(me->end, at.c, to.d, at.d, &me->out.id));
        thing->has_entry = thing->has_entry && me->status == HDT_OK;
        expect(me, me->status == HDT_OK ? thing->has_entry && me->out.id == thing->entry : me->status == HDT_NONE && !was_sure,
               "table_find");
        loaded(me, to, me->status == HDT_OK ? me->out.id : 0);
        if (to.d == at.d) return; /* the key is in the local no more */
        break;
    default:
        CALL(hdt_table_remove(me->end, at.c, at.d));
        expect(me, me->status == HDT_OK ? thing->has_entry : me->status == HDT_NONE && !was_sure, "table_remove");
        thing->has_entry = false;
    }
    thing->entry_home = home_of(me, at.c, at.d);
}

/* ---- collection, and what looks at all */

static void on_collect(struct worker *me) { collect(me, any(me, 8) ? 0 : 1 + any(me, 2)); }

/* The first of the queue, if there is one: it was to be finalized, and is no more. */
static bool finalize(struct worker *me, struct at at) {
    CALL(hdt_final_next(me->end, at.c, at.d, &me->out.id));
    hdt_id id = me->status == HDT_NONE ? 0 : me->out.id;
    must(me, id ? HDT_OK : HDT_NONE, "final_next");
    set_local(me, at.c, at.d, id);
    if (id == 0) return false;
    expect(me, atomic_exchange(flag_of(me, id), 0) == 1, "finalized twice");
    look_at_value(me, at);
    return true;
}

static void on_final(struct worker *me) {
    struct at at = any_local(me);
    if (!finalize(me, at) || any(me, 4)) return;
    atomic_store(flag_of(me, me->locals[at.c][at.d]), 1);
    CALL(hdt_reregister(me->end, at.c, at.d));
    must(me, HDT_OK, "reregister");
}

static void on_trim(struct worker *me) {
    CALL(hdt_trim(me->end, any(me, 4), &me->out.number));
    must(me, HDT_OK, "trim");
    expect(me, me->out.number <= 1, "more than a block is given back");
}

/* An object that an own static or a handle of this thread holds has a root. */
static void on_root(struct worker *me) {
    struct at at;
    if (!full_local(me, &at)) return;
    hdt_id id = me->locals[at.c][at.d];
    bool is_held = false;
    for (unsigned k = me->number; k < STATICS; k += threads) is_held |= me->statics[k] == id;
    for (size_t i = 0; i < me->holding; i++)
        is_held |= me->holds[i].target == id && holds(&me->holds[i]) && is_sure(me, &me->holds[i]);
    CALL(hdt_root_of(me->end, at.c, at.d, &me->out.root));
    expect(me, me->status == HDT_OK || (me->status == HDT_NONE && !is_held), "root_of");
}

/* Each own handle is in the list, as it is. */
static void on_list(struct worker *me) {
    size_t found = 0;
    uint32_t from = 0;
    do {
        CALL(hdt_handles(me->end, from, me->out.rows, ROWS, &me->out.count, &me->out.next));
        must(me, HDT_OK, "handles");
        expect(me, me->out.count <= ROWS && (me->out.next == 0 || me->out.next > from), "a list that goes back");
        for (size_t row = 0; row < me->out.count; row++) {
            hdt_handle_info info = me->out.rows[row];
            for (size_t i = 0; i < me->holding; i++) {
                struct hold *it = &me->holds[i];
                if (it->handle != info.handle) continue;
                struct home none = { .is = false };
                found++;
                expect(me, info.kind == it->kind && info.extra == it->extra, "a listed handle is of another kind");
                has_target(me, it, info.target, none);
            }
        }
        from = me->out.next;
    } while (from != 0);
    expect(me, found == me->holding, "an own handle is not in the list, or twice");
}

static void on_stats(struct worker *me) {
    CALL(hdt_stats(me->end, &me->out.stats));
    must(me, HDT_OK, "stats");
    hdt_stats_out is = me->out.stats;
    expect(me, is.handles >= me->holding && is.cells <= CELLS && is.blocks <= BLOCKS && is.objects * 3 <= is.cells, "stats");
    last(me, true);
}

#include "host_threads_wide.h"

/* What is out of range is refused in no turn, so it is never busy; and an end that is open is not opened. */
static void on_wrong(struct worker *me) {
    struct at at = any_local(me);
    hdt_limits limits = { CELLS, BLOCKS, 1 };
    hdt_status due = HDT_ARGUMENT;
    hdt_local src = LOCALS + any(me, 1000);
    switch (any(me, 13)) {
    case 9: CALL(hdt_object_make(me->end, at.c, at.d, 0, 0, &src, 1, &me->out.id)); break;
    case 10: CALL(hdt_locals_clear(me->end, at.c, LOCALS - at.d, at.d + 1)); break;
    case 11: CALL(hdt_handles_of(me->end, 0, 0, 0, me->out.rows, ROWS, &me->out.count, &me->out.next)); break;
    case 12: CALL(hdt_local_pass(me->end, each + any(me, 1000), at.d, at.c, at.d, &me->out.id)); break;
    case 0: CALL(hdt_local_clear(me->end, each + any(me, 1000), at.d)); break;
    case 1: CALL(hdt_local_id(me->end, at.c, LOCALS + any(me, 1000), &me->out.id)); break;
    case 2: CALL(hdt_handle_new(me->end, at.c, 7 + any(me, 1000), at.d, 0, &me->out.handle)); break;
    case 3: CALL(hdt_collect(me->end, 3 + any(me, 1000), &me->out.report)); break;
    case 4: CALL(hdt_static_get(me->end, at.c, at.d, STATICS + any(me, 1000), &me->out.id)); break;
    case 5: CALL(hdt_object_new(me->end, at.c, at.d, 62 + any(me, 1000), 0, &me->out.id)); break;
    case 6: CALL(hdt_trim(me->end, 7 + any(me, 1000), &me->out.number)); break;
    case 7: CALL(hdt_open(me->end, &limits)); due = HDT_IS_OPEN; break;
    default: CALL(hdt_open_shared(me->end, 1, &limits)); due = HDT_IS_OPEN;
    }
    must(me, due, "a call that must be refused");
}

/* ---- threads */

static const struct {
    unsigned often;
    void (*round)(struct worker *me);
} kinds[] = {
    { 90, on_new }, { 60, on_field_set }, { 60, on_field_get }, { 40, on_value }, { 20, on_generation },
    { 60, on_local }, { 40, on_copy }, { 30, on_clear }, { 30, on_static_set }, { 30, on_static_get },
    { 80, on_handle_new }, { 120, on_handle_free }, { 90, on_handle_get }, { 40, on_handle_set },
    { 20, on_handle_kind }, { 30, on_secondary_get }, { 30, on_secondary_set }, { 30, on_strength }, { 40, on_count },
    { 30, on_address }, { 40, on_give }, { 50, on_take }, { 60, on_stale }, { 60, on_table }, { 6, on_collect },
    { 40, on_final }, { 4, on_trim }, { 1, on_root }, { 1, on_list }, { 10, on_stats }, { 30, on_wrong },
    { 60, on_make }, { 40, on_field_load }, { 60, on_handle_load }, { 40, on_handle_id }, { 30, on_pass }, { 6, on_locals_clear },
    { 20, on_locals }, { 10, on_context_left }, { 30, on_object_info }, { 2, on_list_of }, { 4, on_sizes }, { 2, on_trim_all },
    { 20, on_table_set },
};
enum { KINDS = sizeof kinds / sizeof *kinds };

static void one_round(struct worker *me) {
    unsigned sum = 0, at = 0;
    for (unsigned i = 0; i < KINDS; i++) sum += kinds[i].often;
    for (unsigned left = any(me, sum); left >= kinds[at].often; at++) left -= kinds[at].often;
    kinds[at].round(me);
}

static void *rounds_of_a_phase(void *given) {
    struct worker *me = (struct worker *)given;
    pthread_barrier_wait(&all);
    for (unsigned long i = 0; i < rounds / PHASES; i++) one_round(me);
    return NULL;
}

/* All handles, locals and statics of the end are looked at and given up. */
static void give_up(struct worker *me) {
    struct at peek = { 0, PEEK };
    for (unsigned c = 0; c < each; c++)
        for (unsigned d = 0; d < LOCALS; d++) {
            struct at at = { c, d };
            look_at_local(me, at);
        }
    while (me->holding > 0) {
        load(me, &me->holds[0], peek);
        free_hold(me, &me->holds[0]);
    }
    clear(me, 0, PEEK);
    for (unsigned k = me->number; k < STATICS; k += threads) {
        CALL(hdt_static_set(me->end, 0, k, PEEK));
        must(me, HDT_OK, "static_set");
    }
    for (unsigned c = 0; c < each; c++)
        for (unsigned d = 0; d < LOCALS; d++) clear(me, c, d);
}

/* Every other end is closed with an object that nothing but its local references. */
static bool leaves_one(const struct worker *me) { return me->number % 2 == 1; }

static void *ends_its_end(void *given) {
    struct worker *me = (struct worker *)given;
    struct at at = { 0, 0 };
    pthread_barrier_wait(&all);
    give_up(me);
    while (leaves_one(me) && !make_object(me, at, 0, false)) collect(me, 2);
    if (me->number == 0) return NULL;
    hdt_close(me->end);
    CALL(hdt_local_clear(me->end, 0, 0));
    must(me, HDT_CLOSED, "a closed end");
    hdt_close(me->end);
    return NULL;
}

static void run(void *(*what)(void *)) {
    pthread_t thread[MOST];
    pthread_barrier_init(&all, NULL, threads);
    for (unsigned i = 0; i < threads; i++)
        expect(&workers[i], pthread_create(&thread[i], NULL, what, &workers[i]) == 0, "no thread");
    for (unsigned i = 0; i < threads; i++) pthread_join(thread[i], NULL);
    pthread_barrier_destroy(&all);
}

/* ---- the end: nothing is left but what closed ends left */

static void take_all(struct worker *me) {
    struct at peek = { 0, PEEK };
    for (unsigned i = 0; i < threads; i++)
        while (take(me, &workers[i])) {
            load(me, &me->holds[me->holding - 1], peek);
            free_hold(me, &me->holds[me->holding - 1]);
        }
    clear(me, 0, PEEK);
}

static void finalize_all(struct worker *me) {
    struct at peek = { 0, PEEK };
    bool more = true;
    while (more) {
        collect(me, 2);
        more = false;
        while (finalize(me, peek)) more = true;
    }
    collect(me, 2);
}

static void look_at_what_is_left(struct worker *me) {
    unsigned due = threads / 2; /* of the odd ends */
    CALL(hdt_stats(me->end, &me->out.stats));
    must(me, HDT_OK, "stats");
    hdt_stats_out is = me->out.stats;
    expect(me, is.objects == due && is.handles == 0 && is.queued == 0, "something is left, or lost");
    for (unsigned c = 0; c < threads * each; c++)
        for (unsigned long i = 0; i <= rounds; i++) expect(me, registered[c][i] == 0, "never finalized");
    uint64_t turns = 0;
    for (unsigned i = 0; i < threads; i++) turns += workers[i].turns;
    expect(me, last(me, true).turn == turns, "other turns than were taken");
}

static void open_all(uint64_t seed) {
    memset(&untouched, 0x5a, sizeof untouched);
    each = CONTEXTS / threads;
    hdt_limits limits = { CELLS, BLOCKS, threads * each };
    for (unsigned i = 0; i < threads; i++) {
        struct worker *me = &workers[i];
        me->end = &ends[i];
        me->number = i;
        me->chance = seed * 1000003 + i;
        pthread_mutex_init(&me->lock, NULL);
    }
    workers[0].status = hdt_open_shared(ends, threads, &limits);
    must(&workers[0], HDT_OK, "open_shared");
    for (unsigned c = 0; c < threads * each; c++) {
        registered[c] = (_Atomic unsigned char *)calloc(rounds + 16, 1);
        expect(&workers[0], registered[c] != NULL, "no memory of the trial");
    }
}

static void close_all(void) {
    struct worker *me = &workers[0];
    hdt_close(me->end);
    CALL(hdt_local_clear(me->end, 0, 0));
    must(me, HDT_CLOSED, "a closed host");
    for (unsigned i = 0; i < threads; i++)
        for (unsigned c = 0; c < each; c++) free(workers[i].things[c]);
    for (unsigned c = 0; c < threads * each; c++) free((void *)registered[c]);
}

int main(int count, char **words) {
    if (count > 1) threads = (unsigned)atoi(words[1]);
    if (count > 2) rounds = strtoul(words[2], NULL, 10);
    if (threads < 2 || threads > MOST) {
        fprintf(stderr, "usage: host_threads [THREADS [CALLS [SEED]]], 2 to 16 threads\n");
        return 2;
    }
    open_all(count > 3 ? strtoull(words[3], NULL, 10) : 1);
    for (int phase = 0; phase < PHASES; phase++) run(rounds_of_a_phase);
    run(ends_its_end);
    take_all(&workers[0]);
    finalize_all(&workers[0]);
    look_at_what_is_left(&workers[0]);
    uint64_t calls = 0, busy = 0;
    for (unsigned i = 0; i < threads; i++) {
        calls += workers[i].calls;
        busy += workers[i].busy;
    }
    close_all();
    printf("%u threads, %llu calls, %llu busy answers\n", threads, (unsigned long long)calls, (unsigned long long)busy);
    return 0;
}
