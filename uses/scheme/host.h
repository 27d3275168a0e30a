/* The interpreter's memory, by hdt.h. A slot is a local of a context, as one number: 16 times the context, and the local. C has a
 * word for each: an immediate value, and then the local means nothing; or the value of the object that the local references,
 * whose low bits say what it is. Pairs, procedures, strings and symbols never change, so that word stays true; boxes and
 * guardians are asked again. What an object has is immediate in its value as far as it fits there, and else in its fields.
 * A procedure's places are slots of one context, from its base on; where the callee's do not fit beside its caller's they are in
 * the next context. If that was the last one, what the oldest has goes into an object until it is returned to. */
#include "hdt.h"
enum { LOCALS = 16, NULL_LOCAL = 15, PLACES = 15 }; /* the last local of a context is null between calls */
/* Where the parts of an object's value begin, above its tag. */
enum { AT_HEAD = 3, AT_TAIL = 31, AT_CODE = 3, AT_FIRST = 19, AT_SECOND = 41, SORT = 3, PAYLOAD = 6, AT_BYTES = 31, END = 64 };
enum { SPILLED = 0, YOUNG = 5000 }; /* a static; objects until the next collection: what follows is made where they were */
enum sort { BOX, GUARDIAN, GUARDED }; /* of OTHER: in the three bits above the tag */
struct cell { word now; hdt_handle handle; const char *name; }; /* a constant, or a global variable; its handle is strong */
/* What goes with a handle: a symbol's is weak long, so that one that a guardian gives back gets no twin; a guard's is dependent.
 * `next` is the next symbol of its bucket, 0 at the end. */
static struct note { hdt_handle handle; char *name; uint32_t next; } *notes;
static hdt_host host = HDT_CLOSED_HOST;
static struct { uint32_t cells, blocks, contexts; bool is_stressed; } of_host = { 4000000, 64, 256, false };
static const hdt_local none[1] = { NULL_LOCAL };
static word *words;       /* by slot; of a context that was left for the next, its last is how many of its places are in use */
static word (*spilled)[LOCALS]; /* words of contexts whose references are in an object */
static size_t spilled_room;
static uint32_t contexts; /* that procedures have; the next one is for work of the memory itself */
static uint32_t context, oldest; /* the present one, numbered on and on; the oldest that is not spilled */
static uint32_t newest, lowest, dropped; /* present since locals were cleared; the lowest since what is dead was dropped */
static unsigned kept;     /* locals of the present context that a call is at work with, though their words are immediate */
static uint32_t buckets[1024], symbol_count, left; /* objects until the next collection */
static inline hdt_context context_of(slot at) { return at / LOCALS; }
static inline hdt_local local_of(slot at) { return at % LOCALS; }
static inline unsigned live_in(hdt_context c) { return (unsigned)words[c * LOCALS + NULL_LOCAL]; }
static inline uint32_t note_of(hdt_handle handle) { return handle & 0xffffff; }
static inline void must(hdt_status status, const char *what) { if (status != HDT_OK) fail(what, hdt_status_name(status)); }
/* A part of a value is the low bits of a word: an immediate that fits, or else a reference's tag, and it is in a field. */
static inline word part_of(word value, unsigned at, unsigned end) {
    return (word)((int64_t)(value << (END - end)) >> (END - end + at));
}
static inline word other(enum sort sort, word payload) { return payload << PAYLOAD | (word)sort << SORT | OTHER; }

/* ---- collections */
/* Clears the locals of a context that are no references of the program: all from `used` on, and those with an immediate. */
static void clear_context(hdt_context c, unsigned used, unsigned at_work) {
    for (unsigned at = 0, first = 0; at < LOCALS; at++) {
        bool is_live = (at < used && is_reference(words[c * LOCALS + at])) || (at_work >> at & 1);
        if (!is_live && at < NULL_LOCAL) continue;
        unsigned end = is_live ? at : LOCALS;
        if (first < end) must(hdt_locals_clear(&host, c, first, end - first), "clear");
        first = at + 1;
    }
}
/* What the program cannot come to any more is in no local. Contexts below the lowest that was entered are as they were. */
static void clear_dead(slot top) {
    drop_dead(dropped);
    for (uint32_t one = lowest > oldest ? lowest : oldest; one < context; one++)
        clear_context(one % contexts, live_in(one % contexts), 0);
    clear_context(context % contexts, local_of(top), kept);
    for (uint32_t one = context + 1; one <= newest && one < oldest + contexts; one++) clear_context(one % contexts, 0, 0);
    clear_context(contexts, 0, 0);
    newest = lowest = dropped = context;
}
/* What is finalized stands for what is guarded: it goes to its guardian's list. */
static void finalize(void) {
    hdt_id id;
    uint64_t value;
    while (hdt_final_next(&host, contexts, 0, &id) == HDT_OK) {
        must(hdt_value_get(&host, contexts, 0, &value), "a guard");
        must(hdt_handle_free(&host, notes[value >> PAYLOAD].handle), "a guard");
        must(hdt_field_get(&host, contexts, 1, 0, 1, &id), "its guardian");
        must(hdt_field_get(&host, contexts, 2, 1, 0, &id), "its list");
        must(hdt_field_set(&host, contexts, 0, 2, 2), "its list");
        must(hdt_field_set(&host, contexts, 1, 0, 0), "its list");
    }
}
static uint32_t *bucket_of(const char *name) {
    uint32_t hash = 2166136261u;
    for (; *name; name++) hash = (hash ^ (unsigned char)*name) * 16777619u;
    return &buckets[hash % (sizeof buckets / sizeof *buckets)];
}
/* The name of a symbol is memory of C: it goes when the weak long handle is null. */
static void forget_symbols(void) {
    hdt_handle_info cleared;
    size_t count;
    uint32_t next;
    while (must(hdt_handles_of(&host, 1u << HDT_WEAK_LONG, 1, 0, &cleared, 1, &count, &next), "symbols"), count > 0) {
        struct note *note = &notes[note_of(cleared.handle)];
        uint32_t *link = bucket_of(note->name);
        while (*link != note_of(note->handle)) link = &notes[*link].next;
        *link = note->next;
        free(note->name);
        must(hdt_handle_free(&host, note->handle), "a symbol's handle");
        note->name = NULL;
        symbol_count--;
    }
}
/* A collection of the young objects; of all if asked, or if over half of the heap is in use. If much stays, the next is later. */
static void collect(slot top, bool is_full) {
    hdt_report report;
    hdt_stats_out stats;
    clear_dead(top);
    if (!is_full) must(hdt_collect(&host, 0, &report), "a collection");
    must(hdt_stats(&host, &stats), "stats");
    if (is_full || stats.cells > of_host.cells / 2) must(hdt_collect(&host, 2, &report), "a full collection");
    left = of_host.is_stressed ? 0 : YOUNG + 3 * (report.kept < YOUNG ? report.kept : YOUNG);
    finalize(), forget_symbols();
}
/* Room after so many refusals; all of the present context is taken to be in use. */
static void make_room(unsigned refusals) {
    if (refusals > 1) fail("the heap or the table is full", "");
    collect(context % contexts * LOCALS + PLACES, refusals > 0);
}

/* ---- objects. What a slot has is loaded into its local and its word; what finds no room is made later, after a collection */
static __attribute__((noinline)) void make_later(slot dst, word value, uint32_t flags, const hdt_local *src, size_t fields) {
    hdt_id id;
    hdt_status status = HDT_HEAP_FULL;
    for (unsigned refusals = 0; status == HDT_HEAP_FULL; refusals++) {
        make_room(refusals);
        status = hdt_object_make(&host, context_of(dst), local_of(dst), flags, value, src, fields, &id);
    }
    must(status, "an object");
}
static inline void make_object(slot dst, word value, uint32_t flags, const hdt_local *src, size_t fields) {
    hdt_id id;
    if ((int32_t)--left < 0 || hdt_object_make(&host, context_of(dst), local_of(dst), flags, value, src, fields, &id) != HDT_OK)
        make_later(dst, value, flags, src, fields);
    words[dst] = value;
}
static inline void load(slot dst, slot object, uint32_t field) {
    hdt_id id;
    must(hdt_field_load(&host, context_of(dst), local_of(dst), local_of(object), field, &id, &words[dst]), "a field");
}
static inline void copy(slot dst, slot src) {
    words[dst] = words[src];
    if (is_reference(words[src])) must(hdt_local_copy(&host, context_of(dst), local_of(dst), local_of(src)), "a copy");
}
static inline void pass(slot dst, slot src) {
    hdt_id id;
    words[dst] = words[src];
    if (!is_reference(words[src])) return;
    must(hdt_local_pass(&host, context_of(dst), local_of(dst), context_of(src), local_of(src), &id), "a reference passed");
}
/* The part for what a slot has, which is in the next field if it is no immediate that fits. */
static inline word put(slot from, unsigned at, unsigned end, hdt_local *src, size_t *fields) {
    word it = words[from];
    if (is_reference(it) || part_of(it << at, at, end) != it) {
        if (!is_reference(it)) kept |= 1u << local_of(from), it = OTHER;
        src[(*fields)++] = local_of(from);
    }
    return it << at & ~(word)0 >> (END - end);
}
/* Those that do not fit are objects of their own locals, until the call is done. */
static __attribute__((noinline)) void wrap(slot context) {
    for (unsigned at = 0; at < PLACES; at++)
        if (kept >> at & 1) make_object(context + at, words[context + at], 0, none, 0);
}
static inline void make_parts(slot dst, word value, const hdt_local *src, size_t fields) {
    if (kept != 0) wrap(dst - local_of(dst));
    make_object(dst, value, 0, src, fields);
    kept = 0;
}
static inline void get(slot dst, slot object, word part, uint32_t field) {
    if (is_reference(part)) load(dst, object, field);
    else words[dst] = part;
}
static void make_pair(slot dst, slot head, slot tail) {
    hdt_local src[2];
    size_t fields = 0;
    word value = PAIR | put(head, AT_HEAD, AT_TAIL, src, &fields);
    value |= put(tail, AT_TAIL, END, src, &fields);
    make_parts(dst, value, src, fields);
}
static inline void head_of(slot dst, slot pair) { get(dst, pair, part_of(words[pair], AT_HEAD, AT_TAIL), 0); }
/* The tail without a load: an immediate, or of a reference its tag, and of a pair its head too if that is immediate. */
static inline word tail_seen(slot pair) { return part_of(words[pair], AT_TAIL, END); }
static inline void tail_of(slot dst, slot pair) { get(dst, pair, tail_seen(pair), is_reference(words[pair] >> AT_HEAD)); }
static inline void second_of(slot dst, slot pair) {
    const word second = part_of(tail_seen(pair), AT_HEAD, AT_TAIL);
    if (is_reference(second)) tail_of(dst, pair), head_of(dst, dst);
    else words[dst] = second;
}
/* What it captures from the third on is in fields alone. */
static __attribute__((noinline)) void make_procedure(slot dst, uint32_t code, slot base, const uint32_t *from, unsigned count) {
    hdt_local src[PLACES];
    size_t fields = 0;
    word value = (word)code << AT_CODE | PROCEDURE;
    if (count > 0) value |= put(base + from[0], AT_FIRST, AT_SECOND, src, &fields);
    if (count > 1) value |= put(base + from[1], AT_SECOND, END, src, &fields);
    for (unsigned i = 2; i < count; i++) {
        if (!is_reference(words[base + from[i]])) kept |= 1u << local_of(base + from[i]);
        src[fields++] = local_of(base + from[i]);
    }
    make_parts(dst, value, src, fields);
}
static inline uint32_t code_of(slot procedure) { return words[procedure] >> AT_CODE & 0xffff; }
static inline void captured_of(slot dst, slot procedure, unsigned i) {
    const word it = words[procedure], first = it >> AT_FIRST, second = it >> AT_SECOND;
    if (i == 0) get(dst, procedure, part_of(it, AT_FIRST, AT_SECOND), 0);
    else if (i == 1) get(dst, procedure, part_of(it, AT_SECOND, END), is_reference(first));
    else load(dst, procedure, is_reference(first) + is_reference(second) + i - 2);
}
/* A box has the value of a variable that is captured and set: immediate, or in its field. The word of one that was just loaded,
 * and only of such a one, is true. */
static void make_box(slot dst, slot src) {
    const hdt_local from[1] = { is_reference(words[src]) ? local_of(src) : NULL_LOCAL };
    make_object(dst, other(BOX, words[src]), 0, from, 1);
}
static inline void box_get(slot dst, slot box, bool is_loaded) {
    uint64_t value = words[box];
    if (!is_loaded) must(hdt_value_get(&host, context_of(box), local_of(box), &value), "a variable");
    get(dst, box, part_of(value, PAYLOAD, END), 0);
}
static void box_set(slot box, slot src, bool is_loaded) {
    const hdt_local from = is_reference(words[src]) ? local_of(src) : NULL_LOCAL;
    must(hdt_value_set(&host, context_of(box), local_of(box), other(BOX, words[src])), "a variable");
    if (is_loaded && from == NULL_LOCAL && !is_reference(words[box] >> PAYLOAD)) return;
    must(hdt_field_set(&host, context_of(box), local_of(box), 0, from), "a variable");
}
static bool is_same(slot one, slot another) {
    hdt_id first = words[one], second = words[another];
    if (!is_reference(first) || !is_reference(second) || tag_of(first) == SYMBOL) return first == second;
    must(hdt_local_id(&host, context_of(one), local_of(one), &first), "an object");
    must(hdt_local_id(&host, context_of(another), local_of(another), &second), "an object");
    return first == second;
}

/* ---- places of procedures */
/* What the oldest context references goes into an object, behind what went before it. */
static void spill(void) {
    if (oldest >= dropped) drop_dead(dropped), dropped = context;
    const hdt_context c = oldest % contexts;
    hdt_local src[LOCALS];
    size_t fields = 0;
    hdt_id id;
    if (oldest >= spilled_room) spilled = (word(*)[LOCALS])grown(spilled, &spilled_room, sizeof *spilled);
    memcpy(spilled[oldest], &words[c * LOCALS], sizeof *spilled);
    for (hdt_local at = 0; at < live_in(c); at++)
        if (is_reference(words[c * LOCALS + at])) src[fields++] = at;
    src[fields] = NULL_LOCAL;
    for (unsigned refusals = 0; fields > 0; make_room(refusals++)) {
        must(hdt_static_get(&host, c, NULL_LOCAL, SPILLED, &id), "frames");
        hdt_status status = hdt_object_make(&host, c, NULL_LOCAL, 0, 0, src, fields + 1, &id);
        if (status == HDT_HEAP_FULL) continue;
        must(status, "an object for frames");
        must(hdt_static_set(&host, c, SPILLED, NULL_LOCAL), "frames");
        must(hdt_local_clear(&host, c, NULL_LOCAL), "clear");
        break;
    }
    oldest++;
}
static void restore(void) {
    hdt_context c = --oldest % contexts;
    hdt_id id;
    uint32_t field = 0;
    memcpy(&words[c * LOCALS], spilled[oldest], sizeof *spilled);
    must(hdt_static_get(&host, c, NULL_LOCAL, SPILLED, &id), "frames");
    for (hdt_local at = 0; at < live_in(c); at++)
        if (is_reference(words[c * LOCALS + at])) must(hdt_field_get(&host, c, at, NULL_LOCAL, field++, &id), "a frame");
    if (field > 0) must(hdt_field_get(&host, c, NULL_LOCAL, NULL_LOCAL, field, &id), "frames");
    if (field > 0) must(hdt_static_set(&host, c, SPILLED, NULL_LOCAL), "frames");
    must(hdt_local_clear(&host, c, NULL_LOCAL), "clear");
}
/* Of a callee whose places do not fit: the next context, to which its procedure and arguments are passed. */
static slot next_context(slot base, unsigned count) {
    if (context + 1 == oldest + contexts) spill();
    words[base - local_of(base) + NULL_LOCAL] = local_of(base);
    context++;
    if (context > newest) newest = context;
    slot to = context_of(base) + 1 == contexts ? 0 : (context_of(base) + 1) * LOCALS;
    for (unsigned i = 0; i < count; i++) pass(to + i, base + i);
    return to;
}
static inline slot enter(slot base, unsigned size, unsigned count) {
    return local_of(base) + size <= PLACES ? base : next_context(base, count);
}
/* Back to the context before, with a result. What the callee left in its own is dead. */
static __attribute__((noinline)) void leave(slot dst, slot src) {
    if (context == oldest) restore();
    context--;
    if (context < lowest) lowest = context;
    if (context < dropped) dropped = context;
    pass(dst, src);
}

/* ---- cells */
static hdt_handle handle_to(hdt_kind kind, slot target, uint32_t extra) {
    hdt_handle handle;
    uint32_t given;
    hdt_status status;
    for (unsigned refusals = 1;; make_room(refusals++), must(hdt_trim_all(&host, &given), "blocks")) {
        status = hdt_handle_new(&host, context_of(target), kind, local_of(target), extra, &handle);
        if (status != HDT_TABLE_FULL) break;
    }
    return must(status, "a handle"), handle;
}
static inline void cell_get(slot dst, const struct cell *cell) {
    hdt_id id;
    words[dst] = cell->now;
    if (is_reference(cell->now)) must(hdt_handle_get(&host, context_of(dst), cell->handle, local_of(dst), &id), "a global");
}
static void cell_set(struct cell *cell, slot src) {
    bool is_object = is_reference(words[src]), was_object = is_reference(cell->now);
    cell->now = words[src];
    if (is_object && cell->handle == 0) cell->handle = handle_to(HDT_STRONG, src, 0);
    else if (is_object || was_object)
        must(hdt_handle_set(&host, context_of(src), cell->handle, is_object ? local_of(src) : NULL_LOCAL), "a global");
}

/* ---- strings: four bytes beside the length, then eight in each object of a list */
static void make_string(slot dst, const char *bytes) {
    const hdt_local src[1] = { local_of(dst) };
    const uint32_t length = (uint32_t)strlen(bytes);
    for (uint32_t at = length > 4 ? 4 + (length - 5) / 8 * 8 : 0, rest = at; at > 0; at = at > 4 ? at - 8 : 0) {
        uint64_t eight = 0;
        memcpy(&eight, bytes + at, length - at < 8 ? length - at : 8);
        make_object(dst, eight, 0, src, at < rest);
        words[dst] = STRING;
    }
    uint32_t four = 0;
    memcpy(&four, bytes, length < 4 ? length : 4);
    make_object(dst, (word)four << AT_BYTES | (word)length << TAG_BITS | STRING, 0, src, length > 4);
}
/* A place to print from, with others behind it. */
static slot to_print(slot at) { return pass(contexts * LOCALS, at), contexts * LOCALS; }
/* The bytes of a string, with a zero behind them. */
static void bytes_of(slot string, char *bytes) {
    const slot at_work = contexts * LOCALS + PLACES - 1;
    const uint32_t length = words[string] >> TAG_BITS & 0xfffffff;
    uint64_t eight = words[string] >> AT_BYTES;
    hdt_id id;
    memcpy(bytes, &eight, length < 4 ? length : 4);
    bytes[length] = 0;
    pass(at_work, string);
    for (uint32_t at = 4; at < length; at += 8) {
        must(hdt_field_load(&host, contexts, local_of(at_work), local_of(at_work), 0, &id, &eight), "a string");
        memcpy(bytes + at, &eight, length - at < 8 ? length - at : 8);
    }
}

/* ---- symbols, guardians and the weak table */
static const char *symbol_name(slot symbol) { return notes[words[symbol] >> TAG_BITS].name; }
static void make_symbol(slot dst, const char *name) {
    hdt_id id;
    uint32_t at = *bucket_of(name);
    while (at != 0 && strcmp(notes[at].name, name) != 0) at = notes[at].next;
    if (at != 0) return must(hdt_handle_load(&host, context_of(dst), notes[at].handle, local_of(dst), &id, &words[dst]), name);
    make_object(dst, SYMBOL, 0, none, 0);
    hdt_handle handle = handle_to(HDT_WEAK_LONG, dst, 0);
    words[dst] = (word)note_of(handle) << TAG_BITS | SYMBOL;
    must(hdt_value_set(&host, context_of(dst), local_of(dst), words[dst]), "a symbol");
    notes[note_of(handle)] = (struct note){ handle, strcpy((char *)grown(NULL, NULL, strlen(name) + 1), name), *bucket_of(name) };
    *bucket_of(name) = note_of(handle);
    symbol_count++;
}
static void make_guardian(slot dst) { make_object(dst, other(GUARDIAN, 0), 0, none, 1); }
static bool is_guardian(slot at) { return (words[at] & ((1 << PAYLOAD) - 1)) == other(GUARDIAN, 0); }
/* What is finalized when `object` cannot be reached has it and its guardian, and is kept by it alone, over a dependent handle. */
static void guard(slot guardian, slot object) {
    const hdt_local src[3] = { local_of(object), local_of(guardian), NULL_LOCAL };
    const slot at_work = object - local_of(object) + NULL_LOCAL;
    make_object(at_work, other(GUARDED, 0), HDT_FINALIZABLE, src, 3);
    kept = 1u << NULL_LOCAL;
    hdt_handle handle = handle_to(HDT_DEPENDENT, object, NULL_LOCAL);
    notes[note_of(handle)].handle = handle;
    must(hdt_value_set(&host, context_of(object), NULL_LOCAL, other(GUARDED, note_of(handle))), "a guard");
    must(hdt_local_clear(&host, context_of(object), NULL_LOCAL), "clear");
    kept = 0;
}
/* One that was guarded and could not be reached, or #f. */
static void guarded(slot dst, slot guardian) {
    hdt_id id;
    const slot at_work = contexts * LOCALS;
    pass(at_work, guardian);
    must(hdt_field_get(&host, contexts, 1, 0, 0, &id), "a guardian");
    words[at_work + 1] = FALSE;
    if (id != 0) {
        must(hdt_field_get(&host, contexts, 2, 1, 2, &id), "its list");
        must(hdt_field_set(&host, contexts, 0, 0, 2), "its list");
        load(at_work + 1, at_work + 1, 0);
    }
    pass(dst, at_work + 1);
}
static void memo_set(slot key, slot value) {
    if (!is_reference(words[value])) make_object(value, words[value], 0, none, 0);
    must(hdt_table_set(&host, context_of(key), local_of(key), local_of(value)), "an entry");
}
/* What the table has of a key, or #f. */
static void memo_get(slot dst, slot key) {
    hdt_id id;
    const hdt_status status = hdt_table_find(&host, context_of(dst), local_of(dst), local_of(key), &id);
    words[dst] = FALSE;
    if (status == HDT_NONE) return;
    must(status, "an entry"), must(hdt_value_get(&host, context_of(dst), local_of(dst), &words[dst]), "its value");
}

/* ---- the whole */
static void memory_open(void) {
    if (of_host.contexts < 3) fail("3 contexts at least", "");
    contexts = of_host.contexts - 1;
    hdt_limits limits = { of_host.cells, of_host.blocks, of_host.contexts };
    must(hdt_open(&host, &limits), "a host");
    words = (word *)calloc(of_host.contexts * LOCALS, sizeof *words);
    notes = (struct note *)calloc((of_host.blocks + 1) * 64, sizeof *notes);
    if (words == NULL || notes == NULL) fail("no memory", "");
}
static void memory_close(void) {
    for (uint32_t i = 0; i < (of_host.blocks + 1) * 64; i++) free(notes[i].name);
    hdt_close(&host);
    free(notes), free(spilled), free(words);
}
