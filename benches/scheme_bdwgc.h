/* The memory of uses/scheme/scheme.c over bdwgc, in place of uses/scheme/host.h: a word is immediate, or a pointer with a tag.
 * The places of procedures are one stack, which is a root up to where it is in use. There are no guardians and no weak table. */
#include <gc.h>
#include <gc/gc_mark.h>

enum { PLACES = 15 };
static struct {
    uint32_t cells, blocks, contexts;
    bool is_stressed;
} of_host; /* which nothing asks */
struct cell {
    word now;
    word *kept; /* the same, where the collector sees it */
    const char *name;
};
struct symbol {
    struct symbol *next;
    char name[];
};

static word *words;
static slot top, room;
static uint32_t context, symbol_count; /* there is one context */
static struct symbol *buckets[1024];
static GC_push_other_roots_proc push_others;

static void push_words(void) {
    drop_dead(context);
    GC_push_all(words, words + top);
    if (push_others) push_others();
}

static inline word *fields_of(word it) { return (word *)(it & ~(word)7); }
static inline word *taken_words(size_t count) {
    word *at = (word *)GC_MALLOC(count * sizeof *at);
    if (at == NULL) fail("no memory", "");
    return at;
}

static inline void copy(slot dst, slot src) { words[dst] = words[src]; }
static inline void make_pair(slot dst, slot head, slot tail) {
    word *at = taken_words(2);
    at[0] = words[head], at[1] = words[tail];
    words[dst] = (word)at | PAIR;
}
static inline void head_of(slot dst, slot pair) { words[dst] = fields_of(words[pair])[0]; }
static inline void tail_of(slot dst, slot pair) { words[dst] = fields_of(words[pair])[1]; }
static inline word tail_seen(slot pair) { return fields_of(words[pair])[1]; }
static inline void second_of(slot dst, slot pair) { words[dst] = fields_of(fields_of(words[pair])[1])[0]; }
static void make_procedure(slot dst, uint32_t code, slot base, const uint32_t *captured, unsigned count) {
    word *at = taken_words(count + 1);
    at[0] = code;
    for (unsigned i = 0; i < count; i++) at[i + 1] = words[base + captured[i]];
    words[dst] = (word)at | PROCEDURE;
}
static inline uint32_t code_of(slot procedure) { return (uint32_t)fields_of(words[procedure])[0]; }
static inline void captured_of(slot dst, slot procedure, unsigned i) { words[dst] = fields_of(words[procedure])[i + 1]; }
static void make_box(slot dst, slot src) {
    word *at = taken_words(1);
    at[0] = words[src];
    words[dst] = (word)at | OTHER;
}
static inline void box_get(slot dst, slot box, bool is_loaded) { (void)is_loaded, words[dst] = fields_of(words[box])[0]; }
static void box_set(slot box, slot src, bool is_loaded) { (void)is_loaded, fields_of(words[box])[0] = words[src]; }
static bool is_same(slot one, slot another) { return words[one] == words[another]; }

static inline slot enter(slot base, unsigned size, unsigned count) {
    (void)size, (void)count;
    top = base + PLACES + 1;
    if (top + PLACES > room) {
        room *= 2;
        words = (word *)realloc(words, room * sizeof *words);
        if (words == NULL) fail("no memory", "");
        memset(words + room / 2, 0, room / 2 * sizeof *words);
    }
    return base;
}
static void leave(slot dst, slot src) { copy(dst, src); }

static inline void cell_get(slot dst, const struct cell *cell) { words[dst] = cell->now; }
static void cell_set(struct cell *cell, slot src) {
    if (cell->kept == NULL) cell->kept = (word *)GC_MALLOC_UNCOLLECTABLE(sizeof *cell->kept);
    *cell->kept = cell->now = words[src];
}

static void make_string(slot dst, const char *bytes) {
    char *at = (char *)GC_MALLOC_ATOMIC(strlen(bytes) + 1);
    words[dst] = (word)strcpy(at, bytes) | STRING;
}
static void bytes_of(slot string, char *bytes) { strcpy(bytes, (const char *)fields_of(words[string])); }
static slot to_print(slot at) { return copy(top, at), top; }
static const char *symbol_name(slot symbol) { return ((struct symbol *)fields_of(words[symbol]))->name; }
static void make_symbol(slot dst, const char *name) {
    uint32_t hash = 2166136261u;
    for (const char *at = name; *at; at++) hash = (hash ^ (unsigned char)*at) * 16777619u;
    struct symbol **bucket = &buckets[hash % (sizeof buckets / sizeof *buckets)], *it = *bucket;
    while (it != NULL && strcmp(it->name, name) != 0) it = it->next;
    if (it == NULL) {
        it = (struct symbol *)GC_MALLOC_UNCOLLECTABLE(sizeof *it + strlen(name) + 1);
        it->next = *bucket;
        strcpy(it->name, name);
        *bucket = it;
        symbol_count++;
    }
    words[dst] = (word)it | SYMBOL;
}

static _Noreturn void none(void) { fail("it is not there over bdwgc", ""); }
static void make_guardian(slot dst) { (void)dst, none(); }
static bool is_guardian(slot at) { (void)at, none(); }
static void guard(slot guardian, slot object) { (void)guardian, (void)object, none(); }
static void guarded(slot dst, slot guardian) { (void)dst, (void)guardian, none(); }
static void memo_set(slot key, slot value) { (void)key, (void)value, none(); }
static void memo_get(slot dst, slot key) { (void)dst, (void)key, none(); }
static void collect(slot from, bool is_full) { (void)from, (void)is_full, GC_gcollect(); }

static void memory_open(void) {
    (void)of_host;
    GC_INIT();
    for (size_t tag = PAIR; tag <= OTHER; tag++) GC_REGISTER_DISPLACEMENT(tag);
    push_others = GC_get_push_other_roots();
    GC_set_push_other_roots(push_words);
    room = 1u << 16;
    top = 2 * PLACES;
    words = (word *)calloc(room, sizeof *words);
    if (words == NULL) fail("no memory", "");
}
static void memory_close(void) { free(words); }
