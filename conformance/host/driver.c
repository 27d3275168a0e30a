/* Does a script of `hdt` by the C library and prints the full lines of what it did, as `hdt` does with --slots. Its callers
 * come one after another, each a context of one host; or, with --threads, at once, each a thread with its own end of a shared
 * host, and the lines are in the order of the turns in which they were done. Handle registers and the board are the driver's
 * own and have slots; a command on one is done by the handle that is in the slot at present, or by one that is stale.
 *
 *   driver [--threads] [--rows] [--heap N] [--blocks N] [--bad N SEED] < script
 *
 * With --rows, commands that one call does in a row are done by it: a load with the value of what was loaded, an object with its
 * value and its fields, an entry that is set, locals that are cleared. With --bad, N calls at random come before each command or
 * row, which must all be refused.
 */
#include "hdt.h"
#include <inttypes.h>
#include <pthread.h>
#include <stdarg.h>
#include <stdatomic.h>
#include <stdio.h>
#include <stdlib.h>
#include <string.h>

enum { CALLERS = 16, REGISTERS = 16, SLOTS = 65536, WORDS = 5, LINE = 256, REPLY = 96, FIELDS = 61 };

struct command {
    char words[WORDS][24];
    int count;
};

/* A line that was done, with the turn in which it was. */
struct line {
    uint64_t turn;
    bool goes_on; /* of a row: its turn is that of the line before */
    char text[REPLY];
};

/* What a row of commands gives its one call. */
struct given {
    uint64_t value;
    hdt_local src[FIELDS];
    hdt_local first;
    uint32_t n;
};

struct caller {
    unsigned number;
    hdt_host *host;                /* its end */
    hdt_context context;           /* of its end */
    uint32_t registers[REGISTERS]; /* slots, 0 for none */
    struct command *commands;
    struct line *lines;
    size_t count, room, done;
    struct given given;
    uint64_t chance; /* of bad calls */
};

static hdt_host ends[CALLERS]; /* all bytes 0: closed. Of callers one after another the first alone is open. */
static hdt_host closed = HDT_CLOSED_HOST;
static struct caller callers[CALLERS];
static unsigned caller_count = 1;
static unsigned contexts; /* of an end: of callers one after another one more than there are, if there is one, to look in */
static bool is_shared, in_rows;
static unsigned long bad;
static _Atomic hdt_handle known[SLOTS]; /* the last handle of each slot that this program was given */
static atomic_uint collections;

static void fail(const char *why) {
    fprintf(stderr, "driver: %s\n", why);
    exit(2);
}

/* ---- the script: commands by caller */

static void add_command(struct caller *caller, const struct command *command) {
    if (caller->count == caller->room) {
        caller->room = caller->room * 2 + 64;
        caller->commands = (struct command *)realloc(caller->commands, caller->room * sizeof *command);
        if (!caller->commands) fail("no memory");
    }
    caller->commands[caller->count++] = *command;
}

static void read_script(void) {
    static char line[LINE];
    unsigned caller = 0;
    while (fgets(line, sizeof line, stdin)) {
        struct command command;
        memset(&command, 0, sizeof command);
        char *comment = strchr(line, '#');
        if (!comment && !strchr(line, '\n') && !feof(stdin)) fail("a line is too long");
        /* What is left of a long comment. */
        while (comment && !strchr(comment, '\n') && fgets(comment, (int)(sizeof line - (size_t)(comment - line)), stdin)) {}
        if (comment) *comment = 0;
        for (char *word = strtok(line, " \t\r\n"); word; word = strtok(NULL, " \t\r\n")) {
            if (command.count == WORDS || strlen(word) >= sizeof command.words[0]) fail("a line has no reading");
            strcpy(command.words[command.count++], word);
        }
        if (command.count == 0) continue;
        if (strcmp(command.words[0], "caller") == 0) {
            caller = (unsigned)atoi(command.words[1]);
            if (caller >= CALLERS) fail("a caller out of range");
            if (caller >= caller_count) caller_count = caller + 1;
            continue;
        }
        add_command(&callers[caller], &command);
    }
}

/* ---- words */

static uint32_t number(const char *word) { return (uint32_t)strtoul(word, NULL, 10); }
static uint32_t place(const char *word) { return number(word + 1); } /* of rN and hN */

static hdt_kind strength(const char *word) {
    static const char *const names[] = { "short", "long", "strong", "pinned" };
    for (hdt_kind i = 0; i < 4; i++)
        if (strcmp(word, names[i]) == 0) return i;
    fail("no strength");
    return 0;
}

static hdt_kind kind(const char *word) {
    if (strcmp(word, "var") == 0) return HDT_VARIABLE;
    if (strcmp(word, "ref") == 0) return HDT_COUNTED;
    if (strcmp(word, "dep") == 0) return HDT_DEPENDENT;
    return strength(word);
}

/* ---- the calls. A row says how a command is called and what its reply is made of. */

struct answer {
    hdt_id id;
    uint64_t value;
    uint32_t number;
    hdt_handle handle;
    hdt_report report;
    hdt_root root;
};

enum form { DONE, LOADED, VALUE, GENERATION, ADDRESS, GIVEN, REPORT, ROOT };
struct row {
    const char *name;
    enum form form;
    hdt_status (*call)(struct caller *me, const struct command *it, hdt_handle handle, struct answer *out);
    int on_handle;    /* the word with the handle register, 0 for none */
    const char *none; /* what HDT_NONE is called */
};

static uint32_t flags_of(const struct command *it) { return it->count == 4 ? HDT_FINALIZABLE : 0; }

#define WORD(n) it->words[n]
#define CALL(name, ...)                                                                                          \
    static hdt_status name(struct caller *me, const struct command *it, hdt_handle handle, struct answer *out) { \
        (void)it, (void)handle, (void)out;                                                                       \
        return __VA_ARGS__;                                                                                      \
    }
CALL(new_, hdt_object_new(me->host, me->context, place(WORD(1)), number(WORD(2)), flags_of(it), &out->id))
CALL(set, hdt_field_set(me->host, me->context, place(WORD(1)), number(WORD(2)), place(WORD(3))))
CALL(get, hdt_field_get(me->host, me->context, place(WORD(1)), place(WORD(2)), number(WORD(3)), &out->id))
CALL(val, hdt_value_set(me->host, me->context, place(WORD(1)), strtoull(WORD(2), NULL, 10)))
CALL(read_, hdt_value_get(me->host, me->context, place(WORD(1)), &out->value))
CALL(copy, hdt_local_copy(me->host, me->context, place(WORD(1)), place(WORD(2))))
CALL(drop, hdt_local_clear(me->host, me->context, place(WORD(1))))
CALL(sput, hdt_static_set(me->host, me->context, number(WORD(1)), place(WORD(2))))
CALL(sget, hdt_static_get(me->host, me->context, place(WORD(1)), number(WORD(2)), &out->id))
CALL(gen, hdt_generation(me->host, me->context, place(WORD(1)), &out->number))
CALL(suppress, hdt_suppress(me->host, me->context, place(WORD(1))))
CALL(reregister, hdt_reregister(me->host, me->context, place(WORD(1))))
CALL(final, hdt_final_next(me->host, me->context, place(WORD(1)), &out->id))
CALL(collect, hdt_collect(me->host, number(WORD(1)), &out->report))
CALL(trim, hdt_trim(me->host, kind(WORD(1)), &out->number))
CALL(cadd, hdt_table_add(me->host, me->context, place(WORD(1)), place(WORD(2))))
CALL(cfind, hdt_table_find(me->host, me->context, place(WORD(1)), place(WORD(2)), &out->id))
CALL(cremove, hdt_table_remove(me->host, me->context, place(WORD(1))))
CALL(gcroot, hdt_root_of(me->host, me->context, place(WORD(1)), &out->root))
CALL(hget, hdt_handle_get(me->host, me->context, handle, place(WORD(1)), &out->id))
CALL(hset, hdt_handle_set(me->host, me->context, handle, place(WORD(2))))
CALL(hsec, hdt_secondary_set(me->host, me->context, handle, place(WORD(2))))
CALL(hdep, hdt_secondary_get(me->host, me->context, handle, place(WORD(1)), &out->id))
CALL(hvar, hdt_strength_set(me->host, handle, strength(WORD(2))))
CALL(hup, hdt_count_up(me->host, handle, &out->value))
CALL(hdown, hdt_count_down(me->host, handle, &out->value))
CALL(hfree, hdt_handle_free(me->host, handle))
CALL(addr, hdt_address(me->host, handle, &out->number))

CALL(get_and_read, hdt_field_load(me->host, me->context, place(WORD(1)), place(WORD(2)), number(WORD(3)), &out->id, &out->value))
CALL(hget_and_read, hdt_handle_load(me->host, me->context, handle, place(WORD(1)), &out->id, &out->value))
CALL(new_with, hdt_object_make(me->host, me->context, place(WORD(1)), flags_of(it), me->given.value, me->given.src,
                               number(WORD(2)), &out->id))
CALL(cremove_and_cadd, hdt_table_set(me->host, me->context, place(WORD(1)), me->given.first))
CALL(drop_all, hdt_locals_clear(me->host, me->context, me->given.first, me->given.n))

static hdt_status hnew(struct caller *me, const struct command *it, hdt_handle handle, struct answer *out) {
    hdt_kind of = kind(WORD(2));
    uint32_t extra = of == HDT_VARIABLE ? strength(WORD(4)) : of == HDT_DEPENDENT ? place(WORD(4)) : 0;
    (void)handle;
    return hdt_handle_new(me->host, me->context, of, place(WORD(3)), extra, &out->handle);
}

static const struct row rows[] = {
    { "new", LOADED, new_, 0, NULL },          { "set", DONE, set, 0, NULL },
    { "get", LOADED, get, 0, NULL },           { "val", DONE, val, 0, NULL },
    { "read", VALUE, read_, 0, NULL },         { "copy", DONE, copy, 0, NULL },
    { "drop", DONE, drop, 0, NULL },           { "sput", DONE, sput, 0, NULL },
    { "sget", LOADED, sget, 0, NULL },         { "gen", GENERATION, gen, 0, NULL },
    { "suppress", DONE, suppress, 0, NULL },   { "reregister", DONE, reregister, 0, NULL },
    { "final", LOADED, final, 0, "none" },     { "collect", REPORT, collect, 0, NULL },
    { "trim", GIVEN, trim, 0, NULL },          { "cadd", DONE, cadd, 0, NULL },
    { "cfind", LOADED, cfind, 0, "absent" },   { "cremove", DONE, cremove, 0, "absent" },
    { "gcroot", ROOT, gcroot, 0, "unrooted" }, { "hnew", DONE, hnew, 0, NULL },
    { "hget", LOADED, hget, 2, NULL },         { "hset", DONE, hset, 1, NULL },
    { "hsec", DONE, hsec, 1, NULL },           { "hdep", LOADED, hdep, 2, NULL },
    { "hvar", DONE, hvar, 1, NULL },           { "hup", VALUE, hup, 1, NULL },
    { "hdown", VALUE, hdown, 1, NULL },        { "hfree", DONE, hfree, 1, NULL },
    { "addr", ADDRESS, addr, 1, NULL },
};

static const struct row *row_of(const char *word) {
    for (size_t i = 0; i < sizeof rows / sizeof *rows; i++)
        if (strcmp(word, rows[i].name) == 0) return &rows[i];
    fail("a line has no reading");
    return NULL;
}

/* The slot of a handle: its low 24 bits. */
static uint32_t slot_of(hdt_handle handle) { return (uint32_t)(handle & 0xffffff); }

/* ---- turns */

/* A call, made again as long as another end has its turn. */
#define TURN(status, call) do (status) = (call); while (hdt_retry(status))

static hdt_change last_of(struct caller *me) {
    hdt_change change;
    if (hdt_last(me->host, &change) != HDT_OK) fail("no change");
    return change;
}

static hdt_stats_out stats_of(struct caller *me) {
    hdt_stats_out stats;
    hdt_status status;
    TURN(status, hdt_stats(me->host, &stats));
    if (status != HDT_OK) fail("no stats");
    return stats;
}

/* A turn in which nothing is done, for a command of which the host knows nothing. */
static uint64_t no_more_than_a_turn(struct caller *me) {
    (void)stats_of(me);
    return last_of(me).turn;
}

/* Whether a slot has a handle at present. */
static bool is_live(struct caller *me, uint32_t slot, hdt_handle *handle) {
    hdt_handle_info info;
    hdt_status status;
    size_t count;
    uint32_t next;
    TURN(status, hdt_handles(me->host, slot, &info, 1, &count, &next));
    if (status != HDT_OK || count != 1 || slot_of(info.handle) != slot) return false;
    *handle = info.handle;
    return true;
}

/* The handle that is in a slot at present, or one that is stale. */
static hdt_handle in_slot(struct caller *me, uint32_t slot) {
    hdt_handle handle;
    if (is_live(me, slot, &handle)) return handle;
    handle = known[slot];
    return handle ? handle : slot;
}

/* ---- lines */

struct done {
    hdt_status status;
    hdt_change change; /* of the call, with the turn that the line has */
    hdt_stats_out stats; /* of a refusal with sizes, as they were when it was refused */
};

static void put(struct line *line, const char *form, ...) {
    size_t had = strlen(line->text);
    va_list words;
    va_start(words, form);
    int more = vsnprintf(line->text + had, REPLY - had, form, words);
    va_end(words);
    if (more < 0 || (size_t)more >= REPLY - had) fail("a reply is too long");
}

static void put_id(struct line *line, const char *before, hdt_id id) {
    put(line, "%s %u.%u", before, (unsigned)(id >> 32), (unsigned)(id & 0xffffffffu));
}

static void put_refusal(struct line *line, const struct done *done, uint32_t size) {
    switch (done->status) {
    case HDT_STALE: put(line, "notlive"); break;
    case HDT_WRONG_KIND: put(line, "wrongkind"); break;
    case HDT_COUNT_ZERO: put(line, "countzero"); break;
    case HDT_NULL: put(line, "nullref"); break;
    case HDT_NO_FIELD: put(line, "badfield"); break;
    case HDT_PRESENT: put(line, "present"); break;
    case HDT_HEAP_FULL: put(line, "heapfull %u %u", (unsigned)done->stats.cells, (unsigned)size); break;
    case HDT_TABLE_FULL: put(line, "tablefull %u", (unsigned)done->stats.blocks); break;
    default: fprintf(stderr, "driver: status %u\n", (unsigned)done->status); exit(3);
    }
}

/* What a call gave or freed, and how the table grew. */
static void put_change(struct line *line, const hdt_change *change) {
    if (change->slot) put(line, " @%u", (unsigned)change->slot);
    if (change->data_block) put(line, " +%u,%u", (unsigned)change->block, (unsigned)change->data_block);
    else if (change->block) put(line, " +%u", (unsigned)change->block);
    if (change->given_back) put(line, " -%u", (unsigned)change->given_back);
}

static void put_report(struct line *line, const hdt_report *r) {
    put(line, "kept %u removed %u short %u long %u dep %u revived %u", (unsigned)r->kept, (unsigned)r->removed,
        (unsigned)r->cleared_short, (unsigned)r->cleared_long, (unsigned)r->cleared_dependent, (unsigned)r->revived);
}

static void put_answer(struct line *line, enum form form, const struct answer *out, const hdt_change *change) {
    switch (form) {
    case DONE: put(line, "ok"); put_change(line, change); break;
    case LOADED: if (out->id) put_id(line, "obj", out->id); else put(line, "null"); break;
    case VALUE: put(line, "value %" PRIu64, out->value); break;
    case GENERATION: put(line, "gen %u", (unsigned)out->number); break;
    case ADDRESS: put(line, "addr %u", (unsigned)out->number); break;
    case GIVEN: put(line, "value %u", (unsigned)out->number); put_change(line, change); break;
    case REPORT: put_report(line, &out->report); break;
    case ROOT: put_id(line, "root", out->root.from); put(line, " %u", (unsigned)out->root.arrows); break;
    }
}

/* ---- commands */

/* The command's call, in a turn. Where ends share the host, what is looked at besides is of other turns. So a refusal with
 * sizes is made again until they are of the very next turn; and one of a stale handle until the slot is seen to have none: the
 * line has that turn, in which the command would have been refused. */
static struct done call_in_a_turn(struct caller *me, const struct row *row, const struct command *it, uint32_t slot,
                                  struct answer *out) {
    struct done done;
    for (;;) {
        hdt_handle handle = slot ? in_slot(me, slot) : 0, now;
        TURN(done.status, row->call(me, it, handle, out));
        done.change = last_of(me);
        if (is_shared && done.status == HDT_STALE) {
            bool is_used = is_live(me, slot, &now);
            if (is_used && now == handle) fail("a live handle was refused as stale");
            if (is_used) continue;
            done.change.turn = last_of(me).turn;
        } else if (done.status == HDT_HEAP_FULL || done.status == HDT_TABLE_FULL) {
            done.stats = stats_of(me);
            if (is_shared && last_of(me).turn != done.change.turn + 1) continue;
        }
        return done;
    }
}

/* The board is between callers, so its commands are in the order of their turns: none comes between look and turn. */
static uint64_t on_board(struct caller *me, bool puts, uint32_t at, uint32_t reg) {
    static pthread_mutex_t lock = PTHREAD_MUTEX_INITIALIZER;
    static uint32_t board[REGISTERS];
    pthread_mutex_lock(&lock);
    uint64_t turn = no_more_than_a_turn(me);
    if (puts) board[at] = me->registers[reg];
    else me->registers[reg] = board[at];
    pthread_mutex_unlock(&lock);
    return turn;
}

static void note_call(struct caller *me, const struct row *row, const struct command *it, const struct answer *out) {
    if (row->call == hfree) me->registers[place(it->words[1])] = 0;
    if (row->call == collect) atomic_fetch_add(&collections, 1);
    if (row->call != hnew) return;
    uint32_t slot = slot_of(out->handle);
    me->registers[place(it->words[1])] = slot;
    known[slot] = out->handle;
}

/* A command by the call of a row, and its line; what the call came to, of a handle register without a handle HDT_STALE. */
static hdt_status do_call(struct caller *me, const struct row *row, const struct command *it, struct answer *out,
                          struct line *line) {
    uint32_t slot = row->on_handle ? me->registers[place(it->words[row->on_handle])] : 0;
    memset(out, 0, sizeof *out);
    if (row->on_handle && slot == 0) {
        line->turn = no_more_than_a_turn(me);
        put(line, "empty");
        return HDT_STALE;
    }
    struct done done = call_in_a_turn(me, row, it, slot, out);
    line->turn = done.change.turn;
    if (done.status == HDT_OK) {
        note_call(me, row, it, out);
        put_answer(line, row->form, out, &done.change);
    } else if (done.status == HDT_NONE && row->none) {
        put(line, "%s", row->none);
    } else {
        put_refusal(line, &done, row->call == new_ || row->call == new_with ? number(it->words[2]) + 3 : 0);
    }
    return done.status;
}

static struct line *line_of(struct caller *me, size_t ahead) {
    struct line *line = &me->lines[me->done + ahead];
    if (line->text[0] == 0) put(line, "%u %zu ", me->number, me->done + ahead + 1);
    return line;
}

static void do_command(struct caller *me, const struct command *it) {
    struct line *line = line_of(me, 0);
    const char *word = it->words[0];
    bool puts = strcmp(word, "hput") == 0;
    if (puts || strcmp(word, "hpick") == 0) {
        line->turn = on_board(me, puts, number(it->words[puts ? 1 : 2]), place(it->words[puts ? 2 : 1]));
        put(line, "ok");
        return;
    }
    struct answer out;
    (void)do_call(me, row_of(word), it, &out, line);
}

/* ---- rows: commands that are together in the script, done by one call. Each function says how many it did, 0 for none */

static bool is(const struct command *it, const char *word) { return it && strcmp(it->words[0], word) == 0; }

static const struct command *ahead(const struct caller *me, size_t by) {
    return me->done + by < me->count ? &me->commands[me->done + by] : NULL;
}

static struct line *further_line(struct caller *me, size_t by) {
    struct line *line = line_of(me, by);
    line->turn = line_of(me, 0)->turn;
    line->goes_on = true;
    return line;
}

/* `get` or `hget`, and `read` of what was loaded. */
static size_t do_load(struct caller *me, const struct command *it) {
    static const struct row of_field = { "get", LOADED, get_and_read, 0, NULL };
    static const struct row of_handle = { "hget", LOADED, hget_and_read, 2, NULL };
    if ((!is(it, "get") && !is(it, "hget")) || !is(ahead(me, 1), "read") || strcmp(it->words[1], ahead(me, 1)->words[1]) != 0)
        return 0;
    struct answer out;
    if (do_call(me, is(it, "get") ? &of_field : &of_handle, it, &out, line_of(me, 0)) != HDT_OK) return 1;
    if (out.id) put(further_line(me, 1), "value %" PRIu64, out.value);
    else put(further_line(me, 1), "nullref");
    return 2;
}

/* How many commands after a `new` give the object its value and, from other locals, its fields; what is not given is null. */
static size_t parts_ahead(struct caller *me, const struct command *it) {
    uint32_t fields = number(WORD(2)), unset = fields;
    bool is_set[FIELDS] = { false };
    size_t count = 0;
    me->given.value = 0;
    for (const struct command *next; (next = ahead(me, count + 1)) != NULL; count++) {
        if ((!is(next, "val") && !is(next, "set")) || place(next->words[1]) != place(WORD(1))) break;
        uint32_t i = number(next->words[2]);
        if (is(next, "set") && (i >= fields || place(next->words[3]) == place(WORD(1)))) break;
        if (is(next, "val")) me->given.value = strtoull(next->words[2], NULL, 10);
        else {
            unset -= !is_set[i];
            is_set[i] = true;
            me->given.src[i] = place(next->words[3]);
        }
    }
    hdt_id ids[REGISTERS];
    hdt_status status;
    hdt_local null = 0;
    TURN(status, hdt_locals(me->host, me->context, ids, REGISTERS));
    if (status != HDT_OK) fail("no locals");
    while (null < REGISTERS && ids[null] != 0) null++;
    for (uint32_t i = 0; i < fields; i++)
        if (!is_set[i]) me->given.src[i] = null;
    return unset > 0 && null == REGISTERS ? 0 : count;
}

static size_t do_new(struct caller *me, const struct command *it) {
    static const struct row by = { "new", LOADED, new_with, 0, NULL };
    if (!is(it, "new") || number(WORD(2)) > FIELDS) return 0;
    size_t parts = parts_ahead(me, it);
    if (parts == 0) return 0;
    struct answer out;
    if (do_call(me, &by, it, &out, line_of(me, 0)) != HDT_OK) return 1;
    for (size_t i = 1; i <= parts; i++) put(further_line(me, i), "ok");
    return 1 + parts;
}

/* Whether the key has an entry, looked up in a context of the driver's own. */
static bool has_entry(struct caller *me, hdt_local key) {
    hdt_id id;
    if (hdt_local_pass(me->host, caller_count, 0, me->context, key, &id) != HDT_OK) fail("a key is not passed");
    bool has = id != 0 && hdt_table_find(me->host, caller_count, 1, 0, &id) == HDT_OK;
    if (hdt_locals_clear(me->host, caller_count, 0, 2) != HDT_OK) fail("locals are not cleared");
    return has;
}

/* `cremove` and `cadd` of one key. The call does not say whether there was an entry, so of ends that share a host, where another
 * one may come between look and call, it is not made. */
static size_t do_entry(struct caller *me, const struct command *it) {
    static const struct row by = { "cadd", DONE, cremove_and_cadd, 0, NULL };
    const struct command *next = ahead(me, 1);
    if (is_shared || contexts == caller_count || !is(it, "cremove") || !is(next, "cadd")) return 0;
    if (place(WORD(1)) != place(next->words[1])) return 0;
    struct answer out;
    bool has = has_entry(me, place(WORD(1)));
    me->given.first = place(next->words[2]);
    hdt_status status = do_call(me, &by, it, &out, further_line(me, 1));
    put(line_of(me, 0), status == HDT_NULL ? "nullref" : has ? "ok" : "absent");
    return 2;
}

/* `drop` of locals of which each is beside those before. */
static size_t do_drops(struct caller *me, const struct command *it) {
    static const struct row by = { "drop", DONE, drop_all, 0, NULL };
    if (!is(it, "drop") || !is(ahead(me, 1), "drop")) return 0;
    uint32_t low = place(WORD(1)), high = low;
    size_t count = 1;
    for (; is(ahead(me, count), "drop"); count++) {
        uint32_t one = place(ahead(me, count)->words[1]);
        if (one + 1 < low || one > high + 1) break;
        if (one < low) low = one;
        if (one > high) high = one;
    }
    struct answer out;
    me->given.first = low;
    me->given.n = high + 1 - low;
    if (count == 1 || do_call(me, &by, it, &out, line_of(me, 0)) != HDT_OK) return 0;
    for (size_t i = 1; i < count; i++) put(further_line(me, i), "ok");
    return count;
}

static size_t do_row(struct caller *me, const struct command *it) {
    size_t done = do_load(me, it);
    if (done == 0) done = do_new(me, it);
    if (done == 0) done = do_entry(me, it);
    return done > 0 ? done : do_drops(me, it);
}

/* ---- calls that must be refused */

static uint32_t any(struct caller *me, uint32_t below) {
    me->chance = me->chance * 6364136223846793005u + 1442695040888963407u;
    return (uint32_t)(me->chance >> 33) % below;
}

static hdt_status kind_of(struct caller *me, hdt_handle handle, hdt_kind *is) {
    hdt_status status;
    TURN(status, hdt_handle_kind(me->host, handle, is));
    return status;
}

/* A handle that no slot has, and none gets any more: one that was freed, or a number that no handle has. */
static hdt_handle stale(struct caller *me) {
    for (int i = 0; i < 8; i++) {
        uint32_t slot = any(me, SLOTS);
        hdt_handle number_alone = ((hdt_handle)any(me, 1u << 20) << 44) | ((hdt_handle)any(me, 1u << 20) << 24) | slot;
        hdt_handle handle = any(me, 2) ? known[64 + any(me, 64)] : number_alone;
        hdt_kind is;
        if (kind_of(me, handle, &is) == HDT_STALE) return handle;
    }
    return 0;
}

/* A live handle that is not of a kind, or one that is stale. */
static hdt_handle of_another_kind(struct caller *me, hdt_kind kind_is, hdt_status *wanted) {
    hdt_handle_info info;
    hdt_status status;
    size_t count;
    uint32_t next;
    *wanted = HDT_WRONG_KIND;
    for (uint32_t from = any(me, 4) * 64;; from = next) {
        TURN(status, hdt_handles(me->host, from, &info, 1, &count, &next));
        if (status != HDT_OK || count != 1) break;
        if (info.kind != kind_is) return info.handle;
        if (next == 0) break;
    }
    *wanted = HDT_STALE;
    return stale(me);
}

/* One of the calls; what it is given may be written by nobody. */
static hdt_status bad_call_of(struct caller *me, hdt_status *wanted, hdt_id *id, uint64_t *count, uint32_t *small) {
    uint32_t c = me->context, r = any(me, 16), out = 16 + any(me, 1u << 30);
    hdt_handle handle;
    hdt_report report;
    hdt_limits limits = { 1000, 1, 1 };
    *wanted = HDT_ARGUMENT;
    switch (any(me, 15)) {
    case 0: *wanted = HDT_STALE; return hdt_handle_get(me->host, c, stale(me), r, id);
    case 1: *wanted = HDT_STALE; return hdt_handle_free(me->host, stale(me));
    case 2: *wanted = HDT_STALE; return hdt_handle_set(me->host, c, stale(me), r);
    case 3: *wanted = HDT_STALE; return hdt_count_up(me->host, stale(me), count);
    case 4: return hdt_handle_get(me->host, c, stale(me), out, id);
    case 5: return hdt_object_new(me->host, c + contexts, r, 0, 0, id);
    case 6: return hdt_object_new(me->host, c, r, 62 + any(me, 1000), 0, id);
    case 7: return hdt_handle_new(me->host, c, 7 + any(me, 1000), r, 0, &handle);
    case 8: return hdt_collect(me->host, 3 + any(me, 1000), &report);
    case 9: *wanted = HDT_CLOSED; return hdt_local_clear(&closed, c, r);
    case 10: return hdt_trim(me->host, 7 + any(me, 1000), small);
    case 11: handle = of_another_kind(me, HDT_COUNTED, wanted); return hdt_count_up(me->host, handle, count);
    case 12: handle = of_another_kind(me, HDT_VARIABLE, wanted); return hdt_strength_set(me->host, handle, HDT_STRONG);
    case 13: *wanted = HDT_IS_OPEN; return hdt_open(me->host, &limits);
    default: *wanted = HDT_IS_OPEN; return hdt_open_shared(me->host, 1, &limits);
    }
}

/* A call at random is refused, or busy where it may be, and writes nothing. Where ends share the host, a handle of another
 * kind may be freed meanwhile; else counts and last change are those of before. */
static void bad_call(struct caller *me) {
    hdt_id id = 12345;
    uint64_t count = 12345;
    uint32_t small = 12345;
    hdt_status wanted;
    hdt_stats_out before = stats_of(me), after;
    hdt_change last = last_of(me), still;
    hdt_status status = bad_call_of(me, &wanted, &id, &count, &small);
    bool same = id == 12345 && count == 12345 && small == 12345;
    if (!is_shared) {
        after = stats_of(me);
        still = last_of(me);
        same = same && memcmp(&before, &after, sizeof before) == 0 && memcmp(&last, &still, sizeof last) == 0;
    }
    bool takes_turn = is_shared && wanted != HDT_ARGUMENT && wanted != HDT_CLOSED && wanted != HDT_IS_OPEN;
    bool is_freed = is_shared && wanted == HDT_WRONG_KIND && status == HDT_STALE;
    if (same && (status == wanted || is_freed || (takes_turn && status == HDT_BUSY))) return;
    fprintf(stderr, "driver: a bad call came to %u and not to %u\n", (unsigned)status, (unsigned)wanted);
    exit(4);
}

/* ---- callers */

/* Threads begin together. */
static void wait_for_all(void) {
    static atomic_uint there;
    atomic_fetch_add(&there, 1);
    while (atomic_load(&there) < caller_count) (void)sched_yield();
}

static void *do_commands(void *given) {
    struct caller *me = (struct caller *)given;
    if (is_shared) wait_for_all();
    for (size_t done; me->done < me->count; me->done += done) {
        const struct command *it = &me->commands[me->done];
        for (unsigned long k = 0; k < bad; k++) bad_call(me);
        done = in_rows ? do_row(me, it) : 0;
        if (done > 0) continue;
        do_command(me, it);
        done = 1;
    }
    return NULL;
}

/* Lines of one turn are one caller's, who has them in their order. */
static int by_turn(const void *one, const void *other) {
    const struct line *a = *(struct line *const *)one, *b = *(struct line *const *)other;
    if (a->turn != b->turn) return a->turn < b->turn ? -1 : 1;
    return a < b ? -1 : a > b;
}

/* Of callers one after another no line has a turn, and they are in order. */
static void print_lines(void) {
    size_t all = 0, at = 0;
    for (unsigned c = 0; c < caller_count; c++) all += callers[c].count;
    struct line **order = (struct line **)malloc((all + 1) * sizeof *order);
    if (!order) fail("no memory");
    for (unsigned c = 0; c < caller_count; c++)
        for (size_t i = 0; i < callers[c].count; i++) order[at++] = &callers[c].lines[i];
    if (is_shared) qsort(order, all, sizeof *order, by_turn);
    for (size_t i = 0; i < all; i++) {
        uint64_t before = i > 0 ? order[i - 1]->turn : 0;
        bool is_due = order[i]->goes_on ? order[i]->turn == before && order[i - 1] + 1 == order[i] : order[i]->turn > before;
        if (is_shared && !is_due) fail("two lines have one turn, or a row is not together");
        puts(order[i]->text);
    }
    free(order);
}

static void open_all(hdt_limits *limits) {
    contexts = is_shared ? 1 : in_rows && caller_count < CALLERS ? caller_count + 1 : caller_count;
    limits->contexts = is_shared ? caller_count : contexts;
    hdt_status status = is_shared ? hdt_open_shared(ends, caller_count, limits) : hdt_open(&ends[0], limits);
    if (status != HDT_OK) fail("not opened");
    for (unsigned c = 0; c < caller_count; c++) {
        struct caller *me = &callers[c];
        me->number = c;
        me->host = is_shared ? &ends[c] : &ends[0];
        me->context = is_shared ? 0 : c;
        me->chance += c;
        me->lines = (struct line *)calloc(me->count + 1, sizeof *me->lines);
        if (!me->lines) fail("no memory");
    }
}

static void run_threads(void) {
    pthread_t threads[CALLERS];
    for (unsigned c = 0; c < caller_count; c++)
        if (pthread_create(&threads[c], NULL, do_commands, &callers[c]) != 0) fail("no thread");
    for (unsigned c = 0; c < caller_count; c++) pthread_join(threads[c], NULL);
}

static void read_words(int count, char **words, hdt_limits *limits) {
    for (int i = 1; i < count; i++) {
        if (strcmp(words[i], "--threads") == 0) is_shared = true;
        else if (strcmp(words[i], "--rows") == 0) in_rows = true;
        else if (strcmp(words[i], "--heap") == 0 && i + 1 < count) limits->cells = number(words[++i]);
        else if (strcmp(words[i], "--blocks") == 0 && i + 1 < count) limits->blocks = number(words[++i]);
        else if (strcmp(words[i], "--bad") == 0 && i + 2 < count) {
            bad = strtoul(words[i + 1], NULL, 10);
            for (unsigned c = 0; c < CALLERS; c++) callers[c].chance = strtoull(words[i + 2], NULL, 10);
            i += 2;
        } else fail("usage: driver [--threads] [--rows] [--heap N] [--blocks N] [--bad N SEED]");
    }
}

int main(int count, char **words) {
    hdt_limits limits = { 1000000, 256, 1 };
    read_words(count, words, &limits);
    read_script();
    open_all(&limits);
    if (is_shared) run_threads();
    else
        for (unsigned c = 0; c < caller_count; c++) do_commands(&callers[c]);
    print_lines();
    hdt_stats_out stats = stats_of(&callers[0]);
    unsigned handles = stats.handles, objects = stats.objects, collected = collections;
    printf("end handles %u objects %u collections %u\n", handles, objects, collected);
    for (unsigned c = 0; c < caller_count; c++) {
        hdt_close(&ends[c]);
        free(callers[c].commands);
        free(callers[c].lines);
    }
    return 0;
}
