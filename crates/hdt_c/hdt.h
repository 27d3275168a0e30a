/* hdt.h: a .NET-style GC handle table over a generational, compacting heap, for C hosts.
 *
 *   #include "hdt.h"
 *   hdt_host host = HDT_CLOSED_HOST;
 *   hdt_limits limits = { 100000, 64, 1 };                                   // cells, blocks, contexts
 *   hdt_open(&host, &limits);
 *   hdt_handle weak; hdt_report report; hdt_id target;
 *   hdt_object_new(&host, 0, HDT_LOCAL(0), 2, HDT_FINALIZABLE, &target);   // local 0 of context 0 references it
 *   hdt_handle_new(&host, 0, HDT_WEAK_LONG, HDT_LOCAL(0), 0, &weak);
 *   hdt_local_clear(&host, 0, HDT_LOCAL(0));
 *   hdt_collect(&host, 0, &report);                                       // report.revived == 1
 *   hdt_handle_get(&host, 0, weak, HDT_LOCAL(1), &target);                // a weak long handle outlives it: target != 0
 *   hdt_close(&host);
 *
 * Link: cc host.c libhdt_c.a liblibc_c.a        (both archives are in the release; malloc, realloc and free are the program's)
 *
 * WHAT IS PROVED of each function, given the duties below: it returns; it reads and writes no memory but the host's, its own and
 * the out parameters; and its effect and its status are exactly those of one step of the machine of docs/machine.md, of steps in a
 * row that are refused as a whole (hdt_field_load, _handle_load, _table_set), or of a step of the host alone (hdt_object_make,
 * _local_pass, _locals_clear). Where the status is not HDT_OK no out parameter is written, and the host is as it was, unless it is
 * HDT_NONE: with that the call was done, so hdt_last is of it, all 0, and the local of hdt_final_next and of hdt_table_find is
 * null. Of a host that ends share besides: each call finds the host that the last turn of all ends left, or it is HDT_BUSY and
 * nothing is changed; and what an end's locals reference is what it left there, whatever other ends did, collections too.
 *
 * DUTIES of the caller, which nothing checks:
 *  1. `host` is not null, and points to an hdt_host that is HDT_CLOSED_HOST or that these functions wrote. It may be moved
 *     (copied, and the old one never used again), but not copied: one copy owns what it has, as with a pthread_mutex_t. Its
 *     field is private.
 *  2. Out parameters are not null, are aligned, and do not overlap the host or one another. An array has room for its count. `src`
 *     of hdt_object_make is not null, is aligned and overlaps no out parameter, also where `fields` is 0.
 *  3. Threads: an hdt_host is one thread's at a time. Calls with one may come from any thread, one at a time, each ordered after
 *     the one before by a lock, a join or a sequentially consistent atomic. Calls with two need no order, also where they are
 *     ends of one host (hdt_open_shared). No thread ends, is cancelled or is left by longjmp inside a call: the gate of a shared
 *     host would stay taken. No call from a signal handler, or from the forked child of a process with threads.
 *  4. malloc, realloc and free are of one allocator and align to 16.
 * Everything else is checked: numbers out of range, stale handles, wrong kinds, a closed host, and each failed allocation.
 */
#ifndef HDT_H
#define HDT_H
#include <sched.h>
#include <stdbool.h>
#include <stddef.h>
#include <stdint.h>
#ifdef __cplusplus
extern "C" {
#endif

#define HDT_ABI 2 /* hdt_abi() returns it */
#define HDT_VERSION "0.5.0" /* of the release that a program is compiled with; hdt_version says that of the one it runs with */

/* One thread's end of a world of objects and handles: of a host of its own (hdt_open), or of one that up to 16 ends share
 * (hdt_open_shared). Every function takes either. All bytes 0: closed. */
typedef struct { void *hdt_private; } hdt_host;
#define HDT_CLOSED_HOST { 0 }

/* A handle, opaque; 0 is none. It has the number of its slot and a stamp, so that the use of a freed one is refused (HDT_STALE)
 * also where its slot is in use again. It stays valid over collections, until hdt_handle_free. After 2^40 - 1 handles in a slot
 * the next one there is not freed (HDT_EXHAUSTED). A host knows a handle by these two numbers alone: one of another host, or of
 * this one before it was closed and opened again, may be taken for one of its own. What a program has beside each handle it finds
 * by the slot, the low 24 bits: from 64 to 64 * blocks + 63, and no two handles that are not freed have one. */
typedef uint64_t hdt_handle;

/* The identity of an object, 0 for null. No two objects of a host have one. It is a name and no reference: it keeps nothing. */
typedef uint64_t hdt_id;

/* Local references: each context has 16, and what they reference is kept (JNI guarantees 16 too). A host gives each of its
 * threads, or each nested scope, a context; all are taken when it is opened. An end of a shared host has contexts of its own,
 * numbered from 0 there; what they reference is kept until the last end closes, so an end clears its locals before it does. The
 * functions that load say which local gets the result. */
typedef uint32_t hdt_context; /* from 0, below the number of contexts */
typedef uint32_t hdt_local;   /* 0 to 15 */
#define HDT_LOCAL(n) ((hdt_local)(n))

typedef uint32_t hdt_status;
enum {
    HDT_OK = 0,
    HDT_CLOSED = 1,      /* the host is closed */
    HDT_IS_OPEN = 2,     /* hdt_open, _open_shared: it is open already, or one of them */
    HDT_ARGUMENT = 3,    /* a context, local, kind, generation or limit out of range; more than 61 fields, flags that are none, an
                          * `extra` that the kind does not take, the number of no static */
    HDT_NO_MEMORY = 4,   /* of hdt_open, _open_shared, _object_new, _object_make, _collect, _root_of; of _handle_new, _table_add,
                          * _table_set where no slot is free; and of these two where, in a host of more than 256 blocks, the weak
                          * table has no slot: with nothing else wrong, malloc failed */
    HDT_EXHAUSTED = 5,   /* the context has made 2^32 - 1 objects, and another may make as many (hdt_context_left says how many are
                          * left); or the count, or the stamp of the slot, is at its end */
    /* the refusals of the machine, in the order in which they are found */
    HDT_STALE = 6,       /* no such handle: never made, or freed */
    HDT_WRONG_KIND = 7,
    HDT_COUNT_ZERO = 8,
    HDT_NULL = 9,        /* the local, or the target of the handle, is null */
    HDT_NO_FIELD = 10,
    HDT_PRESENT = 11,    /* hdt_table_add: the key has an entry */
    HDT_HEAP_FULL = 12,  /* collect; hdt_stats has the sizes */
    HDT_TABLE_FULL = 13, /* hdt_trim_all, which gives spare blocks of other kinds back; or free handles */
    /* answers that are no failures */
    HDT_NONE = 14,       /* hdt_final_next: the queue is empty; hdt_table_find, _remove: no entry; hdt_root_of: unrooted */
    /* of an end of a shared host, after HDT_CLOSED and HDT_ARGUMENT and before all others */
    HDT_BUSY = 15,       /* another end had its turn, or came first, at each of 16 looks: nothing was done, try again */
    HDT_ROOM = 16        /* the array is too short for what is there; no call returns it yet */
};

/* The name of a status, as above; of a number that is none, "HDT_?". */
static inline const char *hdt_status_name(hdt_status status) {
    static const char *const names[] = { "HDT_OK", "HDT_CLOSED", "HDT_IS_OPEN", "HDT_ARGUMENT", "HDT_NO_MEMORY", "HDT_EXHAUSTED",
        "HDT_STALE", "HDT_WRONG_KIND", "HDT_COUNT_ZERO", "HDT_NULL", "HDT_NO_FIELD", "HDT_PRESENT", "HDT_HEAP_FULL",
        "HDT_TABLE_FULL", "HDT_NONE", "HDT_BUSY", "HDT_ROOM" };
    return status < sizeof names / sizeof *names ? names[status] : "HDT_?";
}

/* For a call that is to wait for its turn: whether it was busy, after the processor was given up to other threads. No end is
 * promised a turn.       do status = hdt_collect(&end, 0, &report); while (hdt_retry(status)); */
static inline bool hdt_retry(hdt_status status) {
    if (status != HDT_BUSY) return false;
    (void)sched_yield();
    return true;
}

typedef uint32_t hdt_kind;
enum {
    HDT_WEAK_SHORT = 0, /* GCHandleType.Weak: null before finalization */
    HDT_WEAK_LONG = 1,  /* WeakTrackResurrection */
    HDT_STRONG = 2,     /* Normal */
    HDT_PINNED = 3,     /* Pinned: the object does not move */
    HDT_VARIABLE = 4,   /* its extra is one of the four above, and hdt_strength_set changes it */
    HDT_COUNTED = 5,    /* strong while its count is above 0, else weak long; made with count 1 */
    HDT_DEPENDENT = 6   /* DependentHandle: its extra is the local with the secondary */
};

enum { HDT_FINALIZABLE = 1 }; /* flags of hdt_object_new */

/* The most that a host may have. A cell is 8 bytes, and an object takes its fields and 3. A block is 64 slots of one kind, 4194304
 * slots in all: a handle has the number of its slot in its low 24 bits, and above them a stamp of 40. Variable, ref-counted and
 * dependent kinds and the weak table take two blocks at a time. `kept` of a report counts the objects of the collected generations
 * that stay, resurrected ones too. */
#define HDT_MOST_CELLS 1073741824
#define HDT_MOST_BLOCKS 65536
#define HDT_MOST_CONTEXTS 65536
typedef struct { uint32_t cells, blocks, contexts; } hdt_limits; /* at least 3, 1, 1 */
typedef struct { uint32_t kept, removed, cleared_short, cleared_long, cleared_dependent, revived; } hdt_report;
typedef struct { uint32_t objects, cells, handles, blocks, queued; } hdt_stats_out;
/* The objects, cells and regions of each generation, 0 to 2; free slots by kind; slots of the weak table without an entry. */
typedef struct { uint32_t objects[3], cells[3], regions[3], free_slots[7], idle_slots; } hdt_sizes_out;
typedef struct { hdt_handle handle; hdt_id target; hdt_kind kind; uint32_t extra; } hdt_handle_info; /* strength or count */
typedef struct { hdt_id id; uint64_t value; uint32_t fields, generation, finalizable; } hdt_object_out;
typedef struct { hdt_id from; uint32_t arrows; } hdt_root;
typedef struct { uint32_t slot, block, data_block, given_back; uint64_t turn; } hdt_change; /* each 0 for none */
typedef struct { uint32_t major, minor, patch; } hdt_version_out;

/* ---- the host */
uint32_t hdt_abi(void);
void hdt_version(hdt_version_out *out);
hdt_status hdt_open(hdt_host *host, const hdt_limits *limits); /* takes that of contexts and 64 blocks; what is used takes more */
/* One host with n ends, 1 to 16, each closed before. limits->contexts is n times the number that each has. With any status but
 * HDT_OK no end is opened. Each end may then be moved to its thread. Each call with one, but hdt_last and hdt_close, is a turn:
 * no end waits for another and none has the host between two calls, so who finds it taken may try again at once. */
hdt_status hdt_open_shared(hdt_host *ends, size_t n, const hdt_limits *limits);
void hdt_close(hdt_host *host); /* frees all of it, of a shared host with the last end; never busy; a closed host stays closed */
hdt_status hdt_stats(hdt_host *host, hdt_stats_out *out);
hdt_status hdt_sizes(hdt_host *host, hdt_sizes_out *out); /* what is worth an hdt_collect or an hdt_trim; looks at each block */
/* Of this end's last call that was done and no observer: the slot that it gave or freed (the low 24 bits of its handle), the block
 * by which the table grew or the one that was given back, and the block for the extra data of either. turn is the number of the
 * end's last turn, from 1 on in one order for all ends of a shared host, 0 before the first and for a host of its own. It takes no
 * turn and is never busy. For those who judge a host. */
hdt_status hdt_last(hdt_host *host, hdt_change *out);

/* ---- objects; fields are numbered from 0, at most 61; a new object has null fields, value 0 and generation 0 */
hdt_status hdt_object_new(hdt_host *host, hdt_context c, hdt_local dst, uint32_t fields, uint32_t flags, hdt_id *id);
/* The same with a value and with `fields` fields, which are what the locals in `src` referenced before the call, so dst may be
 * among them, and null ones give null: no number stands for null, so who wants a null field keeps a local that is null. All of it
 * is done, or it is refused as hdt_object_new is and nothing is made. */
hdt_status hdt_object_make(hdt_host *host, hdt_context c, hdt_local dst, uint32_t flags, uint64_t value, const hdt_local *src,
                           size_t fields, hdt_id *id);
hdt_status hdt_field_get(hdt_host *host, hdt_context c, hdt_local dst, hdt_local object, uint32_t i, hdt_id *id);
/* The same, and the value of what the field references, 0 of null. */
hdt_status hdt_field_load(hdt_host *host, hdt_context c, hdt_local dst, hdt_local object, uint32_t i, hdt_id *id, uint64_t *value);
hdt_status hdt_field_set(hdt_host *host, hdt_context c, hdt_local object, uint32_t i, hdt_local src); /* a null src stores null */
hdt_status hdt_value_get(hdt_host *host, hdt_context c, hdt_local object, uint64_t *value);
hdt_status hdt_value_set(hdt_host *host, hdt_context c, hdt_local object, uint64_t value);
hdt_status hdt_generation(hdt_host *host, hdt_context c, hdt_local object, uint32_t *generation);
/* What a local references, or HDT_NULL. `finalizable`: whether it is registered for finalization, 1 or 0. */
hdt_status hdt_object_info(hdt_host *host, hdt_context c, hdt_local local, hdt_object_out *out);
hdt_status hdt_suppress(hdt_host *host, hdt_context c, hdt_local object);   /* GC.SuppressFinalize */
hdt_status hdt_reregister(hdt_host *host, hdt_context c, hdt_local object); /* GC.ReRegisterForFinalize */

/* ---- local references and statics */
hdt_status hdt_local_id(hdt_host *host, hdt_context c, hdt_local src, hdt_id *id);
hdt_status hdt_local_copy(hdt_host *host, hdt_context c, hdt_local dst, hdt_local src);
hdt_status hdt_local_clear(hdt_host *host, hdt_context c, hdt_local dst);
/* Local dst of context `to` gets what local src of context `from` references, as a frame gives its caller a result. */
hdt_status hdt_local_pass(hdt_host *host, hdt_context to, hdt_local dst, hdt_context from, hdt_local src, hdt_id *id);
/* n locals from `first` on become null. HDT_ARGUMENT where first is over 16, or n over 16 - first; n may be 0. */
hdt_status hdt_locals_clear(hdt_host *host, hdt_context c, uint32_t first, uint32_t n);
/* What each of the 16 locals references, for who looks for the one that keeps an object. HDT_ARGUMENT where room is not 16. */
hdt_status hdt_locals(hdt_host *host, hdt_context c, hdt_id *out, size_t room);
hdt_status hdt_context_left(hdt_host *host, hdt_context c, uint32_t *objects); /* how many it may make still, of its 2^32 - 1 */
hdt_status hdt_static_get(hdt_host *host, hdt_context c, hdt_local dst, uint32_t k, hdt_id *id); /* 16, for all contexts */
hdt_status hdt_static_set(hdt_host *host, hdt_context c, uint32_t k, hdt_local src);

/* ---- handles; any context may use each. `extra`: a variable one's strength, the local of a dependent one's secondary, else 0.
 * Null may be a target, a secondary, what a static or a field gets, and the value of an entry; a key may not. To look at a weak
 * handle by a local keeps its target until the local is cleared or loaded again. A table of symbols wants weak long handles: a
 * short one is null as soon as its symbol is queued, and a symbol that is used again would get a twin. */
hdt_status hdt_handle_new(hdt_host *host, hdt_context c, hdt_kind kind, hdt_local target, uint32_t extra, hdt_handle *out);
hdt_status hdt_handle_free(hdt_host *host, hdt_handle handle);
hdt_status hdt_handle_get(hdt_host *host, hdt_context c, hdt_handle handle, hdt_local dst, hdt_id *id); /* null: OK, *id 0 */
/* The same, and the value of the target, 0 of null. */
hdt_status hdt_handle_load(hdt_host *host, hdt_context c, hdt_handle handle, hdt_local dst, hdt_id *id, uint64_t *value);
hdt_status hdt_handle_id(hdt_host *host, hdt_handle handle, hdt_id *id); /* its target, 0 for null; no local gets it */
hdt_status hdt_handle_set(hdt_host *host, hdt_context c, hdt_handle handle, hdt_local src); /* of a dependent one: null alone */
hdt_status hdt_handle_kind(hdt_host *host, hdt_handle handle, hdt_kind *kind);
hdt_status hdt_secondary_get(hdt_host *host, hdt_context c, hdt_handle handle, hdt_local dst, hdt_id *id);
hdt_status hdt_secondary_set(hdt_host *host, hdt_context c, hdt_handle handle, hdt_local src);
hdt_status hdt_strength_set(hdt_host *host, hdt_handle handle, hdt_kind strength);
hdt_status hdt_count_up(hdt_host *host, hdt_handle handle, uint64_t *count);
hdt_status hdt_count_down(hdt_host *host, hdt_handle handle, uint64_t *count);
hdt_status hdt_address(hdt_host *host, hdt_handle handle, uint32_t *cell); /* of what it pins: it stays; no pointer of C */

/* ---- the weak table (ConditionalWeakTable) */
hdt_status hdt_table_add(hdt_host *host, hdt_context c, hdt_local key, hdt_local value);
/* AddOrUpdate: takes the key's entry out, if it has one, and adds one, in the least idle slot. Both are done, or neither is. It
 * does not say whether there was one: an hdt_table_find before it does. */
hdt_status hdt_table_set(hdt_host *host, hdt_context c, hdt_local key, hdt_local value);
hdt_status hdt_table_find(hdt_host *host, hdt_context c, hdt_local dst, hdt_local key, hdt_id *id);
hdt_status hdt_table_remove(hdt_host *host, hdt_context c, hdt_local key);

/* ---- collection and finalization: nothing but these two collects or finalizes, and there are no callbacks. What one collection
 * queues comes in order of context, then of age. Memory of C that an object stands for is freed when a weak long handle to it is
 * null, and not at hdt_final_next: another object that was resurrected may still use it. */
hdt_status hdt_collect(hdt_host *host, uint32_t generation, hdt_report *report); /* generations 0 to `generation` */
hdt_status hdt_final_next(hdt_host *host, hdt_context c, hdt_local dst, hdt_id *id); /* the first of the queue; else HDT_NONE */
/* A block is spare where each of its slots is free or, of dependent handles, was an entry's of the weak table and has none now.
 * hdt_trim gives the least spare block of the kind back, with its block of extra data if it has one; *given is by how much
 * `blocks` of hdt_stats falls: 1, or 2 with extra data, or 0 exactly where no block of the kind is spare. hdt_trim_all does so for
 * each kind by its number until none is spare, in one pass. A handle that was freed stays refused. */
hdt_status hdt_trim(hdt_host *host, hdt_kind kind, uint32_t *given);
hdt_status hdt_trim_all(hdt_host *host, uint32_t *given);

/* ---- why an object lives, and which handles there are */
hdt_status hdt_root_of(hdt_host *host, hdt_context c, hdt_local object, hdt_root *root);
/* The live handles from a place on, by rising slot: at most `room` into `out`; *count is how many; *next is where to go on, or 0
 * at the end. Begin with `from` 0. A collection or a free between two calls does no harm. */
hdt_status hdt_handles(hdt_host *host, uint32_t from, hdt_handle_info *out, size_t room, size_t *count, uint32_t *next);
/* The same of the handles of some kinds: bit k of `kinds` is that of kind k, as 1u << HDT_PINNED. Where `cleared` is 1, those alone
 * whose target is null: a collection cleared it, or the handle was made or set so. HDT_ARGUMENT where kinds is 0 or has another
 * bit, or cleared is neither 0 nor 1. It reads masks of blocks, and no slot that is free. */
hdt_status hdt_handles_of(hdt_host *host, uint32_t kinds, uint32_t cleared, uint32_t from, hdt_handle_info *out, size_t room,
                          size_t *count, uint32_t *next);

#ifdef __cplusplus
} /* a C++ host wraps hdt_host in a move-only class, whose destructor calls hdt_close */
#endif
#endif
