/* A host that watches itself: it decides by hdt_sizes which generation to collect and when to give blocks back, finds the local
 * that keeps an object which should be gone, and goes on in another context where one is used up. uses/watch/README.md says
 * more. It is C11, and C++17. */
#include "hdt.h"
#include <stdio.h>
#include <stdlib.h>

enum { CONTEXTS = 2, LOCALS = 16, BLOCK = 64, KINDS = 7 };

static hdt_host host = HDT_CLOSED_HOST;

static void check(hdt_status status, const char *what) {
    if (status == HDT_OK) return;
    fprintf(stderr, "watch: %s: %s\n", what, hdt_status_name(status));
    exit(1);
}

static hdt_sizes_out sizes(void) {
    hdt_sizes_out now;
    check(hdt_sizes(&host, &now), "sizes");
    return now;
}

static void print_sizes(void) {
    hdt_sizes_out now = sizes();
    for (unsigned n = 0; n < 3; n++) {
        printf("generation %u: %u objects in %u cells, regions %u\n", n, (unsigned)now.objects[n], (unsigned)now.cells[n],
               (unsigned)now.regions[n]);
    }
}

/* ---- what to collect: the youngest generations up to the last one that has outgrown its budget, in cells */
static const uint32_t budgets[3] = { 400, 1200, 3000 };
static unsigned collections[3];

static void collect_what_is_due(void) {
    hdt_sizes_out now = sizes();
    int due = -1;
    for (int n = 0; n < 3; n++) {
        if (now.cells[n] > budgets[n]) due = n;
    }
    if (due < 0) return;
    hdt_report report;
    check(hdt_collect(&host, (uint32_t)due, &report), "collection");
    collections[due]++;
}

/* A list of objects, each of which references the one before; every eighth is kept in it, the others are garbage at once. */
static void work(hdt_local list, unsigned objects) {
    const hdt_local made = HDT_LOCAL(1);
    hdt_id id;
    for (unsigned number = 0; number < objects; number++) {
        check(hdt_object_make(&host, 0, made, 0, number, &list, 1, &id), "an object");
        if (number % 8 == 0) check(hdt_local_copy(&host, 0, list, made), "copy");
        if (number % 32 == 0) collect_what_is_due();
    }
    check(hdt_local_clear(&host, 0, made), "clear");
}

/* ---- which local keeps an object: all contexts are looked through */
static void print_keepers(hdt_id object) {
    for (hdt_context c = 0; c < CONTEXTS; c++) {
        hdt_id locals[LOCALS];
        check(hdt_locals(&host, c, locals, LOCALS), "locals");
        for (unsigned n = 0; n < LOCALS; n++) {
            if (locals[n] == object) printf("local %u of context %u has it\n", n, (unsigned)c);
        }
    }
}

static void print_object(hdt_context c, hdt_local local) {
    hdt_object_out out;
    check(hdt_object_info(&host, c, local, &out), "object");
    printf("value %u, %u fields, generation %u%s\n", (unsigned)out.value, (unsigned)out.fields, (unsigned)out.generation,
           out.finalizable ? ", to be finalized" : "");
}

/* ---- blocks: of a kind that has more free slots than one block, and idle ones of the weak table, some may be spare */
static void give_back_what_is_spare(void) {
    hdt_sizes_out now = sizes();
    uint32_t given, all = 0;
    for (hdt_kind kind = 0; kind < KINDS; kind++) {
        uint32_t unused = now.free_slots[kind] + (kind == HDT_DEPENDENT ? now.idle_slots : 0);
        if (unused < BLOCK) continue;
        do {
            check(hdt_trim(&host, kind, &given), "trim");
            all += given;
        } while (given != 0);
        printf("of kind %u there were %u slots without use\n", (unsigned)kind, (unsigned)unused);
    }
    printf("blocks given back: %u\n", (unsigned)all);
}

/* ---- a context that can make an object more, from one on */
static hdt_context context_with_room(hdt_context c) {
    uint32_t left;
    for (; c < CONTEXTS; c++) {
        check(hdt_context_left(&host, c, &left), "context");
        if (left > 0) break;
    }
    return c;
}

int main(void) {
    const hdt_local list = HDT_LOCAL(0), leak = HDT_LOCAL(5);
    const hdt_limits limits = { 20000, 16, CONTEXTS };
    hdt_handle handles[3 * BLOCK], weak;
    hdt_report report;
    hdt_id id;
    uint32_t before, after;
    check(hdt_open(&host, &limits), "open");

    puts("-- a host that collects by what its generations have grown to");
    work(list, 4000);
    printf("collections of generation 0: %u, 1: %u, 2: %u\n", collections[0], collections[1], collections[2]);
    print_sizes();

    puts("-- an object that should be gone");
    check(hdt_object_make(&host, 0, HDT_LOCAL(2), HDT_FINALIZABLE, 77, &list, 1, &id), "an object");
    check(hdt_local_pass(&host, 1, leak, 0, HDT_LOCAL(2), &id), "pass");
    check(hdt_handle_new(&host, 0, HDT_WEAK_SHORT, HDT_LOCAL(2), 0, &weak), "a weak handle");
    check(hdt_locals_clear(&host, 0, 0, LOCALS), "clear");
    check(hdt_collect(&host, 2, &report), "collection");
    check(hdt_handle_id(&host, weak, &id), "target");
    printf("it is there: %d\n", id != 0);
    print_keepers(id);
    print_object(1, leak);
    check(hdt_local_clear(&host, 1, leak), "clear");
    check(hdt_collect(&host, 2, &report), "collection");
    check(hdt_handle_id(&host, weak, &id), "target");
    printf("it is there: %d, cleared by this collection: %u\n", id != 0, (unsigned)report.cleared_short);
    check(hdt_handle_free(&host, weak), "free");
    check(hdt_final_next(&host, 0, list, &id), "what is to be finalized");
    check(hdt_local_clear(&host, 0, list), "clear");
    check(hdt_collect(&host, 2, &report), "collection");
    print_sizes();

    puts("-- blocks that a burst of handles has left");
    check(hdt_object_make(&host, 0, list, 0, 0, &list, 0, &id), "an object");
    for (unsigned n = 0; n < 3 * BLOCK; n++) {
        hdt_kind kind = n % 3 == 0 ? HDT_DEPENDENT : HDT_STRONG;
        check(hdt_handle_new(&host, 0, kind, list, kind == HDT_DEPENDENT ? list : 0, &handles[n]), "a handle");
    }
    check(hdt_table_add(&host, 0, list, list), "an entry");
    check(hdt_table_remove(&host, 0, list), "an entry goes");
    for (unsigned n = 0; n < 3 * BLOCK; n++) check(hdt_handle_free(&host, handles[n]), "free");
    give_back_what_is_spare();

    puts("-- how many objects a context may make still");
    check(hdt_context_left(&host, 1, &before), "context");
    for (unsigned n = 0; n < 3; n++) check(hdt_object_new(&host, 1, list, 0, 0, &id), "an object");
    check(hdt_context_left(&host, 1, &after), "context");
    printf("three fewer: %d; the next one is made in context %u\n", before - after == 3, (unsigned)context_with_room(0));
    hdt_close(&host);
    return 0;
}
