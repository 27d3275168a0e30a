/* Binary trees by hdt.h: trees DEPTH ROUNDS CELLS makes, walks and drops a tree of the depth (at most 12) as often, in a heap of
 * so many cells. A node is an object with two fields; the node of each level on the way down is a local of the context, so a
 * collection may come at any node. Prints how many nodes were made and walked, and how often which generations were collected.
 *
 * It is C11, and C++17. */
#include "hdt.h"
#include <stdio.h>
#include <stdlib.h>

static hdt_host host = HDT_CLOSED_HOST;
static hdt_limits limits;
static unsigned young, full;

static void fail(const char *why) {
    fprintf(stderr, "trees: %s\n", why);
    exit(1);
}

/* The youngest objects first; all of them where most of the heap is still in use. */
static void make_room(void) {
    hdt_report report;
    hdt_stats_out stats;
    if (hdt_collect(&host, 0, &report) != HDT_OK || hdt_stats(&host, &stats) != HDT_OK) fail("no collection");
    young++;
    if (stats.cells <= limits.cells / 2) return;
    if (hdt_collect(&host, 2, &report) != HDT_OK) fail("no full collection");
    full++;
}

/* A tree of the depth, referenced by the local of that number. */
static void make(uint32_t depth) {
    hdt_id node;
    hdt_status status = hdt_object_new(&host, 0, HDT_LOCAL(depth), 2, 0, &node);
    if (status == HDT_HEAP_FULL) {
        make_room();
        status = hdt_object_new(&host, 0, HDT_LOCAL(depth), 2, 0, &node);
    }
    if (status != HDT_OK) fail("no object");
    for (uint32_t side = 0; depth > 0 && side < 2; side++) {
        make(depth - 1);
        if (hdt_field_set(&host, 0, HDT_LOCAL(depth), side, HDT_LOCAL(depth - 1)) != HDT_OK) fail("not set");
    }
}

/* The nodes of the tree that the local of this number references. */
static unsigned long walk(uint32_t depth) {
    unsigned long nodes = 1;
    hdt_id node;
    for (uint32_t side = 0; depth > 0 && side < 2; side++) {
        if (hdt_field_get(&host, 0, HDT_LOCAL(depth - 1), HDT_LOCAL(depth), side, &node) != HDT_OK || node == 0) fail("no node");
        nodes += walk(depth - 1);
    }
    return nodes;
}

int main(int count, char **words) {
    if (count != 4) fail("usage: trees DEPTH ROUNDS CELLS");
    uint32_t depth = (uint32_t)atoi(words[1]);
    unsigned long nodes = 0, rounds = strtoul(words[2], NULL, 10);
    limits.cells = (uint32_t)atoi(words[3]);
    limits.blocks = limits.contexts = 1;
    if (depth > 12) fail("at most depth 12");
    if (hdt_open(&host, &limits) != HDT_OK) fail("not opened");
    for (unsigned long round = 0; round < rounds; round++) {
        make(depth);
        nodes += walk(depth);
    }
    printf("%lu nodes, %u collections of generation 0, %u of all\n", nodes, young, full);
    hdt_close(&host);
    return 0;
}
