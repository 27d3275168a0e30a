/* What uses/trees/trees.c does, over bdwgc: trees_bdwgc DEPTH ROUNDS. */
#include <gc.h>
#include <stdio.h>
#include <stdlib.h>

struct node {
    struct node *side[2];
};

static struct node *make(unsigned depth) {
    struct node *node = (struct node *)GC_MALLOC(sizeof *node);
    if (node == NULL) exit(1);
    for (unsigned side = 0; depth > 0 && side < 2; side++) node->side[side] = make(depth - 1);
    return node;
}

static unsigned long walk(const struct node *node, unsigned depth) {
    unsigned long nodes = 1;
    for (unsigned side = 0; depth > 0 && side < 2; side++) nodes += walk(node->side[side], depth - 1);
    return nodes;
}

int main(int count, char **words) {
    if (count != 3) return 2;
    unsigned depth = (unsigned)atoi(words[1]);
    unsigned long nodes = 0, rounds = strtoul(words[2], NULL, 10);
    GC_INIT();
    for (unsigned long round = 0; round < rounds; round++) nodes += walk(make(depth), depth);
    printf("%lu nodes, %lu collections\n", nodes, (unsigned long)GC_get_gc_no());
    return 0;
}
