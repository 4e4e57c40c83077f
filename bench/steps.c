/* One build of a graph of the bench, and one check of what it wrote, for tools/count-steps to count:

     steps GRAPH K     GRAPH is register, random, cycle or star */
#include <stdio.h>

#include "named.h"

#define SQUARE (128 * 128)
#define ROOM 1000000

static graph the_graph;
static uint32_t levels[4 * SQUARE], starts[SQUARE + 1], order[SQUARE], entries[2 * ROOM];
static uint8_t area[9 * SQUARE];

int main(int count, char **words) {
    if (count != 3 || !named_graph(&the_graph, words[1])) return 2;
    const graph *g = &the_graph;
    const uint32_t k = (uint32_t)(words[2][0] - '0');
    kv_result built = kv_build(g->items, g->labels, k, g->edges, g->count, levels, 4 * SQUARE, starts, SQUARE + 1, order, SQUARE, entries, 2 * ROOM, area, sizeof area);
    if (built.number != 0) return 1;
    kv_result checked =
        kv_check(g->items, g->labels, k, g->edges, g->count, levels, 4 * SQUARE, starts, built.a + 1, order, built.b, entries, 2 * built.c, area, sizeof area);
    if (checked.number != 0) return 1;
    printf("%u %u %u\n", built.a, built.b, built.c);
    return 0;
}
