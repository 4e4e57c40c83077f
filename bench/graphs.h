/* The graphs that are measured, each made from a seed. */
#ifndef BENCH_GRAPHS_H
#define BENCH_GRAPHS_H
#include "kavizhuran.h"

typedef struct {
    uint32_t items, labels, edges[3 * 4096];
    size_t count; /* of numbers, three an edge */
} graph;

static uint64_t random_state;

static uint32_t below(uint32_t n) {
    uint64_t z = random_state += 0x9E3779B97F4A7C15u;
    z = (z ^ z >> 30) * 0xBF58476D1CE4E5B9u;
    z = (z ^ z >> 27) * 0x94D049BB133111EBu;
    return (uint32_t)((z ^ z >> 31) % n);
}

static void open_graph(graph *g, uint32_t items, uint32_t labels, uint64_t seed) {
    g->items = items, g->labels = labels, g->count = 0;
    random_state = seed;
}

static void add(graph *g, uint32_t source, uint32_t target, uint32_t label) {
    uint32_t *e = g->edges + g->count;
    e[0] = source, e[1] = target, e[2] = label;
    g->count += 3;
}

/* a lift register: lifts have parts (0), parts and some lifts certificates (1), certificates replace older ones (2), lifts have visits
   (3), parts have makers (4); its kinds in the same proportions for every number of items from 16 */
static void register_graph(graph *g, uint32_t items) {
    open_graph(g, items, 5, 7);
    const uint32_t lifts = items * 40 / 128, parts = items * 36 / 128, makers = items < 64 ? 1 : items * 4 / 128, certificates = items * 30 / 128;
    const uint32_t first_part = lifts, first_maker = first_part + parts, first_certificate = first_maker + makers;
    const uint32_t first_visit = first_certificate + certificates, visits = items - first_visit;
    for (uint32_t i = 0; i < parts; i++) add(g, below(lifts), first_part + i, 0);
    for (uint32_t i = 0; i < parts; i++) {
        if (below(4) != 0) add(g, first_part + i, first_certificate + below(certificates), 1);
        add(g, first_part + i, first_maker + below(makers), 4);
    }
    for (uint32_t i = 0; i < lifts; i++) {
        if (below(4) == 0) add(g, i, first_certificate + below(certificates), 1);
        if (below(2) == 0) add(g, i, first_visit + below(visits), 3);
    }
    for (uint32_t i = 1; i < certificates; i++)
        if (below(2) == 0) add(g, first_certificate + i, first_certificate + below(i), 2);
}

static void random_graph(graph *g, uint64_t seed, uint32_t items, uint32_t labels, uint32_t edges) {
    open_graph(g, items, labels, seed);
    while (edges--) {
        uint32_t source = below(items), target = below(items), label = below(labels);
        add(g, source, target, label);
    }
}

static void cycle_graph(graph *g, uint32_t items) {
    open_graph(g, items, 1, 0);
    for (uint32_t i = 0; i < items; i++) add(g, i, (i + 1) % items, 0);
}

static void star_graph(graph *g, uint32_t items) {
    open_graph(g, items, 1, 0);
    for (uint32_t i = 1; i < items; i++) add(g, 0, i, 0);
}

#endif
