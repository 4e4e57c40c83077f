/* The two sides that are measured, the library and the anchor: their entries, their lists, and one call of either. */
#ifndef BENCH_SIDES_H
#define BENCH_SIDES_H
#include <stdlib.h>
#include <string.h>

#include "anchor/anchor.h"
#include "graphs.h"

enum { LIBRARY, ANCHOR, SIDES };
enum { BUILD, CHECK, DIRECT, STORED, CLASS, OPERATIONS };

static const struct {
    __typeof__(&kv_build) build;
    __typeof__(&kv_check) check;
    __typeof__(&kv_direct) direct;
    __typeof__(&kv_stored) stored;
    __typeof__(&kv_class) class;
} entries_of[SIDES] = {{kv_build, kv_check, kv_direct, kv_stored, kv_class}, {anchor_build, anchor_check, anchor_direct, anchor_stored, anchor_class}};

#define SQUARE (128 * 128)
#define TAIL 64 /* so many numbers or bytes lie behind what a call needs, and must not change */

typedef struct {
    uint32_t levels[4 * SQUARE + TAIL], starts[SQUARE + 1 + TAIL], order[SQUARE + TAIL], answers[SQUARE + TAIL], *entries;
    uint8_t area[9 * SQUARE + TAIL];
} lists;

/* what a call is about: the graph, k, the query, and the tables that check, stored and class answers read, which the anchor built */
static graph the_graph;
static uint32_t the_k;
static const uint8_t *the_query;
static size_t the_query_count;
static lists given, lists_of[SIDES];
static kv_result counts; /* classes, pairs and entries of the given tables */

static kv_result call(int side, int operation) {
    const graph *g = &the_graph;
    lists *l = &lists_of[side];
    const size_t square = (size_t)g->items * g->items, levels = the_k * square, entries = 2 * (size_t)counts.c;
    const uint32_t *top = given.levels + (levels - square);
    switch (operation) {
    case BUILD:
        return entries_of[side].build(g->items, g->labels, the_k, g->edges, g->count, l->levels, levels, l->starts, square + 1, l->order, square, l->entries, entries,
                                      l->area, 9 * square);
    case CHECK:
        return entries_of[side].check(g->items, g->labels, the_k, g->edges, g->count, given.levels, levels, given.starts, counts.a + 1, given.order, counts.b,
                                      given.entries, entries, l->area, 9 * square);
    case DIRECT:
        return entries_of[side].direct(g->items, g->labels, g->edges, g->count, the_query, the_query_count, l->answers, square, l->area, 9 * square);
    case STORED:
        return entries_of[side].stored(g->items, g->labels, top, square, given.entries, entries, the_query, the_query_count, l->answers, square, l->area, 9 * square);
    default:
        return entries_of[side].class(g->items, g->labels, the_k, top, square, given.entries, entries, the_query, the_query_count, l->answers, square, l->area,
                                      9 * square);
    }
}

static void take_entries(lists *l, size_t count) {
    free(l->entries);
    l->entries = malloc((count + TAIL) * sizeof *l->entries);
    if (!l->entries) exit(2);
}

/* the given tables for the graph and k, by the anchor */
static void give_tables(void) {
    const graph *g = &the_graph;
    const size_t square = (size_t)g->items * g->items;
    counts = (kv_result){0, 0, 0, 0};
    take_entries(&given, 0);
    for (int again = 0; again < 2; again++) {
        const size_t room = 2 * (size_t)counts.a;
        kv_result r = anchor_build(g->items, g->labels, the_k, g->edges, g->count, given.levels, the_k * square, given.starts, square + 1, given.order, square,
                                   given.entries, room, given.area, 9 * square);
        counts = r;
        if (r.number != 6) break;
        take_entries(&given, 2 * (size_t)r.a);
    }
    if (counts.number) exit(3);
    for (int side = 0; side < SIDES; side++) take_entries(&lists_of[side], 2 * (size_t)counts.c);
}

static void soil(lists *l) {
    memset(l->levels, 0xA5, sizeof l->levels);
    memset(l->starts, 0xA5, sizeof l->starts);
    memset(l->order, 0xA5, sizeof l->order);
    memset(l->answers, 0xA5, sizeof l->answers);
    memset(l->entries, 0xA5, (2 * (size_t)counts.c + TAIL) * sizeof *l->entries);
    memset(l->area, 0xA5, sizeof l->area);
}

/* one call of each side on lists with the same numbers in them: whether the answer and every number of every list are the same */
static int same(int operation) {
    const lists *l = &lists_of[LIBRARY], *a = &lists_of[ANCHOR];
    for (int side = 0; side < SIDES; side++) soil(&lists_of[side]);
    kv_result x = call(LIBRARY, operation), y = call(ANCHOR, operation);
    return x.number == 0 && !memcmp(&x, &y, sizeof x) && !memcmp(l->levels, a->levels, sizeof l->levels) && !memcmp(l->starts, a->starts, sizeof l->starts) &&
           !memcmp(l->order, a->order, sizeof l->order) && !memcmp(l->answers, a->answers, sizeof l->answers) && !memcmp(l->area, a->area, sizeof l->area) &&
           !memcmp(l->entries, a->entries, (2 * (size_t)counts.c + TAIL) * sizeof *l->entries);
}

#endif
