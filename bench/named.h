/* The graphs that are counted, by name. */
#ifndef BENCH_NAMED_H
#define BENCH_NAMED_H
#include <string.h>

#include "graphs.h"

/* the graph of that name, or 0 where there is none */
static int named_graph(graph *g, const char *name) {
    if (strcmp(name, "register") == 0) register_graph(g, 128);
    else if (strcmp(name, "random") == 0) random_graph(g, 11, 128, 4, 512);
    else if (strcmp(name, "cycle") == 0) cycle_graph(g, 128);
    else if (strcmp(name, "star") == 0) star_graph(g, 128);
    else return 0;
    return 1;
}

#endif
