/* Refusals 1 to 4, and the graph as rows: a row for each symbol and item, the symbols of each pair, the items one step away. */
#ifndef ANCHOR_GRAPH_H
#define ANCHOR_GRAPH_H
#include "rows.h"

INLINE int bad_sizes(uint32_t v, uint32_t l) { return v > MAXV || l - 1 > 7; }

static int bad_edges(uint32_t v, uint32_t l, const uint32_t *e, size_t n, kv_result *out) {
    if (n % 3 || n / 3 > 4096) {
        *out = result(3, 0, 0, 0);
        return 1;
    }
    const uint32_t limit[12] = {v, v, l, v, v, l, v, v, l, v, v, l};
    uint32_t bad = 0;
    size_t i = 0;
    for (; i + 12 <= n; i += 12)
        for (int j = 0; j < 12; j++) bad |= e[i + j] >= limit[j];
    for (; i < n; i += 3) bad |= (e[i] >= v) | (e[i + 1] >= v) | (e[i + 2] >= l);
    if (LIKELY(!bad)) return 0;
    for (i = 0; e[i] < v && e[i + 1] < v && e[i + 2] < l; i += 3) {}
    *out = result(4, (uint32_t)(i / 3), 0, 0);
    return 1;
}

/* symbol s of the paper is s-1 here; the other way is s^1 */
static row step_of[16][MAXV], dom[16], near[MAXV];
static uint16_t symbols_of[MAXP];

static void graph(unsigned n, unsigned l, const uint32_t *e, size_t ne) {
    for (unsigned s = 0; s < 2 * l; s++) clear(step_of[s], n * sizeof(row));
    clear(dom, sizeof dom);
    clear(near, n * sizeof(row));
    clear(symbols_of, n * n * sizeof *symbols_of);
    for (size_t i = 0; i < ne; i += 3) {
        unsigned s = e[i], t = e[i + 1], f = 2 * e[i + 2];
        put(&step_of[f][s], t);
        put(&step_of[f + 1][t], s);
        symbols_of[s * n + t] |= 1u << f;
        symbols_of[t * n + s] |= 2u << f;
        put(&near[s], t);
        put(&near[t], s);
        put(&dom[f], s);
        put(&dom[f + 1], t);
    }
}

/* connected within one step more */
static void further(unsigned n, const row *c, row *d) {
    for (unsigned v = 0; v < n; v++) {
        row r = c[v];
        EACH(near[v], m) r = either(r, c[m]);
        d[v] = r;
    }
}

#endif
