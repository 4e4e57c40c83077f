/* The walk over sequences with shared prefixes, over the rows that hold a first pair. */
#ifndef ANCHOR_ENTRIES_H
#define ANCHOR_ENTRIES_H
#include <stdlib.h>
#include "levels.h"

enum { COUNT, SEEK };
typedef struct { uint64_t hits; uint32_t base, code; } record; /* one word of a row of first pairs; base: the position of its bit 0 */
static struct {
    unsigned n, k, symbols, mode;
    const uint32_t *table;
    row first[MAXV], act[5], image[5], deep[5][MAXV];
    uint64_t count, room;
    record *list[5];
    size_t used[5], cap[5];
    const uint32_t *given;
    size_t at, end;
    uint32_t code;
    int wrong, quit;
} W;

static void grow(unsigned length) {
    W.cap[length] = W.cap[length] ? 2 * W.cap[length] : 4096;
    W.list[length] = realloc(W.list[length], W.cap[length] * sizeof(record));
    if (!W.list[length]) __builtin_trap();
}

INLINE void hit(unsigned length, uint32_t code, unsigned v, row hits) {
    if (LIKELY(W.mode == COUNT)) {
        W.count += size_of(hits);
        if (UNLIKELY(W.count > W.room)) {
            W.wrong = W.quit; /* a check needs no count of those too many */
            return;
        }
        if (UNLIKELY(W.used[length] + 2 > W.cap[length])) grow(length);
        record *r = W.list[length] + W.used[length];
        r[0] = (record){hits.w[0], v * W.n, code};
        r += hits.w[0] != 0;
        r[0] = (record){hits.w[1], v * W.n + 64, code};
        r += hits.w[1] != 0;
        W.used[length] = (size_t)(r - W.list[length]);
        return;
    }
    if (length != W.k) return;
    const uint32_t *t = W.table + v * W.n, *g = W.given;
    EACH(hits, u) {
        if (W.wrong) return;
        if (W.at >= W.end || g[2 * W.at] != code || g[2 * W.at + 1] != t[u]) W.wrong = 1, W.code = code;
        else W.at++;
    }
}

static __attribute__((noinline)) void walk(unsigned d, uint32_t code) {
    if (d > 3) return; /* cannot be */
    const int last = d + 1 == W.k;
    const row act = W.act[d], image = W.image[d];
    for (unsigned s = 0; s < W.symbols; s++) {
        const row from = dom[s], to = dom[s ^ 1], *step = step_of[s];
        if (!meets(image, from)) continue;
        const uint32_t here = code * 17 + s + 1;
        row rows = {{0, 0}}, reached = {{0, 0}};
        EACH(act, v) {
            row b = both(W.deep[d][v], from), want = to, r = {{0, 0}};
            if (none(b)) continue;
            if (last && none(want = both(to, W.first[v]))) continue;
            for (; b.w[0]; b.w[0] &= b.w[0] - 1) {
                r = either(r, step[ctz(b.w[0])]);
                if (!((want.w[0] & ~r.w[0]) | (want.w[1] & ~r.w[1]))) goto full;
            }
            for (; b.w[1]; b.w[1] &= b.w[1] - 1) {
                r = either(r, step[64 + ctz(b.w[1])]);
                if (!((want.w[0] & ~r.w[0]) | (want.w[1] & ~r.w[1]))) goto full;
            }
        full:;
            row hits = both(r, W.first[v]);
            if (!none(hits)) hit(d + 1, here, v, hits);
            if (!last) {
                W.deep[d + 1][v] = r;
                put(&rows, v);
                reached = either(reached, r);
            }
        }
        if (W.wrong) return;
        if (!last && !none(rows)) {
            W.act[d + 1] = rows, W.image[d + 1] = reached;
            walk(d + 1, here);
            if (W.wrong) return;
        }
    }
}

/* the first pairs of the classes; only their rows are walked */
static void walk_from(unsigned n, unsigned l, const uint32_t *table, const row *conn) {
    W.n = n, W.symbols = 2 * l, W.table = table;
    uint32_t largest = 0;
    W.act[0] = (row){{0, 0}};
    for (unsigned v = 0; v < n; v++) {
        row f = {{0, 0}};
        EACH(conn[v], u) if (table[v * n + u] > largest) largest++, put(&f, u);
        W.first[v] = f;
        if (!none(f)) put(&W.act[0], v);
    }
    W.image[0] = W.act[0];
    identity(n, W.deep[0]);
}

static void walk_all(unsigned k, unsigned mode) {
    W.k = k, W.mode = mode, W.wrong = 0, W.count = 0;
    EACH(W.act[0], v) if (has(W.first[v], v)) {
        row h = {{0, 0}};
        put(&h, v);
        hit(0, 0, v, h);
    }
    if (k && !W.wrong) walk(0, 0);
}

#endif
