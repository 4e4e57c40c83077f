/* Check. */
#ifndef ANCHOR_CHECK_H
#define ANCHOR_CHECK_H
#include "entries.h"

static uint32_t transposed[MAXP], expected[MAXP + 2];
static uint64_t attributes[MAXP + 2];

/* the pairs before `limit` that break rule C; skip: tables closed under inverses and otherwise good, so a pair of inverse classes is
   looked at once (then only "some" or "none" is right) */
static uint32_t c_fault(unsigned n, const uint32_t *below, prep *b, const row *conn, const uint32_t *t, unsigned classes, const uint32_t *sizes, uint32_t limit, int skip) {
    static uint32_t mine[MAXV + 2];
    uint32_t top = 0;
    (void)below;
    for (unsigned c = 1; c <= classes; c++) sig_len[c] = ~0u;
    for (unsigned v = 0; v < n; v++) EACH(conn[v], u) {
        uint32_t p = v * n + u;
        if (p >= limit) return limit;
        uint32_t c = t[p], q = first_at[c];
        if (sizes[c] == 1 || p == q) continue;
        if (skip && (inverse[c] < c || (inverse[c] == c && v > u && u * n + v != q))) continue;
        if (sig_len[c] == ~0u) {
            sig_from[c] = top;
            top += sig_len[c] = sign(&prep_a, b, q / n, q % n, arena + top);
        }
        unsigned len = sign(&prep_a, b, v, u, mine);
        if (len != sig_len[c] || memcmp(arena + sig_from[c], mine, len * sizeof *mine)) return p;
    }
    return limit;
}

/* one level: the first position at fault, or V^2; *closed: the inverse of a class is a class (known for a good level only) */
static uint32_t level_fault(unsigned n, unsigned i, const uint32_t *below, const row *conn_below, unsigned classes_below, const uint32_t *sizes_below, int closed_below,
                            const row *conn, const uint32_t *t, unsigned *classes, uint32_t *sizes, int *closed) {
    uint32_t square = n * n, limit = square, largest = 0, pairs = 0;
    for (unsigned v = 0; v < n && limit == square; v++) {
        const uint32_t *tv = t + v * n;
        uint32_t filled = 0, want = size_of(conn[v]);
        for (unsigned u = 0; u < n; u++) filled += tv[u] != 0;
        if (UNLIKELY(filled != want)) {
            for (unsigned u = 0; u < n; u++)
                if ((tv[u] != 0) != has(conn[v], u)) {
                    limit = v * n + u;
                    break;
                }
        }
        pairs += want;
        EACH(conn[v], u) {
            uint32_t p = v * n + u, c = tv[u];
            if (p >= limit) continue;
            uint64_t a = (uint64_t)(i > 1 ? below[p] : 0) << 32 | (uint32_t)symbols_of[p] << 1 | (v == u);
            if (c > largest) {
                if (c != largest + 1) {
                    limit = p;
                    continue;
                }
                largest = c, first_at[c] = p, attributes[c] = a, sizes[c] = 1;
            } else if (c && attributes[c] == a) {
                sizes[c]++;
            } else {
                limit = p; /* another class below breaks rule C: see next_level */
            }
        }
    }
    *classes = largest;
    *closed = limit == square;
    if (limit == square && largest != pairs) {
        for (unsigned c = 1; c <= largest; c++) inverse[c] = 0;
        int good = 1;
        for (unsigned v = 0; v < n && good; v++) EACH(conn[v], u) {
            uint32_t c = t[v * n + u], d = t[u * n + v];
            if (!inverse[c]) inverse[c] = d;
            good &= inverse[c] == d;
        }
        *closed = good;
    }
    if (i == 1 || largest == pairs) return limit;
    prep *b = &prep_a;
    prepare(&prep_a, n, below, conn_below, classes_below, sizes_below);
    if (!closed_below) {
        for (unsigned v = 0; v < n; v++)
            for (unsigned u = 0; u < n; u++) transposed[u * n + v] = below[v * n + u];
        b = &prep_b;
        prepare(b, n, transposed, conn_below, classes_below, sizes_below);
    }
    if (closed_below && *closed && c_fault(n, below, b, conn, t, largest, sizes, square, 1) == square) return square;
    return c_fault(n, below, b, conn, t, largest, sizes, limit, 0);
}

/* the first difference of two lists that differ */
static uint32_t difference(const uint32_t *a, size_t na, const uint32_t *b, size_t nb) {
    size_t i = 0;
    while (i < na && i < nb && a[i] == b[i]) i++;
    return (uint32_t)i;
}

kv_result anchor_check(uint32_t v, uint32_t l, uint32_t k, const uint32_t *edges, size_t n_edges, const uint32_t *levels, size_t n_levels, const uint32_t *starts, size_t n_starts,
                   const uint32_t *order, size_t n_order, const uint32_t *entries, size_t n_entries, uint8_t *area, size_t n_area) {
    kv_result r;
    if (bad_sizes(v, l)) return result(1, 0, 0, 0);
    if (k - 1 > 3) return result(2, 0, 0, 0);
    if (bad_edges(v, l, edges, n_edges, &r)) return r;
    unsigned n = v, classes = 0;
    size_t square = n * n;
    if (n_area < 9 * square || n_levels < k * square) return result(5, 0, 0, 0);
    clear(area, 9 * square);
    graph(n, l, edges, n_edges);
    identity(n, conn_of[0]);
    const uint32_t *below = NULL;
    uint32_t *sizes = sizes_of[0], *other = sizes_of[1];
    int closed = 0, still = 0;
    for (unsigned i = 1; i <= k; i++) {
        const uint32_t *here = levels + (i - 1) * square;
        further(n, conn_of[i - 1], conn_of[i]);
        if (still && !memcmp(here, below, square * sizeof *here)) continue; /* accepted over the same numbers one level before */
        unsigned more;
        int now;
        uint32_t p = level_fault(n, i, below, conn_of[i - 1], classes, sizes, closed, conn_of[i], here, &more, other, &now);
        if (p < square) return result(15, i, p, 0);
        still = i > 1 && more == classes && !memcmp(here, below, square * sizeof *here);
        below = here;
        classes = more;
        closed = now;
        uint32_t *swap = sizes;
        sizes = other, other = swap;
    }
    const row *conn = conn_of[k];
    uint32_t pairs = 0;
    expected[0] = 0;
    for (unsigned c = 1; c <= classes; c++) next_at[c] = pairs, expected[c] = pairs += sizes[c];
    if (n_starts != classes + 1 || memcmp(starts, expected, n_starts * sizeof *starts)) return result(16, 1, difference(expected, classes + 1, starts, n_starts), 0);
    for (unsigned a = 0; a < n; a++) EACH(conn[a], u) expected[next_at[below[a * n + u]]++] = a * n + u;
    if (n_order != pairs || memcmp(order, expected, n_order * sizeof *order)) return result(16, 2, difference(expected, pairs, order, n_order), 0);
    size_t count = n_entries / 2;
    walk_from(n, l, below, conn);
    W.room = count, W.quit = 1;
    for (unsigned i = 0; i <= 4; i++) W.used[i] = 0;
    walk_all(k, COUNT);
    if (W.count == count && n_entries % 2 == 0) {
        const uint32_t *e = entries;
        size_t left = count;
        uint32_t wrong = 0;
        for (unsigned i = 0; i <= k && !wrong; i++)
            for (const record *x = W.list[i], *end = x + W.used[i]; x < end && !wrong; x++) {
                const uint32_t *t = below + x->base, code = x->code;
                uint64_t m = x->hits;
                if (LIKELY(left >= 2)) {
                    uint64_t rest = m & (m - 1);
                    unsigned two = 1 + (rest != 0);
                    const uint32_t *f = e + 2 * (two - 1);
                    wrong = (e[0] ^ code) | (e[1] ^ t[ctz(m)]) | (f[0] ^ code) | (f[1] ^ t[ctz(rest ? rest : m)]);
                    e += 2 * two, left -= two;
                    m = rest ? rest & (rest - 1) : 0;
                }
                for (; m; m &= m - 1) wrong |= (e[0] ^ code) | (e[1] ^ t[ctz(m)]), e += 2, left--;
            }
        if (!wrong) return result(0, 0, 0, 0);
    }
    /* length by length, for the first difference */
    W.given = entries, W.at = 0, W.end = count;
    for (unsigned i = 0; i <= k; i++) {
        walk_all(i, SEEK);
        if (W.wrong) {
            size_t at = 2 * W.at;
            if (at < n_entries && entries[at] == W.code) at++;
            return result(17, (uint32_t)at, 0, 0);
        }
    }
    return result(17, (uint32_t)(2 * W.at), 0, 0); /* numbers too many */
}

#endif
