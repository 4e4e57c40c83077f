/* Numbering the levels. */
#ifndef ANCHOR_LEVELS_H
#define ANCHOR_LEVELS_H
#include "signatures.h"

static uint16_t number_of[1 << 17]; /* zero between calls */
static uint32_t keys[MAXP + 1];

static unsigned first_level(unsigned n, const row *conn, uint32_t *t, uint32_t *sizes) {
    unsigned classes = 0;
    clear(t, n * n * sizeof *t);
    for (unsigned v = 0; v < n; v++) EACH(conn[v], u) {
        uint32_t key = (uint32_t)symbols_of[v * n + u] << 1 | (v == u), c = number_of[key];
        if (!c) number_of[key] = (uint16_t)(c = ++classes), keys[c] = key, sizes[c] = 0;
        t[v * n + u] = c;
        sizes[c]++;
    }
    for (unsigned c = 1; c <= classes; c++) number_of[keys[c]] = 0;
    return classes;
}

/* A class refines the class below, so a pair alone in it stays alone. The class of (u,v) follows from that of (v,u), so a signature
   may hold the classes of (v,m) and (u,m). */
static unsigned next_level(unsigned n, const uint32_t *below, const row *conn_below, unsigned classes_below, const uint32_t *sizes_below, const row *conn, uint32_t *t,
                           uint32_t *sizes) {
    unsigned needed = 0, bits = 4, classes = 0;
    for (unsigned v = 0; v < n; v++) needed += size_of(conn[v]);
    for (unsigned c = 1; c <= classes_below; c++) needed -= sizes_below[c] == 1;
    if (needed == 0) {
        copy(t, below, n * n * sizeof *t);
        copy(sizes + 1, sizes_below + 1, classes_below * sizeof *sizes);
        return classes_below;
    }
    while (1u << bits < 2 * needed) bits++;
    clear(slots, sizeof(uint64_t) << bits);
    clear(t, n * n * sizeof *t);
    prepare(&prep_a, n, below, conn_below, classes_below, sizes_below);
    /* digests where most pairs will be first of their class; where most will join one, the signature is needed anyway */
    const int by_digest = needed <= 16 * classes_below;
    if (by_digest) prepare_digests(&prep_a);
    static uint32_t buffer[MAXV + 2];
    uint32_t top = 0, mask = (1u << bits) - 1;
    for (unsigned v = 0; v < n; v++) EACH(conn[v], u) {
        uint32_t p = v * n + u, b = below[p], c, back = 0;
        if (b && sizes_below[b] == 1) {
            t[p] = ++classes;
            sizes[classes] = 1;
            continue;
        }
        if (u < v && (c = inverse[back = t[u * n + v]])) {
            t[p] = c;
            sizes[c]++;
            continue;
        }
        uint32_t *mine = by_digest ? buffer : arena + top, len = by_digest ? 0 : sign(&prep_a, &prep_a, v, u, mine);
        uint64_t h = (by_digest ? digest(&prep_a, v, u) : hash(mine, len)) + b * 0x9E3779B97F4A7C15u;
        h = (h ^ h >> 32) * 0x517CC1B727220A95u;
        for (uint32_t i = (uint32_t)(h >> (64 - bits));; i = (i + 1) & mask) {
            uint64_t x = slots[i];
            if (!x) {
                c = ++classes;
                slots[i] = h << 32 | c;
                digest_of[c] = h, first_at[c] = p, sig_len[c] = len, sig_from[c] = top, top += len;
                sizes[c] = 0;
                inverse[c] = 0;
                break;
            }
            c = (uint32_t)x;
            if ((uint32_t)(x >> 32) != (uint32_t)h || digest_of[c] != h) continue;
            /* now exactly; a signature is never empty but for pairs just connected, which have a midpoint too */
            uint32_t q = first_at[c];
            if (below[q] != b) continue;
            if (!sig_len[c]) {
                sig_from[c] = top;
                top += sig_len[c] = sign(&prep_a, &prep_a, q / n, q % n, arena + top);
            }
            if (!len) len = sign(&prep_a, &prep_a, v, u, mine);
            if (sig_len[c] == len && !memcmp(arena + sig_from[c], mine, len * sizeof *mine)) break;
        }
        t[p] = c;
        sizes[c]++;
        if (u == v) inverse[c] = c;
        if (u < v) inverse[c] = back, inverse[back] = c;
    }
    return classes;
}

static row conn_of[5][MAXV];
static uint32_t sizes_of[2][MAXP + 2];

#endif
