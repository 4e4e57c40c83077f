/* Pairs of a class, and sequence lookup. */
#ifndef ANCHOR_PARTS_H
#define ANCHOR_PARTS_H
#include "rows.h"

kv_result anchor_pairs(uint32_t c, const uint32_t *starts, size_t n_starts, const uint32_t *order, size_t n_order) {
    (void)order;
    if (c == 0 || c >= n_starts || starts[c - 1] > starts[c] || starts[c] > n_order) return result(14, 0, 0, 0);
    return result(0, 0, starts[c - 1], starts[c]);
}

kv_result anchor_lookup(const uint8_t *symbols, size_t n_symbols, const uint32_t *entries, size_t n_entries) {
    if (n_symbols > 4) return result(12, 0, 0, 0);
    uint32_t code = 0;
    for (uint32_t i = 0; i < n_symbols; i++) {
        if (symbols[i] - 1u > 15) return result(8, i, 0, 0);
        code = code * 17 + symbols[i];
    }
    size_t count = n_entries / 2, from = 0;
    while (from < count && entries[2 * from] != code) from++;
    if (from == count) return result(0, 0, 0, 0);
    size_t to = from;
    while (to < count && entries[2 * to] == code) to++;
    return result(0, 0, (uint32_t)(2 * from), (uint32_t)(2 * to));
}

#endif
