/* The seven entries of the anchor, as include/kavizhuran.h has those of the library. */
#ifndef ANCHOR_H
#define ANCHOR_H
#include "kavizhuran.h"

kv_result anchor_build(uint32_t items, uint32_t labels, uint32_t k, const uint32_t *edges, size_t edges_count, uint32_t *levels, size_t levels_count,
                       uint32_t *starts, size_t starts_count, uint32_t *order, size_t order_count, uint32_t *entries, size_t entries_count, uint8_t *area,
                       size_t area_count);
kv_result anchor_check(uint32_t items, uint32_t labels, uint32_t k, const uint32_t *edges, size_t edges_count, const uint32_t *levels, size_t levels_count,
                       const uint32_t *starts, size_t starts_count, const uint32_t *order, size_t order_count, const uint32_t *entries, size_t entries_count,
                       uint8_t *area, size_t area_count);
kv_result anchor_direct(uint32_t items, uint32_t labels, const uint32_t *edges, size_t edges_count, const uint8_t *tokens, size_t tokens_count,
                        uint32_t *answers, size_t answers_count, uint8_t *area, size_t area_count);
kv_result anchor_stored(uint32_t items, uint32_t labels, const uint32_t *table, size_t table_count, const uint32_t *entries, size_t entries_count,
                        const uint8_t *tokens, size_t tokens_count, uint32_t *answers, size_t answers_count, uint8_t *area, size_t area_count);
kv_result anchor_class(uint32_t items, uint32_t labels, uint32_t k, const uint32_t *table, size_t table_count, const uint32_t *entries, size_t entries_count,
                       const uint8_t *tokens, size_t tokens_count, uint32_t *answers, size_t answers_count, uint8_t *area, size_t area_count);
kv_result anchor_pairs(uint32_t c, const uint32_t *starts, size_t starts_count, const uint32_t *order, size_t order_count);
kv_result anchor_lookup(const uint8_t *symbols, size_t symbols_count, const uint32_t *entries, size_t entries_count);
#endif
