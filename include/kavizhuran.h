/* Kavizhuran, a proved relation index: the seven entries of the static library libabi.a (x86-64 Linux).

   A list is a pointer and a number of elements. It must be as long as its number says, aligned, and, also where the number is 0, not
   NULL. A list that a function may write (no const) overlaps no other list of the same call. Nothing else is asked: whatever numbers
   stand in the lists, each function ends, and answers or refuses as said here. The library keeps nothing between calls, takes no memory
   but the caller's lists and the stack, and may be called by several threads at once on different lists.

   items is V (0..128), labels is L (1..8), k the number of levels (1..4). An edge is three numbers: source, target, label. The step
   along label l has the symbol 2l+1, against it 2l+2. The pair (v,u) has the position v*V+u.

   Lengths that are never refused:
     area     9*V*V bytes, whatever stands in them
     levels   k*V*V numbers, level 1 first
     starts   V*V+1 numbers (build)
     order    V*V numbers (build)
     table    V*V numbers, the last of the levels
     answers  V*V numbers
     entries  two numbers for each entry; build tells the need if there are more

   Numbers past those that a table or answer needs are never changed, nor are bytes of the area past 9*V*V. */
#ifndef KAVIZHURAN_H
#define KAVIZHURAN_H

#include <stddef.h>
#include <stdint.h>

#ifdef __cplusplus
extern "C" {
#endif

/* number is 0 if nothing is refused, else the refusal's:
     1  V above 128, L not 1..8
     2  k not 1..4
     3  edge numbers not a multiple of 3, or over 4,096 edges
     4  an edge's item or label too large: a = the first such edge, from 0
     5  a list too short: the area, the levels or the table; for build also order or starts
     6  more entries than room: a = entries needed
     7  query empty or over 64 tokens
     8  unknown token or symbol: a = its place
     9  join or conjunction with under two operands waiting: a = its place
    10  a ninth operand: a = its place
    11  more than one operand left at the end
    12  diameter over k, or over 4 symbols
    13  more answers than room: a = answers needed
    14  no such class in the lists
    15  level fault: a = level, b = first position
    16  starts or order wrong: a = list (1 starts, 2 order), b = index
    17  entries wrong: a = index
   a, b and c are 0 where nothing is named for them. After 1 to 5, 7 to 12 and 14 every list is as it was. */
typedef struct {
    uint32_t number, a, b, c;
} kv_result;

/* Build: writes the four tables of an edge table.
   Refuses, in this order, with 1 2 3 4 5 6.
   0: a = classes C, b = connected pairs, c = entries. levels has k*V*V numbers, starts C+1, order b, entries 2*c, each at its front;
      the first 9*V*V bytes of the area are zero.
   6: a = entries needed; entries is as it was, all else as for 0. An odd last number of entries is no room. */
kv_result kv_build(uint32_t items, uint32_t labels, uint32_t k, const uint32_t *edges, size_t edges_count, uint32_t *levels, size_t levels_count,
                   uint32_t *starts, size_t starts_count, uint32_t *order, size_t order_count, uint32_t *entries, size_t entries_count, uint8_t *area,
                   size_t area_count);

/* Check: whether stored tables are right for an edge table, whoever made them. starts, order and entries are compared whole, so hand
   over C+1, b and 2*c numbers of what build wrote; levels past k*V*V numbers are not looked at.
   Refuses, in this order, with 1 2 3 4 5 15 16 17; 0: accepted.
   The tables are only read. After 0 and 15 to 17 the first 9*V*V bytes of the area are zero. */
kv_result kv_check(uint32_t items, uint32_t labels, uint32_t k, const uint32_t *edges, size_t edges_count, const uint32_t *levels, size_t levels_count,
                   const uint32_t *starts, size_t starts_count, const uint32_t *order, size_t order_count, const uint32_t *entries, size_t entries_count,
                   uint8_t *area, size_t area_count);

/* Direct answer: the pairs that meet a query on the edge table. A query is 1 to 64 tokens, operands first: 0 identity, 1..2L a step,
   32 join, 33 conjunction.
   Refuses, in this order, with 1 3 4 7, then the first faulty token (8, 9 or 10), 11 5 13.
   0: a = how many; their positions stand at the front of answers, ascending. 13: a = the need; answers is as it was.
   After 0 and 13 the first 9*V*V bytes of the area are zero. */
kv_result kv_direct(uint32_t items, uint32_t labels, const uint32_t *edges, size_t edges_count, const uint8_t *tokens, size_t tokens_count,
                    uint32_t *answers, size_t answers_count, uint8_t *area, size_t area_count);

/* Stored answer: the same query on stored tables, the level-k table and the entries. Any tables get an answer; on tables that check
   accepts it is the direct answer.
   Refuses, in this order, with 1 7, then the first faulty token (8, 9 or 10), 11 5 13.
   Leaves answers and area as the direct answer does. */
kv_result kv_stored(uint32_t items, uint32_t labels, const uint32_t *table, size_t table_count, const uint32_t *entries, size_t entries_count,
                    const uint8_t *tokens, size_t tokens_count, uint32_t *answers, size_t answers_count, uint8_t *area, size_t area_count);

/* Class answer: the class numbers of the level-k table, in order of first appearance, whose first pair is in the stored answer. k is
   used for refusals 2 and 12 alone.
   Refuses, in this order, with 1 2 7, then the first faulty token (8, 9 or 10), 11 12 5 13.
   0: a = how many; the class numbers stand at the front of answers. Leaves answers and area as the direct answer does. */
kv_result kv_class(uint32_t items, uint32_t labels, uint32_t k, const uint32_t *table, size_t table_count, const uint32_t *entries, size_t entries_count,
                   const uint8_t *tokens, size_t tokens_count, uint32_t *answers, size_t answers_count, uint8_t *area, size_t area_count);

/* Pairs of a class: where the positions of the pairs of class c stand in the order list. Writes nothing.
   0: order[b] up to but without order[c]. 14: c is 0, starts has no place c, or the bounds are out of order or pass the order list;
   b and c are 0. */
kv_result kv_pairs(uint32_t c, const uint32_t *starts, size_t starts_count, const uint32_t *order, size_t order_count);

/* Sequence lookup: where the entries of a sequence of 0 to 4 symbols stand in the entry list. Writes nothing.
   0: entries[b] up to but without entries[c], two numbers each; b and c are 0 if there is none. Of a list of 2^32 numbers or more the
   bounds are given modulo 2^32. 12: over 4 symbols. 8: a = the place of a symbol that is not 1..16. b and c are 0 at both. */
kv_result kv_lookup(const uint8_t *symbols, size_t symbols_count, const uint32_t *entries, size_t entries_count);

#ifdef __cplusplus
}
#endif

#endif
