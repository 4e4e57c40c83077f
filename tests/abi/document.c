/* Document 01's table of four items through all seven functions, as a C program sees them: the numbers of each answer, and every number
   of every list, those behind what is written too. */
#include <stdio.h>
#include <string.h>

#include "kavizhuran.h"

#define V 4
#define SQUARE (V * V)
#define AREA (9 * SQUARE)
#define UNUSED 0xABABABABu /* what lists hold before a call */
#define UNUSED_BYTE 0xAB
#define TAIL 3 /* so many numbers or bytes lie behind what is needed */
#define COUNT(list) (sizeof(list) / sizeof *(list))

static const uint32_t edges[] = {0, 2, 0, 1, 2, 0, 3, 2, 1};
static const uint32_t levels_expected[] = {1, 0, 2, 0, 0, 1, 2, 0, 3, 3, 1, 4, 0, 0, 5, 1, 1, 2, 3, 4, 2, 1, 3, 4, 5, 5, 6, 7, 8, 8, 9, 10};
static const uint32_t starts_expected[] = {0, 2, 4, 6, 8, 10, 11, 12, 14, 15, 16};
static const uint32_t order_expected[] = {0, 5, 1, 4, 2, 6, 3, 7, 8, 9, 10, 11, 12, 13, 14, 15};
static const uint32_t entries_expected[] = {0, 1, 0, 6, 0, 10, 1, 3, 2, 5, 3, 9, 4, 7, 19, 1, 19, 2, 21, 4, 35, 6, 53, 8, 55, 10, 71, 6};

static uint32_t levels[2 * SQUARE + TAIL], starts[SQUARE + 1 + TAIL], order[SQUARE + TAIL], entries[28 + TAIL], answers[SQUARE + TAIL];
static uint8_t area[AREA + TAIL];
static const uint32_t *const table = levels + SQUARE;
static unsigned passed, failed;

static void tell(int good, const char *what) {
    if (good) {
        passed++;
    } else {
        failed++;
        printf("abi: %s: not as expected\n", what);
    }
}

static void is(kv_result r, uint32_t number, uint32_t a, uint32_t b, uint32_t c, const char *what) {
    tell(r.number == number && r.a == a && r.b == b && r.c == c, what);
}

/* the expected numbers at the front, and nothing touched behind them */
static void holds(const uint32_t *list, size_t count, const uint32_t *expected, size_t expected_count, const char *what) {
    int good = expected_count == 0 || memcmp(list, expected, expected_count * sizeof *list) == 0;
    for (size_t i = expected_count; i < count; i++) good &= list[i] == UNUSED;
    tell(good, what);
}

/* zero in its first 9*V*V bytes if work was done, and nothing touched behind them */
static void area_is(int worked, const char *what) {
    int good = 1;
    for (size_t i = 0; i < sizeof area; i++) good &= area[i] == (worked && i < AREA ? 0 : UNUSED_BYTE);
    tell(good, what);
}

static void refresh(void) {
    memset(answers, UNUSED_BYTE, sizeof answers);
    memset(area, UNUSED_BYTE, sizeof area);
}

static void refresh_tables(void) {
    refresh();
    memset(levels, UNUSED_BYTE, sizeof levels);
    memset(starts, UNUSED_BYTE, sizeof starts);
    memset(order, UNUSED_BYTE, sizeof order);
    memset(entries, UNUSED_BYTE, sizeof entries);
}

static kv_result build(uint32_t k, size_t entries_count) {
    refresh_tables();
    return kv_build(V, 2, k, edges, COUNT(edges), levels, COUNT(levels), starts, COUNT(starts), order, COUNT(order), entries, entries_count, area,
                    sizeof area);
}

static kv_result check(size_t starts_count, size_t order_count, size_t entries_count) {
    refresh();
    return kv_check(V, 2, 2, edges, COUNT(edges), levels, COUNT(levels), starts, starts_count, order, order_count, entries, entries_count, area,
                    sizeof area);
}

static void tables_hold(size_t entries_written) {
    holds(levels, COUNT(levels), levels_expected, COUNT(levels_expected), "levels after build");
    holds(starts, COUNT(starts), starts_expected, COUNT(starts_expected), "starts after build");
    holds(order, COUNT(order), order_expected, COUNT(order_expected), "order after build");
    holds(entries, COUNT(entries), entries_expected, entries_written, "entries after build");
    area_is(1, "area after build");
}

static void building(void) {
    is(build(5, COUNT(entries)), 2, 0, 0, 0, "build with k 5");
    holds(levels, COUNT(levels), NULL, 0, "levels after a refusal");
    holds(starts, COUNT(starts), NULL, 0, "starts after a refusal");
    holds(order, COUNT(order), NULL, 0, "order after a refusal");
    holds(entries, COUNT(entries), NULL, 0, "entries after a refusal");
    area_is(0, "area after a refusal");
    is(build(2, 27), 6, 14, 0, 0, "build with room for 13 entries");
    tables_hold(0);
    is(build(2, COUNT(entries)), 0, 10, 16, 14, "build");
    tables_hold(28);
}

static void checking(void) {
    is(check(11, 16, 28), 0, 0, 0, 0, "check");
    area_is(1, "area after check");
    is(check(10, 16, 28), 16, 1, 10, 0, "check with a start too few");
    is(check(11, 15, 28), 16, 2, 15, 0, "check with a pair too few");
    is(check(11, 16, 29), 17, 28, 0, 0, "check with a number too many");
    area_is(1, "area after a refused check");
    levels[SQUARE + 5] = 2;
    is(check(11, 16, 28), 15, 2, 5, 0, "check with a pair in another class");
    levels[SQUARE + 5] = 1;
    tables_hold(28); /* and the area of the last check */
}

/* the same query to direct and stored: the number and values, and what answers holds */
static void asks(const uint8_t *tokens, size_t count, uint32_t number, uint32_t a, const uint32_t *expected, const char *what) {
    int worked = number == 0 || number == 13;
    size_t written = number == 0 ? a : 0;
    refresh();
    is(kv_direct(V, 2, edges, COUNT(edges), tokens, count, answers, COUNT(answers), area, sizeof area), number, a, 0, 0, what);
    holds(answers, COUNT(answers), expected, written, what);
    area_is(worked, what);
    refresh();
    is(kv_stored(V, 2, table, SQUARE, entries, 28, tokens, count, answers, COUNT(answers), area, sizeof area), number, a, 0, 0, what);
    holds(answers, COUNT(answers), expected, written, what);
    area_is(worked, what);
}

static void asks_classes(const uint8_t *tokens, size_t count, uint32_t number, uint32_t a, const uint32_t *expected, const char *what) {
    refresh();
    is(kv_class(V, 2, 2, table, SQUARE, entries, 28, tokens, count, answers, COUNT(answers), area, sizeof area), number, a, 0, 0, what);
    holds(answers, COUNT(answers), expected, number == 0 ? a : 0, what);
    area_is(number == 0, what);
}

static void asking(void) {
    static const uint8_t meet[] = {1, 2, 32}, onward[] = {1, 2, 32, 1, 32}, backward[] = {2, 1, 32}, identity[] = {0}, step[] = {1};
    static const uint8_t unknown[] = {5}, alone[] = {1, 32}, left[] = {1, 2}, nine[] = {1, 1, 1, 1, 1, 1, 1, 1, 1};
    asks(meet, 3, 0, 4, (const uint32_t[]){0, 1, 4, 5}, "tokens 1 2 32");
    asks(onward, 5, 0, 2, (const uint32_t[]){2, 6}, "tokens 1 2 32 1 32");
    asks(backward, 3, 0, 1, (const uint32_t[]){10}, "tokens 2 1 32");
    asks(identity, 1, 0, 4, (const uint32_t[]){0, 5, 10, 15}, "identity");
    asks(identity, 0, 7, 0, NULL, "no token");
    asks(unknown, 1, 8, 0, NULL, "token 5");
    asks(alone, 2, 9, 1, NULL, "tokens 1 32");
    asks(nine, 9, 10, 8, NULL, "a ninth operand");
    asks(left, 2, 11, 0, NULL, "tokens 1 2");
    refresh();
    is(kv_direct(V, 2, edges, COUNT(edges), meet, 3, answers, 3, area, sizeof area), 13, 4, 0, 0, "room for 3 answers");
    holds(answers, COUNT(answers), NULL, 0, "answers at 13");
    area_is(1, "area at 13");
    asks_classes(step, 1, 0, 1, (const uint32_t[]){3}, "classes of a step");
    asks_classes(meet, 3, 0, 2, (const uint32_t[]){1, 2}, "classes of tokens 1 2 32");
    asks_classes(identity, 1, 0, 3, (const uint32_t[]){1, 6, 10}, "classes of identity");
    asks_classes(onward, 5, 12, 0, NULL, "classes of tokens 1 2 32 1 32");
}

static void parts(void) {
    static const uint8_t symbols[] = {1, 2, 3, 4, 1}, wrong[] = {1, 17};
    is(kv_pairs(1, starts, 11, order, 16), 0, 0, 0, 2, "pairs of class 1");
    is(kv_pairs(10, starts, 11, order, 16), 0, 0, 15, 16, "pairs of class 10");
    is(kv_pairs(0, starts, 11, order, 16), 14, 0, 0, 0, "pairs of class 0");
    is(kv_pairs(11, starts, 11, order, 16), 14, 0, 0, 0, "pairs of class 11");
    is(kv_pairs(10, starts, 11, order, 15), 14, 0, 0, 0, "pairs past the order list");
    is(kv_lookup(symbols, 0, entries, 28), 0, 0, 0, 6, "lookup of the empty sequence");
    is(kv_lookup(symbols, 1, entries, 28), 0, 0, 6, 8, "lookup of 1");
    is(kv_lookup(symbols, 2, entries, 28), 0, 0, 14, 18, "lookup of 1 2");
    is(kv_lookup(symbols, 2, entries, 17), 0, 0, 14, 16, "lookup of 1 2 where a last number stands alone");
    is(kv_lookup(symbols, 3, entries, 28), 0, 0, 0, 0, "lookup of 1 2 3, which is not there");
    is(kv_lookup(symbols, 5, entries, 28), 12, 0, 0, 0, "lookup of five symbols");
    is(kv_lookup(wrong, 2, entries, 28), 8, 1, 0, 0, "lookup of symbol 17");
}

int main(void) {
    building();
    checking();
    asking();
    parts();
    printf("abi: %u passed, %u failed\n", passed, failed);
    return failed != 0;
}
