/* How much the search for pairs that agree does, counted level by level: a copy in C of the way in which the crates twins, numbering and
   faults number and check a level. For each level agreements found and failed, and the candidates that the twin searches looked at. The
   levels that it writes are compared with those of the library: a difference is an error.

     candidates GRAPH K     GRAPH is register, random, cycle or star */
#include <stdio.h>
#include <string.h>

#include "named.h"

#define SQUARE (128 * 128)
#define ROOM 1000000

typedef struct {
    uint64_t found, failed, candidates;
} counts;

typedef struct {
    uint64_t numbers[128];
    size_t count;
} list;

static graph the_graph;
static uint32_t items, positions;
static uint32_t levels[5][SQUARE]; /* level 0 is not used */
static uint8_t marks[SQUARE], near[SQUARE];
static uint32_t heads[SQUARE], links[SQUARE], firsts[SQUARE + 1];
static uint32_t written[4 * SQUARE], starts[SQUARE + 1], order[SQUARE], entries[2 * ROOM];
static uint8_t area[9 * SQUARE];

static void mark_edges(const graph *g) {
    memset(marks, 0, sizeof marks);
    for (size_t e = 0; e < g->count; e += 3) marks[g->edges[e] * items + g->edges[e + 1]] |= (uint8_t)(1u << g->edges[e + 2]);
}

static int step_or_equal(uint32_t v, uint32_t u) { return v == u || marks[v * items + u] || marks[u * items + v]; }

/* the pairs connected within i */
static void mark_near(uint32_t i) {
    for (uint32_t p = 0; p < positions; p++) {
        const uint32_t v = p / items, u = p % items;
        near[p] = i == 1 && step_or_equal(v, u);
        for (uint32_t m = 0; i > 1 && m < items && !near[p]; m++) near[p] = levels[i - 1][v * items + m] != 0 && step_or_equal(m, u);
    }
}

/* a pair's midpoints, each as one number; one that equals the last is left out */
static void list_midpoints(uint32_t i, uint32_t p, list *to) {
    const uint32_t v = p / items, u = p % items;
    to->count = 0;
    for (uint32_t m = 0; i > 1 && m < items; m++) {
        const uint64_t a = levels[i - 1][v * items + m], b = levels[i - 1][m * items + u];
        const uint64_t x = a << 32 | b;
        if (a == 0 || b == 0 || (to->count > 0 && to->numbers[to->count - 1] == x)) continue;
        to->numbers[to->count++] = x;
    }
}

/* the largest hashes over the midpoints, by four turns together */
static uint64_t most(const list *of) {
    uint64_t sum = 0;
    for (uint64_t turn = 0; turn < 4; turn++) {
        uint32_t largest = 0;
        for (size_t j = 0; j < of->count; j++) {
            const uint64_t x = of->numbers[j];
            const uint32_t mixed = (uint32_t)(x >> 32) * 2654435761u + (uint32_t)x * 2246822519u;
            const uint32_t hash = mixed + (uint32_t)(turn << 30);
            if (largest < hash) largest = hash;
        }
        sum += largest;
    }
    return sum;
}

static uint32_t bucket(uint32_t p, const list *of) {
    return (uint32_t)((marks[p] + 256 * marks[p % items * items + p / items] + most(of)) % positions);
}

/* each number of a list stands in another */
static int within(const list *one, const list *other, counts *c) {
    for (size_t m = 0; m < one->count; m++) {
        size_t w = 0;
        while (w < other->count && other->numbers[w] != one->numbers[m]) w++;
        c->candidates += w + (w < other->count);
        if (w == other->count) return 0;
    }
    return 1;
}

static int same_steps(uint32_t p, uint32_t q) {
    return marks[p] == marks[q] && marks[p % items * items + p / items] == marks[q % items * items + q / items];
}

static int agree(uint32_t q, const list *of_q, uint32_t p, const list *of_p, counts *c) {
    const int ends = (q / items == q % items) == (p / items == p % items);
    const int same = ends && same_steps(q, p) && within(of_q, of_p, c) && within(of_p, of_q, c);
    if (same) c->found++;
    else c->failed++;
    return same;
}

/* the position of the chain of bucket b that agrees with p, or p */
static uint32_t find_alike(uint32_t i, uint32_t p, uint32_t b, const list *of_p, counts *c) {
    for (uint32_t at = heads[b]; at != 0; at = links[at - 1]) {
        list of_q;
        list_midpoints(i, at - 1, &of_q);
        if (agree(at - 1, &of_q, p, of_p, c)) return at - 1;
    }
    return p;
}

static void number_level(uint32_t i, counts *c) {
    uint32_t top = 0;
    mark_near(i);
    memset(heads, 0, sizeof heads);
    for (uint32_t p = 0; p < positions; p++) {
        levels[i][p] = 0;
        if (!near[p]) continue;
        list of_p;
        list_midpoints(i, p, &of_p);
        const uint32_t b = bucket(p, &of_p), q = find_alike(i, p, b, &of_p, c);
        if (q == p) links[p] = heads[b], heads[b] = p + 1;
        levels[i][p] = q < p ? levels[i][q] : ++top;
    }
}

/* each pair against the first pair of its number */
static void check_level(uint32_t i, counts *c) {
    uint32_t top = 0;
    for (uint32_t p = 0; p < positions; p++) {
        const uint32_t number = levels[i][p];
        if (number == 0) continue;
        if (number > top) {
            firsts[top = number] = p;
            continue;
        }
        list of_p, of_q;
        list_midpoints(i, p, &of_p), list_midpoints(i, firsts[number], &of_q);
        agree(p, &of_p, firsts[number], &of_q, c);
    }
}

static int same_level(uint32_t i, uint32_t j) { return memcmp(levels[i], levels[j], positions * sizeof(uint32_t)) == 0; }

static void print_counts(const char *what, uint32_t i, const counts *c) {
    printf("level %u, %s: %llu agreements found, %llu failed, %llu candidates\n", i, what, (unsigned long long)c->found, (unsigned long long)c->failed,
           (unsigned long long)c->candidates);
}

/* above two levels that are the same the next is a copy, and an equal one is accepted without a search */
static void work_on(uint32_t i) {
    counts built = {0, 0, 0}, checked = {0, 0, 0};
    const int repeats = i > 2 && same_level(i - 1, i - 2);
    if (repeats) memcpy(levels[i], levels[i - 1], sizeof levels[i]);
    else number_level(i, &built), check_level(i, &checked);
    print_counts("build", i, &built);
    print_counts("check", i, &checked);
}

/* what the library writes for the same graph */
static int same_as_library(uint32_t k) {
    const graph *g = &the_graph;
    kv_result result = kv_build(g->items, g->labels, k, g->edges, g->count, written, 4 * SQUARE, starts, SQUARE + 1, order, SQUARE, entries, 2 * ROOM, area, sizeof area);
    if (result.number != 0) return 0;
    for (uint32_t i = 1; i <= k; i++)
        if (memcmp(levels[i], written + (i - 1) * positions, positions * sizeof(uint32_t)) != 0) return 0;
    return 1;
}

int main(int count, char **words) {
    if (count != 3 || !named_graph(&the_graph, words[1])) return 2;
    const uint32_t k = (uint32_t)(words[2][0] - '0');
    if (k < 1 || k > 4) return 2;
    items = the_graph.items, positions = items * items;
    mark_edges(&the_graph);
    for (uint32_t i = 1; i <= k; i++) work_on(i);
    if (same_as_library(k)) return 0;
    printf("the library's levels differ\n");
    return 1;
}
