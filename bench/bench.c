/* Times the library beside the anchor in one run, one after the other in turn, the best of several for each:

     bench [ROW_MS]            every row of the table
     bench growth [ROW_MS]     build against V and k on two families of graphs

   ROW_MS (default 200) is what a row may take where both sides are fast; each side has at least three turns. Before a row is timed, the
   answers and every list of both sides are compared, and a difference is an error. Times are in microseconds. */
#include <math.h>
#include <stdio.h>
#include <time.h>

#include "sides.h"

static const char *const operation_name[OPERATIONS] = {"build", "check", "direct", "stored", "class"};
static double row_time = 0.2;
static unsigned different;

static double seconds(int clock) {
    struct timespec t;
    clock_gettime(clock, &t);
    return (double)t.tv_sec + 1e-9 * (double)t.tv_nsec;
}

/* processor time, so that other work on the machine counts little */
static double timed(int side, int operation, unsigned times) {
    const double from = seconds(CLOCK_PROCESS_CPUTIME_ID);
    for (unsigned i = 0; i < times; i++) call(side, operation);
    return (seconds(CLOCK_PROCESS_CPUTIME_ID) - from) / times;
}

/* The best time of each side, in turn. Calls that are too short for the clock are timed many at once. Where the other side's turn may have
   driven this side's lists from the cache, and it would show, a call that is not timed goes before. */
static void best_of(int operation, double best[SIDES]) {
    unsigned times[SIDES];
    for (int side = 0; side < SIDES; side++) {
        best[side] = timed(side, operation, 1);
        times[side] = best[side] < 50e-6 ? (unsigned)(50e-6 / (best[side] + 1e-7)) + 1 : 1;
    }
    const double from = seconds(CLOCK_MONOTONIC);
    for (unsigned turn = 0; turn < 3 || seconds(CLOCK_MONOTONIC) - from < row_time; turn++)
        for (int side = 0; side < SIDES; side++) {
            if (best[side] < 2e-3) call(side, operation);
            double t = timed(side, operation, times[side]);
            if (t < best[side]) best[side] = t;
        }
}

static const char *shown(double time, char text[16]) {
    double us = time * 1e6;
    snprintf(text, 16, "%.*f", us < 100 ? 2 : us < 1000 ? 1 : 0, us);
    return text;
}

/* the geometric mean and the largest of ratios */
typedef struct {
    unsigned count;
    double sum, worst;
} ratios;

static int note(ratios *r, double ratio) {
    r->count++, r->sum += log(ratio);
    if (ratio <= r->worst) return 0;
    r->worst = ratio;
    return 1;
}

static double mean(const ratios *r) { return r->count ? exp(r->sum / r->count) : 0; }

static ratios all, ratios_of[OPERATIONS];
static char worst_row[96];

/* the times of an operation, behind what the row begins with; a difference instead of times */
static void end_row(int operation, const char *name) {
    char library[16], anchor[16];
    double best[SIDES];
    if (!same(operation)) {
        printf(" | DIFFERENT | | |\n");
        different++;
        return;
    }
    best_of(operation, best);
    double ratio = best[LIBRARY] / best[ANCHOR];
    printf(" | %s | %s | %.2f |\n", shown(best[LIBRARY], library), shown(best[ANCHOR], anchor), ratio);
    fflush(NULL);
    note(&ratios_of[operation], ratio);
    if (note(&all, ratio)) snprintf(worst_row, sizeof worst_row, "%s", name);
}

static void table_row(const char *graph_name, int operation, const char *query) {
    char name[96];
    snprintf(name, sizeof name, "%s, k %u, %s%s%s", graph_name, the_k, operation_name[operation], *query ? ", " : "", query);
    printf("| %s | %u | %s%s%s", graph_name, the_k, operation_name[operation], *query ? ", " : "", query);
    end_row(operation, name);
}

static void query_row(const char *graph_name, int operation, const char *name, const uint8_t *tokens, size_t count) {
    the_query = tokens, the_query_count = count;
    table_row(graph_name, operation, name);
}

/* eight operands, then seven joins and conjunctions in turn; or one join and conjunctions, diameter 2, for class answers */
static void eight_waiting(uint8_t tokens[15], int diameter_two) {
    for (uint32_t i = 0; i < 8; i++) tokens[i] = (uint8_t)(1 + i % (2 * the_graph.labels));
    for (uint32_t i = 0; i < 7; i++) tokens[8 + i] = (uint8_t)((diameter_two ? i == 0 : i % 2 == 0) ? 32 : 33);
}

/* s.s'.s.s'. and so on, 32 steps; or the conjunction of 16 times s.s', diameter 2, for class answers */
static void many_tokens(uint8_t tokens[63], int diameter_two) {
    tokens[0] = 1;
    if (!diameter_two)
        for (uint32_t i = 0; i < 31; i++) tokens[1 + 2 * i] = (uint8_t)(2 - i % 2), tokens[2 + 2 * i] = 32;
    else
        for (uint32_t i = 0, at = 0; i < 16; i++) {
            tokens[at++] = 1, tokens[at++] = 2, tokens[at++] = 32;
            if (i) tokens[at++] = 33;
        }
}

static void answer_rows(const char *graph_name, int operation) {
    const int class = operation == CLASS;
    uint8_t eight[15], many[63];
    eight_waiting(eight, class);
    many_tokens(many, class);
    query_row(graph_name, operation, "one step", (const uint8_t[]){1}, 1);
    query_row(graph_name, operation, "s.s'", (const uint8_t[]){1, 2, 32}, 3);
    query_row(graph_name, operation, class ? "8 waiting, diameter 2" : "8 waiting", eight, 15);
    query_row(graph_name, operation, class ? "63 tokens, diameter 2" : "63 tokens", many, 63);
}

static void graph_rows(const char *name, uint32_t first_k, uint32_t last_k) {
    for (the_k = first_k; the_k <= last_k; the_k++) {
        give_tables();
        table_row(name, BUILD, "");
        table_row(name, CHECK, "");
        if (the_k == first_k) answer_rows(name, DIRECT); /* there is no k in it */
        answer_rows(name, STORED);
        answer_rows(name, CLASS);
    }
}

static void table(void) {
    printf("| graph | k | operation | library, µs | anchor, µs | ratio |\n|---|---|---|---|---|---|\n");
    register_graph(&the_graph, 128);
    graph_rows("register V 128", 2, 4);
    random_graph(&the_graph, 11, 128, 4, 512);
    graph_rows("random V 128, 512 edges, 4 labels", 2, 3);
    random_graph(&the_graph, 12, 64, 8, 4096);
    graph_rows("dense V 64, 4,096 edges, 8 labels", 2, 2);
    cycle_graph(&the_graph, 128);
    graph_rows("cycle V 128", 4, 4);
    star_graph(&the_graph, 128);
    graph_rows("star V 128", 4, 4);
    random_graph(&the_graph, 14, 32, 2, 64);
    graph_rows("random V 32, 64 edges, 2 labels", 4, 4);
    printf("\n");
    for (int i = 0; i < OPERATIONS; i++) printf("- %s: %u rows, geometric mean %.2f, worst %.2f\n", operation_name[i], ratios_of[i].count, mean(&ratios_of[i]), ratios_of[i].worst);
}

static void growth_rows(const char *family, void (*make)(uint32_t)) {
    for (the_k = 1; the_k <= 4; the_k++)
        for (uint32_t items = 16; items <= 128; items += 16) {
            char name[96];
            make(items);
            give_tables();
            snprintf(name, sizeof name, "%s, V %u, k %u", family, items, the_k);
            printf("| %s | %u | %u | %u | %u | %u", family, the_k, items, (unsigned)(the_graph.count / 3), counts.a, counts.c);
            end_row(BUILD, name);
        }
}

static void make_register(uint32_t items) { register_graph(&the_graph, items); }
static void make_random(uint32_t items) { random_graph(&the_graph, 14, items, 2, 2 * items); }

static void growth(void) {
    printf("| graph | k | V | edges | classes | entries | library, µs | anchor, µs | ratio |\n|---|---|---|---|---|---|---|---|---|\n");
    growth_rows("register", make_register);
    growth_rows("random, 2V edges, 2 labels", make_random);
    printf("\n");
}

int main(int argc, char **argv) {
    const int growing = argc > 1 && !strcmp(argv[1], "growth");
    if (argc > 1 + growing) row_time = atoi(argv[1 + growing]) / 1000.0;
    if (growing) growth();
    else table();
    if (different) printf("%u rows DIFFERENT\n", different);
    printf("%u rows: geometric mean %.2f, worst %.2f (%s)\n", all.count, mean(&all), all.worst, worst_row);
    fflush(NULL);
    return different != 0;
}
