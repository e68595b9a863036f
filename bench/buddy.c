/* And, or of 0/1 diagrams: product and max of the library, names shared, beside bdd_and and bdd_or of BuDDy (Debian libbdd-dev). Both get the same random
 * diagrams, in the same order of variables; the library's results are compared with BuDDy's, row by row, before anything is timed. Each pair of diagrams is
 * combined once a round; between rounds BuDDy collects its garbage, which also empties its caches, so that no answer is found from the round before. Its table
 * is small enough to be quick and large enough that nothing is collected and nothing grows while time is taken. */
#include "yindolve.h"
#include <assert.h>
#include <bdd.h>
#include <stdio.h>
#include <stdlib.h>
#include <string.h>
#include <time.h>

enum { CASES = 40, ROUNDS = 300, VARIABLES = 64 };

typedef struct {
    uint64_t words[YINDOLVE_RESULT_WORDS];
    size_t count;
    BDD bdd;
} Diagram;

typedef uint64_t (*Combination)(const uint64_t *, size_t, const uint64_t *, size_t, const uint64_t *, size_t, uint64_t *, size_t, uint64_t *, size_t, uint64_t *,
    uint64_t *);

static const uint64_t arities[YINDOLVE_ARITIES] = {2, 2};
static Diagram first[CASES], second[CASES], result;
static uint64_t work[YINDOLVE_WORK_WORDS], out[YINDOLVE_RESULT_WORDS];
static uint64_t state = 88172645463325252u;

static uint64_t below(uint64_t bound) {
    state ^= state << 13;
    state ^= state >> 7;
    state ^= state << 17;
    return state % bound;
}

static double now(void) {
    struct timespec t;
    clock_gettime(CLOCK_MONOTONIC, &t);
    return 1e9 * (double)t.tv_sec + (double)t.tv_nsec;
}

/* Writes the rows below a node in the order in which a walk, true branch first, finishes them. */
static uint64_t list(Diagram *d, BDD at, BDD *rows) {
    for (size_t i = 0; i < d->count; i++)
        if (rows[i] == at) return i;
    uint64_t row[3] = {YINDOLVE_LEAF, at == bddtrue, 0};
    if (at != bddtrue && at != bddfalse) {
        uint64_t v = (uint64_t)bdd_var(at);
        row[0] = YINDOLVE_LABEL(1, v / 8, v % 8, 0, 0, 0, 0); /* predicate 1 of constants v / 8 and v % 8 */
        row[1] = list(d, bdd_high(at), rows);
        row[2] = list(d, bdd_low(at), rows);
    }
    assert(d->count < YINDOLVE_ROWS);
    memcpy(d->words + 3 * d->count, row, sizeof row);
    rows[d->count] = at;
    return d->count++;
}

static void listed(Diagram *d) {
    static BDD rows[YINDOLVE_ROWS];
    d->count = 0;
    list(d, d->bdd, rows);
    d->count *= 3;
}

/* Layers of nodes, one for each of some of the variables. */
static void fill(Diagram *d, uint64_t levels, uint64_t width) {
    BDD layer[64] = {bddfalse, bddtrue}, next[64];
    uint64_t count = 2, left = levels;
    for (int v = VARIABLES - 1; v >= 0 && left > 0; v--) {
        if (below((uint64_t)v + 1) >= left) continue;
        left--;
        uint64_t rows = left < 6 && (UINT64_C(1) << left) < width ? UINT64_C(1) << left : width;
        for (uint64_t i = 0; i < rows; i++) {
            BDD yes = layer[below(8) ? 2 * i % count : below(count)], no = below(8) ? layer[(2 * i + 1) % count] : below(2) ? bddtrue : bddfalse;
            next[i] = bdd_addref(bdd_ite(bdd_ithvar(v), yes, no));
        }
        for (uint64_t i = 0; i < count; i++) bdd_delref(layer[i]);
        memcpy(layer, next, rows * sizeof *next);
        count = rows;
    }
    d->bdd = layer[0];
    listed(d);
}

/* How often BuDDy collected its garbage or let its table grow. */
static int interruptions;

static void collected(int before, bddGbcStat *stat) {
    (void)stat;
    interruptions += before;
}

static void grown(int from, int to) {
    (void)from;
    (void)to;
    interruptions++;
}

static int ascending(const void *x, const void *y) {
    double d = *(const double *)x - *(const double *)y;
    return (d > 0) - (d < 0);
}

static double low(double *times) {
    qsort(times, ROUNDS, sizeof *times, ascending);
    return times[ROUNDS / 20] / CASES;
}

static void compare(const char *name, Combination combination, BDD (*operation)(BDD, BDD), uint64_t levels, uint64_t width) {
    static double library[ROUNDS], checks[ROUNDS], buddy[ROUNDS];
    uint64_t pairs = 0, all = 0, rows = 0;
    for (int i = 0; i < CASES; i++) {
        do {
            fill(&first[i], levels, width);
            fill(&second[i], levels, width);
        } while (combination(arities, 32, first[i].words, first[i].count, second[i].words, second[i].count, out, 3072, work, 6144, &rows, &pairs) != 0);
        all += pairs;
        result.bdd = operation(first[i].bdd, second[i].bdd);
        listed(&result);
        assert(rows * 3 == result.count && memcmp(out, result.words, rows * 24) == 0);
    }
    for (int round = 0; round < ROUNDS; round++) {
        bdd_gbc();
        interruptions = 0;
        double start = now();
        for (int i = 0; i < CASES; i++) bdd_addref(operation(first[i].bdd, second[i].bdd));
        buddy[round] = now() - start;
        assert(interruptions == 0);
        for (int i = 0; i < CASES; i++) bdd_delref(operation(first[i].bdd, second[i].bdd));
        start = now();
        for (int i = 0; i < CASES; i++)
            combination(arities, 32, first[i].words, first[i].count, second[i].words, second[i].count, out, 3072, work, 6144, &rows, &pairs);
        library[round] = now() - start;
        start = now();
        for (int i = 0; i < CASES; i++)
            if (yindolve_check(arities, 32, first[i].words, first[i].count) + yindolve_check(arities, 32, second[i].words, second[i].count)) abort();
        checks[round] = now() - start;
    }
    for (int i = 0; i < CASES; i++) {
        bdd_delref(first[i].bdd);
        bdd_delref(second[i].bdd);
    }
    double whole = low(library), check = low(checks), other = low(buddy), per = (double)all / CASES;
    printf("| %s, %.0f | %.2f | %.1f | %.2f | %.1f | %.2f |\n", name, per, whole / 1e3, (whole - check) / per, other / 1e3, other / per, (whole - check) / other);
}

int main(void) {
    static const uint64_t shapes[][2] = {{4, 3}, {7, 6}, {12, 8}, {16, 16}};
    setvbuf(stdout, NULL, _IOLBF, 0);
    assert(bdd_init(60000, 10000) == 0);
    bdd_setvarnum(VARIABLES);
    bdd_gbc_hook(collected);
    bdd_resize_hook(grown);
    printf("\n### And, or beside BuDDy\n\n");
    printf("| Operation, pairs on average | library, whole call, µs | check taken off, ns a pair | BuDDy, µs | ns a pair | ratio, check taken off |\n|---|---|---|---|---|---|\n");
    for (size_t i = 0; i < sizeof shapes / sizeof *shapes; i++) {
        compare("and", yindolve_product_shared, bdd_and, shapes[i][0], shapes[i][1]);
        compare("or", yindolve_max_shared, bdd_or, shapes[i][0], shapes[i][1]);
    }
    bdd_done();
    return 0;
}
