/* Calls the static library from C: (if (stock hub) 10 0) plus itself, names shared, then its value where stock(hub) holds; the regression of the first under an
 * action that turns stock over; and the cut of (if (stock ?a) 10 (if (stock ?b) 10 0)), which takes the false edge of row 3. */
#include "yindolve.h"
#include <assert.h>
#include <stdio.h>

int main(void) {
    const uint64_t arities[YINDOLVE_ARITIES] = {2, 1}, constants[YINDOLVE_CONSTANTS] = {0}, fact[YINDOLVE_FACT_WORDS] = {1};
    const uint64_t stock_hub = YINDOLVE_LABEL(1, 0, 0, 0, 0, 0, 0), stock_a = YINDOLVE_LABEL(1, YINDOLVE_FIRST_VARIABLE, 0, 0, 0, 0, 0),
                   stock_b = YINDOLVE_LABEL(1, YINDOLVE_FIRST_VARIABLE + 1, 0, 0, 0, 0, 0);
    const uint64_t reward[] = {YINDOLVE_LEAF, 10, 0, YINDOLVE_LEAF, 0, 0, stock_hub, 0, 1};
    const uint64_t turned[] = {YINDOLVE_LEAF, 0, 0, YINDOLVE_LEAF, 1, 0, stock_a, 0, 1}, spans[YINDOLVE_SPAN_WORDS] = {0, 0, 0, 9};
    const uint64_t either[] = {YINDOLVE_LEAF, 10, 0, YINDOLVE_LEAF, 0, 0, stock_b, 0, 1, stock_a, 0, 2};
    static uint64_t result[YINDOLVE_RESULT_WORDS], work[YINDOLVE_WORK_WORDS];
    uint64_t rows = 0, pairs = 0, value = 0, regressed = 0, row = 0, edge = 1, left = 0;
    assert(yindolve_check(arities, 32, reward, 9) == 0 && yindolve_check(arities, 32, reward, 8) == YINDOLVE_LISTING);
    assert(yindolve_sum_shared(arities, 32, reward, 9, reward, 9, result, 3072, work, 6144, &rows, &pairs) == 0);
    assert(yindolve_sum_apart(arities, 32, reward, 9, reward, 9, result, 3071, work, 6144, &rows, &pairs) == YINDOLVE_BUFFER);
    assert(yindolve_free_parameters(arities, 32, reward, 9, 5, result, 3072, work, 6144, &rows) == YINDOLVE_RANGE);
    assert(yindolve_value(arities, 32, result, rows * 3, 2, constants, 16, fact, YINDOLVE_FACT_WORDS, &value) == 0);
    assert(yindolve_regress(arities, 32, reward, 9, turned, 9, spans, 64, result, 3072, work, 6144, &regressed) == 0);
    assert(regressed == 3 && result[1] == 0 && result[4] == 10 && result[6] == stock_hub);
    assert(yindolve_cut(arities, 32, either, 12, result, 3072, work, 6144, &row, &edge, &left) == 0);
    assert(row == 3 && edge == 0 && left == 3 && result[1] == 10 && result[4] == 0 && result[6] == stock_a);
    printf("rows %d, pairs %d, value %d\n", (int)rows, (int)pairs, (int)value); /* rows 3, pairs 3, value 20 */
    return !(rows == 3 && pairs == 3 && value == 20);
}
