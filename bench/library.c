/* The library's calls over the functions that library.sh compiles. There a slice is a pointer to its place and its count. */
#include "yindolve.h"

typedef struct {
    const void *place;
    size_t count;
} slice;

uint64_t compiled_yindolve_check(const slice *arities, const slice *words);
uint64_t compiled_yindolve_value(const slice *arities, const slice *words, uint64_t objects, const slice *constants, const slice *facts, uint64_t *value);
uint64_t compiled_yindolve_run(const slice *text, const slice *answers, uint64_t *bytes, uint64_t *lines);
uint64_t compiled_yindolve_regress(const slice *arities, const slice *words, const slice *truths, const slice *spans, const slice *result, const slice *work, uint64_t *rows);
uint64_t compiled_yindolve_free_parameters(const slice *arities, const slice *words, uint64_t parameters, const slice *result, const slice *work, uint64_t *rows);
uint64_t compiled_yindolve_cut(const slice *arities, const slice *words, const slice *result, const slice *work, uint64_t *row, uint64_t *edge, uint64_t *rows);

uint64_t yindolve_check(const uint64_t *arities, size_t arities_count, const uint64_t *words, size_t words_count) {
    slice a = {arities, arities_count}, w = {words, words_count};
    return compiled_yindolve_check(&a, &w);
}

uint64_t yindolve_value(const uint64_t *arities, size_t arities_count, const uint64_t *words, size_t words_count, uint64_t objects, const uint64_t *constants,
    size_t constants_count, const uint64_t *facts, size_t facts_count, uint64_t *value) {
    slice a = {arities, arities_count}, w = {words, words_count}, c = {constants, constants_count}, f = {facts, facts_count};
    return compiled_yindolve_value(&a, &w, objects, &c, &f, value);
}

uint64_t yindolve_run(const uint8_t *text, size_t text_count, uint8_t *answers, size_t answers_count, uint64_t *bytes, uint64_t *lines) {
    slice t = {text, text_count}, a = {answers, answers_count};
    return compiled_yindolve_run(&t, &a, bytes, lines);
}

uint64_t yindolve_regress(const uint64_t *arities, size_t arities_count, const uint64_t *words, size_t words_count, const uint64_t *truths, size_t truths_count,
    const uint64_t *spans, size_t spans_count, uint64_t *result, size_t result_count, uint64_t *work, size_t work_count, uint64_t *rows) {
    slice a = {arities, arities_count}, w = {words, words_count}, t = {truths, truths_count}, s = {spans, spans_count}, r = {result, result_count},
          k = {work, work_count};
    return compiled_yindolve_regress(&a, &w, &t, &s, &r, &k, rows);
}

uint64_t yindolve_free_parameters(const uint64_t *arities, size_t arities_count, const uint64_t *words, size_t words_count, uint64_t parameters, uint64_t *result,
    size_t result_count, const uint64_t *work, size_t work_count, uint64_t *rows) {
    slice a = {arities, arities_count}, w = {words, words_count}, r = {result, result_count}, k = {work, work_count};
    return compiled_yindolve_free_parameters(&a, &w, parameters, &r, &k, rows);
}

uint64_t yindolve_cut(const uint64_t *arities, size_t arities_count, const uint64_t *words, size_t words_count, uint64_t *result, size_t result_count, uint64_t *work,
    size_t work_count, uint64_t *row, uint64_t *edge, uint64_t *rows) {
    slice a = {arities, arities_count}, w = {words, words_count}, r = {result, result_count}, k = {work, work_count};
    return compiled_yindolve_cut(&a, &w, &r, &k, row, edge, rows);
}

#define COMBINATION(name) \
    uint64_t compiled_##name(const slice *, const slice *, const slice *, const slice *, const slice *, uint64_t *, uint64_t *); \
    uint64_t name(const uint64_t *arities, size_t arities_count, const uint64_t *first, size_t first_count, const uint64_t *second, size_t second_count, \
        uint64_t *result, size_t result_count, uint64_t *work, size_t work_count, uint64_t *rows, uint64_t *pairs) { \
        slice a = {arities, arities_count}, x = {first, first_count}, y = {second, second_count}, r = {result, result_count}, w = {work, work_count}; \
        return compiled_##name(&a, &x, &y, &r, &w, rows, pairs); \
    }

COMBINATION(yindolve_sum_apart)
COMBINATION(yindolve_sum_shared)
COMBINATION(yindolve_product_apart)
COMBINATION(yindolve_product_shared)
COMBINATION(yindolve_max_apart)
COMBINATION(yindolve_max_shared)
