/* The value of (if (stock hub) 10 0) where the hub, constant 0, is object 1 and stock holds of object 1: prints 10. */
#include "yindolve.h"
#include <stdio.h>

int main(void) {
    const uint64_t arities[YINDOLVE_ARITIES] = {2, 1}, constants[] = {1}, facts[YINDOLVE_FACT_WORDS] = {1, 1};
    const uint64_t listing[] = {YINDOLVE_LEAF, 10, 0, YINDOLVE_LEAF, 0, 0, YINDOLVE_LABEL(1, 0, 0, 0, 0, 0, 0), 0, 1};
    uint64_t value = 0, refusal = yindolve_value(arities, YINDOLVE_ARITIES, listing, 9, 2, constants, 1, facts, YINDOLVE_FACT_WORDS, &value);
    printf("%llu\n", (unsigned long long)(refusal ? refusal : value));
    return (int)refusal;
}
