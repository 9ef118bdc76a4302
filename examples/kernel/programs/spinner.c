/* Computes for some turns without a call, in registers that each turn has to keep: the sum of the first terms of a
 * series, in SSE's registers. */
#include "program.h"

enum { TERMS = 3000000 };

static double sum(double first, uint32_t terms) {
    double all = 0;
    for (uint32_t i = 0; i < terms; i++) {
        all += 1 / ((first + i) * (first + i));
    }
    return all;
}

/* From n on the sum of all terms of 1/k^2 is between 1/n and 1/(n - 1). */
uint32_t program(uint32_t number) {
    double all = sum(number, TERMS);
    need(all > 1.0 / number - 1e-6 && all < 1.0 / (number - 1), "a sum is as it should be");
    need(all == sum(number, TERMS), "a sum is the same again");
    tell("a millionth of my sum, times ten to the twelve: #", (uint32_t)(all * 1000000));
    return 0;
}
