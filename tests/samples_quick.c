/* The quick question among the samples: `quick BUDGET ALLOWANCE N {UNITS}`. */
#include <stdio.h>
#include <string.h>

#include "estimate.h"
#include "samples.h"

bool answer_quick(const struct words *words)
{
    size_t taken = 0;
    uint64_t budget, allowance, places, *row;
    if (!take_number(words, &taken, &budget) || !take_number(words, &taken, &allowance) || !take_number(words, &taken, &places) ||
        !take_numbers(words, &taken, (size_t)places, &row) || taken != words->count)
        return false;
    uint64_t *before = keep((size_t)places * sizeof *before);
    memcpy(before, row, (size_t)places * sizeof *before);
    uint64_t within = estimate_within(row, (size_t)places, budget, allowance);
    expect(memcmp(before, row, (size_t)places * sizeof *before) == 0, "the row was written to");
    expect(within <= 1, "an answer that is neither yes nor no");
    printf("%s\n", within == 1 ? "yes" : "no");
    return true;
}
