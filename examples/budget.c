/* How many misses a field may take, and how many cycles on two cores: builds the graph of a filter with one branch, asks for the smallest budgets that are
 * overrun with a chance of at most 1 in 10^9, and prints them. Built and run by `tools/run-c examples/budget.c`. */
#include <inttypes.h>
#include <stdio.h>

#include "estimate.h"

/* The blocks of the code: the loop's three, and one for each arm of the branch. */
enum { LOAD = 0x4000, BLEND = 0x4040, STORE = 0x4080, WEAVE = 0x4100, SMOOTH = 0x4140 };

/* All five are tracked. The bound is safe for any choice of them, and which choice gives the smallest budget has to be tried: with WEAVE left out, which is
 * accessed once, it is 21 and not 20. */
static const uint32_t tracked[] = { LOAD, BLEND, STORE, WEAVE, SMOOTH };

/* Node 0 looks at the field, node 1 weaves (still), node 2 smooths (moving), node 3 writes it out: four runs of the one access list. */
static const uint32_t runs[] = { 3, 2, 4, 36 };
static const uint32_t edges[] = { 0, 1, 0, 2, 1, 3, 2, 3 };

/* The accesses of the four runs, one after the other; the last is twelve passes of the loop. */
static size_t list_accesses(uint32_t *accesses)
{
    static const uint32_t before[] = { LOAD, BLEND, LOAD, WEAVE, LOAD, SMOOTH, BLEND, SMOOTH, LOAD };
    static const uint32_t loop[] = { LOAD, BLEND, STORE };
    size_t count = 0;
    for (size_t i = 0; i < sizeof before / sizeof *before; i++)
        accesses[count++] = before[i];
    for (int pass = 0; pass < 12; pass++)
        for (size_t i = 0; i < 3; i++)
            accesses[count++] = loop[i];
    return count;
}

int main(void)
{
    static uint64_t result[ESTIMATE_RESULT_WORDS], work[ESTIMATE_WORK_WORDS];
    uint32_t accesses[ESTIMATE_MOST_ACCESSES];
    size_t count = list_accesses(accesses), states;
    uint64_t aside, budget, above, longest, cycles_0, cycles_7;
    const uint64_t allowance = ESTIMATE_WHOLE / 1000000000;

    uint64_t refused = estimate_graph(1, 8, 1, ESTIMATE_COLD, 64, tracked, 5, runs, 4, accesses, count, edges, 8,
                                      result, ESTIMATE_RESULT_WORDS, work, ESTIMATE_WORK_WORDS, &states, &aside);
    if (!refused)
        refused = estimate_smallest_budget(result, ESTIMATE_RESULT_WORDS, states, allowance, &budget);
    if (!refused)
        refused = estimate_above(result, ESTIMATE_RESULT_WORDS, states, budget, &above);
    if (!refused)
        refused = estimate_longest_path(1, 8, 1, ESTIMATE_COLD, 64, tracked, 5, runs, 4, accesses, count, edges, 8, &longest);
    if (!refused)
        refused = estimate_smallest_cycles(result, ESTIMATE_RESULT_WORDS, states, 0, longest, allowance, &cycles_0);
    if (!refused)
        refused = estimate_smallest_cycles(result, ESTIMATE_RESULT_WORDS, states, 7, longest, allowance, &cycles_7);
    if (refused) {
        printf("refused %" PRIu64 "\n", refused);
        return 1;
    }
    printf("%zu states, %" PRIu64 " units set aside\n", states, aside);
    printf("budget for 1 in 10^9: %" PRIu64 " misses, and %" PRIu64 " units above it\n", budget, above);
    printf("longest path: %" PRIu64 " accesses; %" PRIu64 " cycles on core 0, %" PRIu64 " on core 7\n", longest, cycles_0, cycles_7);
    return 0;
}
