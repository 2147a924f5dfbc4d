/* Document 02, request 9/13, in plain C: the longest path, the questions in cycles and the curves in cycles as text. It stands on plain.c
 * for what document 01 has of it: the refusals of the graph call, what a table is, how a text is read. */
#ifndef CYCLES_H
#define CYCLES_H

#include "plain.h"

/* How many cores are in service. */
#define PLAIN_CORES 12

/* Room that is long enough for every output of plain_cycles. */
#define PLAIN_CYCLES_OUTPUT_BYTES 3145728

/* The most accesses of a path from the first node to the last. Gives 0 or the first of the refusals 1, 10 and 2 to 5 that
 * applies. */
int plain_longest_path(const struct plain_input *graph, uint64_t *longest);

/* What a miss count stands for on a core in service, where the longest path has so many accesses. */
uint64_t plain_cycles_of(size_t core, uint64_t longest, uint64_t misses);

/* The units at strictly more cycles than the budget. Gives 0 or the first of 16, 4 and 7 that applies. */
int plain_above_cycles(const struct plain_state *row, size_t states, size_t core, uint64_t longest, uint64_t budget, uint64_t *units);

/* The smallest cycle budget whose units above are at most the allowance. Gives 0, 16, 4 or 7 as well. */
int plain_smallest_cycles(const struct plain_state *row, size_t states, size_t core, uint64_t longest, uint64_t allowance,
                          uint64_t *cycles);

/* What the cycles program prints for this text, a refusal too: how many bytes of it there are in `output`. */
size_t plain_cycles(const unsigned char *text, size_t bytes, unsigned char *output);

#endif
