/* Document 01 in plain C, with requests 1/13, 3/13, 4/13, 6/13 and 12/13 of document 02: the graph call (sections 2, 3 and 5), the
 * questions (section 4) and the curve as text (section 7). It is what the proved library is compared with and measured against. No state
 * is kept between calls. */
#ifndef PLAIN_H
#define PLAIN_H

#include <stdbool.h>
#include <stddef.h>
#include <stdint.h>

/* Certainty, in units. */
#define PLAIN_WHOLE ((uint64_t)1 << 48)

/* Room that is long enough for every output of plain_curve, and the most numbers that a text may have. */
#define PLAIN_OUTPUT_BYTES 262144
#define PLAIN_NUMBERS 16384

/* A state: the contents mask, the misses, the filled numbers (6/13) and the units. The filled numbers are a byte for each of 16 sets, set 0
 * the highest byte of the first word, so that words compare as numbers do, set 0 first. */
struct plain_state {
    uint64_t mask, misses, filled[2], units;
};
#define PLAIN_STATE_WORDS 5

/* The starts of 12/13: on an empty cache, or on a used one. */
#define PLAIN_COLD 0
#define PLAIN_WARM 1

/* What comes in (section 2, the sets of 1/13, the revision of 6/13 and the start of 12/13). */
struct plain_input {
    uint32_t sets, ways, revision, start, limit;
    const uint32_t *tracked;
    size_t tracked_count;
    const uint32_t *runs;
    size_t nodes;
    const uint32_t *accesses;
    size_t access_count;
    const uint32_t *edges;
    size_t edge_numbers;
};

/* The numbers of a text, and how many of them have been taken. */
struct plain_numbers {
    uint32_t list[PLAIN_NUMBERS];
    size_t count, taken;
};

/* The graph call. Gives 0, or the number of the first of the refusals 1, 10, 11 and 2 to 6 that applies, and then writes nothing. A room of
 * so many words holds a fifth as many states; `table` is the result room, and is zero beyond the finished table. The working room is only
 * checked: the work is done on the stack. */
int plain_graph(uint32_t sets, uint32_t ways, uint32_t revision, uint32_t start, uint32_t limit,
                const uint32_t *tracked, size_t tracked_count,
                const uint32_t *runs, size_t nodes,
                const uint32_t *accesses, size_t access_count,
                const uint32_t *edges, size_t edge_numbers,
                size_t result_words, size_t work_words,
                struct plain_state *table, size_t *states, uint64_t *aside);

/* Whether a row of states is a table (section 4). */
bool plain_is_table(const struct plain_state *row, size_t states);

/* The units at strictly more misses than the budget. Gives 0 or 7. */
int plain_above(const struct plain_state *row, size_t states, uint64_t budget, uint64_t *units);

/* The smallest budget whose units above are at most the allowance. Gives 0 or 7. */
int plain_smallest_budget(const struct plain_state *row, size_t states, uint64_t allowance, uint64_t *budget);

/* The units at each miss count from 0 to the largest, in a room of so many counts, zero beyond them. Gives 0, 7 or 8. */
int plain_spread(const struct plain_state *row, size_t states, uint64_t *counts, size_t room, uint64_t *largest);

/* Reads a text (section 7) into its numbers, in which the lists of the input then lie; it has one set, of the first revision, and
 * starts cold. False if it is malformed. */
bool plain_read(const unsigned char *text, size_t bytes, struct plain_numbers *numbers, struct plain_input *graph);

/* What the curve program prints for this text, a refusal too: how many bytes of it there are in `output`. */
size_t plain_curve(const unsigned char *text, size_t bytes, unsigned char *output);

#endif
