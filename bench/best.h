/* Request 10/13 of document 02 in plain C, with 1/13 and 4/13: the best case's graph call and the spreads of its table. It is written from the
 * documents alone, and is what the proved code is compared with. No state is kept between calls. */
#ifndef BEST_H
#define BEST_H

#include <stdbool.h>
#include <stddef.h>
#include <stdint.h>

/* A state: exact (its contents are all that is held) or open (anything may be held, and the mask is 0). */
struct best_state {
    uint64_t exact, mask, misses, hits, units;
};
#define BEST_STATE_WORDS 5

/* What comes in: section 2, with the sets of 1/13 and the revision of 6/13. */
struct best_input {
    uint32_t sets, ways, revision, limit;
    const uint32_t *tracked;
    size_t tracked_count;
    const uint32_t *runs;
    size_t nodes;
    const uint32_t *accesses;
    size_t access_count;
    const uint32_t *edges;
    size_t edge_numbers;
};

/* The call. Gives 0, or the number of the first of the refusals 1, 10, 11, 18, 2, 3, 4, 5, 17 and 6 that applies, and then writes nothing. The
 * rooms are counted in states; `table` is the result room, and is zero beyond the finished table. The working room is only checked. */
int best_graph(const struct best_input *in, size_t result_states, size_t work_states, struct best_state *table, size_t *states);

/* Whether a row of states is a table of the best case. */
bool best_is_table(const struct best_state *row, size_t states);

/* The units at each hit count, or miss count, from 0 to the largest, and zeros beyond it. Gives 0, 7 or 8, and writes nothing but for 0. */
int best_spread(const struct best_state *row, size_t states, bool of_hits, uint64_t *room, size_t length, uint64_t *largest);

#endif
