/* The estimate of instruction-cache misses, for C: the graph call, the longest path, the questions put to a finished table, curves as text, the trace
 * recorder's blocks read, judged and written, the graph of a listing, the nightly build, the best case, and the graph call with pairings.
 *
 * Every function ends with an answer or a refusal, whatever the numbers are. A refusal writes nothing, but that reading a trace says which block is damaged and that ESTIMATE_PAIRING leaves the working room zero; the
 * functions for curves write it as a line of text, and leave all other rooms as they were but the room for a text's numbers, which is zero afterwards.
 * A stretch of memory is passed as a pointer and how many elements it has; an empty one may be NULL and 0. A pointer to one value (states, aside, units, budget,
 * largest, longest, cycles, count, place, blocks, nodes, access_count, edge_count, and those of a report) is never NULL, and what is lent for writing overlaps nothing else that is passed: these
 * two things the caller has to see to.
 *
 * A call keeps no state: nothing is left of it but what it wrote to the memory that it was lent. So the functions are reentrant, and calls may run at the same
 * time, in threads or one interrupting another, as long as what each is lent for writing is lent to it alone. They use no heap, and no memory but what they
 * are lent and the stack, of which 8,192 bytes are enough: only those below estimate_listing call each other, 8 deep at most, and a painted stack showed 3,016 bytes for
 * the graph call, 776 for the best case, 3,384 for a curve's text, 2,432 for a listing 8 deep, 5,656 for a question put to a row of states and 5,896 for the deepest, the nightly
 * build, on each of the large inputs that were tried.
 *
 * Linked from libestimate_c.a, for x86-64, which takes of the C library only memcpy and memset. `rt lib` in crates/estimate_c makes it:
 *
 *     cc -Iinclude program.c crates/estimate_c/out/libestimate_c.a -o program */
#ifndef ESTIMATE_H
#define ESTIMATE_H

#include <stdbool.h>
#include <stddef.h>
#include <stdint.h>

/* The version of what is declared here: it rises where a function, a constant or what a call gives changes. */
#define ESTIMATE_VERSION 9

#ifdef __cplusplus
extern "C" {
#endif

/* Certainty: a unit is a chance of 2^-48. */
#define ESTIMATE_WHOLE ((uint64_t)281474976710656)

/* The largest that is accepted; the smallest are 1 set, 1 way, a limit of 1 state and 1 node, and none of the others. */
#define ESTIMATE_MOST_SETS 16
#define ESTIMATE_MOST_WAYS 16
#define ESTIMATE_MOST_STATES 64
#define ESTIMATE_MOST_TRACKED 16
#define ESTIMATE_MOST_NODES 64
#define ESTIMATE_MOST_ACCESSES 4096

/* A state is five words: the contents mask (bit i: the tracked block at place i is surely held), the misses, how many ways of each set may be filled (two
 * words, a byte for each of sixteen sets, set 0 in the highest byte of the first), the units. A table is words, five for each state, or a row of these. */
#define ESTIMATE_STATE_WORDS 5
struct estimate_state {
    uint64_t mask, misses, filled[2], units;
};

/* A state of the best case's table is five words too: 1 if it is exact (the blocks of the mask are all that is held) and 0 if it is open (anything may be
 * held, and the mask is 0), the mask, the misses, the hits, the units. Where such a table is handed in, every first word but 1 is an open state. */
struct estimate_best_state {
    uint64_t exact, mask, misses, hits, units;
};

/* The revisions of the core: in the first a miss overwrites the drawn way of its set, empty or not; the second takes an empty way of the set while there is
 * one. */
#define ESTIMATE_FIRST_REVISION 1
#define ESTIMATE_SECOND_REVISION 2

/* How the cache is found before the first access: empty, or used, so that any way may hold any block. In the first revision both have the same answers. */
#define ESTIMATE_COLD false
#define ESTIMATE_WARM true

/* Rooms that are long enough whatever comes in: of a result, of the work, of a spread, of the numbers of a text, of a curve's text,
 * and of the text of the curves in cycles. */
#define ESTIMATE_RESULT_WORDS 320
#define ESTIMATE_WORK_WORDS 25920
#define ESTIMATE_SPREAD_COUNTS 4097
#define ESTIMATE_NUMBERS 16384
#define ESTIMATE_OUTPUT_BYTES 262144
#define ESTIMATE_CYCLES_OUTPUT_BYTES 3145728

/* A trace is blocks of ESTIMATE_BLOCK_BYTES; a block has at most ESTIMATE_BLOCK_ACCESSES accesses. ESTIMATE_TRACE_BYTES are room for every trace that is
 * written. */
#define ESTIMATE_BLOCK_BYTES 512
#define ESTIMATE_BLOCK_ACCESSES 125
#define ESTIMATE_TRACE_BYTES 16896

/* The room that the graph of a listing has to have: run lengths, accesses, and numbers of edges, two for each. */
#define ESTIMATE_LISTING_RUNS 64
#define ESTIMATE_LISTING_ACCESSES 4096
#define ESTIMATE_LISTING_EDGE_NUMBERS 4032

/* For a join: no pairing; and the most rows of one. */
#define ESTIMATE_NO_PAIRING UINT64_MAX
#define ESTIMATE_PAIRING_ROWS 1088

/* The nightly build: the most graphs in one call, the words of a graph's row, and of the working room that the call has to have. */
#define ESTIMATE_MOST_GRAPHS 256
#define ESTIMATE_ROW_WORDS 5
#define ESTIMATE_NIGHTLY_WORDS 26240

/* The cores in service, numbered from 0: a hit and a miss take (1,8) (1,10) (1,12) (1,20) (2,10) (2,16) (2,24) (2,40) (3,15) (3,30) (3,60) (4,100) cycles. */
#define ESTIMATE_CORES 12

/* What a function gives instead of ESTIMATE_DONE: the number of the first rule that is broken, as documents 01 and 02 have them. */
enum estimate_refusal {
    ESTIMATE_DONE = 0,
    ESTIMATE_WAYS = 1,        /* ways outside 1..16 */
    ESTIMATE_LIMIT = 2,       /* state limit outside 1..64 */
    ESTIMATE_TRACKED = 3,     /* more than 16 tracked blocks, or one listed twice */
    ESTIMATE_ACCESSES = 4,    /* more than 4,096 accesses */
    ESTIMATE_GRAPH = 5,       /* nodes outside 1..64, run lengths that do not sum to the accesses, or an edge rule broken */
    ESTIMATE_ROOM = 6,        /* room for fewer than `limit` result states, or fewer than 5,184 working states */
    ESTIMATE_ROW = 7,         /* the states are no table */
    ESTIMATE_SPREAD_ROOM = 8, /* spread room shorter than the largest count + 1 */
    ESTIMATE_TEXT = 9,        /* malformed: only in a curve's text, as `refused 9`, and in a row of the nightly build */
    ESTIMATE_SETS = 10,       /* a set count other than 1, 2, 4, 8, 16 */
    ESTIMATE_REVISION = 11,   /* a revision other than 1, 2 */
    ESTIMATE_TRACE_LENGTH = 12, /* the bytes of a trace are no multiple of 512 */
    ESTIMATE_DAMAGED = 13,    /* a block of a trace is damaged: its check, its zeros, its count or its number is wrong */
    ESTIMATE_LISTING = 14,    /* the tokens are no listing */
    ESTIMATE_EXPANSION = 15,  /* the listing's graph has more than 64 nodes or 4,096 accesses */
    ESTIMATE_NO_CORE = 16,    /* no such core */
    ESTIMATE_UNTRACKED_ACCESS = 17, /* an accessed block is not tracked: the best case */
    ESTIMATE_FIRST_REVISION_ONLY = 18, /* revision 2: the best case is of the first alone */
    ESTIMATE_PAIRING = 19,    /* entries for more or fewer joins than the graph has, or a pairing that is not accepted */
    ESTIMATE_NIGHTLY = 20,    /* more than 256 graphs, counts that do not use the list up exactly, or fewer rows than graphs */
    ESTIMATE_TRACE_ROOM = 21, /* room for fewer than 125 accesses a block, one place a block, or the blocks to be written */
    ESTIMATE_LISTING_ROOM = 22 /* room for fewer than 64 run lengths, 4,096 accesses or 2,016 edges */
};

/* The graph call: a cache of `sets` sets of `ways` ways, in which a block belongs to the set given by its number modulo `sets`; the core's `revision`,
 * 1 or 2; `warm` if the cache was used before, and ESTIMATE_COLD if it is empty at first; at most `limit` states; the
 * tracked blocks; the length of each node's run; all accesses, node after node; the edges, from and to, two numbers each. Gives ESTIMATE_DONE, or the first of
 * 1, 10, 11, 2, 3, 4, 5, 6 that applies. Done, `result` begins with the finished table and is zero beyond it, `work` is zero, `*states` is how many states the
 * table has and `*aside` how many units were set aside. Refused, nothing is written. */
uint64_t estimate_graph(uint32_t sets, uint32_t ways, uint32_t revision, bool warm, uint32_t limit,
                        const uint32_t *tracked, size_t tracked_count,
                        const uint32_t *runs, size_t nodes,
                        const uint32_t *accesses, size_t access_count,
                        const uint32_t *edges, size_t edge_numbers,
                        uint64_t *result, size_t result_words,
                        uint64_t *work, size_t work_words,
                        size_t *states, uint64_t *aside);

/* The graph call with a pairing or none for each join, in working order: nodes rising, within a node the second predecessor, the third and so on. `counts` has a number for
 * each join: how many rows its pairing has, or ESTIMATE_NO_PAIRING for none, where both tables are walked from the front. `rows` has the rows of all pairings one behind the
 * other, three numbers each: a place in the table joined so far, a place in the joined one, and units. All else as estimate_graph. Gives ESTIMATE_PAIRING, after
 * ESTIMATE_ROOM, for entries for more or fewer joins than the graph has, a pairing of more than ESTIMATE_PAIRING_ROWS rows, rows left over or missing, a row of 0 units or of a
 * place that is not there, or units of a state that are not used exactly: `result` and the two numbers stay as they were, and `work` is zero. */
uint64_t estimate_graph_paired(uint32_t sets, uint32_t ways, uint32_t revision, bool warm, uint32_t limit,
                               const uint32_t *tracked, size_t tracked_count,
                               const uint32_t *runs, size_t nodes,
                               const uint32_t *accesses, size_t access_count,
                               const uint32_t *edges, size_t edge_numbers,
                               const uint64_t *counts, size_t joins,
                               const uint64_t *rows, size_t row_numbers,
                               uint64_t *result, size_t result_words,
                               uint64_t *work, size_t work_words,
                               size_t *states, uint64_t *aside);

/* The questions take the first `states` states of a table in words, as the graph call left it, or all that the words hold if there are fewer. Each gives
 * ESTIMATE_DONE or ESTIMATE_ROW, and estimate_spread may also give ESTIMATE_SPREAD_ROOM; a refusal writes nothing. */

/* The units above a budget, at strictly more misses, go to `*units`. */
uint64_t estimate_above(const uint64_t *table, size_t words, size_t states, uint64_t budget, uint64_t *units);

/* The smallest budget whose units above are at most `allowance` goes to `*budget`. For a chance of 1 in n the allowance is ESTIMATE_WHOLE / n. */
uint64_t estimate_smallest_budget(const uint64_t *table, size_t words, size_t states, uint64_t allowance, uint64_t *budget);

/* The units at each miss count from 0 to the largest go to the front of `counts`, which is zero beyond them, and the largest to `*largest`. Gives
 * ESTIMATE_SPREAD_ROOM, and writes nothing, if `counts` has fewer than the largest + 1. */
uint64_t estimate_spread(const uint64_t *table, size_t words, size_t states, uint64_t *counts, size_t counts_room, uint64_t *largest);

/* A quick yes or no, about a spread or any other row of numbers: 1 if those at places above `budget`, strictly, sum to at most `allowance`, and 0 if not. A budget at or
 * beyond the last place has none above it, so that the answer is 1. The sum is the true one, also past 64 bits. The numbers are added from the last place downwards,
 * and no further once the allowance is passed. Nothing is refused, and nothing is written. Asked of what estimate_spread left in `counts`, with the zeros behind the
 * largest or without, it says whether the units that estimate_above finds are at most `allowance`. */
uint64_t estimate_within(const uint64_t *spread, size_t places, uint64_t budget, uint64_t allowance);

/* The accesses of the longest path from the first node to the last go to `*longest`. Gives ESTIMATE_DONE, or the first of 1, 10, 11, 2, 3, 4, 5 that applies, as the
 * graph call does; a refusal writes nothing. */
uint64_t estimate_longest_path(uint32_t sets, uint32_t ways, uint32_t revision, bool warm, uint32_t limit,
                               const uint32_t *tracked, size_t tracked_count,
                               const uint32_t *runs, size_t nodes,
                               const uint32_t *accesses, size_t access_count,
                               const uint32_t *edges, size_t edge_numbers,
                               uint64_t *longest);

/* The questions in cycles take a core and the longest path's accesses besides: a miss count stands for itself times the core's miss cycles plus the rest of those
 * accesses times its hit cycles. Each gives ESTIMATE_DONE, or the first that applies of ESTIMATE_NO_CORE, ESTIMATE_ACCESSES (a longest path above 4,096) and
 * ESTIMATE_ROW (no table, or a state with more misses than the longest path has accesses); a refusal writes nothing. */

/* The units above a cycle budget, at strictly more cycles, go to `*units`. */
uint64_t estimate_above_cycles(const uint64_t *table, size_t words, size_t states, size_t core, uint64_t longest, uint64_t budget, uint64_t *units);

/* The smallest cycle budget whose units above are at most `allowance` goes to `*cycles`; of an allowance of ESTIMATE_WHOLE or more that is 0. */
uint64_t estimate_smallest_cycles(const uint64_t *table, size_t words, size_t states, size_t core, uint64_t longest, uint64_t allowance, uint64_t *cycles);

/* The same five questions, put to a row of `states` states. Each gives what the one above gives for the words of the row, and writes as that does. */
uint64_t estimate_row_above(const struct estimate_state *row, size_t states, uint64_t budget, uint64_t *units);
uint64_t estimate_row_smallest_budget(const struct estimate_state *row, size_t states, uint64_t allowance, uint64_t *budget);
uint64_t estimate_row_spread(const struct estimate_state *row, size_t states, uint64_t *counts, size_t counts_room, uint64_t *largest);
uint64_t estimate_row_above_cycles(const struct estimate_state *row, size_t states, size_t core, uint64_t longest, uint64_t budget, uint64_t *units);
uint64_t estimate_row_smallest_cycles(const struct estimate_state *row, size_t states, size_t core, uint64_t longest, uint64_t allowance, uint64_t *cycles);

/* The curve of a text of numbers, as the curve program writes it, a refusal too: it goes to the front of `output`, whose rest stays as it was. Gives how many
 * bytes that are, at least one. `numbers` is then zero; so are `result`, `work` and `counts`, unless the text is a refusal, which leaves these three as they were. Gives
 * 0 and writes nothing if a room is shorter than its constant above. */
size_t estimate_curve_of_text(const uint8_t *text, size_t bytes,
                              uint32_t *numbers, size_t numbers_room,
                              uint64_t *result, size_t result_words,
                              uint64_t *work, size_t work_words,
                              uint64_t *counts, size_t counts_room,
                              uint8_t *output, size_t output_bytes);

/* The same of the numbers themselves, in the curve program's order. They are only read; a missing number or one left over is `refused 9`, and more than
 * ESTIMATE_NUMBERS of them are not malformed. */
size_t estimate_curve_of_numbers(const uint32_t *numbers, size_t count,
                                 uint64_t *result, size_t result_words,
                                 uint64_t *work, size_t work_words,
                                 uint64_t *counts, size_t counts_room,
                                 uint8_t *output, size_t output_bytes);

/* The curves in cycles, as the cycles program writes them: as the two functions above, but `output` has ESTIMATE_CYCLES_OUTPUT_BYTES. */
size_t estimate_cycles_of_text(const uint8_t *text, size_t bytes,
                               uint32_t *numbers, size_t numbers_room,
                               uint64_t *result, size_t result_words,
                               uint64_t *work, size_t work_words,
                               uint64_t *counts, size_t counts_room,
                               uint8_t *output, size_t output_bytes);

size_t estimate_cycles_of_numbers(const uint32_t *numbers, size_t count,
                                  uint64_t *result, size_t result_words,
                                  uint64_t *work, size_t work_words,
                                  uint64_t *counts, size_t counts_room,
                                  uint8_t *output, size_t output_bytes);

/* The trace recorder's blocks. Their bytes are, the lowest of each number first: 0 to 3 the block's number, which is its place in the trace, from 0; 4 and 5 how many
 * accesses it has; from 6 on the accesses, 4 bytes each; zeros up to 509; 510 and 511 the check, the sum over bytes 0 to 509 of (position + 1) times the byte,
 * modulo 65521. A block that is not so is damaged; any one changed byte makes it so. A refusal writes nothing but `*place`, and that with 13 only. */

/* The accesses of a trace go to the front of `accesses`, which is zero beyond them, and how many they are to `*count`. A block need not be full, and there may be more
 * than 4,096 accesses. Gives ESTIMATE_DONE, or the first of 12, 21 (`room` is below 125 for each block) and 13 that applies; with 13 the place of the first damaged
 * block goes to `*place`. */
uint64_t estimate_trace_read(const uint8_t *trace, size_t bytes, uint32_t *accesses, size_t room, size_t *count, size_t *place);

/* The places of the damaged blocks of a trace, rising, go to the front of `places`, which is zero beyond them, and how many they are to `*count`. Gives ESTIMATE_DONE,
 * or the first of 12 and 21 (`room` is below 1 for each block) that applies. */
uint64_t estimate_trace_damaged(const uint8_t *trace, size_t bytes, uint64_t *places, size_t room, size_t *count);

/* The trace of at most 4,096 accesses goes to the front of `trace`, which is zero beyond it, and how many blocks it has to `*blocks`: every block but the last is full,
 * and no accesses are no block. Gives ESTIMATE_DONE, or the first of 4 and 21 (`bytes` is below 512 for each block) that applies. To read the trace again hand in its
 * blocks and not the whole room: a block of zeros behind them is damaged by its number. */
uint64_t estimate_trace_write(const uint32_t *accesses, size_t access_count, uint8_t *trace, size_t bytes, size_t *blocks);

/* The graph of a listing. Tokens: 1 and a block is an access; 2, a sequence, 3, a sequence, 4 is a branch with two arms; 5, a count from 1 to 64, a sequence, 6 is
 * a loop run exactly that often; branches and loops together stand at most 8 deep in each other. Gives ESTIMATE_DONE, or the first of ESTIMATE_LISTING_ROOM,
 * ESTIMATE_LISTING, ESTIMATE_EXPANSION that applies. Done, the graph stands at the front of the three rooms as the graph call takes it (edges two numbers each),
 * they are zero beyond it, and `*nodes`, `*access_count` and `*edge_count` are how many run lengths, accesses and edges it has. Refused, nothing is written. */
uint64_t estimate_listing(const uint32_t *tokens, size_t token_count,
                          uint32_t *runs, size_t runs_room,
                          uint32_t *accesses, size_t accesses_room,
                          uint32_t *edges, size_t edge_numbers_room,
                          size_t *nodes, size_t *access_count, size_t *edge_count);

/* The nightly build: `numbers` are at most 256 graphs, each a count and then so many numbers in the curve program's order, on a cache of one set, of the first revision,
 * found empty. A row of five words for each graph goes to the front of `rows`, which is zero beyond them: 0, how many states the finished table has, its set-aside
 * count, the accesses of the longest path, and the smallest budget for `allowance`; or the number of a refusal, and zeros. A missing number or one left over, or more
 * than ESTIMATE_NUMBERS of them, is that graph's 9. Each row is that of the graph by itself. Gives ESTIMATE_DONE, or the first that applies of ESTIMATE_NIGHTLY and
 * ESTIMATE_ROOM (room for fewer than 5,248 working states). Done, `work` is zero, and the report goes to the eight numbers: graphs accepted, graphs refused under 9, 1,
 * 2, 3, 4 and 5, and the sum of the set-aside counts. Refused, nothing is written. */
uint64_t estimate_nightly(const uint32_t *numbers, size_t count, uint64_t allowance,
                          uint64_t *rows, size_t rows_words,
                          uint64_t *work, size_t work_words,
                          uint64_t *accepted, uint64_t *text, uint64_t *ways, uint64_t *limit,
                          uint64_t *tracked, uint64_t *accesses, uint64_t *graph, uint64_t *aside);

/* The best case: a second table of the same graph, in which hits and misses are counted separately and never too many. For every path and number, the units
 * with more misses than that are at most the chance of more misses, in units of 2^-48, and the same holds of hits. The arguments are those of estimate_graph, but that the
 * cache is empty at first. Gives ESTIMATE_DONE, or the first of 1, 10, 11, 18, 2, 3, 4, 5, 17, 6 that applies. Done, `result` begins with the finished table, exact
 * states by mask, misses and hits and open ones after them by misses and hits, and is zero beyond it, `work` is zero, and `*states` is how many states the table
 * has. Refused, nothing is written. */
uint64_t estimate_best(uint32_t sets, uint32_t ways, uint32_t revision, uint32_t limit,
                       const uint32_t *tracked, size_t tracked_count,
                       const uint32_t *runs, size_t nodes,
                       const uint32_t *accesses, size_t access_count,
                       const uint32_t *edges, size_t edge_numbers,
                       uint64_t *result, size_t result_words,
                       uint64_t *work, size_t work_words,
                       size_t *states);

/* The units at each miss count of the first `states` states of a best case's table, or at each hit count, from 0 to the largest go to the front of `counts`, which is
 * zero beyond them, and the largest to `*largest`. Each gives ESTIMATE_DONE, ESTIMATE_ROW or ESTIMATE_SPREAD_ROOM; a refusal writes nothing. */
uint64_t estimate_best_miss_spread(const uint64_t *table, size_t words, size_t states, uint64_t *counts, size_t counts_room, uint64_t *largest);
uint64_t estimate_best_hit_spread(const uint64_t *table, size_t words, size_t states, uint64_t *counts, size_t counts_room, uint64_t *largest);

#ifdef __cplusplus
}
#endif

#endif
