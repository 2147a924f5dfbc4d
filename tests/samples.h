/* What the kinds of sample calls share: the words of a call, what is kept while it is answered, rooms that are lent to it and looked at after it.
 *
 * A kind of call is a function `bool answer_NAME(const struct words *words)`, in a file tests/samples_*.c: it makes the call, prints the answer and looks at the
 * rooms. It gives false, and prints nothing, where the words are no such call. It is declared below and listed in samples.c. */
#ifndef SAMPLES_H
#define SAMPLES_H

#include <stdbool.h>
#include <stddef.h>
#include <stdint.h>

/* The words behind a call's name, repeated words written out, and how many states there is room for: `room RESULT WORKING` before the name says so, and
 * otherwise it is as many as the largest call needs. */
struct words {
    size_t count;
    char *const *list;
    size_t result_states, working_states;
};

/* A word is taken from place `*taken` on, and the place moves behind it. False if there is none, or none of this kind: a decimal number below 2^64 or below 2^32,
 * so many numbers below 2^64 or below 2^32 (kept for this call). */
bool take_number(const struct words *words, size_t *taken, uint64_t *number);
bool take_half(const struct words *words, size_t *taken, uint32_t *number);
bool take_numbers(const struct words *words, size_t *taken, size_t count, uint64_t **list);
bool take_halves(const struct words *words, size_t *taken, size_t count, uint32_t **list);

/* A decimal number below 2^64, and nothing else, up to the byte `end` or the zero byte behind the text. Gives where that is, or NULL. */
const char *read_decimal(const char *text, char end, uint64_t *number);

/* Memory that is given back when the call has been answered, never NULL. */
void *keep(size_t bytes);

/* What every byte of a room is before the call, and what a number is that a refused call must not write. */
#define UNWRITTEN_BYTE 0xa5
#define UNWRITTEN ((uint64_t)0xa5a5a5a5a5a5a5a5)

/* A room that is lent to a call, with bytes behind it that nothing may write to. */
struct room {
    const char *name;
    size_t bytes;
    void *at;
};
struct room lend(const char *name, size_t bytes);

/* Print a line, which no answer has, unless what is expected holds: the sentence; the room is as it was before the call; it is zero from the byte `from` on, and
 * nothing is written behind it. */
void expect(bool holds, const char *otherwise);
void expect_unchanged(const struct room *room);
void expect_zero(const struct room *room, size_t from);

/* The line of a refusal. */
void print_refusal(uint64_t number);

/* A graph as the curve program reads it. Taking it uses up the words. */
struct graph {
    uint32_t ways, limit;
    size_t tracked_count, nodes, access_count, edge_numbers;
    uint32_t *tracked, *runs, *accesses, *edges;
};
bool take_graph(const struct words *words, size_t *taken, struct graph *graph);

/* What is lent to a call that makes a table: the two rooms, and the two numbers that it writes. */
struct lent {
    struct room result;
    size_t result_words;
    struct room work;
    size_t work_words;
    size_t states;
    uint64_t aside;
};
struct lent lend_for(const struct words *words);

/* The answer of such a call: it is refused and has changed nothing; or the finished table over so many sets, and nothing else. */
void print_refused(uint64_t refused, const struct lent *lent);
void print_table(const struct lent *lent, size_t sets);

/* The line mask/misses/units/F of a state in words, where F are the filled numbers of so many sets. */
void print_state(const uint64_t *state, size_t sets);

/* The kinds of calls. */
bool answer_graph(const struct words *words);
bool answer_pair(const struct words *words);
bool answer_spread(const struct words *words);
bool answer_above(const struct words *words);
bool answer_smallest(const struct words *words);
bool answer_quick(const struct words *words);
bool answer_trace_write(const struct words *words);
bool answer_trace_read(const struct words *words);
bool answer_trace_list(const struct words *words);
bool answer_listing(const struct words *words);
bool answer_nightly(const struct words *words);
bool answer_best(const struct words *words);
bool answer_best_spread(const struct words *words);

#endif
