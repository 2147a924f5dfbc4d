/* Document 02, request 11/13, in plain C: the graph call with a pairing or none for each join. It is built from plain.c's own functions, which it takes in as they are. */
#ifndef PAIRINGS_H
#define PAIRINGS_H

#include "plain.h"

/* No pairing for a join, and the most rows of one. */
#define PLAIN_NO_PAIRING UINT64_MAX
#define PLAIN_PAIRING_ROWS 1088

/* What is handed in for the joins: a number for each, and the rows, three numbers each. */
struct plain_entries {
    const uint64_t *counts, *rows;
    size_t joins, row_numbers;
};

/* As plain_graph; 19, after 6, for entries that are not of the form or a pairing that is not accepted. */
int plain_graph_paired(const struct plain_input *graph, const struct plain_entries *entries, size_t result_words, size_t work_words, struct plain_state *table,
                       size_t *states, uint64_t *aside);

/* Where a planner is asked for an entry: the two tables that are to be joined. */
struct plain_join {
    const struct plain_state *left, *right;
    size_t left_count, right_count;
};

/* A planner writes rows, three numbers each, and gives how many, or PLAIN_NO_PAIRING. */
typedef uint64_t plain_planner(void *from, const struct plain_join *join, uint64_t *rows);

/* Works an accepted graph and asks the planner at each join; writes the entries, and gives how many joins there are. A pairing that is not accepted ends the work: none is
 * then written for the joins behind it. */
size_t plain_plan(const struct plain_input *graph, plain_planner *planner, void *from, uint64_t *counts, uint64_t *rows, size_t *row_numbers);

#endif
