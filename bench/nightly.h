/* Document 02, request 13/13, in plain C: the graphs of a list, a row for each, and the report. It stands on plain.c for the graph call and the smallest budget, and on
 * cycles.c for the longest path. */
#ifndef NIGHTLY_H
#define NIGHTLY_H

#include <stddef.h>
#include <stdint.h>

#define PLAIN_GRAPHS 256
#define PLAIN_ROW_WORDS 5

/* The report: graphs accepted, graphs refused under 9, 1, 2, 3, 4 and 5, and the sum of the set-aside counts. */
#define PLAIN_REPORT_WORDS 8

/* The rows of the list's graphs for the allowance, in room for so many words, zero beyond them. Gives 0, or 20 or 6, and then writes nothing; of the working room
 * only the words are checked. */
int plain_nightly(const uint32_t *numbers, size_t count, uint64_t allowance, uint64_t *rows, size_t rows_words, size_t work_words, uint64_t *report);

/* The row of one graph's numbers. */
void plain_row(const uint32_t *numbers, size_t count, uint64_t allowance, uint64_t *row);

#endif
