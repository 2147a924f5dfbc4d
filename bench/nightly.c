#include "nightly.h"

#include <stdbool.h>
#include <string.h>

#include "cycles.h"
#include "plain.h"

/* A list of numbers that is taken from the front. */
struct taken {
    const uint32_t *at;
    size_t left;
};

/* A count, and `width` numbers for each that it counts. */
static bool take_part(struct taken *from, size_t width, const uint32_t **list, size_t *count)
{
    if (from->left == 0)
        return false;
    size_t numbers = (size_t)from->at[0] * width;
    if (from->left - 1 < numbers)
        return false;
    *list = from->at + 1;
    *count = numbers;
    from->at += numbers + 1;
    from->left -= numbers + 1;
    return true;
}

/* A graph of its numbers, on document 01's cache; false if one is missing or left over. */
static bool take_graph(const uint32_t *numbers, size_t count, struct plain_input *graph)
{
    struct taken from = {numbers, count};
    if (count < 2)
        return false;
    *graph = (struct plain_input){.sets = 1, .ways = numbers[0], .revision = 1, .start = PLAIN_COLD, .limit = numbers[1]};
    from.at += 2;
    from.left -= 2;
    return take_part(&from, 1, &graph->tracked, &graph->tracked_count) && take_part(&from, 1, &graph->runs, &graph->nodes) &&
           take_part(&from, 1, &graph->accesses, &graph->access_count) && take_part(&from, 2, &graph->edges, &graph->edge_numbers) && from.left == 0;
}

void plain_row(const uint32_t *numbers, size_t count, uint64_t allowance, uint64_t *row)
{
    struct plain_input g;
    struct plain_state table[64];
    size_t states;
    memset(row, 0, PLAIN_ROW_WORDS * sizeof *row);
    if (count > PLAIN_NUMBERS || !take_graph(numbers, count, &g)) {
        row[0] = 9;
        return;
    }
    row[0] = (uint64_t)plain_graph(g.sets, g.ways, g.revision, g.start, g.limit, g.tracked, g.tracked_count, g.runs, g.nodes, g.accesses, g.access_count, g.edges,
                                   g.edge_numbers, 64 * PLAIN_STATE_WORDS, 5184 * PLAIN_STATE_WORDS, table, &states, &row[2]);
    if (row[0] != 0)
        return;
    row[1] = states;
    plain_longest_path(&g, &row[3]);
    plain_smallest_budget(table, states, allowance, &row[4]);
}

/* How many graphs use the list up exactly, or more than there may be. */
static size_t count_graphs(const uint32_t *numbers, size_t count)
{
    size_t graphs = 0;
    while (count > 0) {
        size_t graph = (size_t)numbers[0] + 1;
        if (graph > count)
            return PLAIN_GRAPHS + 1;
        numbers += graph;
        count -= graph;
        graphs++;
    }
    return graphs;
}

int plain_nightly(const uint32_t *numbers, size_t count, uint64_t allowance, uint64_t *rows, size_t rows_words, size_t work_words, uint64_t *report)
{
    static const uint64_t places[PLAIN_REPORT_WORDS - 1] = {0, 9, 1, 2, 3, 4, 5};
    size_t graphs = count_graphs(numbers, count);
    if (graphs > PLAIN_GRAPHS || rows_words / PLAIN_ROW_WORDS < graphs)
        return 20;
    if (work_words / PLAIN_STATE_WORDS < 5248)
        return 6;
    memset(rows, 0, rows_words * sizeof *rows);
    memset(report, 0, PLAIN_REPORT_WORDS * sizeof *report);
    for (size_t i = 0, at = 0; i < graphs; at += (size_t)numbers[at] + 1, i++) {
        uint64_t *row = rows + i * PLAIN_ROW_WORDS;
        plain_row(numbers + at + 1, numbers[at], allowance, row);
        for (size_t k = 0; k + 1 < PLAIN_REPORT_WORDS; k++)
            report[k] += row[0] == places[k];
        report[PLAIN_REPORT_WORDS - 1] += row[2];
    }
    return 0;
}
