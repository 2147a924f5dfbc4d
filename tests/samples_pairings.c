/* The call `pair SETS REVISION WARM ENTRIES {ENTRY} INPUT`: the graph call with ENTRIES entries, one for each join. ENTRY is `none`, or how many rows a pairing has and three
 * numbers for each row: a place in the table so far, a place in the joined one, and units. The answer is that of `graph`; 19 leaves the result room as it was and the
 * working room zero. */
#include "samples.h"

#include <inttypes.h>
#include <stdio.h>
#include <string.h>

#include "estimate.h"

/* What is handed in for the joins. */
struct entries {
    uint64_t *counts, *rows;
    size_t joins, row_numbers;
};

/* An entry: its number of rows, and the rows behind those of the entries before it. */
static bool take_entry(const struct words *words, size_t *taken, struct entries *entries)
{
    uint64_t count, *rows;
    if (*taken < words->count && strcmp(words->list[*taken], "none") == 0) {
        entries->counts[entries->joins++] = ESTIMATE_NO_PAIRING;
        ++*taken;
        return true;
    }
    if (!take_number(words, taken, &count) || count > words->count || !take_numbers(words, taken, 3 * count, &rows))
        return false;
    entries->counts[entries->joins++] = count;
    memcpy(entries->rows + entries->row_numbers, rows, 3 * count * sizeof *rows);
    entries->row_numbers += 3 * count;
    return true;
}

static bool take_entries(const struct words *words, size_t *taken, struct entries *entries)
{
    uint32_t count;
    if (!take_half(words, taken, &count) || count > words->count)
        return false;
    *entries = (struct entries){.counts = keep((words->count + 1) * sizeof(uint64_t)), .rows = keep((words->count + 1) * sizeof(uint64_t))};
    while (entries->joins < count)
        if (!take_entry(words, taken, entries))
            return false;
    return true;
}

/* 19: the result room is as it was, and the working room is zero. */
static void print_not_accepted(const struct lent *lent)
{
    print_refusal(ESTIMATE_PAIRING);
    expect_unchanged(&lent->result);
    expect_zero(&lent->work, 0);
    expect(lent->states == (size_t)UNWRITTEN && lent->aside == UNWRITTEN, "a refused call has written a number");
}

bool answer_pair(const struct words *words)
{
    struct graph graph;
    struct entries entries;
    uint32_t sets, revision, warm;
    size_t taken = 0;
    if (!take_half(words, &taken, &sets) || !take_half(words, &taken, &revision) || !take_half(words, &taken, &warm) || warm > 1
        || !take_entries(words, &taken, &entries) || !take_graph(words, &taken, &graph))
        return false;
    struct lent lent = lend_for(words);
    uint64_t refused = estimate_graph_paired(sets, graph.ways, revision, warm == 1 ? ESTIMATE_WARM : ESTIMATE_COLD, graph.limit, graph.tracked, graph.tracked_count,
                                             graph.runs, graph.nodes, graph.accesses, graph.access_count, graph.edges, graph.edge_numbers, entries.counts,
                                             entries.joins, entries.rows, entries.row_numbers, lent.result.at, lent.result_words, lent.work.at,
                                             lent.work_words, &lent.states, &lent.aside);
    if (refused == ESTIMATE_PAIRING)
        print_not_accepted(&lent);
    else if (refused != ESTIMATE_DONE)
        print_refused(refused, &lent);
    else
        print_table(&lent, sets);
    return true;
}
