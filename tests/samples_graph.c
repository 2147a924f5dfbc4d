/* The graph call of the samples. */
#include "samples.h"

#include <inttypes.h>
#include <stdio.h>

#include "estimate.h"

#define STATE_BYTES (ESTIMATE_STATE_WORDS * sizeof(uint64_t))

/* A count, and then as many numbers. */
static bool take_list(const struct words *words, size_t *taken, size_t *count, uint32_t **list)
{
    uint32_t length;
    if (!take_half(words, taken, &length) || !take_halves(words, taken, length, list))
        return false;
    *count = length;
    return true;
}

/* A count of edges, and then two numbers for each. */
static bool take_edges(const struct words *words, size_t *taken, struct graph *graph)
{
    uint32_t edges;
    if (!take_half(words, taken, &edges))
        return false;
    graph->edge_numbers = 2 * (size_t)edges;
    return take_halves(words, taken, graph->edge_numbers, &graph->edges);
}

bool take_graph(const struct words *words, size_t *taken, struct graph *graph)
{
    return take_half(words, taken, &graph->ways)
        && take_half(words, taken, &graph->limit)
        && take_list(words, taken, &graph->tracked_count, &graph->tracked)
        && take_list(words, taken, &graph->nodes, &graph->runs)
        && take_list(words, taken, &graph->access_count, &graph->accesses)
        && take_edges(words, taken, graph)
        && *taken == words->count;
}

struct lent lend_for(const struct words *words)
{
    return (struct lent){
        lend("result", words->result_states * STATE_BYTES), words->result_states * ESTIMATE_STATE_WORDS,
        lend("working", words->working_states * STATE_BYTES), words->working_states * ESTIMATE_STATE_WORDS,
        (size_t)UNWRITTEN, UNWRITTEN,
    };
}

void print_refused(uint64_t refused, const struct lent *lent)
{
    print_refusal(refused);
    expect_unchanged(&lent->result);
    expect_unchanged(&lent->work);
    expect(lent->states == (size_t)UNWRITTEN && lent->aside == UNWRITTEN, "a refused call has written a number");
}

void print_table(const struct lent *lent, size_t sets)
{
    const uint64_t *words = lent->result.at;
    size_t room = lent->result_words / ESTIMATE_STATE_WORDS;
    expect(lent->states <= room, "more states than there is room for");
    for (size_t i = 0; i < lent->states && i < room; i++)
        print_state(words + ESTIMATE_STATE_WORDS * i, sets);
    printf("aside %" PRIu64 "\n", lent->aside);
    expect_zero(&lent->result, lent->states * STATE_BYTES);
    expect_zero(&lent->work, 0);
}

/* graph SETS REVISION WARM INPUT: WARM is 1, or 0 for the cold start. */
bool answer_graph(const struct words *words)
{
    struct graph graph;
    uint32_t sets, revision, warm;
    size_t taken = 0;
    if (!take_half(words, &taken, &sets) || !take_half(words, &taken, &revision) || !take_half(words, &taken, &warm)
        || warm > 1 || !take_graph(words, &taken, &graph))
        return false;
    struct lent lent = lend_for(words);
    uint64_t refused = estimate_graph(sets, graph.ways, revision, warm == 1 ? ESTIMATE_WARM : ESTIMATE_COLD, graph.limit,
                                      graph.tracked, graph.tracked_count, graph.runs, graph.nodes,
                                      graph.accesses, graph.access_count, graph.edges, graph.edge_numbers,
                                      lent.result.at, lent.result_words, lent.work.at, lent.work_words, &lent.states, &lent.aside);
    if (refused != 0)
        print_refused(refused, &lent);
    else
        print_table(&lent, sets);
    return true;
}
