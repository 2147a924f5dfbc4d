/* Document 02, request 9/13, in plain C. The clause that a function follows stands above it. */
#include "cycles.h"

#include <inttypes.h>
#include <stdio.h>

#define MOST_STATES 64
#define MOST_NODES 64
#define MOST_ACCESSES 4096

/* Rooms that the graph call accepts, in words. */
#define RESULT_WORDS (PLAIN_STATE_WORDS * MOST_STATES)
#define WORK_WORDS (PLAIN_STATE_WORDS * 5184)

struct core {
    uint64_t hit, miss;
};

/* "Twelve cores are in service, listed as hit cycles and miss cycles" */
static const struct core cores[PLAIN_CORES] = {
    {1, 8}, {1, 10}, {1, 12}, {1, 20}, {2, 10}, {2, 16}, {2, 24}, {2, 40}, {3, 15}, {3, 30}, {3, 60}, {4, 100},
};

/* ---- The longest path ---- */

/* The first of the refusals 1, 10, 11 and 2 to 5 that applies, or 0: those come before 6, which the graph call gives in no room at all. */
static int graph_refusal(const struct plain_input *graph)
{
    int number = plain_graph(graph->sets, graph->ways, graph->revision, graph->start, graph->limit, graph->tracked, graph->tracked_count,
                             graph->runs, graph->nodes, graph->accesses, graph->access_count, graph->edges, graph->edge_numbers,
                             0, 0, NULL, NULL, NULL);
    return number == 6 ? 0 : number;
}

/* "The longest path's accesses": the most that lie between the start of a node and the end of the last, from the last node backwards. An
 * edge leads to a later node, and only the last node has none out. */
int plain_longest_path(const struct plain_input *graph, uint64_t *longest)
{
    uint64_t to_go[MOST_NODES];
    int number = graph_refusal(graph);
    if (number != 0)
        return number;
    for (size_t node = graph->nodes; node-- > 0;) {
        uint64_t most = 0;
        for (size_t i = 0; i < graph->edge_numbers; i += 2) {
            uint32_t from = graph->edges[i], to = graph->edges[i + 1];
            if (from == node && to_go[to] > most)
                most = to_go[to];
        }
        to_go[node] = graph->runs[node] + most;
    }
    *longest = to_go[0];
    return 0;
}

/* ---- The questions ---- */

/* "a miss count stands for itself times miss cycles plus the rest of them times hit cycles" */
uint64_t plain_cycles_of(size_t core, uint64_t longest, uint64_t misses)
{
    return misses * cores[core].miss + (longest - misses) * cores[core].hit;
}

/* "16, no such core, after 11; 4 also for a longest path above 4,096; 7 also for a state with more misses than the longest path has
 * accesses." 16 is before 4, since 11 is. */
static int refusal(const struct plain_state *row, size_t states, size_t core, uint64_t longest)
{
    if (core >= PLAIN_CORES)
        return 16;
    if (longest > MOST_ACCESSES)
        return 4;
    if (!plain_is_table(row, states))
        return 7;
    for (size_t i = 0; i < states; i++) {
        if (row[i].misses > longest)
            return 7;
    }
    return 0;
}

/* "units above a cycle budget": strictly above, as in document 01 */
static uint64_t units_above(const struct plain_state *row, size_t states, size_t core, uint64_t longest, uint64_t budget)
{
    uint64_t units = 0;
    for (size_t i = 0; i < states; i++) {
        if (plain_cycles_of(core, longest, row[i].misses) > budget)
            units += row[i].units;
    }
    return units;
}

int plain_above_cycles(const struct plain_state *row, size_t states, size_t core, uint64_t longest, uint64_t budget, uint64_t *units)
{
    int number = refusal(row, states, core, longest);
    if (number != 0)
        return number;
    *units = units_above(row, states, core, longest, budget);
    return 0;
}

/* "the smallest cycle budget for an allowance". What is above changes only at the cycles of a state, so that the smallest is 0 or one of
 * those; above the last of them there is nothing. */
int plain_smallest_cycles(const struct plain_state *row, size_t states, size_t core, uint64_t longest, uint64_t allowance,
                          uint64_t *cycles)
{
    int number = refusal(row, states, core, longest);
    if (number != 0)
        return number;
    uint64_t smallest = units_above(row, states, core, longest, 0) <= allowance ? 0 : UINT64_MAX;
    for (size_t i = 0; i < states; i++) {
        uint64_t tried = plain_cycles_of(core, longest, row[i].misses);
        if (tried < smallest && units_above(row, states, core, longest, tried) <= allowance)
            smallest = tried;
    }
    *cycles = smallest;
    return 0;
}

/* ---- The text ---- */

/* A finished table, as the text needs it. */
struct finished {
    size_t states;
    uint64_t aside, longest, largest;
    struct plain_state row[MOST_STATES];
    uint64_t counts[MOST_ACCESSES + 1];
};

/* A core's line, and a line for each miss count: its cycles, the units there, the units above. Gives how many bytes. */
static size_t write_core(char *output, const struct finished *finished, size_t core)
{
    size_t length = (size_t)sprintf(output, "core %zu hit %" PRIu64 " miss %" PRIu64 "\n", core, cores[core].hit, cores[core].miss);
    for (uint64_t misses = 0; misses <= finished->largest; misses++) {
        uint64_t cycles = plain_cycles_of(core, finished->longest, misses);
        uint64_t above = units_above(finished->row, finished->states, core, finished->longest, cycles);
        length += (size_t)sprintf(output + length, "%" PRIu64 " %" PRIu64 " %" PRIu64 "\n", cycles, finished->counts[misses], above);
    }
    return length;
}

/* The table of a text with its longest path and its spread. Gives 0 or the refusal. */
static int work_text(const unsigned char *text, size_t bytes, struct finished *finished)
{
    struct plain_numbers numbers;
    struct plain_input graph;
    if (!plain_read(text, bytes, &numbers, &graph))
        return 9;
    int number = plain_longest_path(&graph, &finished->longest);
    if (number != 0)
        return number;
    plain_graph(graph.sets, graph.ways, graph.revision, graph.start, graph.limit, graph.tracked, graph.tracked_count,
                graph.runs, graph.nodes, graph.accesses, graph.access_count, graph.edges, graph.edge_numbers,
                RESULT_WORDS, WORK_WORDS, finished->row, &finished->states, &finished->aside);
    return plain_spread(finished->row, finished->states, finished->counts, MOST_ACCESSES + 1, &finished->largest);
}

/* A refusal as the curve program prints it; otherwise the curve program's first line with the longest path behind it, and the curve of
 * each core. */
size_t plain_cycles(const unsigned char *text, size_t bytes, unsigned char *output)
{
    struct finished finished;
    char *lines = (char *)output;
    int number = work_text(text, bytes, &finished);
    if (number != 0)
        return (size_t)sprintf(lines, "refused %d\n", number);
    size_t length = (size_t)sprintf(lines, "states %zu aside %" PRIu64 " longest %" PRIu64 "\n", finished.states, finished.aside,
                                    finished.longest);
    for (size_t core = 0; core < PLAIN_CORES; core++)
        length += write_core(lines + length, &finished, core);
    return length;
}
