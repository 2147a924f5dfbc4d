/* The call `listing RUNS ACCESSES EDGES N {TOKEN}`: the graph of N tokens, with room for so many run lengths, accesses and edges. Where it is not refused the answer is a
 * line for the run lengths, one for the accesses and one for the edges, each with how many they are. */
#include "samples.h"

#include <inttypes.h>
#include <stdio.h>

#include "estimate.h"

/* More numbers than there is room for in any sample. */
#define MOST_ROOM 1000000

/* The three rooms, and what the call says that they hold. */
struct listed {
    struct room runs, accesses, edges;
    size_t nodes, access_count, edge_count;
};

/* A line: its name, how many there are, and the numbers. */
static void print_list(const char *name, size_t many, const struct room *room, size_t count)
{
    const uint32_t *numbers = room->at;
    printf("%s %zu", name, many);
    for (size_t i = 0; i < count; i++)
        printf(" %" PRIu32, numbers[i]);
    printf("\n");
    expect_zero(room, count * sizeof *numbers);
}

static void print_refused_listing(const struct listed *listed, uint64_t refusal)
{
    print_refusal(refusal);
    expect_unchanged(&listed->runs);
    expect_unchanged(&listed->accesses);
    expect_unchanged(&listed->edges);
    expect(listed->nodes == UNWRITTEN && listed->access_count == UNWRITTEN && listed->edge_count == UNWRITTEN, "a refused call wrote a number");
}

static size_t numbers_in(const struct room *room)
{
    return room->bytes / sizeof(uint32_t);
}

bool answer_listing(const struct words *words)
{
    uint64_t rooms[3], count;
    uint32_t *tokens;
    size_t taken = 0;
    for (int i = 0; i < 3; i++) {
        if (!take_number(words, &taken, &rooms[i]) || rooms[i] > MOST_ROOM)
            return false;
    }
    if (!take_number(words, &taken, &count) || !take_halves(words, &taken, count, &tokens) || taken != words->count)
        return false;
    struct listed listed = {lend("run lengths", rooms[0] * sizeof *tokens), lend("accesses", rooms[1] * sizeof *tokens),
                            lend("edges", 2 * rooms[2] * sizeof *tokens), UNWRITTEN, UNWRITTEN, UNWRITTEN};
    uint64_t refusal = estimate_listing(tokens, count, listed.runs.at, numbers_in(&listed.runs), listed.accesses.at, numbers_in(&listed.accesses),
                                        listed.edges.at, numbers_in(&listed.edges), &listed.nodes, &listed.access_count, &listed.edge_count);
    if (refusal != ESTIMATE_DONE) {
        print_refused_listing(&listed, refusal);
        return true;
    }
    print_list("runs", listed.nodes, &listed.runs, listed.nodes);
    print_list("accesses", listed.access_count, &listed.accesses, listed.access_count);
    print_list("edges", listed.edge_count, &listed.edges, 2 * listed.edge_count);
    return true;
}
