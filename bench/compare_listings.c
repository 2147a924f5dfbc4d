/* Compares the library's call on listings with plain C on random, damaged and border listings: `compare_listings [count [seed [number]]]`. With a number, only the
 * case of that number is run, to repeat a difference. Exit status 1 if there was a difference, or if an answer or a refusal never occurred. */
#include <inttypes.h>
#include <stdbool.h>
#include <stdio.h>
#include <stdlib.h>
#include <string.h>

#include "estimate.h"
#include "inputs.h"
#include "listings.h"
#include "tokens.h"

/* What rooms are filled with before a call; where a call writes nothing it is found again. */
#define PATTERN_BYTE 0xa5
#define PATTERN ((size_t)0xa5a5a5a5a5a5a5a5u)

/* Rooms are longer than what is lent, so that a write beyond it is seen. */
#define MORE 24

/* Refusals are counted by number, and 0 for none. */
#define NUMBERS 23

/* The case at hand, and what has been counted so far. */
struct run {
    uint64_t seed, number;
    unsigned long listings[NUMBERS], differences;
};

/* The rooms that are lent for a listing's graph. */
struct rooms {
    uint32_t runs[PLAIN_LISTING_NODES + MORE];
    uint32_t accesses[PLAIN_LISTING_ACCESSES + MORE];
    uint32_t edges[2 * PLAIN_LISTING_EDGES + MORE];
};

static void expect(struct run *run, bool holds, const char *what)
{
    if (!holds) {
        run->differences++;
        printf("difference: seed %" PRIu64 " number %" PRIu64 ": %s\n", run->seed, run->number, what);
    }
}

/* So many numbers at the front of what was lent, and zeros behind them; the rest as it was. */
static void fill(uint32_t *room, const uint32_t *numbers, size_t count, size_t lent)
{
    memcpy(room, numbers, count * sizeof *room);
    memset(room + count, 0, (lent - count) * sizeof *room);
}

/* The rooms as they have to be after the call. */
static void fill_rooms(struct rooms *rooms, const struct token_list *tokens, const struct plain_listed *graph)
{
    fill(rooms->runs, graph->runs, graph->nodes, tokens->runs_room);
    fill(rooms->accesses, graph->accesses, graph->access_count, tokens->accesses_room);
    fill(rooms->edges, graph->edges, 2 * graph->edge_count, tokens->edge_numbers_room);
}

static void compare_listing(struct run *run, const struct token_list *tokens)
{
    static struct rooms ours, expected;
    static struct plain_listed graph;
    size_t nodes = PATTERN, accesses = PATTERN, edges = PATTERN;
    memset(&ours, PATTERN_BYTE, sizeof ours);
    memset(&expected, PATTERN_BYTE, sizeof expected);
    uint64_t number = estimate_listing(tokens->count == 0 ? NULL : tokens->list, tokens->count, tokens->runs_room == 0 ? NULL : ours.runs, tokens->runs_room,
                                       ours.accesses, tokens->accesses_room, ours.edges, tokens->edge_numbers_room, &nodes, &accesses, &edges);
    int plain = plain_listing(tokens->list, tokens->count, tokens->runs_room, tokens->accesses_room, tokens->edge_numbers_room, &graph);
    run->listings[plain]++;
    expect(run, number == (uint64_t)plain, "refusal of a listing");
    if (plain != 0) {
        expect(run, nodes == PATTERN && accesses == PATTERN && edges == PATTERN, "a refused listing wrote a number");
    } else {
        fill_rooms(&expected, tokens, &graph);
        expect(run, nodes == graph.nodes && accesses == graph.access_count && edges == graph.edge_count, "sizes of a listing's graph");
    }
    expect(run, memcmp(&ours, &expected, sizeof ours) == 0, "rooms after a listing");
}

/* The kinds of listing take turns: random, random and damaged, border, border and damaged. */
static void run_case(struct run *run, uint64_t number)
{
    static struct token_list tokens;
    struct generator from = generator_of(run->seed, number);
    run->number = number;
    if (number % 4 < 2)
        make_listing(&from, &tokens);
    else
        make_border_listing(&from, &tokens);
    if (number % 2 == 1)
        damage_listing(&from, &tokens);
    compare_listing(run, &tokens);
}

static bool all_occurred(const struct run *run)
{
    const int numbers[] = {0, 22, 14, 15};
    bool all = true;
    for (size_t i = 0; i < sizeof numbers / sizeof *numbers; i++) {
        if (run->listings[numbers[i]] == 0) {
            printf("error: listings: %d never occurred\n", numbers[i]);
            all = false;
        }
    }
    return all;
}

int main(int argument_count, char **arguments)
{
    uint64_t count = argument_count > 1 ? strtoull(arguments[1], NULL, 10) : 4000;
    struct run run = {.seed = argument_count > 2 ? strtoull(arguments[2], NULL, 10) : 1};
    bool complete = true;
    if (argument_count > 3) {
        run_case(&run, strtoull(arguments[3], NULL, 10));
    } else {
        for (uint64_t number = 0; number < count; number++)
            run_case(&run, number);
        complete = all_occurred(&run);
    }
    printf("listings: %lu expanded, %lu refused 22, %lu refused 14, %lu refused 15\n", run.listings[0], run.listings[22], run.listings[14], run.listings[15]);
    printf("compared: %lu listings, %lu differences\n", run.listings[0] + run.listings[22] + run.listings[14] + run.listings[15], run.differences);
    return run.differences == 0 && complete ? 0 : 1;
}
