/* The best case's calls of the samples: its table, and the spreads of a row of its states. */
#include "samples.h"

#include <inttypes.h>
#include <stdio.h>
#include <string.h>

#include "estimate.h"

#define STATE_BYTES sizeof(struct estimate_best_state)

static void print_best_table(const struct lent *lent)
{
    const struct estimate_best_state *table = lent->result.at;
    size_t room = lent->result_words / ESTIMATE_STATE_WORDS;
    expect(lent->states <= room, "more states than there is room for");
    for (size_t i = 0; i < lent->states && i < room; i++) {
        const struct estimate_best_state *s = &table[i];
        expect(s->exact <= 1, "a state is neither exact nor open");
        printf("%s/%" PRIu64 "/%" PRIu64 "/%" PRIu64 "/%" PRIu64 "\n", s->exact == 1 ? "exact" : "open", s->mask, s->misses, s->hits, s->units);
    }
    expect(lent->aside == UNWRITTEN, "a number was written that the call does not have");
    expect_zero(&lent->result, lent->states * STATE_BYTES);
    expect_zero(&lent->work, 0);
}

/* best SETS REVISION INPUT */
bool answer_best(const struct words *words)
{
    struct graph graph;
    uint32_t sets, revision;
    size_t taken = 0;
    if (!take_half(words, &taken, &sets) || !take_half(words, &taken, &revision) || !take_graph(words, &taken, &graph))
        return false;
    struct lent lent = lend_for(words);
    uint64_t refused = estimate_best(sets, graph.ways, revision, graph.limit, graph.tracked, graph.tracked_count, graph.runs, graph.nodes,
                                     graph.accesses, graph.access_count, graph.edges, graph.edge_numbers,
                                     lent.result.at, lent.result_words, lent.work.at, lent.work_words, &lent.states);
    if (refused != 0)
        print_refused(refused, &lent);
    else
        print_best_table(&lent);
    return true;
}

/* exact/mask/misses/hits/units, or open/.. */
static bool read_best_state(const char *text, struct estimate_best_state *state)
{
    uint64_t *const numbers[4] = {&state->mask, &state->misses, &state->hits, &state->units};
    state->exact = strncmp(text, "exact/", 6) == 0;
    if (!state->exact && strncmp(text, "open/", 5) != 0)
        return false;
    text += state->exact ? 6 : 5;
    for (size_t i = 0; i < 4; i++) {
        text = read_decimal(text, '/', numbers[i]);
        if (text == NULL || (*text == '/') != (i < 3))
            return false;
        text++;
    }
    return true;
}

/* A row of such states: how many, and then so many. Taking it uses up the words. */
static bool take_best_row(const struct words *words, size_t *taken, size_t *count, struct estimate_best_state **row)
{
    uint32_t states;
    if (!take_half(words, taken, &states) || states != words->count - *taken)
        return false;
    *count = states;
    *row = keep(states * STATE_BYTES);
    for (size_t i = 0; i < states; i++) {
        if (!read_best_state(words->list[*taken + i], *row + i))
            return false;
    }
    return true;
}

static void print_spread(const struct room *room, uint32_t places, uint64_t largest)
{
    expect(largest < places, "a larger count than there is room for");
    printf("spread");
    for (uint64_t count = 0; count <= largest && count < places; count++)
        printf(" %" PRIu64, ((const uint64_t *)room->at)[count]);
    printf("\n");
    expect_zero(room, (size_t)(largest + 1) * sizeof(uint64_t));
}

/* best_spread hits ROOM COUNT {BEST}, or best_spread misses .. */
bool answer_best_spread(const struct words *words)
{
    struct estimate_best_state *row;
    uint32_t places;
    size_t taken = 1, states;
    uint64_t largest = UNWRITTEN, refused;
    if (words->count == 0 || (strcmp(words->list[0], "hits") != 0 && strcmp(words->list[0], "misses") != 0))
        return false;
    if (!take_half(words, &taken, &places) || !take_best_row(words, &taken, &states, &row))
        return false;
    struct room room = lend("spread", places * sizeof(uint64_t));
    if (strcmp(words->list[0], "hits") == 0)
        refused = estimate_best_hit_spread((const uint64_t *)row, ESTIMATE_STATE_WORDS * states, states, room.at, places, &largest);
    else
        refused = estimate_best_miss_spread((const uint64_t *)row, ESTIMATE_STATE_WORDS * states, states, room.at, places, &largest);
    if (refused == 0) {
        print_spread(&room, places, largest);
        return true;
    }
    print_refusal(refused);
    expect_unchanged(&room);
    expect(largest == UNWRITTEN, "a refused call has written a number");
    return true;
}
