/* Compares the library's best case with plain C: its graph call on random, damaged and border inputs, and the spreads of the tables that it leaves and of damaged ones:
 * `compare_best [count [seed [number]]]`. With a number, only the case of that number is run, to repeat a difference. Exit status 1 if there was a difference, or if an
 * answer or a refusal never occurred. */
#include <inttypes.h>
#include <stdbool.h>
#include <stdio.h>
#include <stdlib.h>
#include <string.h>

#include "best.h"
#include "estimate.h"
#include "inputs.h"

/* What rooms are filled with before a call; where a call writes nothing it is found again. */
#define PATTERN_BYTE 0xa5

/* Rooms are longer than what is lent, so that a write beyond it is seen. */
#define MORE 24

/* Refusals are counted by number, and 0 for none. */
#define NUMBERS 19

/* The case at hand, and what has been counted so far: graph calls and spreads by their answer, tables with exact and with open states. */
struct run {
    uint64_t seed, number;
    unsigned long graphs[NUMBERS], spreads[NUMBERS], exact, open, differences;
};

/* A table of the best case in words, as the library has it, somewhat longer than any. */
struct best_row {
    size_t states, words;
    struct best_state list[INPUT_ROW_ROOM];
};

static void expect(struct run *run, bool holds, const char *what)
{
    if (!holds) {
        run->differences++;
        printf("difference: seed %" PRIu64 " number %" PRIu64 ": %s\n", run->seed, run->number, what);
    }
}

/* ---- The graph call ---- */

/* Every accessed block is one of the tracked ones, if there are any. */
static void track_accesses(struct generator *from, struct input *input)
{
    if (input->tracked_count == 0)
        return;
    for (size_t i = 0; i < input->access_count; i++)
        input->accesses[i] = input->tracked[draw_below(from, (uint32_t)input->tracked_count)];
}

static void make_input(struct generator *from, struct input *input, uint64_t number)
{
    if (number % 16 == 7)
        make_border_input(from, input);
    else
        make_random_input(from, input);
    if (draw_below(from, 8) != 0)
        track_accesses(from, input);
    if (draw_below(from, 8) != 0)
        input->revision = 1;
    if (number % 4 == 3)
        damage_input(from, input);
}

static int in_plain_c(const struct input *input, struct best_state *table, size_t *states)
{
    const struct best_input in = {
        input->sets, input->ways, input->revision, input->limit, input->tracked, input->tracked_count, input->runs, input->nodes,
        input->accesses, input->access_count, input->edges, input->edge_numbers,
    };
    return best_graph(&in, input->result_words / BEST_STATE_WORDS, input->work_words / BEST_STATE_WORDS, table, states);
}

/* Both are asked. The words of the result room beyond the last whole state are zero too. What the call left is the table of the questions. */
static int compare_graph(struct run *run, const struct input *input, struct best_row *row)
{
    static uint64_t ours[INPUT_RESULT_ROOM + MORE], plain[INPUT_RESULT_ROOM + MORE], work[INPUT_WORK_ROOM + MORE], work_after[INPUT_WORK_ROOM + MORE];
    size_t our_states = (size_t)-1, states = (size_t)-1, over = input->result_words % BEST_STATE_WORDS;
    memset(ours, PATTERN_BYTE, sizeof ours);
    memset(plain, PATTERN_BYTE, sizeof plain);
    memset(work, PATTERN_BYTE, sizeof work);
    memset(work_after, PATTERN_BYTE, sizeof work_after);
    uint64_t number = estimate_best(input->sets, input->ways, input->revision, input->limit, input->tracked, input->tracked_count, input->runs, input->nodes,
                                    input->accesses, input->access_count, input->edges, input->edge_numbers, ours, input->result_words, work, input->work_words,
                                    &our_states);
    int refused = in_plain_c(input, (struct best_state *)plain, &states);
    if (refused == 0) {
        memset(plain + input->result_words - over, 0, over * sizeof *plain);
        memset(work_after, 0, input->work_words * sizeof *work);
    }
    expect(run, number == (uint64_t)refused, "the graph call's answer");
    expect(run, our_states == states, "the number of states");
    expect(run, memcmp(ours, plain, sizeof ours) == 0, "the result room");
    expect(run, memcmp(work, work_after, sizeof work) == 0, "the working room");
    run->graphs[refused]++;
    row->states = refused == 0 ? states : 0;
    row->words = row->states * BEST_STATE_WORDS;
    memcpy(row->list, plain, row->states * sizeof *row->list);
    return refused;
}

/* ---- The spreads ---- */

/* A number of a state changed, two states exchanged, one too many or too few; a first word that is neither 0 nor 1 says that a state is open. */
static void damage_best_row(struct generator *from, struct best_row *row)
{
    struct best_state *s = &row->list[draw_below(from, (uint32_t)row->states)], kept = *s;
    const uint64_t edge[] = {0, 1, 4095, 4096, 4097, 65535, 65536, UINT64_MAX};
    switch (draw_below(from, 10)) {
    case 0: s->exact = s->exact == 1 ? 0 : 1; break;
    case 1: s->exact = 2 + draw_below(from, 3); break;
    case 2: s->mask = edge[draw_below(from, 8)]; break;
    case 3: s->misses = edge[draw_below(from, 8)]; break;
    case 4: s->hits = edge[draw_below(from, 8)]; break;
    case 5: s->units += draw_below(from, 3) - 1; break;
    case 6: s->units = draw_below(from, 2) == 0 ? 0 : UINT64_MAX; break;
    case 7: *s = row->list[0]; row->list[0] = kept; break;
    case 8: row->list[row->states++] = kept; break;
    default: row->states--; break;
    }
    row->words = row->states * BEST_STATE_WORDS + draw_below(from, 2) * draw_below(from, 5);
}

/* What plain C is asked: of a first word it matters only whether it is 1. */
static void read_states(const struct best_row *row, size_t asked, struct best_row *read)
{
    *read = *row;
    read->states = asked < row->words / BEST_STATE_WORDS ? asked : row->words / BEST_STATE_WORDS;
    for (size_t i = 0; i < INPUT_ROW_ROOM; i++)
        read->list[i].exact = row->list[i].exact == 1;
}

static void compare_spread(struct run *run, const struct best_row *row, size_t asked, bool of_hits, size_t places)
{
    static uint64_t ours[ESTIMATE_SPREAD_COUNTS + MORE], plain[ESTIMATE_SPREAD_COUNTS + MORE];
    static struct best_row read;
    uint64_t our_largest = UINT64_MAX, largest = UINT64_MAX, number;
    const uint64_t *words = (const uint64_t *)row->list;
    memset(ours, PATTERN_BYTE, sizeof ours);
    memset(plain, PATTERN_BYTE, sizeof plain);
    read_states(row, asked, &read);
    number = of_hits ? estimate_best_hit_spread(words, row->words, asked, ours, places, &our_largest)
                     : estimate_best_miss_spread(words, row->words, asked, ours, places, &our_largest);
    int refused = best_spread(read.list, read.states, of_hits, plain, places, &largest);
    expect(run, number == (uint64_t)refused, "a spread's answer");
    expect(run, our_largest == largest, "the largest count");
    expect(run, memcmp(ours, plain, sizeof ours) == 0, "the spread room");
    run->spreads[refused]++;
}

/* Rooms of no place, of just enough and one less, and of the largest; all states are asked, more than there are, or fewer. */
static void compare_spreads(struct run *run, struct generator *from, const struct best_row *row)
{
    uint64_t most[2] = {0, 0};
    for (size_t i = 0; i < row->states; i++) {
        most[0] = row->list[i].misses > most[0] ? row->list[i].misses : most[0];
        most[1] = row->list[i].hits > most[1] ? row->list[i].hits : most[1];
        run->exact += row->list[i].exact == 1;
        run->open += row->list[i].exact != 1;
    }
    for (int of_hits = 0; of_hits < 2; of_hits++) {
        const size_t enough = most[of_hits] < ESTIMATE_SPREAD_COUNTS ? (size_t)most[of_hits] + 1 : ESTIMATE_SPREAD_COUNTS;
        const size_t places[] = {0, enough - 1, enough, ESTIMATE_SPREAD_COUNTS};
        for (size_t i = 0; i < sizeof places / sizeof *places; i++)
            compare_spread(run, row, row->states + draw_below(from, 2), of_hits == 1, places[i]);
        compare_spread(run, row, draw_below(from, (uint32_t)row->states + 1), of_hits == 1, enough);
    }
}

/* ---- Cases ---- */

static void run_case(struct run *run, uint64_t number)
{
    static struct input input;
    static struct best_row row;
    struct generator from = generator_of(run->seed, number);
    run->number = number;
    make_input(&from, &input, number);
    if (compare_graph(run, &input, &row) != 0)
        return;
    compare_spreads(run, &from, &row);
    damage_best_row(&from, &row);
    compare_spreads(run, &from, &row);
}

/* A call is refused with each of these. */
static bool all_occurred(const struct run *run)
{
    const int graph_refusals[] = {0, 1, 10, 11, 18, 2, 3, 4, 5, 17, 6};
    bool all = run->exact > 0 && run->open > 0 && run->spreads[0] > 0 && run->spreads[7] > 0 && run->spreads[8] > 0;
    for (size_t i = 0; i < sizeof graph_refusals / sizeof *graph_refusals; i++)
        all = all && run->graphs[graph_refusals[i]] > 0;
    return all;
}

int main(int argument_count, char **arguments)
{
    uint64_t count = argument_count > 1 ? strtoull(arguments[1], NULL, 10) : 4000;
    struct run run = {.seed = argument_count > 2 ? strtoull(arguments[2], NULL, 10) : 1};
    bool complete = true;
    if (argument_count > 3) {
        run_case(&run, strtoull(arguments[3], NULL, 10));
    } else {
        for (uint64_t number = 0; number < count; number++)
            run_case(&run, number);
        complete = all_occurred(&run);
        if (!complete)
            printf("error: an answer or a refusal never occurred\n");
    }
    printf("best cases: %lu done", run.graphs[0]);
    for (int i = 1; i < NUMBERS; i++) {
        if (run.graphs[i] > 0)
            printf(", %lu refused %d", run.graphs[i], i);
    }
    printf("; spreads: %lu done, %lu refused 7, %lu refused 8\n", run.spreads[0], run.spreads[7], run.spreads[8]);
    printf("compared: %lu exact states, %lu open, %lu differences\n", run.exact, run.open, run.differences);
    return run.differences == 0 && complete ? 0 : 1;
}
