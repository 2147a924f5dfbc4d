/* Compares the library's nightly build with plain C on random, damaged and border lists of graphs: `compare_nightly [count [seed [number]]]`. With
 * a number, only the case of that number is run, to repeat a difference. Exit status 1 if there was a difference, or if an answer or a refusal never occurred. */
#include <inttypes.h>
#include <stdbool.h>
#include <stdio.h>
#include <stdlib.h>
#include <string.h>

#include "estimate.h"
#include "inputs.h"
#include "nightly.h"
#include "plain.h"

/* What rooms are filled with before a call; where a call writes nothing it is found again. */
#define PATTERN_BYTE 0xa5

/* Rooms are longer than what is lent, so that a write beyond it is seen. */
#define MORE 24

/* Room for more graphs than there may be, and for a list of them. */
#define MOST_ROWS (PLAIN_GRAPHS + 8)
#define LIST_ROOM 400000

/* Refusals are counted by number, and 0 for none: of lists, and of their rows. */
#define NUMBERS 21

/* The case at hand, and what has been counted so far. */
struct run {
    uint64_t seed, number;
    unsigned long lists[NUMBERS], graphs[NUMBERS], differences;
};

/* A list, and what is lent with it. */
struct batch {
    size_t count, rows_words, work_words;
    uint64_t allowance;
    uint32_t numbers[LIST_ROOM];
};

struct rooms {
    uint64_t rows[MOST_ROWS * PLAIN_ROW_WORDS + MORE], report[PLAIN_REPORT_WORDS];
};

static void expect(struct run *run, bool holds, const char *what)
{
    if (!holds) {
        run->differences++;
        printf("difference: seed %" PRIu64 " number %" PRIu64 ": %s\n", run->seed, run->number, what);
    }
}

/* ---- Lists ---- */

/* The numbers of one graph: random, damaged or on the border of how many there may be. */
static void make_graph(struct generator *from, struct number_list *numbers)
{
    static struct input input;
    if (draw_below(from, 24) == 0) {
        make_border_numbers(from, numbers);
        return;
    }
    make_random_input(from, &input);
    if (draw_below(from, 2) == 0)
        damage_input(from, &input);
    numbers_of_input(&input, numbers);
    if (draw_below(from, 4) == 0 && numbers->count > 0)
        damage_numbers(from, numbers);
}

/* A graph behind the others, if there is room for it. */
static bool add_graph(struct batch *batch, const struct number_list *numbers)
{
    if (LIST_ROOM - batch->count < numbers->count + 1)
        return false;
    batch->numbers[batch->count++] = (uint32_t)numbers->count;
    memcpy(batch->numbers + batch->count, numbers->list, numbers->count * sizeof *numbers->list);
    batch->count += numbers->count;
    return true;
}

/* An allowance: none, any, or one on which a budget turns, such as three quarters of the whole, or one unit less. */
static uint64_t draw_allowance(struct generator *from)
{
    switch (draw_below(from, 3)) {
    case 0: return 0;
    case 1: return draw(from) >> (14 + draw_below(from, 48));
    default: return (PLAIN_WHOLE >> (1 + draw_below(from, 8))) * (1 + draw_below(from, 3)) - draw_below(from, 2);
    }
}

/* A few graphs, or about as many as there may be, most of them without numbers; with just enough room, more, or not enough; sometimes with a count changed. */
static void make_batch(struct generator *from, struct batch *batch)
{
    static struct number_list numbers, none;
    size_t graphs = draw_below(from, 6), fill = draw_below(from, 4) == 0 ? 254 + draw_below(from, 5) : graphs, made = 0;
    batch->count = 0;
    for (; made < graphs; made++) {
        make_graph(from, &numbers);
        if (!add_graph(batch, &numbers))
            break;
    }
    for (; made < fill && add_graph(batch, &none); made++)
        ;
    if (batch->count > 0 && draw_below(from, 6) == 0)
        batch->numbers[draw_below(from, 2) == 0 ? 0 : draw_below(from, (uint32_t)batch->count)] += draw_below(from, 2) == 0 ? 1 : UINT32_MAX;
    batch->rows_words = (made < MOST_ROWS ? made : MOST_ROWS) * PLAIN_ROW_WORDS + (draw_below(from, 3) == 0 && made < 256 ? draw_below(from, 30) : 0);
    if (batch->rows_words > 0 && draw_below(from, 8) == 0)
        batch->rows_words--;
    batch->work_words = draw_below(from, 8) == 0 ? ESTIMATE_NIGHTLY_WORDS - 1 : ESTIMATE_NIGHTLY_WORDS + draw_below(from, 9);
    batch->allowance = draw_allowance(from);
}

/* ---- The comparison ---- */

static void count_rows(struct run *run, const uint64_t *rows, size_t words)
{
    for (size_t i = 0; i + PLAIN_ROW_WORDS <= words; i += PLAIN_ROW_WORDS)
        run->graphs[rows[i] < NUMBERS ? rows[i] : 0]++;
}

static void compare_batch(struct run *run, const struct batch *batch)
{
    static struct rooms ours, plain;
    static uint64_t work[ESTIMATE_NIGHTLY_WORDS + MORE], untouched[ESTIMATE_NIGHTLY_WORDS + MORE];
    memset(&ours, PATTERN_BYTE, sizeof ours);
    memset(&plain, PATTERN_BYTE, sizeof plain);
    memset(work, PATTERN_BYTE, sizeof work);
    memset(untouched, PATTERN_BYTE, sizeof untouched);
    uint64_t *r = ours.report;
    uint64_t number = estimate_nightly(batch->numbers, batch->count, batch->allowance, ours.rows, batch->rows_words, work, batch->work_words, &r[0], &r[1], &r[2],
                                       &r[3], &r[4], &r[5], &r[6], &r[7]);
    int refusal = plain_nightly(batch->numbers, batch->count, batch->allowance, plain.rows, batch->rows_words, batch->work_words, plain.report);
    run->lists[refusal]++;
    expect(run, number == (uint64_t)refusal, "refusal of a list");
    expect(run, memcmp(&ours, &plain, sizeof ours) == 0, "rows and report of a list");
    if (refusal == 0) {
        memset(untouched, 0, batch->work_words * sizeof *work);
        count_rows(run, plain.rows, batch->rows_words);
    }
    expect(run, memcmp(work, untouched, sizeof work) == 0, "working room after a list");
}

static void run_case(struct run *run, uint64_t number)
{
    static struct batch batch;
    struct generator from = generator_of(run->seed, number);
    run->number = number;
    make_batch(&from, &batch);
    compare_batch(run, &batch);
}

static bool occurred(unsigned long times, const char *what, int number)
{
    if (times == 0)
        printf("error: %s: %d never occurred\n", what, number);
    return times > 0;
}

static bool all_occurred(const struct run *run)
{
    static const int of_lists[] = {0, 20, 6}, of_graphs[] = {0, 9, 1, 2, 3, 4, 5};
    bool all = true;
    for (size_t i = 0; i < sizeof of_lists / sizeof *of_lists; i++)
        all = occurred(run->lists[of_lists[i]], "lists", of_lists[i]) && all;
    for (size_t i = 0; i < sizeof of_graphs / sizeof *of_graphs; i++)
        all = occurred(run->graphs[of_graphs[i]], "graphs", of_graphs[i]) && all;
    return all;
}

int main(int argument_count, char **arguments)
{
    uint64_t count = argument_count > 1 ? strtoull(arguments[1], NULL, 10) : 4000;
    struct run run = {.seed = argument_count > 2 ? strtoull(arguments[2], NULL, 10) : 1};
    bool complete = true;
    if (argument_count > 3) {
        run_case(&run, strtoull(arguments[3], NULL, 10));
    } else {
        for (uint64_t number = 0; number < count; number++)
            run_case(&run, number);
        complete = all_occurred(&run);
    }
    printf("nightly builds: %lu done, %lu refused 20, %lu refused 6; graphs refused 9: %lu, 1: %lu, 2: %lu, 3: %lu, 4: %lu, 5: %lu\n", run.lists[0], run.lists[20],
           run.lists[6], run.graphs[9], run.graphs[1], run.graphs[2], run.graphs[3], run.graphs[4], run.graphs[5]);
    printf("compared: %lu lists, %lu differences\n", run.lists[0] + run.lists[20] + run.lists[6], run.differences);
    return run.differences == 0 && complete ? 0 : 1;
}
