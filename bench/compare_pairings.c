/* Compares the library's graph call with pairings with plain C on random graphs with pairings that are planned at random, accepted or damaged: `compare_pairings [count [seed
 * [number]]]`. With a number, only the case of that number is run, to repeat a difference. Exit status 1 if there was a difference, or if an answer or a refusal never
 * occurred. */
#include <inttypes.h>
#include <stdio.h>
#include <stdlib.h>
#include <string.h>

#include "estimate.h"
#include "inputs.h"
#include "pairings.h"

/* What rooms are filled with before a call; where a call writes nothing it is found again. */
#define PATTERN_BYTE 0xa5

/* Rooms are longer than what is lent, so that a write beyond it is seen. */
#define MORE 24

/* The most joins of a graph and some more, and rows for a good many of them. */
#define JOINS_ROOM 2000
#define ROW_NUMBERS_ROOM 600000

/* Refusals are counted by number, and 0 for none. */
#define NUMBERS 20

/* The case at hand, and what has been counted so far. */
struct run {
    uint64_t seed, number;
    unsigned long answers[NUMBERS], pairings, differences;
};

/* A graph, and what is handed in for its joins. */
struct case_made {
    struct input input;
    size_t joins, row_numbers;
    uint64_t counts[JOINS_ROOM], rows[ROW_NUMBERS_ROOM];
};

struct rooms {
    struct plain_state result[(INPUT_RESULT_ROOM + MORE) / PLAIN_STATE_WORDS + 1];
    uint64_t aside;
    size_t states;
};

static void expect(struct run *run, bool holds, const char *what)
{
    if (!holds) {
        run->differences++;
        printf("difference: seed %" PRIu64 " number %" PRIu64 ": %s\n", run->seed, run->number, what);
    }
}

/* ---- Pairings ---- */

/* What the planner draws from, how many rows there is still room for, and how many pairings it made. */
struct planning {
    struct generator from;
    size_t room;
    unsigned long made;
};

/* The places below n in random order. */
static void shuffle(struct generator *from, size_t *places, size_t n)
{
    for (size_t i = 0; i < n; i++)
        places[i] = i;
    for (size_t i = n; i > 1; i--) {
        size_t j = draw_below(from, (uint32_t)i), place = places[i - 1];
        places[i - 1] = places[j];
        places[j] = place;
    }
}

/* Both tables in random orders, as many units at a time as the smaller remaining amount allows, some of them in two rows. */
static uint64_t plan_rows(struct generator *from, const struct plain_join *join, uint64_t *rows)
{
    size_t left[64], right[64], i = 0, j = 0;
    uint64_t count = 0, left_units, right_units;
    shuffle(from, left, join->left_count);
    shuffle(from, right, join->right_count);
    left_units = join->left[left[0]].units;
    right_units = join->right[right[0]].units;
    while (i < join->left_count && j < join->right_count) {
        uint64_t units = left_units < right_units ? left_units : right_units;
        if (units > 1 && draw_below(from, 8) == 0)
            units = 1 + draw(from) % (units - 1);
        rows[3 * count] = left[i];
        rows[3 * count + 1] = right[j];
        rows[3 * count + 2] = units;
        count++;
        left_units -= units;
        right_units -= units;
        if (left_units == 0 && ++i < join->left_count)
            left_units = join->left[left[i]].units;
        if (right_units == 0 && ++j < join->right_count)
            right_units = join->right[right[j]].units;
    }
    return count;
}

/* One number of a row changed, so that the pairing is hardly ever accepted any more. */
static void damage_row_of(struct generator *from, uint64_t *row)
{
    switch (draw_below(from, 5)) {
    case 0: row[2] = 0; break;
    case 1: row[2]++; break;
    case 2: row[2] += (uint64_t)1 << 63; break;
    case 3: row[0] += 1 + draw_below(from, 64); break;
    default: row[1] = draw(from); break;
    }
}

static uint64_t plan(void *planning, const struct plain_join *join, uint64_t *rows)
{
    struct planning *p = planning;
    if (draw_below(&p->from, 3) == 0 || p->room < 3 * 2 * PLAIN_PAIRING_ROWS)
        return PLAIN_NO_PAIRING;
    uint64_t count = plan_rows(&p->from, join, rows);
    if (draw_below(&p->from, 40) == 0)
        damage_row_of(&p->from, rows + 3 * draw_below(&p->from, (uint32_t)count));
    if (draw_below(&p->from, 80) == 0)
        count--;
    p->room -= 3 * count;
    p->made++;
    return count;
}

/* Entries or rows more or fewer than there are, or a number of rows that is too large. */
static void damage_form(struct generator *from, struct case_made *made)
{
    switch (draw_below(from, 5)) {
    case 0: made->counts[made->joins++] = PLAIN_NO_PAIRING; break;
    case 1: made->joins -= made->joins > 0; break;
    case 2: made->rows[made->row_numbers++] = 1; break;
    case 3: made->row_numbers -= made->row_numbers > 0; break;
    default:
        if (made->joins > 0)
            made->counts[draw_below(from, (uint32_t)made->joins)] += 1 + draw_below(from, 2000);
    }
}

static void make_case(struct run *run, struct case_made *made)
{
    struct planning planning = {.from = generator_of(run->seed, run->number), .room = ROW_NUMBERS_ROOM};
    struct generator *from = &planning.from;
    struct plain_input graph;
    do
        make_random_input(from, &made->input);
    while (made->input.edge_numbers < 6 && draw_below(from, 8) != 0);
    graph = (struct plain_input){made->input.sets,  made->input.ways,  made->input.revision, made->input.start,    made->input.limit,        made->input.tracked,
                                 made->input.tracked_count, made->input.runs,  made->input.nodes,    made->input.accesses, made->input.access_count, made->input.edges,
                                 made->input.edge_numbers};
    made->joins = plain_plan(&graph, plan, &planning, made->counts, made->rows, &made->row_numbers);
    run->pairings += planning.made;
    if (draw_below(from, 10) == 0)
        damage_form(from, made);
    if (draw_below(from, 20) == 0)
        damage_input(from, &made->input);
}

/* ---- The comparison ---- */

static void compare_case(struct run *run, const struct case_made *made)
{
    static struct rooms ours, plain;
    static uint64_t work[INPUT_WORK_ROOM + MORE], expected[INPUT_WORK_ROOM + MORE];
    const struct input *g = &made->input;
    const struct plain_input graph = {g->sets, g->ways, g->revision, g->start, g->limit, g->tracked, g->tracked_count, g->runs, g->nodes, g->accesses, g->access_count,
                                      g->edges, g->edge_numbers};
    const struct plain_entries entries = {made->counts, made->rows, made->joins, made->row_numbers};
    memset(&ours, PATTERN_BYTE, sizeof ours);
    memset(&plain, PATTERN_BYTE, sizeof plain);
    memset(work, PATTERN_BYTE, sizeof work);
    memset(expected, PATTERN_BYTE, sizeof expected);
    uint64_t number = estimate_graph_paired(g->sets, g->ways, g->revision, g->start == 1, g->limit, g->tracked, g->tracked_count, g->runs, g->nodes, g->accesses,
                                            g->access_count, g->edges, g->edge_numbers, made->counts, made->joins, made->rows, made->row_numbers,
                                            (uint64_t *)ours.result, g->result_words, work, g->work_words, &ours.states, &ours.aside);
    int refusal = plain_graph_paired(&graph, &entries, g->result_words, g->work_words, plain.result, &plain.states, &plain.aside);
    run->answers[refusal]++;
    if (refusal == 0)
        memset((uint64_t *)plain.result + g->result_words / PLAIN_STATE_WORDS * PLAIN_STATE_WORDS, 0, g->result_words % PLAIN_STATE_WORDS * sizeof(uint64_t));
    if (refusal == 0 || refusal == 19)
        memset(expected, 0, g->work_words * sizeof *expected);
    expect(run, number == (uint64_t)refusal, "refusal of a graph with pairings");
    expect(run, memcmp(&ours, &plain, sizeof ours) == 0, "table and numbers of a graph with pairings");
    expect(run, memcmp(work, expected, sizeof work) == 0, "working room after a graph with pairings");
}

static void run_case(struct run *run, uint64_t number)
{
    static struct case_made made;
    run->number = number;
    make_case(run, &made);
    compare_case(run, &made);
}

int main(int argument_count, char **arguments)
{
    uint64_t count = argument_count > 1 ? strtoull(arguments[1], NULL, 10) : 4000;
    struct run run = {.seed = argument_count > 2 ? strtoull(arguments[2], NULL, 10) : 1};
    bool complete = true;
    if (argument_count > 3) {
        run_case(&run, strtoull(arguments[3], NULL, 10));
    } else {
        for (uint64_t number = 0; number < count; number++)
            run_case(&run, number);
        complete = run.answers[0] > 0 && run.answers[19] > 0 && run.answers[6] > 0 && run.pairings > 0;
        if (!complete)
            printf("error: of the answers 0, 19 and 6 one never occurred\n");
    }
    unsigned long all = 0;
    for (size_t i = 0; i < NUMBERS; i++)
        all += run.answers[i];
    printf("graphs with pairings: %lu accepted, %lu refused 19, %lu refused otherwise; %lu pairings\n", run.answers[0], run.answers[19],
           all - run.answers[0] - run.answers[19], run.pairings);
    printf("compared: %lu graphs with pairings, %lu differences\n", all, run.differences);
    return run.differences == 0 && complete ? 0 : 1;
}
