/* Measures 256 graphs in one nightly build against a graph call, a longest path and a smallest budget for each of them, in one process and taking turns: CPU time, best
 * of several. */
#define _POSIX_C_SOURCE 199309L /* clock_gettime */

#include <float.h>
#include <stdbool.h>
#include <stdio.h>
#include <string.h>
#include <time.h>

#include "estimate.h"
#include "inputs.h"

#define GRAPHS ESTIMATE_MOST_GRAPHS
#define MEASUREMENTS 7
#define LIST_ROOM 2000000

static struct input inputs[GRAPHS];
static uint32_t numbers[LIST_ROOM];
static size_t count;

/* 256 random graphs, and the list of them. */
static void make_list(void)
{
    static struct number_list graph;
    for (uint64_t i = 0; i < GRAPHS; i++) {
        struct generator from = generator_of(1, i);
        make_random_input(&from, &inputs[i]);
        inputs[i].sets = inputs[i].revision = 1;
        inputs[i].start = 0;
        numbers_of_input(&inputs[i], &graph);
        numbers[count++] = (uint32_t)graph.count;
        memcpy(numbers + count, graph.list, graph.count * sizeof *graph.list);
        count += graph.count;
    }
}

static double cpu_ms(void)
{
    struct timespec now;
    clock_gettime(CLOCK_PROCESS_CPUTIME_ID, &now);
    return (double)now.tv_sec * 1e3 + (double)now.tv_nsec / 1e6;
}

static double build(uint64_t *rows)
{
    static uint64_t work[ESTIMATE_NIGHTLY_WORDS];
    uint64_t r[8];
    double start = cpu_ms();
    estimate_nightly(numbers, count, 0, rows, GRAPHS * ESTIMATE_ROW_WORDS, work, ESTIMATE_NIGHTLY_WORDS, &r[0], &r[1], &r[2], &r[3], &r[4], &r[5],
                     &r[6], &r[7]);
    return cpu_ms() - start;
}

/* The row of one graph by three calls. */
static void ask(const struct input *g, uint64_t *row)
{
    static uint64_t result[ESTIMATE_RESULT_WORDS], work[ESTIMATE_WORK_WORDS];
    size_t states = 0;
    memset(row, 0, ESTIMATE_ROW_WORDS * sizeof *row);
    row[0] = estimate_graph(1, g->ways, 1, ESTIMATE_COLD, g->limit, g->tracked, g->tracked_count, g->runs, g->nodes, g->accesses, g->access_count, g->edges,
                            g->edge_numbers, result, ESTIMATE_RESULT_WORDS, work, ESTIMATE_WORK_WORDS, &states, &row[2]);
    if (row[0] != ESTIMATE_DONE)
        return;
    row[1] = states;
    estimate_longest_path(1, g->ways, 1, ESTIMATE_COLD, g->limit, g->tracked, g->tracked_count, g->runs, g->nodes, g->accesses, g->access_count, g->edges,
                          g->edge_numbers, &row[3]);
    estimate_smallest_budget(result, ESTIMATE_RESULT_WORDS, states, 0, &row[4]);
}

static double ask_all(uint64_t *rows)
{
    double start = cpu_ms();
    for (size_t i = 0; i < GRAPHS; i++)
        ask(&inputs[i], rows + i * ESTIMATE_ROW_WORDS);
    return cpu_ms() - start;
}

int main(void)
{
    static uint64_t built[GRAPHS * ESTIMATE_ROW_WORDS], asked[GRAPHS * ESTIMATE_ROW_WORDS];
    double once = DBL_MAX, each = DBL_MAX;
    make_list();
    for (int i = 0; i < MEASUREMENTS; i++) {
        double one = build(built), many = ask_all(asked);
        once = one < once ? one : once;
        each = many < each ? many : each;
    }
    bool same = memcmp(built, asked, sizeof built) == 0;
    printf("256 graphs: %.3f ms in one call, %.3f ms in 256 of each, ratio %.2f%s\n", once, each, once / each, same ? "" : "  RESULTS DIFFER");
    return same ? 0 : 1;
}
