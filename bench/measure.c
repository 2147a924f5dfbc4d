/* Measures the graph call of the proved library against plain C on the heavy inputs, in one process and taking turns. `measure` prints the
 * table; `measure NAME ours|plain [TIMES]` makes only that call, so many times, for a profiler. CPU time, best of several. */
#define _POSIX_C_SOURCE 199309L /* clock_gettime */

#include <float.h>
#include <stdbool.h>
#include <stdio.h>
#include <stdlib.h>
#include <string.h>
#include <time.h>

#include "estimate.h"
#include "inputs.h"
#include "plain.h"

/* How many measurements of each; the least is taken. */
#define MEASUREMENTS 7

/* One measurement takes at least this long, by repeating a call that is shorter. */
#define LEAST_MS 10.0

/* What a call leaves. */
struct outcome {
    uint64_t refusal, aside;
    size_t states;
    uint64_t table[ESTIMATE_RESULT_WORDS];
};

typedef void graph_call(const struct input *input, struct outcome *outcome);

static void call_ours(const struct input *input, struct outcome *outcome)
{
    static uint64_t work[ESTIMATE_WORK_WORDS];
    outcome->refusal = estimate_graph(input->sets, input->ways, input->revision, input->start, input->limit, input->tracked,
                                      input->tracked_count, input->runs, input->nodes, input->accesses, input->access_count,
                                      input->edges, input->edge_numbers, outcome->table, ESTIMATE_RESULT_WORDS,
                                      work, ESTIMATE_WORK_WORDS, &outcome->states, &outcome->aside);
}

static void call_plain(const struct input *input, struct outcome *outcome)
{
    struct plain_state table[ESTIMATE_MOST_STATES];
    size_t states = 0;
    outcome->refusal = (uint64_t)plain_graph(input->sets, input->ways, input->revision, input->start, input->limit, input->tracked,
                                             input->tracked_count, input->runs, input->nodes, input->accesses,
                                             input->access_count, input->edges, input->edge_numbers, ESTIMATE_RESULT_WORDS,
                                             ESTIMATE_WORK_WORDS, table, &states, &outcome->aside);
    outcome->states = states;
    memcpy(outcome->table, table, sizeof outcome->table);
}

static double cpu_ms(void)
{
    struct timespec now;
    clock_gettime(CLOCK_PROCESS_CPUTIME_ID, &now);
    return (double)now.tv_sec * 1e3 + (double)now.tv_nsec / 1e6;
}

/* The milliseconds of one call, over so many in a row. */
static double time_calls(graph_call *call, const struct input *input, struct outcome *outcome, unsigned times)
{
    double start = cpu_ms();
    for (unsigned i = 0; i < times; i++)
        call(input, outcome);
    return (cpu_ms() - start) / times;
}

/* How often a call is repeated in one measurement. */
static unsigned choose_times(graph_call *call, const struct input *input, struct outcome *outcome)
{
    double once = time_calls(call, input, outcome, 1);
    return once >= LEAST_MS ? 1 : (unsigned)(LEAST_MS / (once > 0.01 ? once : 0.01)) + 1;
}

static double smaller(double a, double b)
{
    return b < a ? b : a;
}

/* The positive number whose power is `product`, by halves: no log and exp, since a static libm cannot be linked everywhere. */
static double root(double product, unsigned power)
{
    double low = 0, high = product > 1 ? product : 1;
    for (int half = 0; half < 200; half++) {
        double middle = (low + high) / 2, raised = 1;
        for (unsigned i = 0; i < power; i++)
            raised *= middle;
        *(raised < product ? &low : &high) = middle;
    }
    return high;
}

/* Measures both in turns; false if their results are not the same accepted one. */
static bool measure_both(const struct input *input, double *ours, double *plain)
{
    static struct outcome our_outcome, plain_outcome;
    unsigned our_times = choose_times(call_ours, input, &our_outcome);
    unsigned plain_times = choose_times(call_plain, input, &plain_outcome);
    *ours = *plain = DBL_MAX;
    for (int i = 0; i < MEASUREMENTS; i++) {
        *ours = smaller(*ours, time_calls(call_ours, input, &our_outcome, our_times));
        *plain = smaller(*plain, time_calls(call_plain, input, &plain_outcome, plain_times));
    }
    return our_outcome.refusal == 0 && memcmp(&our_outcome, &plain_outcome, sizeof our_outcome) == 0;
}

/* The heavy inputs, a line each, then the mean and the worst of their ratios; false if a result differs. */
static bool measure_heavy(struct input *input, double *mean, double *worst, const char **worst_name)
{
    double product = 1, ours, plain;
    bool equal = true;
    *worst = 0;
    printf("%-18s %10s %10s %7s\n", "input", "ours ms", "plain ms", "ratio");
    for (size_t which = 0; which < HEAVY_INPUTS; which++) {
        const char *name = make_heavy_input(which, input);
        bool same = measure_both(input, &ours, &plain);
        printf("%-18s %10.3f %10.3f %7.2f%s\n", name, ours, plain, ours / plain, same ? "" : "  RESULTS DIFFER");
        fflush(stdout);
        equal = equal && same;
        product *= ours / plain;
        if (ours / plain > *worst) {
            *worst = ours / plain;
            *worst_name = name;
        }
    }
    *mean = root(product, HEAVY_INPUTS);
    return equal;
}

/* The inputs for growth: the time of one access should not rise with their number. */
static bool measure_growth(struct input *input)
{
    double ours, plain;
    bool equal = true;
    printf("%-18s %10s %10s\n", "accesses", "ours us", "plain us");
    for (size_t which = HEAVY_INPUTS; which < HEAVY_INPUTS + GROWTH_INPUTS; which++) {
        make_heavy_input(which, input);
        bool same = measure_both(input, &ours, &plain);
        double accesses = (double)input->access_count;
        printf("%-18zu %10.3f %10.3f%s\n", input->access_count, 1e3 * ours / accesses, 1e3 * plain / accesses,
               same ? "" : "  RESULTS DIFFER");
        fflush(stdout);
        equal = equal && same;
    }
    return equal;
}

/* Only one side's call on one input, so many times, for a profiler. */
static int run_one(struct input *input, const char *wanted, const char *side, unsigned long times)
{
    static struct outcome outcome;
    const char *name = NULL;
    for (size_t which = 0; (name = make_heavy_input(which, input)) != NULL; which++) {
        if (strcmp(name, wanted) == 0)
            break;
    }
    bool ours = strcmp(side, "ours") == 0;
    if (name == NULL || (!ours && strcmp(side, "plain") != 0)) {
        fprintf(stderr, "measure [NAME ours|plain [TIMES]]\n");
        return 2;
    }
    for (unsigned long i = 0; i < times; i++)
        (ours ? call_ours : call_plain)(input, &outcome);
    printf("%s %s %lu times: %lu states\n", name, side, times, (unsigned long)outcome.states);
    return 0;
}

int main(int argument_count, char **arguments)
{
    static struct input input;
    double mean, worst;
    const char *worst_name = "";
    if (argument_count > 2)
        return run_one(&input, arguments[1], arguments[2], argument_count > 3 ? strtoul(arguments[3], NULL, 10) : 1);
    bool equal = measure_heavy(&input, &mean, &worst, &worst_name);
    equal = measure_growth(&input) && equal;
    printf("geometric mean %.2f, worst %.2f (%s)\n", mean, worst, worst_name);
    return equal ? 0 : 1;
}
