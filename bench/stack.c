/* How much of the stack each function of the library uses at most, on the heavy inputs and listings on the border. Each call runs in a context of its own, whose stack is
 * painted beforehand: what is no longer painted afterwards was used, from the address to return to on down, with the arguments that are passed on the stack. The program is
 * linked statically, so that no function is bound at its first call. */
#define _XOPEN_SOURCE 700 /* contexts */

#include <stdio.h>
#include <string.h>
#include <ucontext.h>

#include "estimate.h"
#include "inputs.h"
#include "tokens.h"

#define STACK_BYTES 65536
#define PAINT 0xa5
#define LISTINGS 2000

/* What the calls take and leave. */
static struct input input;
static struct number_list numbers;
static struct text text;
static struct token_list tokens;
static uint64_t table[ESTIMATE_RESULT_WORDS], work[ESTIMATE_WORK_WORDS], counts[ESTIMATE_SPREAD_COUNTS];
static struct estimate_state row[ESTIMATE_MOST_STATES];
static uint32_t read_numbers[ESTIMATE_NUMBERS], read_accesses[33 * ESTIMATE_BLOCK_ACCESSES];
static uint32_t runs[ESTIMATE_LISTING_RUNS], accesses[ESTIMATE_LISTING_ACCESSES], edges[ESTIMATE_LISTING_EDGE_NUMBERS];
static uint8_t output[ESTIMATE_CYCLES_OUTPUT_BYTES], trace[ESTIMATE_TRACE_BYTES];
static uint64_t places[33], value, longest;
static uint32_t graphs[ESTIMATE_NUMBERS + 1];
static uint64_t graph_row[ESTIMATE_ROW_WORDS], nightly_work[ESTIMATE_NIGHTLY_WORDS], report[8], best_table[ESTIMATE_RESULT_WORDS];
static size_t states, best_states, blocks, number, other, third;

/* Where the stack ends that a call uses: above the address to return to. Every context begins at the same one. */
static unsigned char *end;

static void find_end(void) { end = (unsigned char *)__builtin_frame_address(0) + 2 * sizeof(void *); }

static void call_graph(void)
{
    estimate_graph(input.sets, input.ways, input.revision, input.start, input.limit, input.tracked, input.tracked_count, input.runs, input.nodes,
                   input.accesses, input.access_count, input.edges, input.edge_numbers, table, ESTIMATE_RESULT_WORDS, work,
                   ESTIMATE_WORK_WORDS, &states, &value);
}

/* Entries for the joins: none for each of a heavy input, and a pairing for the one of a small graph. */
static uint64_t join_counts[INPUT_EDGES_ROOM], join_rows[12];
static size_t joins, row_numbers;

static void call_graph_paired(void)
{
    estimate_graph_paired(input.sets, input.ways, input.revision, input.start, input.limit, input.tracked, input.tracked_count, input.runs, input.nodes,
                          input.accesses, input.access_count, input.edges, input.edge_numbers, join_counts, joins, join_rows, row_numbers, table,
                          ESTIMATE_RESULT_WORDS, work, ESTIMATE_WORK_WORDS, &states, &value);
}

static void call_longest_path(void)
{
    estimate_longest_path(input.sets, input.ways, input.revision, input.start, input.limit, input.tracked, input.tracked_count, input.runs,
                          input.nodes, input.accesses, input.access_count, input.edges, input.edge_numbers, &longest);
}

static void call_above(void) { estimate_above(table, ESTIMATE_RESULT_WORDS, states, 100, &value); }
static void call_smallest_budget(void) { estimate_smallest_budget(table, ESTIMATE_RESULT_WORDS, states, 1000, &value); }
static void call_spread(void) { estimate_spread(table, ESTIMATE_RESULT_WORDS, states, counts, ESTIMATE_SPREAD_COUNTS, &value); }
static void call_within(void) { estimate_within(counts, ESTIMATE_SPREAD_COUNTS, 0, ESTIMATE_WHOLE); }
static void call_above_cycles(void) { estimate_above_cycles(table, ESTIMATE_RESULT_WORDS, states, 11, longest, 100, &value); }
static void call_smallest_cycles(void) { estimate_smallest_cycles(table, ESTIMATE_RESULT_WORDS, states, 11, longest, 1000, &value); }
static void call_row_above(void) { estimate_row_above(row, states, 100, &value); }
static void call_row_smallest_budget(void) { estimate_row_smallest_budget(row, states, 1000, &value); }
static void call_row_spread(void) { estimate_row_spread(row, states, counts, ESTIMATE_SPREAD_COUNTS, &value); }
static void call_row_above_cycles(void) { estimate_row_above_cycles(row, states, 11, longest, 100, &value); }
static void call_row_smallest_cycles(void) { estimate_row_smallest_cycles(row, states, 11, longest, 1000, &value); }

/* The rooms behind a text's numbers, as all four calls for text take them. */
#define ROOMS table, ESTIMATE_RESULT_WORDS, work, ESTIMATE_WORK_WORDS, counts, ESTIMATE_SPREAD_COUNTS, output

static void call_curve_of_text(void) { estimate_curve_of_text(text.list, text.bytes, read_numbers, ESTIMATE_NUMBERS, ROOMS, ESTIMATE_OUTPUT_BYTES); }
static void call_curve_of_numbers(void) { estimate_curve_of_numbers(numbers.list, numbers.count, ROOMS, ESTIMATE_OUTPUT_BYTES); }
static void call_cycles_of_text(void) { estimate_cycles_of_text(text.list, text.bytes, read_numbers, ESTIMATE_NUMBERS, ROOMS, ESTIMATE_CYCLES_OUTPUT_BYTES); }
static void call_cycles_of_numbers(void) { estimate_cycles_of_numbers(numbers.list, numbers.count, ROOMS, ESTIMATE_CYCLES_OUTPUT_BYTES); }
static void call_trace_write(void) { estimate_trace_write(input.accesses, input.access_count, trace, sizeof trace, &blocks); }
static void call_trace_read(void) { estimate_trace_read(trace, blocks * ESTIMATE_BLOCK_BYTES, read_accesses, blocks * ESTIMATE_BLOCK_ACCESSES, &number, &other); }
static void call_trace_damaged(void) { estimate_trace_damaged(trace, sizeof trace, places, 33, &number); }

static void call_nightly(void)
{
    estimate_nightly(graphs, numbers.count + 1, 1000, graph_row, ESTIMATE_ROW_WORDS, nightly_work, ESTIMATE_NIGHTLY_WORDS, &report[0], &report[1], &report[2],
                     &report[3], &report[4], &report[5], &report[6], &report[7]);
}

static void call_best(void)
{
    estimate_best(input.sets, input.ways, ESTIMATE_FIRST_REVISION, input.limit, input.tracked, input.tracked_count, input.runs, input.nodes, input.accesses,
                  input.access_count, input.edges, input.edge_numbers, best_table, ESTIMATE_RESULT_WORDS, work, ESTIMATE_WORK_WORDS, &best_states);
}

static void call_best_miss_spread(void) { estimate_best_miss_spread(best_table, ESTIMATE_RESULT_WORDS, best_states, counts, ESTIMATE_SPREAD_COUNTS, &value); }
static void call_best_hit_spread(void) { estimate_best_hit_spread(best_table, ESTIMATE_RESULT_WORDS, best_states, counts, ESTIMATE_SPREAD_COUNTS, &value); }

static void call_listing(void)
{
    estimate_listing(tokens.list, tokens.count, runs, ESTIMATE_LISTING_RUNS, accesses, ESTIMATE_LISTING_ACCESSES, edges,
                     ESTIMATE_LISTING_EDGE_NUMBERS, &number, &other, &third);
}

/* A function, and the most it has used; a later one takes what those before it left. */
struct measured {
    const char *name;
    void (*call)(void);
    size_t most;
};

static struct measured first = {"", find_end, 0}, listing = {"listing", call_listing, 0};

static struct measured functions[] = {
    {"graph", call_graph, 0},
    {"longest_path", call_longest_path, 0},
    {"above", call_above, 0},
    {"smallest_budget", call_smallest_budget, 0},
    {"spread", call_spread, 0},
    {"within", call_within, 0},
    {"above_cycles", call_above_cycles, 0},
    {"smallest_cycles", call_smallest_cycles, 0},
    {"row_above", call_row_above, 0},
    {"row_smallest_budget", call_row_smallest_budget, 0},
    {"row_spread", call_row_spread, 0},
    {"row_above_cycles", call_row_above_cycles, 0},
    {"row_smallest_cycles", call_row_smallest_cycles, 0},
    {"trace_write", call_trace_write, 0},
    {"trace_read", call_trace_read, 0},
    {"trace_damaged", call_trace_damaged, 0},
    {"curve_of_text", call_curve_of_text, 0},
    {"curve_of_numbers", call_curve_of_numbers, 0},
    {"cycles_of_text", call_cycles_of_text, 0},
    {"cycles_of_numbers", call_cycles_of_numbers, 0},
    {"nightly", call_nightly, 0},
    {"best", call_best, 0},
    {"best_miss_spread", call_best_miss_spread, 0},
    {"best_hit_spread", call_best_hit_spread, 0},
    {"graph_paired", call_graph_paired, 0},
};
#define FUNCTIONS (sizeof functions / sizeof *functions)

static _Alignas(64) unsigned char stack[STACK_BYTES];

/* Calls the function on a painted stack, and keeps what it used if that is the most. */
static void measure(struct measured *function)
{
    ucontext_t here, there;
    memset(stack, PAINT, sizeof stack);
    getcontext(&there);
    there.uc_stack.ss_sp = stack;
    there.uc_stack.ss_size = sizeof stack;
    there.uc_link = &here;
    makecontext(&there, function->call, 0);
    swapcontext(&here, &there);
    size_t unused = 0;
    while (unused < sizeof stack && stack[unused] == PAINT)
        unused++;
    if ((size_t)(end - stack) - unused > function->most)
        function->most = (size_t)(end - stack) - unused;
}

/* Everything on one heavy input; the row is the table that the graph call leaves. */
static void measure_input(void)
{
    struct generator from = generator_of(1, 1);
    numbers_of_input(&input, &numbers);
    text_of_numbers(&from, &numbers, &text);
    graphs[0] = (uint32_t)numbers.count;
    memcpy(graphs + 1, numbers.list, numbers.count * sizeof *graphs);
    joins = input.edge_numbers / 2 + 1 - input.nodes;
    for (size_t j = 0; j < joins; j++)
        join_counts[j] = ESTIMATE_NO_PAIRING;
    measure(&functions[0]);
    memcpy(row, table, sizeof row);
    for (size_t i = 1; i < FUNCTIONS; i++)
        measure(&functions[i]);
}

/* The graph call with the pairing of docs/PLANNER.md. */
static void measure_pairing(void)
{
    static const struct input small = {.sets = 1, .ways = 2, .revision = ESTIMATE_FIRST_REVISION, .start = ESTIMATE_COLD, .limit = 64, .tracked_count = 3, .nodes = 4,
                                       .access_count = 6, .edge_numbers = 8, .tracked = {4, 5, 6}, .runs = {1, 1, 2, 2}, .accesses = {4, 5, 6, 5, 4, 5},
                                       .edges = {0, 1, 0, 2, 1, 3, 2, 3}};
    static const uint64_t quarter = ESTIMATE_WHOLE / 4, places_paired[4][2] = {{0, 0}, {0, 2}, {1, 1}, {1, 2}};
    input = small;
    joins = 1;
    join_counts[0] = 4;
    row_numbers = 12;
    for (size_t r = 0; r < 4; r++) {
        join_rows[3 * r] = places_paired[r][0];
        join_rows[3 * r + 1] = places_paired[r][1];
        join_rows[3 * r + 2] = quarter;
    }
    measure(&functions[FUNCTIONS - 1]);
}

static void print(const struct measured *function)
{
    printf("%-22s %6zu\n", function->name, function->most);
}

int main(void)
{
    measure(&first);
    for (size_t i = 0; i < HEAVY_INPUTS && make_heavy_input(i, &input) != NULL; i++)
        measure_input();
    measure_pairing();
    for (uint64_t i = 0; i < LISTINGS; i++) {
        struct generator from = generator_of(1, i);
        (i % 2 == 0 ? make_listing : make_border_listing)(&from, &tokens);
        measure(&listing);
    }
    printf("%-22s %6s\n", "function", "bytes");
    for (size_t i = 0; i < FUNCTIONS; i++)
        print(&functions[i]);
    print(&listing);
    return 0;
}
