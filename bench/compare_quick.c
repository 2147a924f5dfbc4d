/* Compares the library's quick yes or no with plain C on rows of any numbers: `compare_quick [count [seed [number]]]`. With a number, only the case of that number is
 * run, to repeat a difference. Exit status 1 if there was a difference, or if a kind of question or an answer never occurred. */
#include <inttypes.h>
#include <stdio.h>
#include <stdlib.h>
#include <string.h>

#include "estimate.h"
#include "inputs.h"
#include "plain.h"
#include "quick.h"

/* A row is as long as the longest spread, and somewhat longer. */
#define MOST_PLACES (ESTIMATE_SPREAD_COUNTS + 8)

/* The case at hand, and what has been counted so far: the answers; questions with nothing above the budget; sums that are just the allowance, one more, and
 * past 64 bits; spreads, each held to the units above. */
struct run {
    uint64_t seed, number;
    unsigned long yes, no, beyond, equal, one_more, past, spreads, differences;
};

struct numbers {
    size_t places;
    uint64_t list[MOST_PLACES];
};

static void expect(struct run *run, bool holds, const char *what)
{
    if (!holds) {
        run->differences++;
        printf("difference: seed %" PRIu64 " number %" PRIu64 ": %s\n", run->seed, run->number, what);
    }
}

/* ---- The question ---- */

/* The true sum of the numbers above a budget. */
static unsigned __int128 sum_above(const struct numbers *row, uint64_t budget)
{
    unsigned __int128 sum = 0;
    for (size_t i = row->places; i > 0 && i - 1 > budget; i--)
        sum += row->list[i - 1];
    return sum;
}

/* Asks both; `sum` is the true sum. */
static void ask(struct run *run, const struct numbers *row, uint64_t budget, uint64_t allowance, unsigned __int128 sum)
{
    const uint64_t *list = row->places == 0 && run->number % 2 == 1 ? NULL : row->list;
    bool plain = plain_within(list, row->places, budget, allowance);
    expect(run, estimate_within(list, row->places, budget, allowance) == (plain ? 1 : 0), "quick answers");
    run->yes += plain;
    run->no += !plain;
    run->beyond += row->places == 0 || budget >= row->places - 1;
    run->equal += sum == allowance;
    run->one_more += sum == (unsigned __int128)allowance + 1;
    run->past += sum > UINT64_MAX;
}

/* The allowances of a budget: at both ends, random, and around the sum, or what is left of it in 64 bits. */
static void ask_budget(struct run *run, struct generator *from, const struct numbers *row, uint64_t budget)
{
    unsigned __int128 sum = sum_above(row, budget);
    uint64_t low = (uint64_t)sum;
    const uint64_t allowances[] = {0, 1, low - 1, low, low + 1, draw(from), draw(from) % PLAIN_WHOLE, PLAIN_WHOLE, UINT64_MAX - 1, UINT64_MAX};
    for (size_t i = 0; i < sizeof allowances / sizeof *allowances; i++)
        ask(run, row, budget, allowances[i], sum);
}

/* Budgets at both ends of the row, around its last place, and far beyond it. The row is as it was after all of them. */
static void ask_row(struct run *run, struct generator *from, const struct numbers *row)
{
    static struct numbers before;
    const uint64_t places = row->places, bit_32 = (uint64_t)1 << 32;
    const uint64_t budgets[] = {0, 1, draw_below(from, (uint32_t)places + 2), places - 3, places - 2, places - 1, places, places + 1, bit_32, draw(from), UINT64_MAX};
    before = *row;
    for (size_t i = 0; i < sizeof budgets / sizeof *budgets; i++)
        ask_budget(run, from, row, budgets[i]);
    expect(run, memcmp(&before, row, sizeof before) == 0, "the row was written to");
}

/* ---- Rows ---- */

/* A number: none, a small one, units of a table, any, or at the upper end. */
static uint64_t draw_number(struct generator *from)
{
    switch (draw_below(from, 6)) {
    case 0: return 0;
    case 1: return draw_below(from, 16);
    case 2: return draw(from) % PLAIN_WHOLE;
    case 3: return draw(from) >> draw_below(from, 64);
    case 4: return (uint64_t)1 << draw_below(from, 64);
    default: return UINT64_MAX - draw_below(from, 4);
    }
}

/* Short rows mostly, empty ones among them; now and then a long one. Of one kind of number, or of every kind. */
static void make_numbers(struct generator *from, struct numbers *row)
{
    const uint64_t one = draw_number(from);
    const bool same = draw_below(from, 4) == 0;
    row->places = draw_below(from, draw_below(from, 16) == 0 ? MOST_PLACES + 1 : 12);
    for (size_t i = 0; i < row->places; i++)
        row->list[i] = same ? one : draw_number(from);
}

/* Two numbers above the budget 0 that sum to 2^64, to one less or to one more. */
static void make_wrapping(struct generator *from, struct numbers *row)
{
    const uint64_t first = draw(from);
    row->places = 3;
    row->list[0] = draw_number(from);
    row->list[1] = first;
    row->list[2] = 0 - first + draw_below(from, 3) - 1;
}

/* The spread of a random table, as the library leaves it in a room that is just long enough or longer: at each budget it says whether the units above are at most the
 * allowance, and the smallest budget is the first for which it says yes. */
static void run_spread(struct run *run, struct generator *from)
{
    static struct row table;
    static struct numbers row;
    uint64_t largest = 0, budget = 0, units = 0, allowance = draw(from) % (PLAIN_WHOLE + 2);
    make_row(from, &table);
    if (estimate_spread((const uint64_t *)table.list, table.words, table.states, row.list, MOST_PLACES, &largest) != 0)
        return;
    row.places = (size_t)largest + 1 + draw_below(from, (uint32_t)(MOST_PLACES - largest));
    run->spreads++;
    expect(run, estimate_smallest_budget((const uint64_t *)table.list, table.words, table.states, allowance, &budget) == 0, "the smallest budget of a table");
    expect(run, estimate_within(row.list, row.places, budget, allowance) == 1, "no at the smallest budget");
    expect(run, budget == 0 || estimate_within(row.list, row.places, budget - 1, allowance) == 0, "yes below the smallest budget");
    for (uint64_t i = 0; i <= largest && i < 64; i++) {
        expect(run, plain_above(table.list, table.states, i, &units) == 0, "the units above of a table");
        expect(run, estimate_within(row.list, row.places, i, allowance) == (units <= allowance ? 1 : 0), "the units above and the quick answer");
    }
    ask_row(run, from, &row);
}

/* ---- Cases ---- */

static void run_case(struct run *run, uint64_t number)
{
    static struct numbers row;
    struct generator from = generator_of(run->seed, number);
    run->number = number;
    if (number % 8 == 0)
        run_spread(run, &from);
    if (number % 4 == 1)
        make_wrapping(&from, &row);
    else
        make_numbers(&from, &row);
    ask_row(run, &from, &row);
}

static bool all_occurred(const struct run *run)
{
    return run->yes > 0 && run->no > 0 && run->beyond > 0 && run->equal > 0 && run->one_more > 0 && run->past > 0 && run->spreads > 0;
}

int main(int argument_count, char **arguments)
{
    uint64_t count = argument_count > 1 ? strtoull(arguments[1], NULL, 10) : 4000;
    struct run run = {.seed = argument_count > 2 ? strtoull(arguments[2], NULL, 10) : 1};
    bool complete = true;
    if (argument_count > 3) {
        run_case(&run, strtoull(arguments[3], NULL, 10));
    } else {
        for (uint64_t number = 0; number < count; number++)
            run_case(&run, number);
        complete = all_occurred(&run);
        if (!complete)
            printf("error: a kind of question or an answer never occurred\n");
    }
    printf("quick questions: %lu yes, %lu no; %lu with nothing above, %lu sums just at the allowance, %lu one above, %lu past 64 bits\n", run.yes, run.no, run.beyond,
           run.equal, run.one_more, run.past);
    printf("compared: %lu quick questions, %lu spreads, %lu differences\n", run.yes + run.no, run.spreads, run.differences);
    return run.differences == 0 && complete ? 0 : 1;
}
