/* Compares the proved library with plain C on random, damaged and border inputs: `compare [count [seed [number]]]`. With a number, only
 * the case of that number is run, to repeat a difference. Exit status 1 if there was a difference, or if a refusal never occurred. */
#include <inttypes.h>
#include <stdio.h>
#include <stdlib.h>
#include <string.h>

#include "cycles.h"
#include "estimate.h"
#include "inputs.h"
#include "plain.h"

/* What rooms are filled with before a call; where a call writes nothing it is found again. */
#define PATTERN 0xa5a5a5a5a5a5a5a5u
#define PATTERN_BYTE 0xa5

/* Words behind each lent room that nothing may write to. */
#define GUARD 16

/* Refusals are counted by number, and 0 for none. */
#define NUMBERS 17

/* The case at hand, and what has been counted so far: what document 01 has, and what it is in cycles. */
struct run {
    uint64_t seed, number;
    unsigned long graphs[NUMBERS], longest_paths[NUMBERS];
    unsigned long questions[NUMBERS], cycle_questions[NUMBERS], row_questions[NUMBERS];
    unsigned long texts[NUMBERS], cycle_texts[NUMBERS];
    unsigned long short_rooms, differences;
};

/* All that is lent to the library. The output is the last of it, and so long that only as much as a call can use is filled. */
struct rooms {
    uint64_t result[INPUT_RESULT_ROOM + GUARD];
    uint64_t work[INPUT_WORK_ROOM + GUARD];
    uint64_t counts[ESTIMATE_SPREAD_COUNTS + GUARD];
    uint32_t numbers[ESTIMATE_NUMBERS + GUARD];
    unsigned char output[ESTIMATE_CYCLES_OUTPUT_BYTES + GUARD];
};

/* How much of them is lent to the curve calls. */
struct lent {
    size_t numbers, result, work, counts, output;
};

static void differ(struct run *run, const char *what)
{
    run->differences++;
    printf("difference: seed %" PRIu64 " number %" PRIu64 ": %s\n", run->seed, run->number, what);
}

static void expect(struct run *run, bool holds, const char *what)
{
    if (!holds)
        differ(run, what);
}

static bool words_are(const uint64_t *words, size_t first, size_t end, uint64_t value)
{
    for (size_t i = first; i < end; i++) {
        if (words[i] != value)
            return false;
    }
    return true;
}

/* The first of the bytes has that value, and each has the next one's. */
static bool bytes_are(const void *bytes, size_t first, size_t end, unsigned char value)
{
    const unsigned char *list = bytes;
    return first >= end || (list[first] == value && memcmp(list + first, list + first + 1, end - first - 1) == 0);
}

/* The rooms with so many bytes of output are filled, and found as they were filled. */
static void fill(struct rooms *rooms, size_t output)
{
    memset(rooms, PATTERN_BYTE, offsetof(struct rooms, output) + output);
}

static bool are_untouched(const struct rooms *rooms, size_t output)
{
    return bytes_are(rooms, 0, offsetof(struct rooms, output) + output, PATTERN_BYTE);
}

/* An empty stretch may be NULL: it is in every second run of eight cases. */
static const uint32_t *list_or_null(const struct run *run, const uint32_t *list, size_t count)
{
    return count == 0 && run->number / 8 % 2 == 1 ? NULL : list;
}

static uint64_t *room_or_null(const struct run *run, uint64_t *room, size_t words)
{
    return words == 0 && run->number / 8 % 2 == 1 ? NULL : room;
}

/* What both are handed of an input. */
static struct plain_input lists_of(const struct run *run, const struct input *input)
{
    return (struct plain_input){
        input->sets, input->ways, input->revision, input->start, input->limit,
        list_or_null(run, input->tracked, input->tracked_count), input->tracked_count,
        list_or_null(run, input->runs, input->nodes), input->nodes,
        list_or_null(run, input->accesses, input->access_count), input->access_count,
        list_or_null(run, input->edges, input->edge_numbers), input->edge_numbers,
    };
}

/* ---- The graph call and the longest path ---- */

/* The library's rooms after success: the table and then zeros, the working room zero, nothing written beyond. */
static void check_graph_rooms(struct run *run, const struct input *input, const struct rooms *rooms, const struct plain_state *table,
                              size_t states)
{
    size_t words = ESTIMATE_STATE_WORDS * states;
    expect(run, memcmp(rooms->result, table, words * sizeof(uint64_t)) == 0, "finished tables");
    expect(run, words_are(rooms->result, words, input->result_words, 0), "result room beyond the table not zero");
    expect(run, words_are(rooms->result, input->result_words, INPUT_RESULT_ROOM + GUARD, PATTERN), "written beyond the result room");
    expect(run, words_are(rooms->work, 0, input->work_words, 0), "working room not zero");
    expect(run, words_are(rooms->work, input->work_words, INPUT_WORK_ROOM + GUARD, PATTERN), "written beyond the working room");
}

/* Calls both and compares. Gives the refusal of plain C, and its table in `row`. */
static int compare_graph(struct run *run, const struct input *input, struct rooms *rooms, struct row *row)
{
    struct plain_state table[INPUT_RESULT_ROOM / ESTIMATE_STATE_WORDS];
    size_t states = PATTERN, plain_states = 0;
    uint64_t aside = PATTERN, plain_aside = PATTERN;
    const struct plain_input in = lists_of(run, input);
    fill(rooms, 0);
    uint64_t ours = estimate_graph(in.sets, in.ways, in.revision, in.start, in.limit, in.tracked, in.tracked_count, in.runs, in.nodes,
                                   in.accesses, in.access_count, in.edges, in.edge_numbers,
                                   room_or_null(run, rooms->result, input->result_words), input->result_words,
                                   room_or_null(run, rooms->work, input->work_words), input->work_words, &states, &aside);
    int plain = plain_graph(in.sets, in.ways, in.revision, in.start, in.limit, in.tracked, in.tracked_count, in.runs, in.nodes,
                            in.accesses, in.access_count, in.edges, in.edge_numbers,
                            input->result_words, input->work_words, table, &plain_states, &plain_aside);
    run->graphs[plain]++;
    expect(run, ours == (uint64_t)plain, "refusal of the graph call");
    if (ours != 0) {
        expect(run, are_untouched(rooms, 0), "a refused graph call wrote to a room");
        expect(run, states == PATTERN && aside == PATTERN, "a refused graph call wrote a number");
    } else if (plain == 0) {
        expect(run, states == plain_states, "numbers of states");
        expect(run, aside == plain_aside, "set-aside counts");
        check_graph_rooms(run, input, rooms, table, plain_states);
        memset(row, 0, sizeof *row);
        memcpy(row->list, table, plain_states * sizeof *table);
        row->states = plain_states;
        row->words = ESTIMATE_STATE_WORDS * plain_states;
    }
    return plain;
}

/* Calls both and compares, of a refused graph too. Gives the longest path that plain C finds. */
static uint64_t compare_longest_path(struct run *run, const struct input *input)
{
    uint64_t longest = PATTERN, plain_longest = PATTERN;
    const struct plain_input in = lists_of(run, input);
    uint64_t ours = estimate_longest_path(in.sets, in.ways, in.revision, in.start, in.limit, in.tracked, in.tracked_count, in.runs, in.nodes,
                                          in.accesses, in.access_count, in.edges, in.edge_numbers, &longest);
    int plain = plain_longest_path(&in, &plain_longest);
    run->longest_paths[plain]++;
    expect(run, ours == (uint64_t)plain, "refusal of the longest path");
    expect(run, longest == plain_longest, "longest paths");
    return plain_longest;
}

/* ---- The questions ---- */

/* A row as the library takes it: as words, and as states. */
struct taken {
    uint64_t words[ESTIMATE_STATE_WORDS * INPUT_ROW_ROOM];
    struct estimate_state states[INPUT_ROW_ROOM];
};

static void take_row(struct taken *taken, const struct row *row)
{
    memcpy(taken->words, row->list, sizeof taken->words);
    for (size_t i = 0; i < INPUT_ROW_ROOM; i++)
        taken->states[i] = (struct estimate_state){
            .mask = row->list[i].mask, .misses = row->list[i].misses, .filled = {row->list[i].filled[0], row->list[i].filled[1]},
            .units = row->list[i].units,
        };
}

/* A row of which fewer words are lent than it has states is no table: plain C is asked about none of its states. */
static size_t states_lent(const struct row *row)
{
    return row->words / ESTIMATE_STATE_WORDS < row->states ? 0 : row->states;
}

/* The states that are lent as a row: those that plain C is asked about. */
static const struct estimate_state *row_or_null(const struct run *run, const struct row *row, const struct taken *taken)
{
    return states_lent(row) == 0 && run->number / 8 % 2 == 1 ? NULL : taken->states;
}

/* What is counted of a question that was put to the words and to the row. */
static void count_question(struct run *run, unsigned long *counted, int plain)
{
    counted[plain]++;
    run->row_questions[plain]++;
}

static void compare_above(struct run *run, const struct row *row, const struct taken *taken, uint64_t budget)
{
    uint64_t units = PATTERN, row_units = PATTERN, plain_units = PATTERN;
    uint64_t ours = estimate_above(taken->words, row->words, row->states, budget, &units);
    uint64_t of_row = estimate_row_above(row_or_null(run, row, taken), states_lent(row), budget, &row_units);
    int plain = plain_above(row->list, states_lent(row), budget, &plain_units);
    count_question(run, run->questions, plain);
    expect(run, ours == (uint64_t)plain, "refusal of the units above");
    expect(run, units == plain_units, "units above");
    expect(run, of_row == (uint64_t)plain, "refusal of a row's units above");
    expect(run, row_units == plain_units, "a row's units above");
}

static void compare_budget(struct run *run, const struct row *row, const struct taken *taken, uint64_t allowance)
{
    uint64_t budget = PATTERN, row_budget = PATTERN, plain_budget = PATTERN;
    uint64_t ours = estimate_smallest_budget(taken->words, row->words, row->states, allowance, &budget);
    uint64_t of_row = estimate_row_smallest_budget(row_or_null(run, row, taken), states_lent(row), allowance, &row_budget);
    int plain = plain_smallest_budget(row->list, states_lent(row), allowance, &plain_budget);
    count_question(run, run->questions, plain);
    expect(run, ours == (uint64_t)plain, "refusal of the smallest budget");
    expect(run, budget == plain_budget, "smallest budgets");
    expect(run, of_row == (uint64_t)plain, "refusal of a row's smallest budget");
    expect(run, row_budget == plain_budget, "a row's smallest budgets");
}

static void compare_spread(struct run *run, const struct row *row, const struct taken *taken, size_t room)
{
    uint64_t counts[ESTIMATE_SPREAD_COUNTS + GUARD], row_counts[ESTIMATE_SPREAD_COUNTS + GUARD];
    uint64_t plain_counts[ESTIMATE_SPREAD_COUNTS + GUARD];
    uint64_t largest = PATTERN, row_largest = PATTERN, plain_largest = PATTERN;
    memset(counts, PATTERN_BYTE, sizeof counts);
    memset(row_counts, PATTERN_BYTE, sizeof row_counts);
    memset(plain_counts, PATTERN_BYTE, sizeof plain_counts);
    uint64_t ours = estimate_spread(taken->words, row->words, row->states, room_or_null(run, counts, room), room, &largest);
    uint64_t of_row = estimate_row_spread(row_or_null(run, row, taken), states_lent(row), room_or_null(run, row_counts, room), room, &row_largest);
    int plain = plain_spread(row->list, states_lent(row), plain_counts, room, &plain_largest);
    count_question(run, run->questions, plain);
    expect(run, ours == (uint64_t)plain, "refusal of the spread");
    expect(run, largest == plain_largest, "largest misses of a spread");
    expect(run, memcmp(counts, plain_counts, sizeof counts) == 0, "spread rooms");
    expect(run, of_row == (uint64_t)plain, "refusal of a row's spread");
    expect(run, row_largest == plain_largest, "largest misses of a row's spread");
    expect(run, memcmp(row_counts, plain_counts, sizeof row_counts) == 0, "spread rooms of a row");
}

/* The largest miss count of a row, of those that a table may have. */
static uint64_t largest_misses(const struct row *row)
{
    uint64_t largest = 0;
    for (size_t i = 0; i < row->states; i++)
        largest = row->list[i].misses > largest && row->list[i].misses <= 4096 ? row->list[i].misses : largest;
    return largest;
}

/* Budgets, allowances and rooms: random ones, and those on the borders of this row. */
static void compare_questions(struct run *run, struct generator *from, const struct row *row)
{
    struct taken taken;
    uint64_t largest = largest_misses(row), units = 0;
    take_row(&taken, row);
    uint64_t budget = draw_below(from, (uint32_t)largest + 2);
    plain_above(row->list, states_lent(row), budget, &units);
    const uint64_t budgets[] = {0, budget, largest, UINT64_MAX};
    const uint64_t allowances[] = {0, units, units - 1, draw(from) % PLAIN_WHOLE, PLAIN_WHOLE, UINT64_MAX};
    const size_t rooms[] = {0, largest, largest + 1, draw_below(from, ESTIMATE_SPREAD_COUNTS), ESTIMATE_SPREAD_COUNTS};
    for (size_t i = 0; i < sizeof budgets / sizeof *budgets; i++)
        compare_above(run, row, &taken, budgets[i]);
    for (size_t i = 0; i < sizeof allowances / sizeof *allowances; i++)
        compare_budget(run, row, &taken, allowances[i]);
    for (size_t i = 0; i < sizeof rooms / sizeof *rooms; i++)
        compare_spread(run, row, &taken, rooms[i]);
}

/* ---- The questions in cycles ---- */

/* What a question is put to. */
struct asked {
    const struct row *row;
    const struct taken *taken;
    size_t core;
    uint64_t longest;
};

static void compare_above_cycles(struct run *run, const struct asked *asked, uint64_t budget)
{
    const struct row *row = asked->row;
    uint64_t units = PATTERN, row_units = PATTERN, plain_units = PATTERN;
    uint64_t ours = estimate_above_cycles(asked->taken->words, row->words, row->states, asked->core, asked->longest, budget, &units);
    uint64_t of_row = estimate_row_above_cycles(row_or_null(run, row, asked->taken), states_lent(row), asked->core, asked->longest, budget,
                                                &row_units);
    int plain = plain_above_cycles(row->list, states_lent(row), asked->core, asked->longest, budget, &plain_units);
    count_question(run, run->cycle_questions, plain);
    expect(run, ours == (uint64_t)plain, "refusal of the units above a cycle budget");
    expect(run, units == plain_units, "units above a cycle budget");
    expect(run, of_row == (uint64_t)plain, "refusal of a row's units above a cycle budget");
    expect(run, row_units == plain_units, "a row's units above a cycle budget");
}

static void compare_smallest_cycles(struct run *run, const struct asked *asked, uint64_t allowance)
{
    const struct row *row = asked->row;
    uint64_t cycles = PATTERN, row_cycles = PATTERN, plain_smallest = PATTERN;
    uint64_t ours = estimate_smallest_cycles(asked->taken->words, row->words, row->states, asked->core, asked->longest, allowance, &cycles);
    uint64_t of_row = estimate_row_smallest_cycles(row_or_null(run, row, asked->taken), states_lent(row), asked->core, asked->longest,
                                                   allowance, &row_cycles);
    int plain = plain_smallest_cycles(row->list, states_lent(row), asked->core, asked->longest, allowance, &plain_smallest);
    count_question(run, run->cycle_questions, plain);
    expect(run, ours == (uint64_t)plain, "refusal of the smallest cycle budget");
    expect(run, cycles == plain_smallest, "smallest cycle budgets");
    expect(run, of_row == (uint64_t)plain, "refusal of a row's smallest cycle budget");
    expect(run, row_cycles == plain_smallest, "a row's smallest cycle budgets");
}

/* Budgets at the cycles of no misses, of a state's and of the largest, one less, and at both ends; allowances at the units above one of
 * them, one less, random and at both ends. All of them, or one of each where the core or the longest path is refused anyway. */
static void compare_core(struct run *run, struct generator *from, const struct asked *asked)
{
    const struct row *row = asked->row;
    size_t core = asked->core % PLAIN_CORES;
    uint64_t misses = row->states > 0 ? row->list[draw_below(from, (uint32_t)row->states)].misses : 0, units = 0;
    uint64_t none = plain_cycles_of(core, asked->longest, 0), some = plain_cycles_of(core, asked->longest, misses);
    uint64_t most = plain_cycles_of(core, asked->longest, largest_misses(row));
    plain_above_cycles(row->list, states_lent(row), core, asked->longest, some, &units);
    const uint64_t budgets[8] = {0, none - 1, none, some - 1, some, most - 1, most, UINT64_MAX};
    const uint64_t allowances[8] = {
        0, 1, units - 1, units, draw(from) % PLAIN_WHOLE, PLAIN_WHOLE - 1, PLAIN_WHOLE, UINT64_MAX,
    };
    if (asked->core >= PLAIN_CORES || asked->longest > 4096) {
        compare_above_cycles(run, asked, budgets[draw_below(from, 8)]);
        compare_smallest_cycles(run, asked, allowances[draw_below(from, 8)]);
        return;
    }
    for (size_t i = 0; i < 8; i++) {
        compare_above_cycles(run, asked, budgets[i]);
        compare_smallest_cycles(run, asked, allowances[i]);
    }
}

/* Three of the cores, others for another row, and some that there are not, with the longest path that is handed in and with others: on both sides of the
 * largest miss count and of 4,096, and far beyond. */
static void compare_cycle_questions(struct run *run, struct generator *from, const struct row *row, uint64_t longest)
{
    struct taken taken;
    uint64_t largest = largest_misses(row), bit_32 = (uint64_t)1 << 32;
    const uint64_t lengths[] = {longest, largest, largest - 1, 4096, 4097, bit_32 + longest, draw(from)};
    const size_t no_cores[] = {PLAIN_CORES, PLAIN_CORES + 1, bit_32 + draw_below(from, PLAIN_CORES), draw(from) | bit_32, SIZE_MAX};
    const size_t which = draw_below(from, 4);
    take_row(&taken, row);
    for (size_t i = 0; i < PLAIN_CORES + sizeof no_cores / sizeof *no_cores; i++) {
        if (i < PLAIN_CORES && i % 4 != which)
            continue;
        size_t core = i < PLAIN_CORES ? i : no_cores[i - PLAIN_CORES];
        for (size_t j = 0; j < sizeof lengths / sizeof *lengths; j++)
            compare_core(run, from, &(struct asked){row, &taken, core, lengths[j]});
    }
}

/* ---- The curve, in misses and in cycles ---- */

/* The two kinds of text: the library's calls, the plain one, the output room that each needs, and what differs. */
struct kind {
    size_t (*of_text)(const uint8_t *text, size_t bytes, uint32_t *numbers, size_t numbers_room, uint64_t *result, size_t result_words,
                      uint64_t *work, size_t work_words, uint64_t *counts, size_t counts_room, uint8_t *output, size_t output_bytes);
    size_t (*of_numbers)(const uint32_t *numbers, size_t count, uint64_t *result, size_t result_words, uint64_t *work, size_t work_words,
                         uint64_t *counts, size_t counts_room, uint8_t *output, size_t output_bytes);
    size_t (*plain)(const unsigned char *text, size_t bytes, unsigned char *output);
    size_t output_bytes;
    const char *text_differs, *numbers_differ;
};

static const struct kind in_misses = {
    estimate_curve_of_text, estimate_curve_of_numbers, plain_curve, ESTIMATE_OUTPUT_BYTES, "curve of a text", "curve of numbers",
};
static const struct kind in_cycles = {
    estimate_cycles_of_text, estimate_cycles_of_numbers, plain_cycles, ESTIMATE_CYCLES_OUTPUT_BYTES,
    "curves in cycles of a text", "curves in cycles of numbers",
};

/* Every room as long as its constant. */
static struct lent lent_to(const struct kind *kind)
{
    return (struct lent){ESTIMATE_NUMBERS, ESTIMATE_RESULT_WORDS, ESTIMATE_WORK_WORDS, ESTIMATE_SPREAD_COUNTS, kind->output_bytes};
}

/* The rooms after a curve call: the text and behind it what was there; the numbers zero; the rooms that are worked in zero, or as they were
 * if the text is a refusal; nothing written beyond what was lent. */
static void check_curve_rooms(struct run *run, const struct rooms *rooms, const struct lent *lent, size_t length, bool refused)
{
    const size_t word = sizeof(uint64_t), half = sizeof(uint32_t);
    const unsigned char worked_in = refused ? PATTERN_BYTE : 0;
    expect(run, bytes_are(rooms->output, length, lent->output + GUARD, PATTERN_BYTE), "output room behind the text changed");
    expect(run, bytes_are(rooms->numbers, 0, lent->numbers * half, 0), "number room not zero");
    expect(run, bytes_are(rooms->numbers, lent->numbers * half, sizeof rooms->numbers, PATTERN_BYTE), "written beyond the numbers");
    expect(run, bytes_are(rooms->result, 0, lent->result * word, worked_in), "result room after a curve");
    expect(run, bytes_are(rooms->result, lent->result * word, sizeof rooms->result, PATTERN_BYTE), "written beyond the result");
    expect(run, bytes_are(rooms->work, 0, lent->work * word, worked_in), "working room after a curve");
    expect(run, bytes_are(rooms->work, lent->work * word, sizeof rooms->work, PATTERN_BYTE), "written beyond the work");
    expect(run, bytes_are(rooms->counts, 0, lent->counts * word, worked_in), "spread room after a curve");
    expect(run, bytes_are(rooms->counts, lent->counts * word, sizeof rooms->counts, PATTERN_BYTE), "written beyond the counts");
}

/* The refusal that an output says, or 0. */
static int refusal_in(const unsigned char *output, size_t length)
{
    return length == 10 && memcmp(output, "refused ", 8) == 0 ? output[8] - '0' : 0;
}

static size_t curve_of_text(const struct kind *kind, const struct text *text, struct rooms *rooms, const struct lent *lent)
{
    fill(rooms, kind->output_bytes + GUARD);
    return kind->of_text(text->bytes == 0 ? NULL : text->list, text->bytes, rooms->numbers, lent->numbers,
                         rooms->result, lent->result, rooms->work, lent->work, rooms->counts, lent->counts,
                         rooms->output, lent->output);
}

static size_t curve_of_numbers(const struct kind *kind, const struct number_list *numbers, struct rooms *rooms, const struct lent *lent)
{
    fill(rooms, kind->output_bytes + GUARD);
    return kind->of_numbers(numbers->count == 0 ? NULL : numbers->list, numbers->count, rooms->result, lent->result,
                            rooms->work, lent->work, rooms->counts, lent->counts, rooms->output, lent->output);
}

/* Compares the texts; of the numbers too if the text is no more than they are. Counts what plain C says. */
static void compare_curve(struct run *run, const struct kind *kind, const struct text *text, const struct number_list *numbers,
                          struct rooms *rooms, unsigned long *counted)
{
    static unsigned char plain[PLAIN_CYCLES_OUTPUT_BYTES];
    struct lent lent = lent_to(kind);
    size_t plain_length = kind->plain(text->list, text->bytes, plain);
    bool refused = refusal_in(plain, plain_length) != 0;
    counted[refusal_in(plain, plain_length)]++;
    size_t length = curve_of_text(kind, text, rooms, &lent);
    expect(run, length == plain_length && memcmp(rooms->output, plain, length) == 0, kind->text_differs);
    check_curve_rooms(run, rooms, &lent, length, refused);
    if (numbers != NULL && numbers->count <= ESTIMATE_NUMBERS && text->bytes <= 65536) {
        lent.numbers = 0;
        length = curve_of_numbers(kind, numbers, rooms, &lent);
        expect(run, length == plain_length && memcmp(rooms->output, plain, length) == 0, kind->numbers_differ);
        check_curve_rooms(run, rooms, &lent, length, refused);
    }
}

/* One room, drawn or the output, is shorter than its constant: no bytes, and nothing is written. */
static void check_short_room(struct run *run, const struct kind *kind, struct generator *from, const struct text *text,
                             const struct number_list *numbers, struct rooms *rooms)
{
    struct lent lent = lent_to(kind);
    size_t *const shortened[] = {&lent.result, &lent.work, &lent.counts, &lent.output, &lent.numbers};
    bool drawn = draw_below(from, 2) == 0;
    size_t which = drawn ? draw_below(from, 5) : 3, by = drawn && draw_below(from, 2) == 0 ? *shortened[which] : 1;
    *shortened[which] -= by;
    expect(run, curve_of_text(kind, text, rooms, &lent) == 0, "curve of a text in a short room");
    expect(run, are_untouched(rooms, kind->output_bytes + GUARD), "a curve of a text wrote to a room although one is short");
    if (which < 4) {
        expect(run, curve_of_numbers(kind, numbers, rooms, &lent) == 0, "curve of numbers in a short room");
        expect(run, are_untouched(rooms, kind->output_bytes + GUARD), "a curve of numbers wrote to a room although one is short");
    }
}

/* ---- Cases ---- */

/* The kinds of graph input take turns: random, damaged, border, damaged twice or on the border. */
static void make_input(struct generator *from, uint64_t number, struct input *input)
{
    if (number % 8 == 3 || number % 8 == 7)
        make_border_input(from, input);
    else
        make_random_input(from, input);
    if (number % 2 == 1 && number % 8 != 3)
        damage_input(from, input);
    if (number % 8 == 5)
        damage_input(from, input);
}

/* The questions about a row, and about the same row damaged. */
static void ask_twice(struct run *run, struct generator *from, struct row *row, uint64_t longest)
{
    compare_questions(run, from, row);
    compare_cycle_questions(run, from, row, longest);
    damage_row(from, row);
    compare_questions(run, from, row);
    compare_cycle_questions(run, from, row, longest);
}

/* The questions about a finished table with its longest path, and about a random one with any that it can have. */
static void run_questions(struct run *run, struct generator *from, struct row *row, uint64_t longest)
{
    if (row->states > 0)
        ask_twice(run, from, row, longest);
    make_row(from, row);
    uint64_t largest = largest_misses(row);
    ask_twice(run, from, row, largest + draw_below(from, 4097 - (uint32_t)largest));
}

/* The input as text: as it is, with its numbers damaged, or with its bytes damaged. Half an edge becomes a number left over. */
static void run_text(struct run *run, struct generator *from, const struct input *input, struct rooms *rooms)
{
    static struct number_list numbers;
    static struct text text;
    if (run->number % 100 == 50)
        make_border_numbers(from, &numbers);
    else
        numbers_of_input(input, &numbers);
    if (run->number % 3 == 1)
        damage_numbers(from, &numbers);
    text_of_numbers(from, &numbers, &text);
    if (run->number % 20 == 0) {
        check_short_room(run, &in_misses, from, &text, &numbers, rooms);
        check_short_room(run, &in_cycles, from, &text, &numbers, rooms);
        run->short_rooms++;
    }
    bool damaged = run->number % 3 == 2;
    if (damaged)
        damage_text(from, &text);
    compare_curve(run, &in_misses, &text, damaged ? NULL : &numbers, rooms, run->texts);
    compare_curve(run, &in_cycles, &text, damaged ? NULL : &numbers, rooms, run->cycle_texts);
}

static void run_case(struct run *run, uint64_t number)
{
    static struct input input;
    static struct rooms rooms;
    struct row row = {0};
    struct generator from = generator_of(run->seed, number);
    run->number = number;
    make_input(&from, number, &input);
    compare_graph(run, &input, &rooms, &row);
    run_questions(run, &from, &row, compare_longest_path(run, &input));
    run_text(run, &from, &input, &rooms);
}

/* ---- What was counted ---- */

static unsigned long total_of(const unsigned long *counts, int first)
{
    unsigned long total = 0;
    for (int i = first; i < NUMBERS; i++)
        total += counts[i];
    return total;
}

static void print_counts(const char *name, const unsigned long *counts)
{
    printf("%s: %lu accepted", name, counts[0]);
    for (int i = 1; i < NUMBERS; i++) {
        if (counts[i] > 0)
            printf(", %lu refused %d", counts[i], i);
    }
    printf("\n");
}

/* Whether every refusal from 1 to 11 occurred, the three of the questions in cycles there too, and acceptance. */
static bool all_occurred(const struct run *run)
{
    bool all = true;
    for (int i = 0; i < NUMBERS; i++) {
        bool of_cycles = i == 0 || i == 4 || i == 7 || i == 16;
        unsigned long without_cycles = run->graphs[i] + run->questions[i] + run->texts[i];
        if ((i <= 11 && without_cycles == 0) || (of_cycles && run->cycle_questions[i] == 0)) {
            printf("error: %s %d never occurred\n", i == 0 ? "answer" : "refusal", i);
            all = false;
        }
    }
    return all;
}

static void print_run(const struct run *run)
{
    print_counts("graphs", run->graphs);
    print_counts("longest paths", run->longest_paths);
    print_counts("questions", run->questions);
    print_counts("questions in cycles", run->cycle_questions);
    print_counts("questions of rows, in misses and in cycles", run->row_questions);
    print_counts("texts", run->texts);
    print_counts("texts in cycles", run->cycle_texts);
    printf("curves in a room too short: %lu, and as many in cycles\n", run->short_rooms);
    printf("compared: %lu graphs (%lu accepted, %lu refused), %lu questions, %lu texts", total_of(run->graphs, 0),
           run->graphs[0], total_of(run->graphs, 1), total_of(run->questions, 0), total_of(run->texts, 0));
    printf(", %lu longest paths, %lu questions in cycles, %lu texts in cycles", total_of(run->longest_paths, 0),
           total_of(run->cycle_questions, 0), total_of(run->cycle_texts, 0));
    printf(", %lu questions of rows, %lu differences\n", total_of(run->row_questions, 0), run->differences);
}

int main(int argument_count, char **arguments)
{
    uint64_t count = argument_count > 1 ? strtoull(arguments[1], NULL, 10) : 4000;
    struct run run = {.seed = argument_count > 2 ? strtoull(arguments[2], NULL, 10) : 1};
    bool complete = true;
    if (argument_count > 3) {
        run_case(&run, strtoull(arguments[3], NULL, 10));
    } else {
        for (uint64_t number = 0; number < count; number++)
            run_case(&run, number);
        complete = all_occurred(&run);
    }
    print_run(&run);
    return run.differences == 0 && complete ? 0 : 1;
}
