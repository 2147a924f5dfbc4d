/* States as the samples write them, and the questions put to a row of them. */
#include "samples.h"

#include <inttypes.h>
#include <stdio.h>
#include <string.h>

#include "estimate.h"

#define MOST_SETS 16
#define FILLED_WORDS 2

/* The words of a state: mask, misses, filled numbers, units. A filled number is a byte, that of set 0 the highest of the first word. */
enum { MASK, MISSES, FILLED, UNITS = FILLED + FILLED_WORDS };

static unsigned shift_of_set(size_t set)
{
    return 56 - 8 * (unsigned)(set % 8);
}

void print_state(const uint64_t *state, size_t sets)
{
    uint64_t others[FILLED_WORDS] = {state[FILLED], state[FILLED + 1]};
    printf("%" PRIu64 "/%" PRIu64 "/%" PRIu64, state[MASK], state[MISSES], state[UNITS]);
    for (size_t set = 0; set < sets && set < MOST_SETS; set++) {
        uint64_t number = state[FILLED + set / 8] >> shift_of_set(set) & 255;
        printf("%c%" PRIu64, set == 0 ? '/' : ',', number);
        others[set / 8] -= number << shift_of_set(set);
    }
    printf("\n");
    expect(others[0] == 0 && others[1] == 0, "a set beyond the count has a filled number");
}

/* Filled numbers apart by commas, set 0 first; the sets that are not named have 0. */
static bool read_filled(const char *text, uint64_t *state)
{
    for (size_t set = 0; set < MOST_SETS; set++) {
        uint64_t number;
        text = read_decimal(text, ',', &number);
        if (text == NULL || number > 255)
            return false;
        state[FILLED + set / 8] |= number << shift_of_set(set);
        if (*text == '\0')
            return true;
        text++;
    }
    return false;
}

/* mask/misses/units/F */
static bool read_state(const char *text, uint64_t *state)
{
    static const size_t order[3] = {MASK, MISSES, UNITS};
    memset(state, 0, ESTIMATE_STATE_WORDS * sizeof *state);
    for (size_t i = 0; i < 3; i++) {
        text = read_decimal(text, '/', &state[order[i]]);
        if (text == NULL || *text != '/')
            return false;
        text++;
    }
    return read_filled(text, state);
}

/* A row of states: how many, and then so many. Taking it uses up the words. */
struct row {
    size_t states;
    uint64_t *words;
};

static bool take_row(const struct words *words, size_t *taken, struct row *row)
{
    uint32_t states;
    if (!take_half(words, taken, &states) || states != words->count - *taken)
        return false;
    row->states = states;
    row->words = keep(states * ESTIMATE_STATE_WORDS * sizeof *row->words);
    for (size_t i = 0; i < states; i++) {
        if (!read_state(words->list[*taken + i], row->words + ESTIMATE_STATE_WORDS * i))
            return false;
    }
    return true;
}

/* spread ROOM ROWS: the room is zero beyond the largest count. */
bool answer_spread(const struct words *words)
{
    struct row row;
    uint32_t counts;
    size_t taken = 0;
    uint64_t largest = UNWRITTEN;
    if (!take_half(words, &taken, &counts) || !take_row(words, &taken, &row))
        return false;
    struct room spread = lend("spread", counts * sizeof(uint64_t));
    uint64_t refused = estimate_spread(row.words, ESTIMATE_STATE_WORDS * row.states, row.states, spread.at, counts, &largest);
    if (refused != 0) {
        print_refusal(refused);
        expect_unchanged(&spread);
        expect(largest == UNWRITTEN, "a refused call has written a number");
        return true;
    }
    expect(largest < counts, "a larger count than there is room for");
    printf("spread");
    for (uint64_t misses = 0; misses <= largest && misses < counts; misses++)
        printf(" %" PRIu64, ((const uint64_t *)spread.at)[misses]);
    printf("\n");
    expect_zero(&spread, (size_t)(largest + 1) * sizeof(uint64_t));
    return true;
}

/* A question that is answered by one number, of the row and of a number that is asked. */
typedef uint64_t question(const uint64_t *table, size_t words, size_t states, uint64_t asked, uint64_t *answer);

static bool answer_question(const struct words *words, question *ask)
{
    struct row row;
    size_t taken = 0;
    uint64_t asked, answer = UNWRITTEN;
    if (!take_number(words, &taken, &asked) || !take_row(words, &taken, &row))
        return false;
    uint64_t refused = ask(row.words, ESTIMATE_STATE_WORDS * row.states, row.states, asked, &answer);
    if (refused != 0) {
        print_refusal(refused);
        expect(answer == UNWRITTEN, "a refused call has written a number");
    } else {
        printf("%" PRIu64 "\n", answer);
    }
    return true;
}

/* above BUDGET ROWS */
bool answer_above(const struct words *words)
{
    return answer_question(words, estimate_above);
}

/* smallest ALLOWANCE ROWS */
bool answer_smallest(const struct words *words)
{
    return answer_question(words, estimate_smallest_budget);
}
