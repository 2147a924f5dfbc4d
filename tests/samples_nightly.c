/* The call `nightly ROWS WORKING ALLOWANCE N {NUMBER}`: the graphs of N numbers, with room for so many rows and working states. Where it is not refused the answer is a
 * line for each graph with its row, and a line with the report. */
#include "samples.h"

#include <inttypes.h>
#include <stdio.h>
#include <string.h>

#include "estimate.h"

/* More rows or states than there is room for in any sample. */
#define MOST_ROOM 1000000

/* The numbers of the report. */
#define REPORT 8

/* What is lent: the rows, the working room and the report. */
struct lent_build {
    struct room rows, work;
    uint64_t report[REPORT];
};

/* How many graphs the list has, each a count and so many numbers. */
static size_t count_graphs(const uint32_t *numbers, size_t count)
{
    size_t graphs = 0;
    for (size_t at = 0; at < count; at += (size_t)numbers[at] + 1)
        graphs++;
    return graphs;
}

static void print_build(const struct lent_build *lent, size_t graphs)
{
    const uint64_t *words = lent->rows.at;
    for (size_t i = 0; i < graphs; i++) {
        for (size_t j = 0; j < ESTIMATE_ROW_WORDS; j++)
            printf("%s%" PRIu64, j == 0 ? "" : " ", words[i * ESTIMATE_ROW_WORDS + j]);
        printf("\n");
    }
    printf("report");
    for (size_t i = 0; i < REPORT; i++)
        printf(" %" PRIu64, lent->report[i]);
    printf("\n");
    expect_zero(&lent->rows, graphs * ESTIMATE_ROW_WORDS * sizeof *words);
    expect_zero(&lent->work, 0);
}

static void print_refused_build(const struct lent_build *lent, uint64_t refusal)
{
    print_refusal(refusal);
    expect_unchanged(&lent->rows);
    expect_unchanged(&lent->work);
    for (size_t i = 0; i < REPORT; i++)
        expect(lent->report[i] == UNWRITTEN, "a refused call wrote a report");
}

bool answer_nightly(const struct words *words)
{
    uint64_t rows, states, allowance, count;
    uint32_t *numbers;
    size_t taken = 0;
    if (!take_number(words, &taken, &rows) || !take_number(words, &taken, &states) || rows > MOST_ROOM || states > MOST_ROOM)
        return false;
    if (!take_number(words, &taken, &allowance) || !take_number(words, &taken, &count) || !take_halves(words, &taken, count, &numbers) || taken != words->count)
        return false;
    size_t row_words = rows * ESTIMATE_ROW_WORDS, work_words = states * ESTIMATE_STATE_WORDS;
    struct lent_build lent = {.rows = lend("rows", row_words * sizeof(uint64_t)), .work = lend("working", work_words * sizeof(uint64_t))};
    memset(&lent.report, UNWRITTEN_BYTE, sizeof lent.report);
    uint64_t *r = lent.report;
    uint64_t refusal = estimate_nightly(numbers, count, allowance, lent.rows.at, row_words, lent.work.at, work_words, &r[0], &r[1], &r[2], &r[3], &r[4], &r[5],
                                        &r[6], &r[7]);
    if (refusal != ESTIMATE_DONE)
        print_refused_build(&lent, refusal);
    else
        print_build(&lent, count_graphs(numbers, count));
    return true;
}
