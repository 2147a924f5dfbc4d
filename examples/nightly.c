/* The nightly build: reads graphs, a file each in the curve program's syntax, judges all of them in one call, and prints a line for each file and the report.
 *
 *     nightly [--allowance UNITS] [--budget MISSES] FILE..
 *
 * A line is the file's name and its row: `refused` and the number, or the states, the set-aside count, the longest path and the smallest budget for the allowance (0
 * units unless it is given), with `above` behind it where that is above the miss budget. The exit status is 0; 1 where a graph is refused or above the miss budget;
 * 2 for bad usage, a file that cannot be read, or more graphs than one call takes. Built and started by `tools/nightly`. */
#include <ctype.h>
#include <inttypes.h>
#include <stdbool.h>
#include <stdio.h>
#include <stdlib.h>
#include <string.h>

#include "estimate.h"

/* What is asked for. */
struct wish {
    uint64_t allowance, budget;
    bool budgeted;
};

/* Graphs accepted, graphs refused under 9, 1, 2, 3, 4 and 5, and the sum of the set-aside counts. */
struct report {
    uint64_t accepted, text, ways, limit, tracked, accesses, graph, aside;
};

/* The list of the call: for each graph a count and so many numbers. A graph has one more than is accepted at most, which is refused as well. */
struct batch {
    size_t count;
    uint32_t numbers[ESTIMATE_MOST_GRAPHS * (ESTIMATE_NUMBERS + 2)];
};

static int usage(void)
{
    fprintf(stderr, "usage: nightly [--allowance UNITS] [--budget MISSES] FILE..\n");
    return 2;
}

/* A decimal number of 64 bits; false if the word is none. */
static bool read_wish(const char *word, uint64_t *number)
{
    char *end;
    if (word == NULL || !isdigit((unsigned char)*word) || strlen(word) > 19)
        return false;
    *number = strtoull(word, &end, 10);
    return *end == '\0';
}

/* The next number of a graph, as document 01, section 7, has them: 1 to 10 digits, at most 4294967295, apart by spaces or newlines. Gives 1, or 0 at the end of the
 * file, or -1 if it is malformed. `bytes` counts what was read. */
static int read_number(FILE *file, size_t *bytes, uint32_t *number)
{
    uint64_t value = 0;
    int digits = 0, byte;
    while ((byte = getc(file)) == ' ' || byte == '\n')
        ++*bytes;
    for (; byte >= '0' && byte <= '9' && digits <= 10; byte = getc(file)) {
        value = 10 * value + (uint64_t)(byte - '0');
        digits++;
        ++*bytes;
    }
    if (byte != EOF)
        ++*bytes;
    if (digits == 0 && byte == EOF)
        return 0;
    if (digits == 0 || digits > 10 || value > UINT32_MAX || (byte != ' ' && byte != '\n' && byte != EOF))
        return -1;
    *number = (uint32_t)value;
    return 1;
}

/* A file's graph, behind the others. A malformed text becomes a graph without numbers, which is refused with 9 as the text is. */
static bool read_graph(const char *name, struct batch *batch)
{
    FILE *file = fopen(name, "rb");
    size_t at = batch->count, bytes = 0;
    uint32_t *numbers = batch->numbers + at + 1, count = 0;
    int read = 1;
    if (file == NULL)
        return false;
    while (count <= ESTIMATE_NUMBERS && (read = read_number(file, &bytes, &numbers[count])) == 1)
        count++;
    bool failed = ferror(file) != 0;
    fclose(file);
    if (read == -1 || bytes > 65536)
        count = 0;
    batch->numbers[at] = count;
    batch->count = at + 1 + count;
    return !failed;
}

/* A line for a graph. Gives whether it is refused or above the miss budget. */
static bool print_row(const char *name, const uint64_t *row, const struct wish *wish)
{
    if (row[0] != ESTIMATE_DONE) {
        printf("%s refused %" PRIu64 "\n", name, row[0]);
        return true;
    }
    bool above = wish->budgeted && row[4] > wish->budget;
    printf("%s states %" PRIu64 " aside %" PRIu64 " longest %" PRIu64 " budget %" PRIu64 "%s\n", name, row[1], row[2], row[3], row[4], above ? " above" : "");
    return above;
}

static void print_report(const struct report *r)
{
    printf("accepted %" PRIu64 ", refused 9: %" PRIu64 ", 1: %" PRIu64 ", 2: %" PRIu64 ", 3: %" PRIu64 ", 4: %" PRIu64 ", 5: %" PRIu64 "; set aside %" PRIu64 "\n",
           r->accepted, r->text, r->ways, r->limit, r->tracked, r->accesses, r->graph, r->aside);
}

/* The one call, and what it prints. */
static int judge(char *const *names, size_t graphs, const struct batch *batch, const struct wish *wish)
{
    static uint64_t rows[ESTIMATE_MOST_GRAPHS * ESTIMATE_ROW_WORDS], work[ESTIMATE_NIGHTLY_WORDS];
    struct report r;
    bool bad = false;
    uint64_t refused = estimate_nightly(batch->numbers, batch->count, wish->allowance, rows, sizeof rows / sizeof *rows, work, ESTIMATE_NIGHTLY_WORDS, &r.accepted,
                                        &r.text, &r.ways, &r.limit, &r.tracked, &r.accesses, &r.graph, &r.aside);
    if (refused) {
        fprintf(stderr, "refused %" PRIu64 "\n", refused);
        return 2;
    }
    for (size_t i = 0; i < graphs; i++)
        bad = print_row(names[i], rows + i * ESTIMATE_ROW_WORDS, wish) || bad;
    print_report(&r);
    return bad ? 1 : 0;
}

int main(int argument_count, char **arguments)
{
    static struct batch batch;
    struct wish wish = {0};
    int first = 1;
    for (; first < argument_count && strncmp(arguments[first], "--", 2) == 0; first += 2) {
        bool budget = strcmp(arguments[first], "--budget") == 0;
        if (!budget && strcmp(arguments[first], "--allowance") != 0)
            return usage();
        if (!read_wish(arguments[first + 1], budget ? &wish.budget : &wish.allowance))
            return usage();
        wish.budgeted = wish.budgeted || budget;
    }
    if (first >= argument_count)
        return usage();
    size_t graphs = (size_t)(argument_count - first);
    if (graphs > ESTIMATE_MOST_GRAPHS) {
        fprintf(stderr, "more than %d graphs\n", ESTIMATE_MOST_GRAPHS);
        return 2;
    }
    for (size_t i = 0; i < graphs; i++) {
        if (!read_graph(arguments[first + (int)i], &batch)) {
            fprintf(stderr, "no file that can be read: %s\n", arguments[first + (int)i]);
            return 2;
        }
    }
    return judge(arguments + first, graphs, &batch, &wish);
}
