/* Makes the calls of a sample file, read from standard input, and prints the library's answers, so that they can be compared with the file beside it, byte for byte.
 *
 * A line is a call: its name and words, apart by spaces. Empty lines and lines that begin with # are none. A word w*c stands for the word w, written c times.
 * An answer is one or more lines and then a line `end`. After each call the rooms are looked at, and what is wrong with them is a line of the answer. */
#define _POSIX_C_SOURCE 200809L /* getline */

#include "samples.h"

#include <inttypes.h>
#include <stdio.h>
#include <stdlib.h>
#include <string.h>

#include "estimate.h"

/* Bytes behind each lent room that nothing may write to. */
#define GUARD 256

/* More states than there is room for in any sample. */
#define MOST_STATES 1000000

struct call {
    const char *name;
    bool (*answer)(const struct words *words);
};

static const struct call calls[] = {
    {"graph", answer_graph},
    {"pair", answer_pair},
    {"spread", answer_spread},
    {"above", answer_above},
    {"smallest", answer_smallest},
    {"quick", answer_quick},
    {"trace_write", answer_trace_write},
    {"trace_read", answer_trace_read},
    {"trace_list", answer_trace_list},
    {"listing", answer_listing},
    {"nightly", answer_nightly},
    {"best", answer_best},
    {"best_spread", answer_best_spread},
};

/* ---- What is kept for the call at hand ---- */

/* A stretch of kept memory lies behind its link. */
union link {
    union link *next;
    max_align_t aligned;
};
static union link *kept;

static void *or_stop(void *memory)
{
    if (memory == NULL) {
        fprintf(stderr, "samples: no memory\n");
        exit(2);
    }
    return memory;
}

void *keep(size_t bytes)
{
    union link *made = or_stop(bytes < SIZE_MAX - sizeof *made ? malloc(sizeof *made + bytes) : NULL);
    made->next = kept;
    kept = made;
    return made + 1;
}

static void give_back(void)
{
    while (kept != NULL) {
        union link *next = kept->next;
        free(kept);
        kept = next;
    }
}

/* ---- Words ---- */

const char *read_decimal(const char *text, char end, uint64_t *number)
{
    uint64_t value = 0;
    const char *at = text;
    for (; *at >= '0' && *at <= '9'; at++) {
        uint64_t digit = (uint64_t)(*at - '0');
        if (value > (UINT64_MAX - digit) / 10)
            return NULL;
        value = 10 * value + digit;
    }
    if (at == text || (*at != end && *at != '\0'))
        return NULL;
    *number = value;
    return at;
}

bool take_number(const struct words *words, size_t *taken, uint64_t *number)
{
    if (*taken >= words->count || read_decimal(words->list[*taken], '\0', number) == NULL)
        return false;
    ++*taken;
    return true;
}

bool take_half(const struct words *words, size_t *taken, uint32_t *number)
{
    uint64_t whole;
    size_t place = *taken;
    if (!take_number(words, &place, &whole) || whole > UINT32_MAX)
        return false;
    *taken = place;
    *number = (uint32_t)whole;
    return true;
}

bool take_numbers(const struct words *words, size_t *taken, size_t count, uint64_t **list)
{
    if (count > words->count - *taken)
        return false;
    *list = keep(count * sizeof **list);
    for (size_t i = 0; i < count; i++) {
        if (!take_number(words, taken, *list + i))
            return false;
    }
    return true;
}

bool take_halves(const struct words *words, size_t *taken, size_t count, uint32_t **list)
{
    if (count > words->count - *taken)
        return false;
    *list = keep(count * sizeof **list);
    for (size_t i = 0; i < count; i++) {
        if (!take_half(words, taken, *list + i))
            return false;
    }
    return true;
}

/* All words of the line at hand. */
struct line {
    size_t count, room;
    char **list;
};

static void add_word(struct line *line, char *word)
{
    if (line->count == line->room) {
        line->room = 2 * line->room + 64;
        line->list = or_stop(realloc(line->list, line->room * sizeof *line->list));
    }
    line->list[line->count++] = word;
}

/* A word w*c is c words w, and any other word is itself. */
static void add_words(struct line *line, char *word)
{
    uint64_t times = 1;
    char *star = strchr(word, '*');
    if (star != NULL && read_decimal(star + 1, '\0', &times) != NULL)
        *star = '\0';
    for (uint64_t i = 0; i < times; i++)
        add_word(line, word);
}

/* Cuts the text into words. */
static void read_line(struct line *line, char *text)
{
    line->count = 0;
    for (char *word = strtok(text, " \n"); word != NULL; word = strtok(NULL, " \n"))
        add_words(line, word);
}

/* ---- Rooms ---- */

struct room lend(const char *name, size_t bytes)
{
    struct room room = {name, bytes, keep(bytes + GUARD)};
    memset(room.at, UNWRITTEN_BYTE, bytes + GUARD);
    return room;
}

static bool bytes_are(const struct room *room, size_t from, size_t end, unsigned char value)
{
    const unsigned char *list = room->at;
    for (size_t i = from; i < end; i++) {
        if (list[i] != value)
            return false;
    }
    return true;
}

void expect(bool holds, const char *otherwise)
{
    if (!holds)
        printf("wrong: %s\n", otherwise);
}

void expect_unchanged(const struct room *room)
{
    if (!bytes_are(room, 0, room->bytes + GUARD, UNWRITTEN_BYTE))
        printf("wrong: the %s room has changed\n", room->name);
}

void expect_zero(const struct room *room, size_t from)
{
    if (!bytes_are(room, from, room->bytes, 0))
        printf("wrong: the %s room is not zero from byte %zu on\n", room->name, from);
    if (!bytes_are(room, room->bytes, room->bytes + GUARD, UNWRITTEN_BYTE))
        printf("wrong: something is written behind the %s room\n", room->name);
}

void print_refusal(uint64_t number)
{
    printf("refused %" PRIu64 "\n", number);
}

/* ---- Calls ---- */

/* Without the words `room RESULT WORKING`, if the line begins with them: its first word is then the call's name. */
static bool take_rooms(struct words *words)
{
    uint64_t result, working;
    size_t taken = 1;
    if (words->count == 0 || strcmp(words->list[0], "room") != 0)
        return words->count > 0;
    if (!take_number(words, &taken, &result) || !take_number(words, &taken, &working))
        return false;
    if (result > MOST_STATES || working > MOST_STATES)
        return false;
    words->result_states = (size_t)result;
    words->working_states = (size_t)working;
    words->list += taken;
    words->count -= taken;
    return words->count > 0;
}

/* Makes the call of these words. False if there is no such call. */
static bool answer(const struct line *line)
{
    struct words words = {line->count, line->list, ESTIMATE_RESULT_WORDS / ESTIMATE_STATE_WORDS, ESTIMATE_WORK_WORDS / ESTIMATE_STATE_WORDS};
    if (!take_rooms(&words))
        return false;
    const char *name = words.list[0];
    words.list++;
    words.count--;
    for (size_t i = 0; i < sizeof calls / sizeof *calls; i++) {
        if (strcmp(calls[i].name, name) == 0)
            return calls[i].answer(&words);
    }
    return false;
}

int main(void)
{
    struct line line = {0};
    char *text = NULL;
    size_t room = 0;
    while (getline(&text, &room, stdin) != -1) {
        bool comment = text[0] == '#';
        read_line(&line, text);
        if (comment || line.count == 0)
            continue;
        if (!answer(&line))
            printf("no such call: %s ..\n", line.list[0]);
        printf("end\n");
        give_back();
    }
    free(text);
    free(line.list);
    return 0;
}
