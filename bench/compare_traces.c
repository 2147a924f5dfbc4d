/* Compares the library's calls on traces with plain C on written, packed and damaged traces: `compare_traces [count [seed [number]]]`. With a number, only the case
 * of that number is run, to repeat a difference. Exit status 1 if there was a difference, or if an answer or a refusal never occurred. */
#include <inttypes.h>
#include <stdbool.h>
#include <stdio.h>
#include <stdlib.h>
#include <string.h>

#include "estimate.h"
#include "inputs.h"
#include "traces.h"

/* What rooms are filled with before a call; where a call writes nothing it is found again. */
#define PATTERN_BYTE 0xa5
#define PATTERN ((size_t)0xa5a5a5a5a5a5a5a5u)

/* The largest trace is somewhat longer than what can be written; rooms are longer still, and nothing may be written behind what is lent. */
#define MOST_BLOCKS 40
#define MOST_BYTES (MOST_BLOCKS * PLAIN_BLOCK_BYTES)
#define MOST_READ (MOST_BLOCKS * PLAIN_BLOCK_ACCESSES)
#define MORE 600

/* Refusals are counted by number, and 0 for none. */
#define NUMBERS 22

/* The case at hand, and what has been counted so far. */
struct run {
    uint64_t seed, number;
    unsigned long read[NUMBERS], listed[NUMBERS], written[NUMBERS];
    unsigned long changed_bytes, differences;
};

/* A trace as it is handed in. */
struct trace {
    size_t bytes;
    unsigned char list[MOST_BYTES];
};

static void expect(struct run *run, bool holds, const char *what)
{
    if (!holds) {
        run->differences++;
        printf("difference: seed %" PRIu64 " number %" PRIu64 ": %s\n", run->seed, run->number, what);
    }
}

/* ---- The calls ---- */

/* Room for so many accesses. Where both answer, the rooms are equal to the last byte, those behind what was lent too. */
static void compare_read(struct run *run, const struct trace *trace, size_t room)
{
    static uint32_t ours[MOST_READ + MORE], plain[MOST_READ + MORE];
    size_t count = PATTERN, place = PATTERN, plain_count = PATTERN, plain_place = PATTERN;
    memset(ours, PATTERN_BYTE, sizeof ours);
    memset(plain, PATTERN_BYTE, sizeof plain);
    const unsigned char *bytes = trace->bytes == 0 ? NULL : trace->list;
    uint64_t number = estimate_trace_read(bytes, trace->bytes, room == 0 ? NULL : ours, room, &count, &place);
    int plain_number = plain_trace_read(bytes, trace->bytes, plain, room, &plain_count, &plain_place);
    run->read[plain_number]++;
    expect(run, number == (uint64_t)plain_number, "refusal of reading");
    expect(run, count == plain_count, "numbers of accesses read");
    expect(run, place == plain_place, "places of the first damaged block");
    expect(run, memcmp(ours, plain, sizeof ours) == 0, "rooms after reading");
}

/* Room for so many places. Gives how many blocks are damaged, and the first of them. */
static size_t compare_list(struct run *run, const struct trace *trace, size_t room, uint64_t *first)
{
    static uint64_t ours[MOST_BLOCKS + MORE], plain[MOST_BLOCKS + MORE];
    size_t count = PATTERN, plain_count = PATTERN;
    memset(ours, PATTERN_BYTE, sizeof ours);
    memset(plain, PATTERN_BYTE, sizeof plain);
    const unsigned char *bytes = trace->bytes == 0 ? NULL : trace->list;
    uint64_t number = estimate_trace_damaged(bytes, trace->bytes, room == 0 ? NULL : ours, room, &count);
    int plain_number = plain_trace_damaged(bytes, trace->bytes, plain, room, &plain_count);
    run->listed[plain_number]++;
    expect(run, number == (uint64_t)plain_number, "refusal of listing");
    expect(run, count == plain_count, "numbers of damaged blocks");
    expect(run, memcmp(ours, plain, sizeof ours) == 0, "rooms after listing");
    *first = ours[0];
    return count;
}

/* Room for so many bytes. */
static void compare_write(struct run *run, const uint32_t *accesses, size_t access_count, size_t room)
{
    static unsigned char ours[MOST_BYTES + MORE], plain[MOST_BYTES + MORE];
    size_t blocks = PATTERN, plain_blocks = PATTERN;
    memset(ours, PATTERN_BYTE, sizeof ours);
    memset(plain, PATTERN_BYTE, sizeof plain);
    uint64_t number = estimate_trace_write(access_count == 0 ? NULL : accesses, access_count, room == 0 ? NULL : ours, room, &blocks);
    int plain_number = plain_trace_write(accesses, access_count, plain, room, &plain_blocks);
    run->written[plain_number]++;
    expect(run, number == (uint64_t)plain_number, "refusal of writing");
    expect(run, blocks == plain_blocks, "numbers of blocks written");
    expect(run, memcmp(ours, plain, sizeof ours) == 0, "rooms after writing");
}

/* A trace read and its damaged blocks listed, in rooms on the borders of what is needed and in random ones. */
static void compare_trace(struct run *run, struct generator *from, const struct trace *trace)
{
    size_t blocks = trace->bytes / PLAIN_BLOCK_BYTES, needed = blocks * PLAIN_BLOCK_ACCESSES;
    const size_t rooms[] = {needed, needed + 1 + draw_below(from, MORE), needed - (needed > 0), 0, draw_below(from, (uint32_t)needed + MORE)};
    const size_t places[] = {blocks, blocks + 1 + draw_below(from, MORE), blocks - (blocks > 0), 0, draw_below(from, (uint32_t)blocks + MORE)};
    uint64_t first;
    for (size_t i = 0; i < sizeof rooms / sizeof *rooms; i++) {
        compare_read(run, trace, rooms[i]);
        compare_list(run, trace, places[i], &first);
    }
}

/* ---- Traces ---- */

static uint32_t draw_access(struct generator *from)
{
    const uint32_t some[] = {0, 255, 256, 65535, 65536, 16777216, UINT32_MAX};
    switch (draw_below(from, 3)) {
    case 0: return some[draw_below(from, 7)];
    case 1: return draw_below(from, 1000);
    default: return (uint32_t)draw(from);
    }
}

/* On the borders of full blocks and of 4,096, and random. */
static size_t draw_access_count(struct generator *from)
{
    const size_t borders[] = {0, 1, 124, 125, 126, 249, 250, 251, 4000, 4095, 4096, 4097};
    return draw_below(from, 3) == 0 ? borders[draw_below(from, 12)] : draw_below(from, draw_below(from, 2) == 0 ? 400 : 4100);
}

static unsigned char *block_of(struct trace *trace, size_t place)
{
    return trace->list + place * PLAIN_BLOCK_BYTES;
}

/* The check of a block is made right again. */
static void set_check(unsigned char *block)
{
    unsigned check = plain_trace_check(block);
    block[510] = check % 256;
    block[511] = check / 256;
}

/* A trace of blocks that need not be full, with any counts, perhaps of more than 4,096 accesses. */
static void make_packed(struct generator *from, struct trace *trace)
{
    size_t blocks = draw_below(from, 4) == 0 ? 33 + draw_below(from, MOST_BLOCKS - 32) : draw_below(from, 6);
    memset(trace, 0, sizeof *trace);
    trace->bytes = blocks * PLAIN_BLOCK_BYTES;
    for (size_t place = 0; place < blocks; place++) {
        unsigned char *block = block_of(trace, place);
        uint32_t count = draw_below(from, 3) == 0 ? 125 : draw_below(from, 126);
        block[0] = (unsigned char)place;
        block[4] = (unsigned char)count;
        for (uint32_t i = 0; i < 4 * count; i++)
            block[6 + i] = draw_below(from, 2) == 0 ? 0 : (unsigned char)draw(from);
        set_check(block);
    }
}

/* One byte of one block becomes another, which has to make that block damaged and no other. */
static void change_byte(struct run *run, struct generator *from, struct trace *trace)
{
    size_t at = draw_below(from, (uint32_t)trace->bytes);
    uint64_t first;
    trace->list[at] = (unsigned char)(trace->list[at] + 1 + draw_below(from, 255));
    size_t count = compare_list(run, trace, MOST_BLOCKS, &first);
    expect(run, count == 1 && first == at / PLAIN_BLOCK_BYTES, "one changed byte");
    run->changed_bytes++;
}

/* One block is damaged so that only one of the rules notices it, or in any way. */
static void damage_block(struct generator *from, struct trace *trace)
{
    size_t blocks = trace->bytes / PLAIN_BLOCK_BYTES, place = draw_below(from, (uint32_t)blocks);
    unsigned char *block = block_of(trace, place), *other = block_of(trace, draw_below(from, (uint32_t)blocks)), kept[PLAIN_BLOCK_BYTES];
    unsigned check = plain_trace_check(block) + 65521, end = 6 + 4 * block[4];
    switch (draw_below(from, 8)) {
    case 0: /* the number */
        block[draw_below(from, 4)] ^= (unsigned char)(1 + draw_below(from, 255));
        break;
    case 1: /* the count, one too large */
        block[4] = 126;
        break;
    case 2: /* the count, in either byte */
        block[4] = (unsigned char)(126 + draw_below(from, 130));
        block[5] = (unsigned char)draw_below(from, 256);
        break;
    case 3: /* an unused place, or a byte behind the last */
        if (end < 510)
            block[end + draw_below(from, 510 - end)] = (unsigned char)(1 + draw_below(from, 255));
        break;
    case 4: /* bytes 506 to 509 */
        block[506 + draw_below(from, 4)] = (unsigned char)(1 + draw_below(from, 255));
        break;
    case 5: /* the check, which may be right modulo 65521 */
        check = check > 65535 ? draw_below(from, 65536) : check;
        block[510] = (unsigned char)(check % 256);
        block[511] = (unsigned char)(check / 256);
        return;
    case 6: /* two blocks change places */
        memcpy(kept, block, sizeof kept);
        memmove(block, other, sizeof kept);
        memcpy(other, kept, sizeof kept);
        return;
    default: /* anything */
        for (size_t i = 0; i < PLAIN_BLOCK_BYTES; i++)
            block[i] = (unsigned char)draw(from);
        return;
    }
    set_check(block);
}

/* Bytes are missing at the end, or there are some more. */
static void cut(struct generator *from, struct trace *trace)
{
    size_t by = 1 + draw_below(from, 700);
    trace->bytes = trace->bytes >= by ? trace->bytes - by : draw_below(from, MOST_BYTES);
}

/* ---- Cases ---- */

/* Accesses written, in rooms on the borders of what is needed; and read back. */
static void run_written(struct run *run, struct generator *from, struct trace *trace)
{
    static uint32_t accesses[4100], back[MOST_READ];
    size_t count = draw_access_count(from), blocks = (count + 124) / 125, needed = blocks * PLAIN_BLOCK_BYTES, read = 0, place = 0;
    for (size_t i = 0; i < count; i++)
        accesses[i] = draw_access(from);
    const size_t rooms[] = {needed, needed + 1 + draw_below(from, MORE), needed - (needed > 0), 0, draw_below(from, MOST_BYTES)};
    for (size_t i = 0; i < sizeof rooms / sizeof *rooms; i++)
        compare_write(run, accesses, count, rooms[i]);
    trace->bytes = 0;
    if (count > ESTIMATE_MOST_ACCESSES)
        return;
    trace->bytes = needed;
    expect(run, estimate_trace_write(accesses, count, trace->list, needed, &blocks) == 0, "writing for reading back");
    expect(run, estimate_trace_read(trace->list, needed, back, MOST_READ, &read, &place) == 0, "reading back");
    expect(run, read == count && memcmp(back, accesses, count * sizeof *back) == 0, "accesses read back");
}

static void run_case(struct run *run, uint64_t number)
{
    static struct trace trace;
    struct generator from = generator_of(run->seed, number);
    run->number = number;
    if (number % 2 == 0)
        run_written(run, &from, &trace);
    else
        make_packed(&from, &trace);
    compare_trace(run, &from, &trace);
    if (trace.bytes > 0 && number % 3 == 0)
        change_byte(run, &from, &trace);
    for (uint32_t damages = trace.bytes > 0 ? draw_below(&from, 4) : 0; damages > 0; damages--)
        damage_block(&from, &trace);
    compare_trace(run, &from, &trace);
    if (number % 4 == 1) {
        cut(&from, &trace);
        compare_trace(run, &from, &trace);
    }
}

/* ---- What was counted ---- */

static unsigned long print_counts(const char *name, const unsigned long *counts)
{
    unsigned long total = counts[0];
    printf("%s: %lu answered", name, counts[0]);
    for (int i = 1; i < NUMBERS; i++) {
        total += counts[i];
        if (counts[i] > 0)
            printf(", %lu refused %d", counts[i], i);
    }
    printf("\n");
    return total;
}

static bool occurred(const char *name, const unsigned long *counts, const int *numbers, size_t many)
{
    bool all = true;
    for (size_t i = 0; i < many; i++) {
        if (counts[numbers[i]] == 0) {
            printf("error: %s: %d never occurred\n", name, numbers[i]);
            all = false;
        }
    }
    return all;
}

static bool all_occurred(const struct run *run)
{
    const int reads[] = {0, 12, 21, 13}, lists[] = {0, 12, 21}, writes[] = {0, 4, 21};
    bool read = occurred("reading", run->read, reads, 4), listed = occurred("listing", run->listed, lists, 3);
    return occurred("writing", run->written, writes, 3) && read && listed;
}

int main(int argument_count, char **arguments)
{
    uint64_t count = argument_count > 1 ? strtoull(arguments[1], NULL, 10) : 4000;
    struct run run = {.seed = argument_count > 2 ? strtoull(arguments[2], NULL, 10) : 1};
    bool complete = true;
    if (argument_count > 3) {
        run_case(&run, strtoull(arguments[3], NULL, 10));
    } else {
        for (uint64_t number = 0; number < count; number++)
            run_case(&run, number);
        complete = all_occurred(&run);
    }
    unsigned long read = print_counts("traces read", run.read), listed = print_counts("traces listed", run.listed);
    unsigned long written = print_counts("traces written", run.written);
    printf("compared: %lu readings, %lu listings, %lu writings, %lu single bytes changed, %lu differences\n", read, listed, written,
           run.changed_bytes, run.differences);
    return run.differences == 0 && complete ? 0 : 1;
}
