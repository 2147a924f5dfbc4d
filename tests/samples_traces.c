/* The calls on traces among the samples: `trace_write ROOM N {ACCESS}`, `trace_read ROOM {HEX}`, `trace_list ROOM {HEX}`. */
#include <inttypes.h>
#include <stdio.h>
#include <stdlib.h>
#include <string.h>

#include "estimate.h"
#include "samples.h"

/* After a refusal the room is as it was; after success it is zero beyond the bytes that the call put there. */
static void expect_room(const struct room *room, uint64_t refusal, size_t put)
{
    if (refusal != 0)
        expect_unchanged(room);
    else
        expect_zero(room, put);
}

/* The bytes of all words that are left, two hexadecimal digits each. */
static unsigned char *take_bytes(const struct words *words, size_t taken, size_t *bytes)
{
    size_t digits = 0;
    for (size_t i = taken; i < words->count; i++)
        digits += strlen(words->list[i]);
    unsigned char *trace = keep(digits / 2 + 1);
    *bytes = 0;
    for (size_t i = taken; i < words->count; i++) {
        for (const char *at = words->list[i]; at[0] != '\0' && at[1] != '\0'; at += 2) {
            const char pair[] = {at[0], at[1], '\0'};
            trace[(*bytes)++] = (unsigned char)strtoul(pair, NULL, 16);
        }
    }
    return trace;
}

bool answer_trace_write(const struct words *words)
{
    size_t taken = 0, blocks = (size_t)UNWRITTEN;
    uint64_t room, count;
    uint32_t *accesses;
    if (!take_number(words, &taken, &room) || !take_number(words, &taken, &count) || !take_halves(words, &taken, (size_t)count, &accesses) ||
        taken != words->count)
        return false;
    struct room trace = lend("trace", (size_t)room * ESTIMATE_BLOCK_BYTES);
    uint64_t refusal = estimate_trace_write(accesses, (size_t)count, trace.at, trace.bytes, &blocks);
    expect_room(&trace, refusal, blocks * ESTIMATE_BLOCK_BYTES);
    if (refusal != 0) {
        expect(blocks == (size_t)UNWRITTEN, "a refusal wrote a number");
        print_refusal(refusal);
        return true;
    }
    printf("wrote %zu\n", blocks);
    for (size_t i = 0; i < blocks * ESTIMATE_BLOCK_BYTES; i++)
        printf("%02x%s", ((unsigned char *)trace.at)[i], i % ESTIMATE_BLOCK_BYTES == ESTIMATE_BLOCK_BYTES - 1 ? "\n" : "");
    return true;
}

bool answer_trace_read(const struct words *words)
{
    size_t taken = 0, bytes, count = (size_t)UNWRITTEN, place = (size_t)UNWRITTEN;
    uint64_t places;
    if (!take_number(words, &taken, &places))
        return false;
    unsigned char *trace = take_bytes(words, taken, &bytes);
    struct room room = lend("access", (size_t)places * sizeof(uint32_t));
    uint64_t refusal = estimate_trace_read(trace, bytes, room.at, (size_t)places, &count, &place);
    expect_room(&room, refusal, count * sizeof(uint32_t));
    expect(refusal == 0 || count == (size_t)UNWRITTEN, "a refusal wrote a number");
    expect(refusal == ESTIMATE_DAMAGED || place == (size_t)UNWRITTEN, "a place was written that is none");
    if (refusal == ESTIMATE_DAMAGED) {
        printf("refused %" PRIu64 " %zu\n", refusal, place);
        return true;
    }
    if (refusal != 0) {
        print_refusal(refusal);
        return true;
    }
    printf("read %zu", count);
    for (size_t i = 0; i < count; i++)
        printf(" %" PRIu32, ((uint32_t *)room.at)[i]);
    printf("\n");
    return true;
}

bool answer_trace_list(const struct words *words)
{
    size_t taken = 0, bytes, count = (size_t)UNWRITTEN;
    uint64_t places;
    if (!take_number(words, &taken, &places))
        return false;
    unsigned char *trace = take_bytes(words, taken, &bytes);
    struct room room = lend("place", (size_t)places * sizeof(uint64_t));
    uint64_t refusal = estimate_trace_damaged(trace, bytes, room.at, (size_t)places, &count);
    expect_room(&room, refusal, count * sizeof(uint64_t));
    if (refusal != 0) {
        expect(count == (size_t)UNWRITTEN, "a refusal wrote a number");
        print_refusal(refusal);
        return true;
    }
    printf("damaged %zu", count);
    for (size_t i = 0; i < count; i++)
        printf(" %" PRIu64, ((uint64_t *)room.at)[i]);
    printf("\n");
    return true;
}
