/* Document 02, request 7/13, in plain C. The clause that a function follows stands above it. */
#include "traces.h"

#include <stdbool.h>
#include <string.h>

#define MOST_ACCESSES 4096

/* "0 to 3 the block number from 0, 4 to 5 its count of accesses (0 to 125), 6 to 505 the accesses as 32-bit numbers, unused places zero, 506 to 509 zero, 510 to 511
 * the check" */
#define NUMBER_AT 0
#define COUNT_AT 4
#define ACCESSES_AT 6
#define CHECK_AT 510

/* ---- One block ---- */

/* "little-endian" */
static uint32_t load(const unsigned char *bytes, int width)
{
    uint32_t number = 0;
    while (width-- > 0)
        number = number << 8 | bytes[width];
    return number;
}

static void store(unsigned char *bytes, int width, uint32_t number)
{
    for (int i = 0; i < width; i++)
        bytes[i] = (unsigned char)(number >> 8 * i);
}

/* "the sum over bytes 0 to 509 of (position + 1) times the byte, modulo 65521" */
unsigned plain_trace_check(const unsigned char *block)
{
    unsigned long sum = 0;
    for (unsigned position = 0; position < CHECK_AT; position++)
        sum += (position + 1ul) * block[position];
    return (unsigned)(sum % 65521);
}

/* "a damaged block (check, zeros, count or number)", "judged by its own bytes and place only" */
static bool is_damaged(const unsigned char *block, size_t place)
{
    uint32_t count = load(block + COUNT_AT, 2);
    if (load(block + CHECK_AT, 2) != plain_trace_check(block))
        return true;
    if (load(block + NUMBER_AT, 4) != place || count > PLAIN_BLOCK_ACCESSES)
        return true;
    for (size_t i = ACCESSES_AT + 4 * (size_t)count; i < CHECK_AT; i++) {
        if (block[i] != 0)
            return true;
    }
    return false;
}

/* ---- The calls ---- */

/* "Refusals, before 1 and in this order: 12, a trace handed in that isn't a multiple of 512 bytes; 21, room for fewer than 125 accesses a block when reading, one place
 * a block when listing" */
static int trace_refusal(size_t bytes, size_t room, size_t each)
{
    if (bytes % PLAIN_BLOCK_BYTES != 0)
        return 12;
    return room / each < bytes / PLAIN_BLOCK_BYTES ? 21 : 0;
}

/* "13, when reading, a damaged block .., adding the first one's place"; "Room beyond what is read or written becomes zero" */
int plain_trace_read(const unsigned char *trace, size_t bytes, uint32_t *accesses, size_t room, size_t *count, size_t *place)
{
    size_t blocks = bytes / PLAIN_BLOCK_BYTES, read = 0;
    int number = trace_refusal(bytes, room, PLAIN_BLOCK_ACCESSES);
    if (number != 0)
        return number;
    for (size_t k = 0; k < blocks; k++) {
        if (is_damaged(trace + k * PLAIN_BLOCK_BYTES, k)) {
            *place = k;
            return 13;
        }
    }
    for (size_t k = 0; k < blocks; k++) {
        const unsigned char *block = trace + k * PLAIN_BLOCK_BYTES;
        for (uint32_t i = 0; i < load(block + COUNT_AT, 2); i++)
            accesses[read++] = load(block + ACCESSES_AT + 4 * i, 4);
    }
    for (size_t i = read; i < room; i++)
        accesses[i] = 0;
    *count = read;
    return 0;
}

/* "A separate question lists the damaged blocks by place, rising, says how many, and zeroes the rest of its room" */
int plain_trace_damaged(const unsigned char *trace, size_t bytes, uint64_t *places, size_t room, size_t *count)
{
    size_t listed = 0;
    int number = trace_refusal(bytes, room, 1);
    if (number != 0)
        return number;
    for (size_t k = 0; k < bytes / PLAIN_BLOCK_BYTES; k++) {
        if (is_damaged(trace + k * PLAIN_BLOCK_BYTES, k))
            places[listed++] = k;
    }
    for (size_t i = listed; i < room; i++)
        places[i] = 0;
    *count = listed;
    return 0;
}

/* "The writer takes at most 4,096 accesses, fills every block but the last, and writes no block for none"; "21, .. the needed blocks when writing (the writer gives 4
 * before it)" */
int plain_trace_write(const uint32_t *accesses, size_t access_count, unsigned char *trace, size_t room, size_t *blocks)
{
    size_t needed = 0, written = 0;
    if (access_count > MOST_ACCESSES)
        return 4;
    while (needed * PLAIN_BLOCK_ACCESSES < access_count)
        needed++;
    if (room < needed * PLAIN_BLOCK_BYTES)
        return 21;
    if (room > 0)
        memset(trace, 0, room);
    for (size_t k = 0; k < needed; k++) {
        unsigned char *block = trace + k * PLAIN_BLOCK_BYTES;
        uint32_t count = 0;
        while (count < PLAIN_BLOCK_ACCESSES && written < access_count)
            store(block + ACCESSES_AT + 4 * count++, 4, accesses[written++]);
        store(block + NUMBER_AT, 4, (uint32_t)k);
        store(block + COUNT_AT, 2, count);
        store(block + CHECK_AT, 2, plain_trace_check(block));
    }
    *blocks = needed;
    return 0;
}
