/* Document 02, request 7/13, in plain C: the trace recorder's blocks read, the damaged ones listed, accesses written. It stands on nothing else. */
#ifndef TRACES_H
#define TRACES_H

#include <stddef.h>
#include <stdint.h>

#define PLAIN_BLOCK_BYTES 512
#define PLAIN_BLOCK_ACCESSES 125

/* Reads a trace into room for so many accesses, and zeroes the room beyond them. Gives 0 and how many there are, or the first of 12, 21 and 13 that applies; 13
 * with the place of the first damaged block. A refusal writes nothing else. */
int plain_trace_read(const unsigned char *trace, size_t bytes, uint32_t *accesses, size_t room, size_t *count, size_t *place);

/* Lists the places of the damaged blocks into room for so many places, and zeroes the room beyond them. Gives 0 and how many there are, 12 or 21. */
int plain_trace_damaged(const unsigned char *trace, size_t bytes, uint64_t *places, size_t room, size_t *count);

/* Writes accesses into room for so many bytes, and zeroes the room beyond the blocks. Gives 0 and how many blocks there are, 4 or 21. */
int plain_trace_write(const uint32_t *accesses, size_t access_count, unsigned char *trace, size_t room, size_t *blocks);

/* The check that the first 510 bytes of a block ask for. */
unsigned plain_trace_check(const unsigned char *block);

#endif
