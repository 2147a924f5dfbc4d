#include "quick.h"

/* The full sum, in 128 bits, which no row of 64-bit numbers passes. */
bool plain_within(const uint64_t *row, size_t places, uint64_t budget, uint64_t allowance)
{
    unsigned __int128 sum = 0;
    for (size_t i = 0; i < places; i++) {
        if (i > budget)
            sum += row[i];
    }
    return sum <= allowance;
}
