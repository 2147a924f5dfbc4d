/* Document 02, request 5/13, in plain C: whether the numbers above a budget sum to at most an allowance. It stands on nothing else. */
#ifndef QUICK_H
#define QUICK_H

#include <stdbool.h>
#include <stddef.h>
#include <stdint.h>

/* A row has one number for each place from 0. */
bool plain_within(const uint64_t *row, size_t places, uint64_t budget, uint64_t allowance);

#endif
