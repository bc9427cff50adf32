#ifndef SECOND_CHOOSE_H
#define SECOND_CHOOSE_H

#include <stdint.h>

/* "Pulses": the ways to choose k of n, each from the one before. */
static inline int64_t choose(int64_t n, int64_t k)
{
    int64_t ways = 1;
    for (int64_t i = 1; i <= k; i++)
        ways = ways * (n - i + 1) / i;
    return ways;
}

#endif
