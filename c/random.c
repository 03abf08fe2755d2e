/* A linear congruential generator. */
#include "random.h"

uint32_t below(uint32_t n)
{
    static uint64_t state = 20261115;
    state = state * UINT64_C(6364136223846793005) + UINT64_C(1442695040888963407);
    return (uint32_t)(state >> 33) % n;
}
