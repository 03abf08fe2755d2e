/* Numbers for tests on random input, the same in every run. */
#ifndef RANDOM_H
#define RANDOM_H

#include <stdint.h>

/* A number from 0 to n - 1. */
uint32_t below(uint32_t n);

#endif
