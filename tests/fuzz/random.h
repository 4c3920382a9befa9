#ifndef RANDOM_H
#define RANDOM_H

#include <stdint.h>

/* The next of a row of random numbers (splitmix64). */
static inline uint64_t next_random(uint64_t *state) {
    *state += 0x9E3779B97F4A7C15;
    uint64_t z = *state;
    z = (z ^ (z >> 30)) * 0xBF58476D1CE4E5B9;
    z = (z ^ (z >> 27)) * 0x94D049BB133111EB;
    return z ^ (z >> 31);
}

#endif
