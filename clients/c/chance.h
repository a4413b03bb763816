/* Numbers by chance, the same in each run. */
#ifndef CHANCE_H
#define CHANCE_H
#include <stdint.h>

/* A number from 0 to n - 1. */
static uint32_t chance(uint32_t n) {
    static uint64_t seed = 88172645463325252u;
    seed ^= seed << 13;
    seed ^= seed >> 7;
    seed ^= seed << 17;
    return (uint32_t)(seed >> 33) % n;
}

#endif
