/* Random numbers, the same on every machine. */
#include <stdint.h>

static uint64_t state = 1;

static uint64_t dice(void) {
    uint64_t z = (state += 0x9E3779B97F4A7C15u);
    z = (z ^ (z >> 30)) * 0xBF58476D1CE4E5B9u;
    z = (z ^ (z >> 27)) * 0x94D049BB133111EBu;
    return z ^ (z >> 31);
}

static int64_t between(int64_t least, int64_t greatest) {
    return least + (int64_t)(dice() % (uint64_t)(greatest - least + 1));
}
