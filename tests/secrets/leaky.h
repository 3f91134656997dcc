/*
 * Two functions that a secret decides in, for the tests of secrets to find.
 */

#include <stdint.h>

#ifdef __clang__
#define LEAKY static __attribute__((noinline)) void
#else
#define LEAKY static __attribute__((noinline, noclone)) void
#endif

static volatile uint8_t seen, table[256];

LEAKY leaky_branch(uint64_t word)
{
    if (word & 1) {
        seen = 1;
    }
}

LEAKY leaky_index(uint64_t word)
{
    seen = table[word & 255];
}
