/*
 * What a compiler for Arm calls for copying and clearing memory, and, on a Cortex-M0, for
 * shifts of 64 bits and for division: the names of Arm's run-time ABI. C libraries for Arm
 * have the first, libgcc has the others, and compiler-rt all of them, so this too is left
 * out by whoever has these.
 */

#include <stdint.h>
#include <string.h>

void __aeabi_memcpy(void *restrict to, const void *restrict from, size_t count);
void __aeabi_memcpy4(void *restrict to, const void *restrict from, size_t count);
void __aeabi_memcpy8(void *restrict to, const void *restrict from, size_t count);
void __aeabi_memset(void *bytes, size_t count, int byte);
void __aeabi_memclr(void *bytes, size_t count);
void __aeabi_memclr4(void *bytes, size_t count);
void __aeabi_memclr8(void *bytes, size_t count);
uint64_t __aeabi_llsl(uint64_t number, int places);
uint64_t __aeabi_llsr(uint64_t number, int places);
unsigned __aeabi_uidiv(unsigned number, unsigned by);
uint64_t __aeabi_uidivmod(unsigned number, unsigned by);

void __aeabi_memcpy(void *restrict to, const void *restrict from, size_t count)
{
    memcpy(to, from, count);
}

void __aeabi_memcpy4(void *restrict to, const void *restrict from, size_t count)
{
    memcpy(to, from, count);
}

void __aeabi_memcpy8(void *restrict to, const void *restrict from, size_t count)
{
    memcpy(to, from, count);
}

void __aeabi_memset(void *bytes, size_t count, int byte)
{
    memset(bytes, byte, count);
}

void __aeabi_memclr(void *bytes, size_t count)
{
    memset(bytes, 0, count);
}

void __aeabi_memclr4(void *bytes, size_t count)
{
    memset(bytes, 0, count);
}

void __aeabi_memclr8(void *bytes, size_t count)
{
    memset(bytes, 0, count);
}

/* A number from its two halves, by moves alone. */
static uint64_t number_of(uint32_t high, uint32_t low)
{
    return (uint64_t)high << 32 | low;
}

/* Shifts by 0 to 63 places. */
uint64_t __aeabi_llsl(uint64_t number, int places)
{
    const uint32_t high = (uint32_t)(number >> 32), low = (uint32_t)number;

    if (places >= 32) {
        return number_of(low << (places - 32), 0);
    }
    return places == 0 ? number : number_of(high << places | low >> (32 - places), low << places);
}

uint64_t __aeabi_llsr(uint64_t number, int places)
{
    const uint32_t high = (uint32_t)(number >> 32), low = (uint32_t)number;

    if (places >= 32) {
        return number_of(0, high >> (places - 32));
    }
    return places == 0 ? number : number_of(high >> places, low >> places | high << (32 - places));
}

/* Quotient and remainder, which go back in the low and the high half. */
uint64_t __aeabi_uidivmod(unsigned number, unsigned by)
{
    unsigned quotient = 0, rest = 0;
    int place;

    for (place = 31; place >= 0; place--) {
        rest = rest << 1 | (number >> place & 1);
        quotient <<= 1;
        if (rest >= by) {
            rest -= by;
            quotient |= 1;
        }
    }
    return number_of(rest, quotient);
}

unsigned __aeabi_uidiv(unsigned number, unsigned by)
{
    return (unsigned)__aeabi_uidivmod(number, by);
}
