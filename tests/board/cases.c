/*
 * Calls the library with the cases that the second program made (tests/abuse COUNT cases
 * FOLDER): compares each answer and every byte of the lent memory and around it, twice, over
 * two fills. Prints the deepest stack of each call, and fails if one takes what the header
 * says that none does.
 *
 * A file of cases (calls.h) lies in flash, CASES being its name.
 */

#include "calls.h"

#include <stdio.h>
#include <stdlib.h>

static const uint8_t cases[] = {
#embed CASES
};

/* The deepest stack seen of each call. */
static uint32_t deepest[CALL_COUNT];

/* The lent memory lies somewhere in this, at every alignment. */
#define GUARD 32
#define LENT_MAX (KK_LINE_MAX + 64)
static uint8_t memory[GUARD + 8 + LENT_MAX + GUARD];

/* So much of the stack is painted, and so much a call takes at most, by the header. */
#define PAINTED 6144
#define STACK_MAX 4096

static unsigned number_of_case;

static void fail(const char *what)
{
    printf("board: case %u: %s\n", number_of_case, what);
    exit(1);
}

/* Reads the case at a place, and gives the place behind it. A slice of length 0 is NULL in every second case. */
static const uint8_t *next_case(const uint8_t *at, struct one *one)
{
    size_t i;

    at = read_case(at, one);
    if (!at) {
        fail("no such call");
    }
    for (i = 0; calls[one->call].slices[i]; i++) {
        if (one->lengths[i] == 0 && number_of_case % 2 == 0) {
            one->slices[i] = NULL;
        }
    }
    if (one->lent > LENT_MAX) {
        fail("too much memory to lend");
    }
    return at;
}

static uint8_t *stack_pointer(void);

#if defined(__arm__) || defined(__aarch64__)
#define STACK_POINTER "mov %0, sp"
#elif defined(__riscv)
#define STACK_POINTER "mv %0, sp"
#elif defined(__x86_64__)
#define STACK_POINTER "mov %%rsp, %0"
#elif defined(__wasm__)
#define STACK_POINTER "global.get __stack_pointer\n local.set %0"
#endif

static inline __attribute__((always_inline)) uint8_t *stack_pointer(void)
{
    uint8_t *pointer;

    __asm__ volatile(STACK_POINTER : "=r"(pointer));
    return pointer;
}

/* Makes a call from a stack that is painted below its pointer, and notes how far down it was
   written to. */
static __attribute__((noinline)) uint64_t call_painted(const struct one *one, uint8_t *out, uint8_t paint)
{
    volatile uint8_t *const top = stack_pointer(), *at;
    uint64_t answer;

    for (at = top - PAINTED; at < top; at++) {
        *at = paint;
    }
    answer = made(one, out);
    for (at = top - PAINTED; at < top && *at == paint; at++) {
    }
    if ((uint32_t)(top - at) > deepest[one->call]) {
        deepest[one->call] = (uint32_t)(top - at);
    }
    return answer;
}

/* What a byte of the memory is before the call. */
static uint8_t filled(size_t place, uint8_t fill)
{
    return (uint8_t)(fill ^ place * 29);
}

static void try_case(const struct one *one, uint8_t fill)
{
    const size_t start = GUARD + number_of_case % 8;
    const uint32_t written = written_by(one->answer);
    size_t i;

    for (i = 0; i < sizeof memory; i++) {
        memory[i] = filled(i, fill);
    }
    if (call_painted(one, memory + start, fill) != one->answer) {
        fail("another answer");
    }
    for (i = 0; i < sizeof memory; i++) {
        const int inside = i >= start && i < start + written;

        if (memory[i] != (inside ? one->written[i - start] : filled(i, fill))) {
            fail(inside ? "other bytes written" : "a byte changed that had to stay");
        }
    }
}

int main(void)
{
    const uint8_t *at = cases;
    struct one one = { 0 };
    int i;

    for (; *at != 0xFF; number_of_case++) {
        at = next_case(at, &one);
        try_case(&one, 0xA5);
        try_case(&one, 0x5A);
    }
    if (at != cases + sizeof cases - 1) {
        fail("not the last one");
    }
    for (i = 0; i < CALL_COUNT; i++) {
        printf("stack %s %u\n", calls[i].name, (unsigned)deepest[i]);
        if (deepest[i] >= STACK_MAX) {
            fail("a call took more stack than the header says");
        }
    }
    printf("board: %u cases, all as meant\n", number_of_case);
    return 0;
}
