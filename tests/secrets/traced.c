/*
 * Makes the calls of the second program's cases, each once more with other secrets and all else
 * alike, for the emulator to compare what the processor does (tests/secrets/plugin.c): every
 * instruction, and every address that is read or written. tests/board/calls.h says what is
 * secret. A frame that opens is sealed anew from other secrets, so that it opens again.
 *
 * A line that opens has one key and one message, and is public text: it is not opened again.
 * Its frame is opened by the function that kk_open calls too.
 *
 * First it tries the comparison on two functions of its own that a secret does decide in, and on
 * kk_engine with one round more.
 *
 * A file of cases lies in flash, CASES being its name.
 */

#include "calls.h"
#include "leaky.h"

#include <stdio.h>
#include <stdlib.h>
#include <string.h>

static const uint8_t cases[] = {
#embed CASES
};

/* How often a call is made again. */
#define AGAIN 2

/* The posts, for the emulator to see. */
#define POST __attribute__((noinline, aligned(4), used)) void
POST post_first(void);
POST post_again(void);
POST post_end(void);

POST post_first(void)
{
    __asm__ volatile("# first");
}

POST post_again(void)
{
    __asm__ volatile("# again");
}

POST post_end(void)
{
    __asm__ volatile("# end");
}

/* The number of the case, how often a call was made again, and how often of these it was taken
   or refused 6. */
static unsigned number_of_case, again, again_taken;

static void fail(const char *what)
{
    printf("traced: case %u: %s\n", number_of_case, what);
    exit(1);
}

static uint64_t some(void)
{
    static uint64_t word = 0x9E3779B97F4A7C15;

    word ^= word << 13;
    word ^= word >> 7;
    word ^= word << 17;
    return word;
}

static void fill(uint8_t *bytes, kk_size count)
{
    for (; count > 0; count--) {
        *bytes++ = (uint8_t)(some() >> 32);
    }
}

static __attribute__((noinline)) void run_leaky(void (*post)(void), void (*leaky)(uint64_t), uint64_t word)
{
    post();
    leaky(word);
    post_end();
}

/* ---- the library's calls */

static uint8_t out[KK_LINE_MAX + 64];

/* Secret bytes, and sealed ones, lie here, so that each run has them in the same place. */
#define SEALED_MAX KK_SEALED_BYTES(KK_MESSAGE_MAX)
static uint8_t bytes[SEALED_MAX];

static __attribute__((noinline)) void run(void (*post)(void), const struct one *one)
{
    uint64_t answer;

    post();
    answer = made(one, out);
    post_end();
    if (answer != one->answer) {
        fail("another answer");
    }
}

/* Which slice is to lie in `bytes`: a secret one, and where a frame opens its sealed bytes. */
static int placed(const struct one *one)
{
    const char *const slices = calls[one->call].slices;
    int i, place = one->call == CALL_kk_open ? 1 : -1;

    for (i = 0; slices[i]; i++) {
        place = slices[i] == 's' ? i : place;
    }
    return place >= 0 && one->lengths[place] <= SEALED_MAX ? place : -1;
}

/* Puts other secrets in the place of a call's. */
static void change(struct one *one, int place)
{
    static uint8_t message[KK_MESSAGE_MAX];
    const char *const numbers = calls[one->call].numbers;
    size_t i;

    for (i = 0; numbers[i]; i++) {
        if (numbers[i] == 's') {
            one->numbers[i] = some();
        }
    }
    if (place < 0) {
        return;
    }
    if (calls[one->call].slices[place] == 's') {
        fill(bytes, one->lengths[place]);
    } else if (kk_refusal(one->answer) == KK_NOT_REFUSED) {
        const kk_size length = one->numbers[3];

        fill(message, length);
        kk_seal(one->numbers[0], one->numbers[1], one->numbers[2], one->slices[0], one->lengths[0], message, length,
                bytes, sizeof bytes);
    }
}

/* Whether there is a secret, and a call with another one gives the same answer. */
static int can_change(const struct one *one)
{
    const char *const numbers = calls[one->call].numbers;
    const int opened = calls[one->call].decisions && kk_refusal(one->answer) == KK_NOT_REFUSED;
    size_t i;

    for (i = 0; numbers[i]; i++) {
        if (numbers[i] == 's') {
            return !opened || one->call == CALL_kk_open;
        }
    }
    return 0;
}

static void trace(struct one *one)
{
    const int place = placed(one);
    int i;

    if (one->lent > sizeof out) {
        fail("too much memory to lend");
    }
    if (place >= 0) {
        memcpy(bytes, one->slices[place], (size_t)one->lengths[place]);
        one->slices[place] = bytes;
    }
    run(post_first, one);
    for (i = 0; i < AGAIN && can_change(one); i++) {
        change(one, place);
        run(post_again, one);
        again++;
        again_taken += taken_or_6(one->answer);
    }
}

/* With one round more, a call does something else. */
static void try_rounds(void)
{
    struct one one = { .call = CALL_kk_engine, .numbers = { 1, 3 }, .lent = KK_BLOCK_BYTES, .answer = KK_BLOCK_BYTES };

    run(post_first, &one);
    one.numbers[1]++;
    run(post_again, &one);
}

int main(void)
{
    const uint8_t *at = cases;
    struct one one = { 0 };

    run_leaky(post_first, leaky_branch, 0);
    run_leaky(post_again, leaky_branch, 2);
    run_leaky(post_again, leaky_branch, 1);
    run_leaky(post_first, leaky_index, 0);
    run_leaky(post_again, leaky_index, 256);
    run_leaky(post_again, leaky_index, 1);
    try_rounds();
    for (; *at != 0xFF; number_of_case++) {
        at = read_case(at, &one);
        if (!at) {
            fail("no such call");
        }
        trace(&one);
    }
    if (at != cases + sizeof cases - 1) {
        fail("not the last one");
    }
    printf("traced: %u calls, %u again, %u of them taken or refused 6\n", number_of_case, again, again_taken);
    return 0;
}
