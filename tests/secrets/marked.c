/*
 * Makes the calls of the second program's cases with all that is secret marked as undefined, for
 * valgrind to report each branch and each address that depends on it (the way that is known as
 * ctgrind). tests/board/calls.h says what is secret, and how often a secret may decide.
 *
 *   marked CASES..    under valgrind, by tests/marked
 *
 * It counts the reports of every call. The answer and all memory are compared with what the
 * second program says. The returned number has to be defined: a secret has entered into it by
 * that decision or not at all; and what is written has not, where there was a secret. First
 * it tries itself on two functions of its own that a secret does decide in.
 */

#include "calls.h"
#include "leaky.h"

#include <stdarg.h>
#include <stdio.h>
#include <stdlib.h>
#include <string.h>
#include <valgrind/memcheck.h>

static unsigned number_of_case;

static void fail(const char *name, const char *what, ...)
{
    va_list words;

    va_start(words, what);
    printf("marked: case %u, %s: ", number_of_case, name);
    vprintf(what, words);
    printf("\n");
    exit(1);
}

/* What a byte of the lent memory is before the call. */
static uint8_t filled(size_t place)
{
    return (uint8_t)(0xA5 ^ place * 29);
}

/* valgrind reports a function that a secret decides in, and says nothing of it without a secret. */
static void find(const char *name, void (*leaky)(uint64_t))
{
    uint64_t word = 0x0123456789ABCDEF;
    unsigned before = VALGRIND_COUNT_ERRORS;

    leaky(word);
    if (VALGRIND_COUNT_ERRORS != before) {
        fail(name, "a report where nothing is secret");
    }
    VALGRIND_MAKE_MEM_UNDEFINED(&word, sizeof word);
    leaky(word);
    if (VALGRIND_COUNT_ERRORS != before + 1) {
        fail(name, "a secret decides, and valgrind says nothing");
    }
}

/* ---- the library's calls */

static struct {
    unsigned calls, decisions;
} came[CALL_COUNT];

/* Memory for so many bytes, by itself. */
static uint8_t *memory(size_t count)
{
    uint8_t *const bytes = malloc(count ? count : 1);

    if (!bytes) {
        fail("malloc", "no memory");
    }
    return bytes;
}

static int is_secret(char kind, const char *name)
{
    if (kind != 's' && kind != 'p') {
        fail(name, "neither secret nor public: %c", kind);
    }
    return kind == 's';
}

/* Whether a bit of some bytes is undefined. */
static int any_undefined(const uint8_t *bytes, size_t count)
{
    size_t i;

    for (i = 0; i < count; i++) {
        uint8_t undefined = 0;

        VALGRIND_GET_VBITS(&bytes[i], &undefined, 1);
        if (undefined != 0) {
            return 1;
        }
    }
    return 0;
}

static void watch(struct one one)
{
    const char *name = calls[one.call].name;
    const char *numbers = calls[one.call].numbers, *slices = calls[one.call].slices;
    const unsigned meant = taken_or_6(one.answer) ? calls[one.call].decisions : 0;
    uint8_t *given[SLICES_MAX] = { 0 };
    uint8_t *const out = memory(one.lent);
    uint64_t answer, undefined = 0;
    unsigned decisions;
    int secrets = 0;
    size_t i;

    for (i = 0; i < one.lent; i++) {
        out[i] = filled(i);
    }
    for (i = 0; slices[i]; i++) {
        given[i] = memcpy(memory(one.lengths[i]), one.slices[i], one.lengths[i]);
        one.slices[i] = given[i];
        if (is_secret(slices[i], name)) {
            secrets = 1;
            VALGRIND_MAKE_MEM_UNDEFINED(given[i], one.lengths[i]);
        }
    }
    for (i = 0; numbers[i]; i++) {
        if (is_secret(numbers[i], name)) {
            secrets = 1;
            VALGRIND_MAKE_MEM_UNDEFINED(&one.numbers[i], sizeof one.numbers[i]);
        }
    }

    decisions = VALGRIND_COUNT_ERRORS;
    answer = made(&one, out);
    decisions = VALGRIND_COUNT_ERRORS - decisions;

    if (decisions != meant) {
        fail(name, "a secret decided %u times, and not %u", decisions, meant);
    }
    VALGRIND_GET_VBITS(&answer, &undefined, sizeof answer);
    if (undefined != 0) {
        fail(name, "the returned number depends on a secret");
    }
    if (any_undefined(out, written_by(answer)) != (secrets && written_by(answer) > 0)) {
        fail(name, "what was written depends on no secret, or on one that is none");
    }
    if (any_undefined(out + written_by(answer), one.lent - written_by(answer))) {
        fail(name, "a byte that had to stay depends on a secret");
    }
    VALGRIND_MAKE_MEM_DEFINED(out, one.lent);
    if (answer != one.answer) {
        fail(name, "another answer");
    }
    for (i = 0; i < one.lent; i++) {
        if (out[i] != (i < written_by(answer) ? one.written[i] : filled(i))) {
            fail(name, "other bytes in the lent memory");
        }
    }
    came[one.call].calls++;
    came[one.call].decisions += decisions;
    for (i = 0; slices[i]; i++) {
        free(given[i]);
    }
    free(out);
}

/* The bytes of a file. */
static uint8_t *read_file(const char *name, size_t *count)
{
    const size_t most = 1 << 20;
    uint8_t *const bytes = memory(most);
    FILE *const file = fopen(name, "rb");

    if (!file) {
        fail(name, "cannot be read");
    }
    *count = fread(bytes, 1, most, file);
    fclose(file);
    return bytes;
}

int main(int argc, char **argv)
{
    int i;

    if (!RUNNING_ON_VALGRIND) {
        fail("valgrind", "is not there to watch");
    }
    find("leaky_branch", leaky_branch);
    find("leaky_index", leaky_index);
    for (i = 1; i < argc; i++) {
        size_t count;
        uint8_t *const bytes = read_file(argv[i], &count);
        const uint8_t *at = bytes;

        for (; at && at < bytes + count && *at != 0xFF; number_of_case++) {
            struct one one = { 0 };

            at = read_case(at, &one);
            if (at) {
                watch(one);
            }
        }
        if (at != bytes + count - 1) {
            fail(argv[i], "no file of cases");
        }
        free(bytes);
    }
    for (i = 0; i < CALL_COUNT; i++) {
        printf("%-14s %5u calls, %u decisions\n", calls[i].name, came[i].calls, came[i].decisions);
        if (came[i].calls == 0 || (came[i].decisions > 0) != (calls[i].decisions > 0)) {
            fail(calls[i].name, "not called, or never decided");
        }
    }
    printf("marked: %u calls\n", number_of_case);
    return 0;
}
