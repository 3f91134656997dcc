/*
 * A pad's loader: reads a line, opens it and hands the profile on. If the line is
 * refused, it says which refusal it was, and the profile in force stays.
 *
 *   loader W0 K0 < LINE    the two words of the key, 16 lowercase digits each
 *
 * Exit status: 0 for a profile handed on, 1 for a refused line, 2 if the key is no
 * key or reading failed. To build it with the installed library:
 *
 *   cc -std=c99 loader.c $(pkg-config --cflags --libs kkurimyeot) -o loader
 */

#include "kkurimyeot.h"

#include <inttypes.h>
#include <stdio.h>
#include <stdlib.h>
#include <string.h>

/* The longest profile that this pad takes, and the one that it comes with. */
#define PROFILE_MAX 24
#define FACTORY_PROFILE "factory: push 12 hold 50"

/* The profile in force. It is lent to kk_open_line() as it is: a line that is
   refused changes no byte of it. */
static uint8_t profile[PROFILE_MAX];
static size_t profile_length;

/* A byte more than the longest line, so that a longer input is refused, and never
   cut to a good line. */
static uint8_t line[KK_LINE_MAX + 1];

/* Opens the line into the profile. Gives what kk_open_line() returned.

   A line opens as often as it is handed in. A pad that must not go back to an older
   profile takes the line's serial from kk_read_line() and compares it before it opens
   the line, and keeps the new serial once the line has opened. */
static uint64_t load(uint64_t w0, uint64_t k0, size_t line_length)
{
    const uint64_t answer = kk_open_line(w0, k0, line, line_length, profile, sizeof profile);

    if (kk_refusal(answer) == KK_NOT_REFUSED) {
        profile_length = kk_count(answer);
    }
    return answer;
}

static void print_refusal(uint64_t answer, size_t line_length)
{
    printf("refused %u", kk_refusal(answer));
    switch (kk_refusal(answer)) {
    case KK_REFUSED_LINE:
        printf(" at %" PRIu32 ": %s\n", kk_count(answer),
               kk_count(answer) == line_length ? "the line is cut short" : "not a good line");
        break;
    case KK_REFUSED_ROOM:
        printf(": the profile is longer than %d bytes\n", PROFILE_MAX);
        break;
    case KK_REFUSED_DISAGREES:
        printf(": changed, or sealed under another key\n");
        break;
    default: /* kk_open_line() gives no other */
        printf("\n");
        break;
    }
}

/* Prints the profile in force. */
static void print_profile(void)
{
    size_t i;

    printf("profile %d bytes:", (int)profile_length);
    for (i = 0; i < profile_length; i++) {
        printf(" %02x", profile[i]);
    }
    printf("\n");
}

/* Gives 1 if the text is the digits of a word. */
static int read_word(const char *text, uint64_t *word)
{
    *word = strtoull(text, NULL, 16);
    return strlen(text) == 16 && strspn(text, "0123456789abcdef") == 16;
}

int main(int argc, char **argv)
{
    uint64_t w0, k0, answer;
    size_t line_length;

    /* A pad has its key in a memory of its own, where nobody can list it. */
    if (argc != 3 || !read_word(argv[1], &w0) || !read_word(argv[2], &k0)) {
        fprintf(stderr, "usage: loader W0 K0 < LINE\n");
        return 2;
    }
    line_length = fread(line, 1, sizeof line, stdin);
    if (ferror(stdin)) {
        fprintf(stderr, "loader: reading failed\n");
        return 2;
    }

    profile_length = strlen(FACTORY_PROFILE);
    memcpy(profile, FACTORY_PROFILE, profile_length);

    answer = load(w0, k0, line_length);
    if (kk_refusal(answer) != KK_NOT_REFUSED) {
        print_refusal(answer, line_length);
        printf("kept ");
        print_profile();
        return 1;
    }
    print_profile(); /* handed on: a pad would set itself by it here */
    return 0;
}
