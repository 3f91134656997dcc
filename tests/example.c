/*
 * Prints the worked example of docs/FORMAT.md: a frame made block by block with
 * kk_encipher() alone, its line made field by field, and what the library answers
 * for that line and for others. Fails if kk_seal() or kk_write_line() give other
 * bytes.
 */

#include "kkurimyeot.h"

#include <inttypes.h>
#include <stdio.h>
#include <stdlib.h>
#include <string.h>

/* The key is that of appendix A.1 of the paper. */
#define W0 UINT64_C(0x84BE85CE9804E94B)
#define K0 UINT64_C(0xEC2802D4E0A488E9)
#define SERIAL 1
#define LABEL "lane 4"
#define MESSAGE "touch 27.41"

/* The number of bytes of a text. */
#define LENGTH(text) (sizeof(text) - 1)

/* The frame's sealed bytes and its line. */
static uint8_t sealed[KK_SEALED_BYTES(LENGTH(MESSAGE))];
static char line[KK_LINE_BYTES(LENGTH(LABEL), LENGTH(MESSAGE)) + 1];

/* Label and message of the longest line. */
static const uint8_t zeros[KK_MESSAGE_MAX + 1];

static void must(int holds, const char *what)
{
    if (!holds) {
        fprintf(stderr, "example: failed: %s\n", what);
        exit(1);
    }
}

static uint64_t encipher(uint64_t tweak, uint64_t block)
{
    uint8_t out[KK_BLOCK_BYTES];

    must(kk_encipher(1, 7, W0, K0, tweak, block, out, sizeof out) == sizeof out, "kk_encipher");
    return kk_word(out);
}

/* The block of a part of 1 to 8 bytes. */
static uint64_t block_of(const char *part)
{
    const size_t length = strlen(part);
    uint8_t bytes[KK_BLOCK_BYTES] = { 0 };

    memcpy(bytes, part, length);
    if (length < KK_BLOCK_BYTES) {
        bytes[length] = 0x80;
    }
    return kk_word(bytes);
}

static void put_word(uint64_t word, uint8_t *bytes)
{
    size_t i;

    for (i = 0; i < KK_WORD_BYTES; i++) {
        bytes[i] = (uint8_t)(word >> (56 - 8 * i));
    }
}

/* The digits of some bytes, at most as many as are sealed. */
static const char *digits_of(const void *bytes, size_t length)
{
    static char digits[2 * sizeof sealed + 1];
    const uint8_t *byte = bytes;
    size_t i;

    for (i = 0; i < length; i++) {
        sprintf(digits + 2 * i, "%02x", byte[i]);
    }
    return digits;
}

/* The digits of a number, so many. */
static const char *number_of(unsigned number, int count)
{
    static char digits[13];

    sprintf(digits, "%0*x", count, number);
    return digits;
}

/* Prints how a block is enciphered, and gives what it becomes. */
static uint64_t enciphered(const char *what, uint64_t purpose, uint64_t index, uint64_t block)
{
    const uint64_t tweak = purpose << 60 | (uint64_t)SERIAL << 16 | index;
    const uint64_t word = encipher(tweak, block);

    printf("%-15s  %7" PRIu64 "  %5" PRIu64 "  %016" PRIx64 "  %016" PRIx64 "  %016" PRIx64 "\n",
           what, purpose, index, tweak, block, word);
    return word;
}

static void print_cipher(void)
{
    const uint64_t block = UINT64_C(0xFB623599DA6E8127), tweak = UINT64_C(0x477D469DEC0B8762);
    uint8_t out[KK_SCHEDULE_BYTES];

    must(kk_schedule(W0, K0, out, sizeof out) == sizeof out, "kk_schedule");
    printf("w0          %016" PRIx64 "\n", kk_word(out));
    printf("w1          %016" PRIx64 "\n", kk_word(out + KK_WORD_BYTES));
    printf("k0          %016" PRIx64 "\n", kk_word(out + 2 * KK_WORD_BYTES));
    printf("k1          %016" PRIx64 "\n", kk_word(out + 3 * KK_WORD_BYTES));
    printf("tweak       %016" PRIx64 "\n", tweak);
    printf("block       %016" PRIx64 "\n", block);
    printf("enciphered  %016" PRIx64 "\n\n", encipher(tweak, block));
}

static void print_frame(void)
{
    const uint64_t m0 = block_of("touch 27"), m1 = block_of(".41");
    uint64_t label_sum, tag;
    uint8_t whole[sizeof sealed];

    printf("serial   %d\n", SERIAL);
    printf("label    \"%s\", %d bytes: %s\n", LABEL, (int)LENGTH(LABEL),
           digits_of(LABEL, LENGTH(LABEL)));
    printf("message  \"%s\", %d bytes: %s\n\n", MESSAGE, (int)LENGTH(MESSAGE),
           digits_of(MESSAGE, LENGTH(MESSAGE)));

    printf("                 purpose  index  tweak             block             enciphered\n");
    put_word(enciphered("message block 0", 0, 0, m0), sealed);
    put_word(enciphered("message block 1", 1, 1, m1), sealed + KK_BLOCK_BYTES);
    label_sum = enciphered("label block 0", 3, 0, block_of("lane 4"));
    tag = enciphered("message sum", 5, 2, m0 ^ m1) ^ label_sum;
    put_word(tag, sealed + 2 * KK_BLOCK_BYTES);
    printf("\ntag           %016" PRIx64 "\n", tag);
    printf("sealed bytes  %s\n\n", digits_of(sealed, sizeof sealed));
    must(kk_seal(W0, K0, SERIAL, (const uint8_t *)LABEL, LENGTH(LABEL),
                 (const uint8_t *)MESSAGE, LENGTH(MESSAGE), whole, sizeof whole) == sizeof whole
             && memcmp(whole, sealed, sizeof whole) == 0, "kk_seal");
}

/* Puts a field's digits at the end of the line, and prints them with their place. */
static void put_field(const char *name, const char *digits)
{
    printf("%5d  %-14s  %s\n", (int)strlen(line), name, digits);
    strcat(line, digits);
}

static void print_line(void)
{
    uint8_t whole[sizeof line - 1];

    printf("place  field           digits\n");
    put_field("version", number_of(1, 2));
    put_field("serial", number_of(SERIAL, 12));
    put_field("label length", number_of(LENGTH(LABEL), 2));
    put_field("message length", number_of(LENGTH(MESSAGE), 4));
    put_field("label", digits_of(LABEL, LENGTH(LABEL)));
    put_field("sealed bytes", digits_of(sealed, sizeof sealed));
    printf("%5d  byte 0A\n\n", (int)strlen(line));
    printf("%s\n\n", line);
    strcat(line, "\n");

    must(kk_write_line(W0, K0, SERIAL, (const uint8_t *)LABEL, LENGTH(LABEL),
                       (const uint8_t *)MESSAGE, LENGTH(MESSAGE), whole, sizeof whole)
                 == sizeof whole
             && memcmp(whole, line, sizeof whole) == 0, "kk_write_line");
}

/* Prints how many sealed bytes and bytes of a line there are for two lengths. */
static void print_lengths(size_t label, size_t message)
{
    uint8_t out[KK_LINE_MAX];
    uint64_t frame, text;

    frame = kk_seal(W0, K0, SERIAL, zeros, label, zeros, message, out, sizeof out);
    text = kk_write_line(W0, K0, SERIAL, zeros, label, zeros, message, out, sizeof out);
    must(kk_refusal(frame) == KK_NOT_REFUSED && kk_refusal(text) == KK_NOT_REFUSED, "lengths");
    printf("%5d  %7d  %12" PRIu32 "  %4" PRIu32 "\n", (int)label, (int)message,
           kk_count(frame), kk_count(text));
}

static void print_answer(const char *done, const char *what, uint64_t answer)
{
    printf("%-50s  ", what);
    if (kk_refusal(answer) == KK_NOT_REFUSED) {
        printf("%s %" PRIu32 "\n", done, kk_count(answer));
    } else if (kk_refusal(answer) == KK_REFUSED_LINE) {
        printf("refused 7 at %" PRIu32 "\n", kk_count(answer));
    } else {
        printf("refused %u\n", kk_refusal(answer));
    }
}

static void print_written(const char *what, uint64_t serial, size_t label, size_t message,
                          size_t room)
{
    uint8_t out[KK_LINE_MAX];

    print_answer("wrote", what,
                 kk_write_line(W0, K0, serial, zeros, label, zeros, message, out, room));
}

static void print_opened(const char *what, const char *text, size_t room)
{
    uint8_t out[KK_MESSAGE_MAX];

    print_answer("opened", what,
                 kk_open_line(W0, K0, (const uint8_t *)text, strlen(text), out, room));
}

/* The line with other digits from a place on. */
static const char *with(size_t place, const char *digits)
{
    static char other[sizeof line + 1];

    strcpy(other, line);
    memcpy(other + place, digits, strlen(digits));
    return other;
}

/* The first bytes of the line, and then others. */
static const char *then(size_t length, const char *bytes)
{
    static char other[sizeof line + 2];

    memcpy(other, line, length);
    strcpy(other + length, bytes);
    return other;
}

static void print_refusals(void)
{
    const size_t all = KK_MESSAGE_MAX, end = strlen(line) - 1;

    print_written("an empty label and message, room 37", SERIAL, 0, 0, KK_LINE_MIN);
    print_written("the same, room 36", SERIAL, 0, 0, KK_LINE_MIN - 1);
    print_written("serial 2^44 and room 0", KK_SERIAL_MAX + 1, 0, 0, 0);
    print_written("message of 1025 bytes, serial 2^44 and room 0", KK_SERIAL_MAX + 1, 0,
                  KK_MESSAGE_MAX + 1, 0);
    print_written("label of 33 bytes", SERIAL, KK_LABEL_MAX + 1, 0, KK_LINE_MAX);
    printf("\n");

    print_opened("the line above", line, all);
    print_opened("no bytes", "", all);
    print_opened("01 and byte 0A", "01\n", all);
    print_opened("version 02", with(0, "02"), all);
    print_opened("serial's top digit 1", with(2, "1"), all);
    print_opened("label length 21", with(14, "21"), all);
    print_opened("label length 30", with(14, "30"), all);
    print_opened("label length 05", with(14, "05"), all);
    print_opened("message length 0401", with(16, "0401"), all);
    print_opened("message length 0500", with(16, "0500"), all);
    print_opened("message length 0008, a block less", with(16, "0008"), all);
    print_opened("message length 0011, a block more", with(16, "0011"), all);
    print_opened("6C for 6c, the label's first byte", with(20, "6C"), all);
    print_opened("the line without its 0A", then(end, ""), all);
    print_opened("byte 0D before the 0A", then(end, "\r\n"), all);
    print_opened("a byte after the 0A", then(end + 1, "0"), all);
    print_opened("room 10", line, LENGTH(MESSAGE) - 1);
    print_opened("room 10 and the tag's last digit 4", with(end - 1, "4"), LENGTH(MESSAGE) - 1);
    print_opened("the tag's last digit 4", with(end - 1, "4"), all);
    print_opened("serial 2", with(2, "000000000002"), all);
    print_opened("message length 000c", with(16, "000c"), all);
    print_opened("message length 0010, whole blocks", with(16, "0010"), all);
}

int main(void)
{
    print_cipher();
    print_frame();
    print_line();
    printf("label  message  sealed bytes  line\n");
    print_lengths(0, 0);
    print_lengths(0, 1);
    print_lengths(LENGTH(LABEL), LENGTH(MESSAGE));
    print_lengths(KK_LABEL_MAX, KK_MESSAGE_MAX);
    printf("\n");
    print_refusals();
    return 0;
}
