/*
 * Calls each function of kkurimyeot.h from C, at least once with known values
 * and once to be refused, and runs the header's examples.
 */

#define KK_EXAMPLE
#include "kkurimyeot.h"

#include <stdio.h>
#include <stdlib.h>
#include <string.h>

#define ALPHA UINT64_C(0xC0AC29B7C97C50DD)

/* Appendix A.1 of the paper, box 1, r = 7. */
#define PLAIN UINT64_C(0xFB623599DA6E8127)
#define TWEAK UINT64_C(0x477D469DEC0B8762)
#define W0 UINT64_C(0x84BE85CE9804E94B)
#define K0 UINT64_C(0xEC2802D4E0A488E9)
#define CIPHERTEXT UINT64_C(0xEDF67FF370A483F2)

/*
 * Of QARMA-128. A value of 128 bits is two numbers, the high one first. The ciphertext is the one that the second program gives
 * (tests/second/qarma128.rs), box 1, r = 11.
 */
#define ALPHA128 UINT64_C(0x243F6A8885A308D3), UINT64_C(0x13198A2E03707344)
#define PLAIN128 PLAIN, TWEAK
#define TWEAK128 TWEAK, PLAIN
#define W0_128 W0, K0
#define K0_128 K0, W0
#define CIPHERTEXT128 UINT64_C(0xAC52BE9C63000116), UINT64_C(0x4E977E9173C82C1B)

/*
 * Frames under the key (W0, K0). The sealed bytes are those that the second
 * program gives (tests/second/frame.rs).
 */
#define SERIAL 1
#define LABEL "lane 4"
#define MESSAGE "touch 27.41"
static const uint8_t sealed[] = {
    0x70, 0x0D, 0x9A, 0xE6, 0x5D, 0xA4, 0xFF, 0x8B,
    0x3E, 0x8B, 0xEB, 0xA1, 0x48, 0x7C, 0xBD, 0x7F,
    0x25, 0x64, 0x57, 0xA8, 0x8E, 0x4E, 0x54, 0xC3,
};
/* Empty label and message: the tag alone. */
static const uint8_t sealed_empty[] = {
    0xF7, 0x29, 0xBD, 0xC2, 0x10, 0x37, 0xF8, 0xE9,
};
/* Label 04, message "27.41", the greatest serial. */
static const uint8_t sealed_last[] = {
    0x78, 0x8A, 0x2C, 0x19, 0xFA, 0x79, 0x5E, 0x21,
    0xD4, 0x58, 0x44, 0xCE, 0x00, 0xA9, 0xD8, 0x5F,
};

/* A message and a label of one byte more than allowed, and sealed bytes for such a
   message, may be the first bytes of this. */
static const uint8_t long_bytes[KK_SEALED_BYTES(KK_MESSAGE_MAX + 1)];

/* The memory lent to each call: more than any answer needs. */
static uint8_t out[KK_LINE_MAX + 8];

static unsigned checks;

static void check(int holds, const char *what)
{
    if (!holds) {
        printf("c caller: failed: %s\n", what);
        exit(1);
    }
    checks++;
}

/* Fills the lent memory and gives it, for a call to write to. */
static uint8_t *lend(void)
{
    memset(out, 0xA5, sizeof out);
    return out;
}

/* The lent memory is as filled from a place on. */
static int untouched_from(size_t place)
{
    for (; place < sizeof out; place++) {
        if (out[place] != 0xA5) {
            return 0;
        }
    }
    return 1;
}

static void wrote_block(uint64_t answer, uint64_t block, const char *what)
{
    check(kk_refusal(answer) == KK_NOT_REFUSED, what);
    check(kk_count(answer) == KK_BLOCK_BYTES, what);
    check(answer == KK_BLOCK_BYTES, what);
    check(kk_word(out) == block, what);
    check(untouched_from(KK_BLOCK_BYTES), what);
}

static void wrote_schedule(uint64_t answer, uint64_t w0, uint64_t w1,
                           uint64_t k0, uint64_t k1, const char *what)
{
    check(kk_refusal(answer) == KK_NOT_REFUSED, what);
    check(kk_count(answer) == KK_SCHEDULE_BYTES, what);
    check(answer == KK_SCHEDULE_BYTES, what);
    check(kk_word(out) == w0, what);
    check(kk_word(out + KK_WORD_BYTES) == w1, what);
    check(kk_word(out + 2 * KK_WORD_BYTES) == k0, what);
    check(kk_word(out + 3 * KK_WORD_BYTES) == k1, what);
    check(untouched_from(KK_SCHEDULE_BYTES), what);
}

/* The lent memory begins with these numbers, and is as filled after them. */
static void wrote_numbers(uint64_t answer, const uint64_t *numbers, size_t count, const char *what)
{
    size_t i;

    check(answer == count * KK_WORD_BYTES, what);
    for (i = 0; i < count; i++) {
        check(kk_word(out + i * KK_WORD_BYTES) == numbers[i], what);
    }
    check(untouched_from(count * KK_WORD_BYTES), what);
}

static void wrote_block128(uint64_t answer, uint64_t high, uint64_t low, const char *what)
{
    const uint64_t block[] = { high, low };

    wrote_numbers(answer, block, 2, what);
}

static void wrote_bytes(uint64_t answer, const uint8_t *bytes, size_t length,
                        const char *what)
{
    check(kk_refusal(answer) == KK_NOT_REFUSED, what);
    check(kk_count(answer) == length, what);
    check(answer == length, what);
    check(memcmp(out, bytes, length) == 0, what);
    check(untouched_from(length), what);
}

static void refused_at(uint64_t answer, unsigned refusal, size_t place, const char *what)
{
    check(kk_refusal(answer) == refusal, what);
    check(kk_count(answer) == place, what);
    check(answer == ((uint64_t)refusal << 56 | place), what);
    check(untouched_from(0), what);
}

static void refused(uint64_t answer, unsigned refusal, const char *what)
{
    refused_at(answer, refusal, 0, what);
}

/* A schedule of QARMA-128. */
struct schedule128 {
    uint64_t numbers[8];
};

/* The one that a call has written. */
static struct schedule128 schedule128(uint64_t answer)
{
    struct schedule128 schedule;
    size_t i;

    check(answer == KK128_SCHEDULE_BYTES, "a schedule");
    for (i = 0; i < 8; i++) {
        schedule.numbers[i] = kk_word(out + i * KK_WORD_BYTES);
    }
    return schedule;
}

/* kk128_turn() of a schedule. */
static struct schedule128 turned128(struct schedule128 schedule)
{
    const uint64_t *n = schedule.numbers;

    return schedule128(kk128_turn(n[0], n[1], n[2], n[3], n[4], n[5], n[6], n[7], lend(), sizeof out));
}

/* kk128_engine() under a schedule and the tweak above. */
static uint64_t engine128(uint64_t box, uint64_t rounds, struct schedule128 schedule,
                          uint64_t high, uint64_t low, uint8_t *lent, size_t length)
{
    const uint64_t *n = schedule.numbers;

    return kk128_engine(box, rounds, n[0], n[1], n[2], n[3], n[4], n[5], n[6], n[7],
                        TWEAK128, high, low, lent, length);
}

/* The five calls of QARMA-128 on known values, each also in just the room that it needs. */
static void known_128(void)
{
    static const uint64_t schedule[] = { 0, 1, UINT64_C(1) << 63, 0, 2, 3, 2, 3 };
    static const uint64_t zeros_turned[] = { 0, 0, 0, 0, ALPHA128, 0, 0 };
    /* A bit of cell 0 is mixed into cells 4, 8 and 12. */
    static const uint64_t turned[] = { 9, 10, 5, 6, 0, 0, 0x20000000, UINT64_C(0x1000000002000000) };
    struct schedule128 s;
    uint64_t answer;

    answer = kk128_schedule(0, 1, 2, 3, lend(), sizeof out);
    wrote_numbers(answer, schedule, 8, "kk128_schedule");
    answer = kk128_schedule(0, 1, 2, 3, lend(), KK128_SCHEDULE_BYTES);
    wrote_numbers(answer, schedule, 8, "kk128_schedule, exact room");

    answer = kk128_turn(0, 0, 0, 0, 0, 0, 0, 0, lend(), sizeof out);
    wrote_numbers(answer, zeros_turned, 8, "kk128_turn of zeros");
    answer = kk128_turn(5, 6, 9, 10, ALPHA128, UINT64_C(1) << 56, 0, lend(), KK128_SCHEDULE_BYTES);
    wrote_numbers(answer, turned, 8, "kk128_turn, exact room");

    s = schedule128(kk128_schedule(W0_128, K0_128, lend(), sizeof out));
    answer = engine128(1, KK128_ROUNDS_MAX, s, PLAIN128, lend(), sizeof out);
    wrote_block128(answer, CIPHERTEXT128, "kk128_engine");
    answer = engine128(1, KK128_ROUNDS_MAX, s, PLAIN128, lend(), KK128_BLOCK_BYTES);
    wrote_block128(answer, CIPHERTEXT128, "kk128_engine, exact room");
    s = turned128(s);
    answer = engine128(1, KK128_ROUNDS_MAX, s, CIPHERTEXT128, lend(), sizeof out);
    wrote_block128(answer, PLAIN128, "kk128_engine, turned");

    answer = kk128_encipher(1, KK128_ROUNDS_MAX, W0_128, K0_128, TWEAK128, PLAIN128, lend(), KK128_BLOCK_BYTES);
    wrote_block128(answer, CIPHERTEXT128, "kk128_encipher, exact room");
    answer = kk128_decipher(1, KK128_ROUNDS_MAX, W0_128, K0_128, TWEAK128, CIPHERTEXT128, lend(), KK128_BLOCK_BYTES);
    wrote_block128(answer, PLAIN128, "kk128_decipher, exact room");
}

/* kk128_engine() under one schedule, and then under the one that undoes it. */
static void engine128_undone(uint64_t box, uint64_t rounds, struct schedule128 one,
                             struct schedule128 other, const char *what)
{
    uint64_t high, low;

    engine128(box, rounds, one, PLAIN128, lend(), sizeof out);
    high = kk_word(out);
    low = kk_word(out + KK_WORD_BYTES);
    wrote_block128(engine128(box, rounds, other, high, low, lend(), sizeof out), PLAIN128, what);
}

/* With every box and all rounds: kk128_engine() under the turned schedule undoes it under a
   free one, both ways, and kk128_decipher() undoes kk128_encipher(). */
static void undone_128(void)
{
    static const struct schedule128 free_words = { { PLAIN128, W0_128, TWEAK128, K0_128 } };
    const struct schedule128 turned = turned128(free_words);
    const struct schedule128 twice = turned128(turned);
    uint64_t box, rounds, answer, high, low;

    check(memcmp(&twice, &free_words, sizeof twice) == 0, "kk128_turn, twice");
    for (box = 0; box <= KK_BOX_MAX; box++) {
        for (rounds = KK_ROUNDS_MIN; rounds <= KK128_ROUNDS_MAX; rounds++) {
            engine128_undone(box, rounds, free_words, turned, "kk128_engine, then turned");
            engine128_undone(box, rounds, turned, free_words, "kk128_engine turned, then not");

            kk128_encipher(box, rounds, W0_128, K0_128, TWEAK128, PLAIN128, lend(), sizeof out);
            high = kk_word(out);
            low = kk_word(out + KK_WORD_BYTES);
            answer = kk128_decipher(box, rounds, W0_128, K0_128, TWEAK128, high, low, lend(), sizeof out);
            wrote_block128(answer, PLAIN128, "kk128_decipher after kk128_encipher");
        }
    }
}

/* One of the three calls of QARMA-128 that take box and rounds. */
static uint64_t with_settings128(int call, uint64_t box, uint64_t rounds, uint8_t *lent, size_t length)
{
    static const struct schedule128 zeros;

    switch (call) {
    case 0:
        return engine128(box, rounds, zeros, PLAIN128, lent, length);
    case 1:
        return kk128_encipher(box, rounds, W0_128, K0_128, TWEAK128, PLAIN128, lent, length);
    default:
        return kk128_decipher(box, rounds, W0_128, K0_128, TWEAK128, PLAIN128, lent, length);
    }
}

/* The refusals of QARMA-128 and their order: settings before room. */
static void refused_128(void)
{
    static const uint64_t far = UINT64_C(1) << 32;
    int call;

    refused(kk128_schedule(0, 1, 2, 3, lend(), KK128_SCHEDULE_BYTES - 1), KK_REFUSED_ROOM,
            "kk128_schedule, short");
    refused(kk128_turn(0, 0, 0, 0, 0, 0, 0, 0, lend(), KK128_SCHEDULE_BYTES - 1), KK_REFUSED_ROOM,
            "kk128_turn, short");
    for (call = 0; call < 3; call++) {
        refused(with_settings128(call, KK_BOX_MAX + 1, 9, lend(), sizeof out),
                KK_REFUSED_SETTINGS, "box 3 and 9 rounds of 128 bits");
        refused(with_settings128(call, 1, KK_ROUNDS_MIN - 1, lend(), sizeof out),
                KK_REFUSED_SETTINGS, "2 rounds of 128 bits");
        refused(with_settings128(call, 1, KK128_ROUNDS_MAX + 1, lend(), sizeof out),
                KK_REFUSED_SETTINGS, "12 rounds of 128 bits");
        refused(with_settings128(call, far + 1, KK128_ROUNDS_MAX, lend(), sizeof out),
                KK_REFUSED_SETTINGS, "a box right in 32 bits, of 128 bits");
        refused(with_settings128(call, 1, far + KK128_ROUNDS_MAX, lend(), sizeof out),
                KK_REFUSED_SETTINGS, "rounds right in 32 bits, of 128 bits");
        refused(with_settings128(call, KK_BOX_MAX + 1, KK128_ROUNDS_MAX + 1, lend(), 0),
                KK_REFUSED_SETTINGS, "box 3, 12 rounds of 128 bits and short");
        refused(with_settings128(call, 1, KK128_ROUNDS_MAX, lend(), KK128_BLOCK_BYTES - 1),
                KK_REFUSED_ROOM, "short for 128 bits");
        refused(with_settings128(call, 1, KK128_ROUNDS_MAX, lend(), KK_BLOCK_BYTES),
                KK_REFUSED_ROOM, "room for half of 128 bits");
    }

    /* No memory at all, by a null pointer. */
    lend();
    refused(kk128_schedule(0, 1, 2, 3, NULL, 0), KK_REFUSED_ROOM, "kk128_schedule, null");
    refused(kk128_turn(0, 0, 0, 0, 0, 0, 0, 0, NULL, 0), KK_REFUSED_ROOM, "kk128_turn, null");
    for (call = 0; call < 3; call++) {
        refused(with_settings128(call, 1, KK128_ROUNDS_MAX, NULL, 0), KK_REFUSED_ROOM, "128 bits, null");
    }
}

/* kk_seal() under the key above. */
static uint64_t seal(uint64_t serial, const void *label, size_t label_length,
                     const void *message, size_t message_length,
                     uint8_t *lent, size_t length)
{
    return kk_seal(W0, K0, serial, label, label_length, message, message_length, lent, length);
}

static void seals(void)
{
    const size_t label = strlen(LABEL), message = strlen(MESSAGE);
    uint64_t answer;

    check(KK_SEALED_BYTES(0) == 8 && KK_SEALED_BYTES(1) == 16, "KK_SEALED_BYTES, short");
    check(KK_SEALED_BYTES(8) == 16 && KK_SEALED_BYTES(9) == 24, "KK_SEALED_BYTES, one block");
    check(KK_SEALED_BYTES(KK_MESSAGE_MAX) == 1032, "KK_SEALED_BYTES, longest");
    check(KK_SEALED_BYTES(message) == sizeof sealed, "KK_SEALED_BYTES, known");

    answer = seal(SERIAL, LABEL, label, MESSAGE, message, lend(), sizeof out);
    wrote_bytes(answer, sealed, sizeof sealed, "kk_seal");
    answer = seal(SERIAL, LABEL, label, MESSAGE, message, lend(), sizeof sealed);
    wrote_bytes(answer, sealed, sizeof sealed, "kk_seal, exact room");

    answer = seal(KK_SERIAL_MAX + 1, LABEL, label, long_bytes, KK_MESSAGE_MAX + 1, lend(), 0);
    refused(answer, KK_REFUSED_LENGTH, "kk_seal, long message, bad serial and short");
    answer = seal(SERIAL, long_bytes, KK_LABEL_MAX + 1, MESSAGE, message, lend(), sizeof out);
    refused(answer, KK_REFUSED_LENGTH, "kk_seal, long label");
    answer = seal(KK_SERIAL_MAX + 1, LABEL, label, MESSAGE, message, lend(), 0);
    refused(answer, KK_REFUSED_SERIAL, "kk_seal, bad serial and short");
    answer = seal(SERIAL, LABEL, label, MESSAGE, message, lend(), sizeof sealed - 1);
    refused(answer, KK_REFUSED_ROOM, "kk_seal, short");

    /* No bytes at all, by null pointers. */
    answer = seal(SERIAL, NULL, 0, NULL, 0, lend(), sizeof out);
    wrote_bytes(answer, sealed_empty, sizeof sealed_empty, "kk_seal, null label and message");
    lend();
    answer = seal(SERIAL, LABEL, label, MESSAGE, message, NULL, 0);
    refused(answer, KK_REFUSED_ROOM, "kk_seal, null out");
    answer = seal(SERIAL, NULL, 0, NULL, 0, NULL, 0);
    refused(answer, KK_REFUSED_ROOM, "kk_seal, all null");
}

/* What kk_open() is given, beside the key above. */
struct opening {
    uint64_t serial, message_length;
    const void *label;
    size_t label_length;
    const uint8_t *sealed;
    size_t sealed_length;
    uint8_t *out;
    size_t out_length;
};

/* The first of the frames above. */
static const struct opening known = {
    SERIAL, sizeof MESSAGE - 1, LABEL, sizeof LABEL - 1, sealed, sizeof sealed, out, sizeof out,
};

static uint64_t opened(struct opening o)
{
    lend();
    return kk_open(W0, K0, o.serial, o.message_length, o.label, o.label_length,
                   o.sealed, o.sealed_length, o.out, o.out_length);
}

static void wrote_text(uint64_t answer, const char *text, const char *what)
{
    wrote_bytes(answer, (const uint8_t *)text, strlen(text), what);
}

static void opens(void)
{
    struct opening o;

    wrote_text(opened(known), MESSAGE, "kk_open");
    o = known;
    o.out_length = strlen(MESSAGE);
    wrote_text(opened(o), MESSAGE, "kk_open, exact room");

    o = known;
    o.serial = KK_SERIAL_MAX;
    o.message_length = 5;
    o.label = "\4";
    o.label_length = 1;
    o.sealed = sealed_last;
    o.sealed_length = sizeof sealed_last;
    wrote_text(opened(o), "27.41", "kk_open, the greatest serial");

    /* No bytes at all, by null pointers. */
    o = known;
    o.message_length = 0;
    o.label = NULL;
    o.label_length = 0;
    o.sealed = sealed_empty;
    o.sealed_length = sizeof sealed_empty;
    wrote_text(opened(o), "", "kk_open, null label");
    o.out = NULL;
    o.out_length = 0;
    wrote_text(opened(o), "", "kk_open, null label and out");
    o.sealed = NULL;
    o.sealed_length = 0;
    refused(opened(o), KK_REFUSED_SEALED_SIZE, "kk_open, all null");
    o = known;
    o.sealed = NULL;
    o.sealed_length = 0;
    refused(opened(o), KK_REFUSED_SEALED_SIZE, "kk_open, null sealed bytes");
    o = known;
    o.out = NULL;
    o.out_length = 0;
    refused(opened(o), KK_REFUSED_ROOM, "kk_open, null out");
}

/* The refusals of kk_open(), each for one fault alone. */
static void opens_not(void)
{
    uint8_t bytes[sizeof sealed + 1] = { 0 };
    struct opening o;

    memcpy(bytes, sealed, sizeof sealed);

    o = known;
    o.message_length = KK_MESSAGE_MAX + 1;
    o.sealed = long_bytes;
    o.sealed_length = sizeof long_bytes;
    refused(opened(o), KK_REFUSED_LENGTH, "kk_open, long message");
    o = known;
    o.message_length = UINT64_MAX;
    refused(opened(o), KK_REFUSED_LENGTH, "kk_open, the greatest message length");
    o.message_length = (UINT64_C(1) << 32) + strlen(MESSAGE);
    refused(opened(o), KK_REFUSED_LENGTH, "kk_open, message length right in 32 bits");
    o = known;
    o.label = long_bytes;
    o.label_length = KK_LABEL_MAX + 1;
    refused(opened(o), KK_REFUSED_LENGTH, "kk_open, long label");

    o = known;
    o.serial = KK_SERIAL_MAX + 1;
    refused(opened(o), KK_REFUSED_SERIAL, "kk_open, bad serial");
    o.serial += SERIAL;
    refused(opened(o), KK_REFUSED_SERIAL, "kk_open, serial right in 44 bits");

    o = known;
    o.sealed_length--;
    refused(opened(o), KK_REFUSED_SEALED_SIZE, "kk_open, a sealed byte less");
    o.sealed = bytes;
    o.sealed_length = sizeof bytes;
    refused(opened(o), KK_REFUSED_SEALED_SIZE, "kk_open, a sealed byte more");
    o = known;
    o.message_length = 8;
    refused(opened(o), KK_REFUSED_SEALED_SIZE, "kk_open, length of a block less");
    o.message_length = 17;
    refused(opened(o), KK_REFUSED_SEALED_SIZE, "kk_open, length of a block more");

    o = known;
    o.out_length = strlen(MESSAGE) - 1;
    refused(opened(o), KK_REFUSED_ROOM, "kk_open, short");

    o = known;
    o.message_length--;
    refused(opened(o), KK_REFUSED_DISAGREES, "kk_open, length of a byte less");
    o.message_length += 2;
    refused(opened(o), KK_REFUSED_DISAGREES, "kk_open, length of a byte more");
    o.message_length = 16;
    refused(opened(o), KK_REFUSED_DISAGREES, "kk_open, length of whole blocks");
    o = known;
    o.serial++;
    refused(opened(o), KK_REFUSED_DISAGREES, "kk_open, another serial");
    o = known;
    o.label_length--;
    refused(opened(o), KK_REFUSED_DISAGREES, "kk_open, another label");
    o = known;
    o.sealed = bytes;
    bytes[0] ^= 1;
    refused(opened(o), KK_REFUSED_DISAGREES, "kk_open, changed block");
    bytes[0] ^= 1;
    bytes[sizeof sealed - 1] ^= 1;
    refused(opened(o), KK_REFUSED_DISAGREES, "kk_open, changed tag");
    bytes[sizeof sealed - 1] ^= 1;
    wrote_text(opened(o), MESSAGE, "kk_open, changed back");
}

/* The order of the refusals of kk_open(): all is bad, and is put right from the first on. */
static void opens_at_last(void)
{
    uint8_t bytes[sizeof sealed];
    struct opening o;

    memcpy(bytes, sealed, sizeof sealed);
    bytes[0] ^= 1;
    o.serial = KK_SERIAL_MAX + 1;
    o.message_length = KK_MESSAGE_MAX + 1;
    o.label = long_bytes;
    o.label_length = KK_LABEL_MAX + 1;
    o.sealed = bytes;
    o.sealed_length = sizeof bytes - 1;
    o.out = out;
    o.out_length = strlen(MESSAGE) - 1;
    refused(opened(o), KK_REFUSED_LENGTH, "kk_open, all bad");
    o.label = LABEL;
    o.label_length = strlen(LABEL);
    refused(opened(o), KK_REFUSED_LENGTH, "kk_open, message length to tag bad");
    o.message_length = strlen(MESSAGE);
    o.label = long_bytes;
    o.label_length = KK_LABEL_MAX + 1;
    refused(opened(o), KK_REFUSED_LENGTH, "kk_open, label to tag bad");
    o.label = LABEL;
    o.label_length = strlen(LABEL);
    refused(opened(o), KK_REFUSED_SERIAL, "kk_open, serial to tag bad");
    o.serial = SERIAL;
    refused(opened(o), KK_REFUSED_SEALED_SIZE, "kk_open, sealed length to tag bad");
    o.sealed_length = sizeof bytes;
    refused(opened(o), KK_REFUSED_ROOM, "kk_open, room and tag bad");
    o.out_length = strlen(MESSAGE);
    refused(opened(o), KK_REFUSED_DISAGREES, "kk_open, tag bad");
    bytes[0] ^= 1;
    wrote_text(opened(o), MESSAGE, "kk_open, all put right");
}

/* A line, or what is none, with room for a byte after the longest. There is one at a time,
   since a pad has little memory: the functions below make it, change it and hand it on. */
struct line {
    uint8_t bytes[KK_LINE_MAX + 1];
    size_t length;
};
static struct line line;

/* Puts the digits of some bytes at the end of the line. */
static void put_digits(const void *bytes, size_t length)
{
    static const char digits[] = "0123456789abcdef";
    const uint8_t *byte = bytes;

    for (; length > 0; length--, byte++) {
        line.bytes[line.length++] = (uint8_t)digits[*byte >> 4];
        line.bytes[line.length++] = (uint8_t)digits[*byte & 15];
    }
}

/* Just this text. */
static struct line *text(const char *bytes)
{
    line.length = strlen(bytes);
    memcpy(line.bytes, bytes, line.length);
    return &line;
}

/* The line whose first digits, of version, serial and lengths, are these. */
static struct line *line_of(const char *head, const void *label, size_t label_length,
                            const uint8_t *sealed_bytes, size_t sealed_length)
{
    text(head);
    put_digits(label, label_length);
    put_digits(sealed_bytes, sealed_length);
    line.bytes[line.length++] = '\n';
    return &line;
}

/* The line of the first of the frames above, with other first digits. */
static struct line *known_with(const char *head)
{
    return line_of(head, LABEL, strlen(LABEL), sealed, sizeof sealed);
}

/* The lines of the frames above. */
static struct line *known_line(void)
{
    return known_with("01" "000000000001" "06" "000b");
}

static struct line *empty_line(void)
{
    return line_of("01" "000000000001" "00" "0000", NULL, 0, sealed_empty, sizeof sealed_empty);
}

static struct line *last_line(void)
{
    return line_of("01" "0fffffffffff" "01" "0005", "\4", 1, sealed_last, sizeof sealed_last);
}

/* A line of as many bytes as can be: label and message are zeros. */
static struct line *longest_line(void)
{
    uint8_t bytes[KK_SEALED_BYTES(KK_MESSAGE_MAX)];

    check(seal(SERIAL, long_bytes, KK_LABEL_MAX, long_bytes, KK_MESSAGE_MAX, bytes, sizeof bytes)
              == sizeof bytes, "the longest frame");
    return line_of("01" "000000000001" "20" "0400", long_bytes, KK_LABEL_MAX, bytes, sizeof bytes);
}

/* The line with another byte at a place. */
static struct line *changed(struct line *made, size_t place, int byte)
{
    made->bytes[place] = (uint8_t)byte;
    return made;
}

/* The first bytes of the line, so many. */
static struct line *cut(struct line *made, size_t length)
{
    made->length = length;
    return made;
}

/* The line and a byte after it. */
static struct line *longer(struct line *made, int byte)
{
    made->bytes[made->length++] = (uint8_t)byte;
    return made;
}

static uint64_t line_read(const struct line *made, size_t room)
{
    return kk_read_line(made->bytes, made->length, lend(), room);
}

/* kk_write_line() under the key above. */
static uint64_t line_written(uint64_t serial, const void *label, size_t label_length,
                             const void *message, size_t message_length,
                             uint8_t *lent, size_t length)
{
    return kk_write_line(W0, K0, serial, label, label_length, message, message_length,
                         lent, length);
}

/* kk_open_line() under the key above. */
static uint64_t line_opened(const struct line *made, size_t room)
{
    return kk_open_line(W0, K0, made->bytes, made->length, lend(), room);
}

static void wrote_line(uint64_t answer, const struct line *made, const char *what)
{
    wrote_bytes(answer, made->bytes, made->length, what);
}

static void wrote_reading(uint64_t answer, uint64_t serial, uint64_t label_length,
                          uint64_t message_length, uint64_t sealed_place, const char *what)
{
    check(kk_refusal(answer) == KK_NOT_REFUSED, what);
    check(kk_count(answer) == KK_READ_BYTES, what);
    check(answer == KK_READ_BYTES, what);
    check(kk_word(out) == serial, what);
    check(kk_word(out + KK_WORD_BYTES) == label_length, what);
    check(kk_word(out + 2 * KK_WORD_BYTES) == message_length, what);
    check(kk_word(out + 3 * KK_WORD_BYTES) == 20, what);
    check(kk_word(out + 4 * KK_WORD_BYTES) == sealed_place, what);
    check(untouched_from(KK_READ_BYTES), what);
}

static void writes_lines(void)
{
    const size_t label = strlen(LABEL), message = strlen(MESSAGE);
    const size_t length = known_line()->length;
    uint64_t answer;

    check(KK_LINE_BYTES(0, 0) == KK_LINE_MIN, "KK_LINE_BYTES, shortest");
    check(KK_LINE_BYTES(0, 1) == 53, "KK_LINE_BYTES, a byte of message");
    check(KK_LINE_BYTES(KK_LABEL_MAX, KK_MESSAGE_MAX) == KK_LINE_MAX, "KK_LINE_BYTES, longest");
    check(KK_LINE_BYTES(label, message) == length, "KK_LINE_BYTES, known");

    answer = line_written(SERIAL, LABEL, label, MESSAGE, message, lend(), sizeof out);
    wrote_line(answer, known_line(), "kk_write_line");
    answer = line_written(SERIAL, LABEL, label, MESSAGE, message, lend(), length);
    wrote_line(answer, known_line(), "kk_write_line, exact room");
    answer = line_written(KK_SERIAL_MAX, "\4", 1, "27.41", 5, lend(), sizeof out);
    wrote_line(answer, last_line(), "kk_write_line, the greatest serial");
    answer = line_written(SERIAL, long_bytes, KK_LABEL_MAX, long_bytes, KK_MESSAGE_MAX,
                          lend(), KK_LINE_MAX);
    wrote_line(answer, longest_line(), "kk_write_line, longest");

    answer = line_written(KK_SERIAL_MAX + 1, LABEL, label, long_bytes, KK_MESSAGE_MAX + 1,
                          lend(), 0);
    refused(answer, KK_REFUSED_LENGTH, "kk_write_line, long message, bad serial and short");
    answer = line_written(SERIAL, LABEL, label, long_bytes, KK_MESSAGE_MAX + 1,
                          lend(), sizeof out);
    refused(answer, KK_REFUSED_LENGTH, "kk_write_line, long message");
    answer = line_written(SERIAL, long_bytes, KK_LABEL_MAX + 1, MESSAGE, message,
                          lend(), sizeof out);
    refused(answer, KK_REFUSED_LENGTH, "kk_write_line, long label");
    answer = line_written(KK_SERIAL_MAX + 1, LABEL, label, MESSAGE, message, lend(), 0);
    refused(answer, KK_REFUSED_SERIAL, "kk_write_line, bad serial and short");
    answer = line_written(KK_SERIAL_MAX + 1, LABEL, label, MESSAGE, message, lend(), sizeof out);
    refused(answer, KK_REFUSED_SERIAL, "kk_write_line, bad serial");
    answer = line_written(SERIAL, LABEL, label, MESSAGE, message, lend(), length - 1);
    refused(answer, KK_REFUSED_ROOM, "kk_write_line, short");
    answer = line_written(SERIAL, LABEL, label, MESSAGE, message, lend(), sizeof sealed);
    refused(answer, KK_REFUSED_ROOM, "kk_write_line, room for the sealed bytes alone");
    answer = line_written(SERIAL, long_bytes, KK_LABEL_MAX, long_bytes, KK_MESSAGE_MAX,
                          lend(), KK_LINE_MAX - 1);
    refused(answer, KK_REFUSED_ROOM, "kk_write_line, longest and short");

    /* No bytes at all, by null pointers. */
    answer = line_written(SERIAL, NULL, 0, NULL, 0, lend(), sizeof out);
    wrote_line(answer, empty_line(), "kk_write_line, null label and message");
    lend();
    answer = line_written(SERIAL, LABEL, label, MESSAGE, message, NULL, 0);
    refused(answer, KK_REFUSED_ROOM, "kk_write_line, null out");
    answer = line_written(SERIAL, NULL, 0, NULL, 0, NULL, 0);
    refused(answer, KK_REFUSED_ROOM, "kk_write_line, all null");
}

static void reads_lines(void)
{
    wrote_reading(line_read(known_line(), sizeof out), SERIAL, 6, 11, 32, "kk_read_line");
    wrote_reading(line_read(known_line(), KK_READ_BYTES), SERIAL, 6, 11, 32, "kk_read_line, exact room");
    wrote_reading(line_read(empty_line(), sizeof out), SERIAL, 0, 0, 20, "kk_read_line, shortest");
    wrote_reading(line_read(longest_line(), sizeof out), SERIAL, KK_LABEL_MAX, KK_MESSAGE_MAX, 84,
                  "kk_read_line, longest");
    wrote_reading(line_read(last_line(), sizeof out), KK_SERIAL_MAX, 1, 5, 22,
                  "kk_read_line, the greatest serial");
    /* No key enters into it. */
    wrote_reading(line_read(known_with("01" "0123456789ab" "06" "000c"), sizeof out),
                  UINT64_C(0x0123456789ab), 6, 12, 32, "kk_read_line, a line that does not open");

    refused(line_read(known_line(), KK_READ_BYTES - 1), KK_REFUSED_ROOM, "kk_read_line, short");
    lend();
    known_line();
    refused(kk_read_line(line.bytes, line.length, NULL, 0), KK_REFUSED_ROOM,
            "kk_read_line, null out");
    refused_at(kk_read_line(NULL, 0, out, sizeof out), KK_REFUSED_LINE, 0,
               "kk_read_line, null line");
    refused_at(kk_read_line(NULL, 0, NULL, 0), KK_REFUSED_LINE, 0, "kk_read_line, all null");
}

static void opens_lines(void)
{
    const size_t length = known_line()->length;

    wrote_text(line_opened(known_line(), sizeof out), MESSAGE, "kk_open_line");
    wrote_text(line_opened(known_line(), strlen(MESSAGE)), MESSAGE, "kk_open_line, exact room");
    wrote_text(line_opened(empty_line(), sizeof out), "", "kk_open_line, shortest");
    wrote_bytes(line_opened(longest_line(), KK_MESSAGE_MAX), long_bytes, KK_MESSAGE_MAX,
                "kk_open_line, longest");
    wrote_text(line_opened(last_line(), sizeof out), "27.41", "kk_open_line, the greatest serial");

    refused(line_opened(known_line(), strlen(MESSAGE) - 1), KK_REFUSED_ROOM, "kk_open_line, short");

    refused(line_opened(changed(known_line(), length - 2, '2'), sizeof out),
            KK_REFUSED_DISAGREES, "kk_open_line, changed tag");
    refused(line_opened(changed(known_line(), 32, '6'), sizeof out),
            KK_REFUSED_DISAGREES, "kk_open_line, changed block");
    refused(line_opened(changed(known_line(), 20, '7'), sizeof out),
            KK_REFUSED_DISAGREES, "kk_open_line, changed label");
    refused(line_opened(known_with("01" "000000000002" "06" "000b"), sizeof out),
            KK_REFUSED_DISAGREES, "kk_open_line, another serial");
    refused(line_opened(known_with("01" "000000000001" "06" "000a"), sizeof out),
            KK_REFUSED_DISAGREES, "kk_open_line, length of a byte less");
    refused(line_opened(known_with("01" "000000000001" "06" "000c"), sizeof out),
            KK_REFUSED_DISAGREES, "kk_open_line, length of a byte more");
    refused(line_opened(known_with("01" "000000000001" "06" "0010"), sizeof out),
            KK_REFUSED_DISAGREES, "kk_open_line, length of whole blocks");
    known_line();
    refused(kk_open_line(W0 ^ 1, K0, line.bytes, line.length, lend(), sizeof out),
            KK_REFUSED_DISAGREES, "kk_open_line, another outer word");
    refused(kk_open_line(W0, K0 ^ 1, line.bytes, line.length, lend(), sizeof out),
            KK_REFUSED_DISAGREES, "kk_open_line, another core word");

    /* No bytes at all, by null pointers. */
    lend();
    empty_line();
    wrote_text(kk_open_line(W0, K0, line.bytes, line.length, NULL, 0), "",
               "kk_open_line, no message and null out");
    known_line();
    refused(kk_open_line(W0, K0, line.bytes, line.length, NULL, 0), KK_REFUSED_ROOM,
            "kk_open_line, null out");
    refused_at(kk_open_line(W0, K0, NULL, 0, out, sizeof out), KK_REFUSED_LINE, 0,
               "kk_open_line, null line");
    refused_at(kk_open_line(W0, K0, NULL, 0, NULL, 0), KK_REFUSED_LINE, 0,
               "kk_open_line, all null");
}

/* A block of the known line changed. */
static struct line *bad_line(void)
{
    return changed(known_line(), 32, '6');
}

/* The order of the refusals of the line calls: all is bad, and is put right from the first on. */
static void opens_lines_at_last(void)
{
    const size_t length = known_line()->length, message = strlen(MESSAGE);

    refused_at(line_read(longer(known_line(), '\n'), 0), KK_REFUSED_LINE, length,
               "kk_read_line, all bad");
    refused(line_read(known_line(), 0), KK_REFUSED_ROOM, "kk_read_line, room bad");
    wrote_reading(line_read(known_line(), KK_READ_BYTES), SERIAL, 6, 11, 32,
                  "kk_read_line, all put right");

    refused_at(line_opened(longer(bad_line(), '\n'), message - 1), KK_REFUSED_LINE, length,
               "kk_open_line, all bad");
    refused(line_opened(bad_line(), message - 1), KK_REFUSED_ROOM, "kk_open_line, room and tag bad");
    refused(line_opened(bad_line(), message), KK_REFUSED_DISAGREES, "kk_open_line, tag bad");
    wrote_text(line_opened(known_line(), message), MESSAGE, "kk_open_line, all put right");
}

/* Refusal 7 and its place, from reading and opening alike, whatever the room. */
static void no_line(const struct line *made, size_t place, const char *what)
{
    refused_at(line_read(made, sizeof out), KK_REFUSED_LINE, place, what);
    refused_at(line_read(made, 0), KK_REFUSED_LINE, place, what);
    refused_at(line_opened(made, sizeof out), KK_REFUSED_LINE, place, what);
    refused_at(line_opened(made, 0), KK_REFUSED_LINE, place, what);
}

/* The first digits of a line that are refused, and the longest line and a byte more. */
static void no_lines(void)
{
    no_line(text(""), 0, "no bytes");
    no_line(text("\n"), 0, "an empty line");
    no_line(text("01\n"), 2, "a version alone");
    no_line(text("0x01"), 1, "0x01");
    no_line(text(" 01"), 0, "a blank first");

    no_line(known_with("00" "000000000001" "06" "000b"), 1, "version 00");
    no_line(known_with("02" "000000000001" "06" "000b"), 1, "version 02");
    no_line(known_with("11" "000000000001" "06" "000b"), 0, "version 11");
    no_line(known_with("01" "100000000001" "06" "000b"), 2, "serial's top digit 1");
    no_line(known_with("01" "f00000000001" "06" "000b"), 2, "serial's top digit f");

    no_line(known_with("01" "000000000001" "21" "000b"), 15, "label length 21");
    no_line(known_with("01" "000000000001" "2f" "000b"), 15, "label length 2f");
    no_line(known_with("01" "000000000001" "30" "000b"), 14, "label length 30");
    no_line(known_with("01" "000000000001" "05" "000b"), 78, "label length of a byte less");
    no_line(known_with("01" "000000000001" "07" "000b"), 80, "label length of a byte more");

    no_line(known_with("01" "000000000001" "06" "0401"), 19, "message length 0401");
    no_line(known_with("01" "000000000001" "06" "0410"), 18, "message length 0410");
    no_line(known_with("01" "000000000001" "06" "0500"), 17, "message length 0500");
    no_line(known_with("01" "000000000001" "06" "1000"), 16, "message length 1000");
    no_line(known_with("01" "000000000001" "06" "0008"), 64, "message length of a block less");
    no_line(known_with("01" "000000000001" "06" "0011"), 80, "message length of a block more");

    no_line(longer(longest_line(), '\n'), KK_LINE_MAX, "a byte after the longest line");
    no_line(cut(longest_line(), KK_LINE_MAX - 1), KK_LINE_MAX - 1, "the longest line cut");
}

/* Refusal 7 at every place of a line. */
static void no_line_anywhere(void)
{
    /* The bytes next to '0' to '9' and 'a' to 'f', the capitals, and others, with 00 the last. */
    static const char others[] = "/:`g@ABCDEFG \r\t\200\377";
    const size_t end = known_line()->length - 1;
    size_t place, i;

    for (place = 0; place <= end; place++) {
        no_line(cut(known_line(), place), place, "a line cut short");
        for (i = 0; i < sizeof others; i++) {
            no_line(changed(known_line(), place, others[i]), place, "no digit");
        }
        if (place < end) {
            no_line(changed(known_line(), place, '\n'), place, "an end too early");
        }
    }
    no_line(changed(known_line(), end, '0'), end, "a digit for the end");
    no_line(longer(changed(known_line(), end, '\r'), '\n'), end, "byte 0D before the end");

    no_line(longer(known_line(), '\n'), end + 1, "an end after the end");
    no_line(longer(known_line(), '0'), end + 1, "a digit after the end");
    no_line(longer(known_line(), 0), end + 1, "byte 00 after the end");
}

/* A line with one bit of any of its bytes changed opens no more. */
static void no_line_damaged(void)
{
    const size_t length = known_line()->length;
    uint64_t answer;
    size_t place;
    int bit;

    for (place = 0; place < length; place++) {
        for (bit = 1; bit < 256; bit *= 2) {
            known_line();
            answer = line_opened(changed(&line, place, line.bytes[place] ^ bit), sizeof out);
            check(kk_refusal(answer) == KK_REFUSED_LINE || answer == (uint64_t)KK_REFUSED_DISAGREES << 56,
                  "a damaged line");
            check(untouched_from(0), "a damaged line, nothing changed");
        }
    }
}

/* The header's example of QARMA-128 enciphers a block where it stands, and deciphering it brings it back. */
static void enciphers_128_by_example(void)
{
    static const uint8_t key[2 * KK128_WORD_BYTES] = {
        0x84, 0xBE, 0x85, 0xCE, 0x98, 0x04, 0xE9, 0x4B, 0xEC, 0x28, 0x02, 0xD4, 0xE0, 0xA4, 0x88, 0xE9,
        0xEC, 0x28, 0x02, 0xD4, 0xE0, 0xA4, 0x88, 0xE9, 0x84, 0xBE, 0x85, 0xCE, 0x98, 0x04, 0xE9, 0x4B,
    };
    uint8_t block[KK128_BLOCK_BYTES] = "a block of text";
    uint8_t before[KK128_BLOCK_BYTES];

    memcpy(before, block, sizeof block);
    check(kk128_example(key, 5, block), "the header's example of 128 bits");
    check(memcmp(before, block, sizeof block) != 0, "an enciphered block");
    check(kk128_decipher(1, 11, W0_128, K0_128, 0, 5, kk_word(block), kk_word(block + KK_WORD_BYTES), lend(), sizeof out)
              == KK128_BLOCK_BYTES, "a block of the header's example taken");
    check(memcmp(before, out, sizeof before) == 0, "a block of the header's example deciphered");
}

/* The header's example of sealing: the last serial is used once and no more. */
static void seals_by_example(void)
{
    static const uint8_t reading[] = { '2', '7', '.', '4', '1' };
    uint64_t next = KK_SERIAL_MAX;
    uint32_t length;

    length = kk_seal_example(W0, K0, &next, 4, reading, sizeof reading, lend());
    wrote_bytes(length, sealed_last, sizeof sealed_last, "the header's example of sealing");
    lend();
    check(kk_seal_example(W0, K0, &next, 4, reading, sizeof reading, out) == 0, "no serial left");
    check(next == KK_SERIAL_MAX + 1 && untouched_from(0), "no serial left, nothing changed");
}

/* The header's example of opening, on what its example of sealing gives. */
static void opens_by_example(void)
{
    static const uint8_t reading[20] = "touch 27.41, lane 4";
    uint8_t frame[KK_SEALED_BYTES(24)];
    uint64_t next = SERIAL;
    uint32_t length;
    size_t i;

    length = kk_seal_example(W0, K0, &next, 4, reading, 20, frame);
    check(length == sizeof frame && next == SERIAL + 1, "a sealed reading");
    check(kk_open_example(W0, K0, SERIAL, 4, 20, frame, length, lend()), "an opened reading");
    wrote_bytes(20, reading, 20, "the header's example of opening");

    lend();
    check(!kk_open_example(W0, K0, SERIAL, 5, 20, frame, length, out), "another lane");
    check(!kk_open_example(W0, K0, next, 4, 20, frame, length, out), "another serial");
    check(!kk_open_example(W0, K0, SERIAL, 4, 21, frame, length, out), "another length");
    check(!kk_open_example(W0, K0, SERIAL, 4, 20, frame, length - 1, out), "a frame cut short");
    for (i = 0; i < sizeof frame; i++) {
        frame[i] ^= 1;
        check(!kk_open_example(W0, K0, SERIAL, 4, 20, frame, length, out), "a damaged frame");
        frame[i] ^= 1;
    }
    check(untouched_from(0), "no reading opened, nothing changed");
}

/* The header's example of lines. */
static void lines_by_example(void)
{
    static const uint8_t reading[] = "27.41, and 24 bytes of it";
    uint8_t bytes[KK_LINE_BYTES(1, 24)];
    uint64_t next = KK_SERIAL_MAX;
    uint32_t length;

    length = kk_line_example(W0, K0, &next, 4, reading, 5, bytes, lend());
    wrote_bytes(5, reading, 5, "the header's example of lines");
    check(length == last_line()->length && memcmp(bytes, line.bytes, length) == 0,
          "the line of a reading");
    check(next == KK_SERIAL_MAX + 1, "the last serial is used");
    lend();
    check(kk_line_example(W0, K0, &next, 4, reading, 5, bytes, out) == 0, "no serial left");
    check(next == KK_SERIAL_MAX + 1 && untouched_from(0), "no serial left, nothing changed");

    next = SERIAL;
    length = kk_line_example(W0, K0, &next, 4, reading, 24, bytes, lend());
    wrote_bytes(24, reading, 24, "the header's example of lines, longest");
    check(length == sizeof bytes && next == SERIAL + 1, "a line of the longest reading");
    lend();
    check(kk_line_example(W0, K0, &next, 4, reading, 25, bytes, out) == 0, "a reading too long");
    check(next == SERIAL + 1 && untouched_from(0), "a reading too long, nothing changed");
}

/* The refusals that the file checker gives and no call does. */
static void names_refusals(void)
{
    check(KK_REFUSED_REPEATED_SERIAL == 8, "KK_REFUSED_REPEATED_SERIAL");
    check(KK_REFUSED_SERIAL_LIST_FULL == 9, "KK_REFUSED_SERIAL_LIST_FULL");
}

int main(void)
{
    uint64_t answer, w1;

    answer = kk_schedule(1, 2, lend(), sizeof out);
    wrote_schedule(answer, 1, UINT64_C(1) << 63, 2, 2, "kk_schedule");
    answer = kk_schedule(1, 2, lend(), KK_SCHEDULE_BYTES - 1);
    refused(answer, KK_REFUSED_ROOM, "kk_schedule, short");

    answer = kk_turn(0, 0, 0, 0, lend(), sizeof out);
    wrote_schedule(answer, 0, 0, ALPHA, 0, "kk_turn of zeros");
    answer = kk_turn(5, 9, ALPHA, UINT64_C(1) << 60, lend(), sizeof out);
    wrote_schedule(answer, 9, 5, 0, UINT64_C(0x0000200040002000), "kk_turn");
    answer = kk_turn(0, 0, 0, 0, lend(), KK_SCHEDULE_BYTES - 1);
    refused(answer, KK_REFUSED_ROOM, "kk_turn, short");

    w1 = (W0 >> 1 | W0 << 63) ^ W0 >> 63;
    answer = kk_engine(1, 7, W0, w1, K0, K0, TWEAK, PLAIN, lend(), sizeof out);
    wrote_block(answer, CIPHERTEXT, "kk_engine");
    answer = kk_engine(KK_BOX_MAX + 1, 7, W0, w1, K0, K0, TWEAK, PLAIN, lend(), 0);
    refused(answer, KK_REFUSED_SETTINGS, "kk_engine, box 3 and short");

    answer = kk_encipher(1, 7, W0, K0, TWEAK, PLAIN, lend(), sizeof out);
    wrote_block(answer, CIPHERTEXT, "kk_encipher");
    answer = kk_encipher(1, KK_ROUNDS_MAX + 1, W0, K0, TWEAK, PLAIN, lend(), sizeof out);
    refused(answer, KK_REFUSED_SETTINGS, "kk_encipher, 9 rounds");

    answer = kk_decipher(1, 7, W0, K0, TWEAK, CIPHERTEXT, lend(), sizeof out);
    wrote_block(answer, PLAIN, "kk_decipher");
    answer = kk_decipher(1, KK_ROUNDS_MIN - 1, W0, K0, TWEAK, CIPHERTEXT, lend(), sizeof out);
    refused(answer, KK_REFUSED_SETTINGS, "kk_decipher, 2 rounds");
    answer = kk_decipher(1, 7, W0, K0, TWEAK, CIPHERTEXT, lend(), KK_BLOCK_BYTES - 1);
    refused(answer, KK_REFUSED_ROOM, "kk_decipher, short");

    /* No memory at all, by a null pointer. */
    lend();
    refused(kk_schedule(1, 2, NULL, 0), KK_REFUSED_ROOM, "kk_schedule, null");
    refused(kk_turn(0, 0, 0, 0, NULL, 0), KK_REFUSED_ROOM, "kk_turn, null");
    refused(kk_engine(1, 7, W0, w1, K0, K0, TWEAK, PLAIN, NULL, 0), KK_REFUSED_ROOM, "kk_engine, null");
    refused(kk_encipher(1, 7, W0, K0, TWEAK, PLAIN, NULL, 0), KK_REFUSED_ROOM, "kk_encipher, null");
    refused(kk_decipher(1, 7, W0, K0, TWEAK, PLAIN, NULL, 0), KK_REFUSED_ROOM, "kk_decipher, null");

    known_128();
    undone_128();
    refused_128();

    seals();
    opens();
    opens_not();
    opens_at_last();

    writes_lines();
    reads_lines();
    opens_lines();
    opens_lines_at_last();
    no_lines();
    no_line_anywhere();
    no_line_damaged();
    names_refusals();

    check(kk_example(W0, K0, TWEAK, PLAIN), "the header's example");
    enciphers_128_by_example();
    seals_by_example();
    opens_by_example();
    lines_by_example();

    printf("c caller: %u checks passed\n", checks);
    return 0;
}
