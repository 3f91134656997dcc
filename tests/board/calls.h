/*
 * The calls of kkurimyeot.h, a line each, and the cases that the second program made of them
 * (tests/abuse COUNT cases FOLDER). The tests on boards (cases.c, wasm.mjs) and those of secrets
 * (tests/secrets) go by this table: a new call is one line more.
 *
 * A case is
 *
 *   1 byte   which call, in the order of kkurimyeot.h
 *   8 each   its numbers, two for a value of 128 bits
 *   4 + n    each slice that is read: its length, and its bytes
 *   4        the length of the lent memory
 *   8        the number that is returned
 *   n        the bytes that are written, as many as that number says
 *
 * with the most significant byte of each number first. After the last comes a byte 0xFF.
 */

#include "kkurimyeot.h"

/*
 * Secret are keys, schedule words, tweaks, blocks and messages, and what is reckoned from
 * them up to sealed bytes and lines: the blocks that opening deciphers, for one. Public are
 * box, rounds, serials, lengths, labels, sealed bytes, lines, and whether a frame opened.
 *
 * Of each call: its name; each of its numbers, and each slice that it reads, s for secret or
 * p for public (wasm.mjs holds that to the names in the header); how often a secret decides
 * in a call that is taken or refused 6: once, whether the frame opened, or 0 where nothing is
 * opened; and what is handed to it before the lent memory.
 */
#define CALLS(CALL)                                                                                   \
    CALL(kk_schedule, "ss", "", 0, n[0], n[1])                                                        \
    CALL(kk_turn, "ssss", "", 0, n[0], n[1], n[2], n[3])                                              \
    CALL(kk_engine, "ppssssss", "", 0, n[0], n[1], n[2], n[3], n[4], n[5], n[6], n[7])                \
    CALL(kk_encipher, "ppssss", "", 0, n[0], n[1], n[2], n[3], n[4], n[5])                            \
    CALL(kk_decipher, "ppssss", "", 0, n[0], n[1], n[2], n[3], n[4], n[5])                            \
    CALL(kk_seal, "ssp", "ps", 0, n[0], n[1], n[2], SLICE(0), SLICE(1))                               \
    CALL(kk_open, "sspp", "pp", 1, n[0], n[1], n[2], n[3], SLICE(0), SLICE(1))                        \
    CALL(kk_read_line, "", "p", 0, SLICE(0))                                                          \
    CALL(kk_write_line, "ssp", "ps", 0, n[0], n[1], n[2], SLICE(0), SLICE(1))                         \
    CALL(kk_open_line, "ss", "p", 1, n[0], n[1], SLICE(0))                                            \
    CALL(kk128_schedule, "ssss", "", 0, TWO(0), TWO(2))                                             \
    CALL(kk128_turn, "ssssssss", "", 0, TWO(0), TWO(2), TWO(4), TWO(6))                           \
    CALL(kk128_engine, "ppssssssssssss", "", 0, n[0], n[1], TWO(2), TWO(4), TWO(6), TWO(8),       \
         TWO(10), TWO(12))                                                                          \
    CALL(kk128_encipher, "ppssssssss", "", 0, n[0], n[1], TWO(2), TWO(4), TWO(6), TWO(8))         \
    CALL(kk128_decipher, "ppssssssss", "", 0, n[0], n[1], TWO(2), TWO(4), TWO(6), TWO(8))

#define NUMBERS_MAX 14
#define SLICES_MAX 2

/* What is handed in, and what is meant to come of it. */
struct one {
    unsigned call;
    uint64_t numbers[NUMBERS_MAX];
    const uint8_t *slices[SLICES_MAX];
    kk_size lengths[SLICES_MAX];
    kk_size lent;
    uint64_t answer;
    const uint8_t *written;
};

#define NUMBER_OF(name, ...) CALL_##name,
enum { CALLS(NUMBER_OF) CALL_COUNT };

#define FITS(name, numbers, slices, ...)                                           \
    _Static_assert(sizeof(numbers) <= NUMBERS_MAX + 1, #name " has more numbers"); \
    _Static_assert(sizeof(slices) <= SLICES_MAX + 1, #name " has more slices");
CALLS(FITS)

#define ROW(name, numbers, slices, decisions, ...) { #name, numbers, slices, decisions },
static const struct {
    const char *name, *numbers, *slices;
    unsigned decisions;
} calls[CALL_COUNT] = { CALLS(ROW) };

/* Whether a call was taken, or refused only because tag or fill disagrees. */
static inline int taken_or_6(uint64_t answer)
{
    return kk_refusal(answer) == KK_NOT_REFUSED || kk_refusal(answer) == KK_REFUSED_DISAGREES;
}

/* How many bytes a returned number says were written. */
static inline uint32_t written_by(uint64_t answer)
{
    return kk_refusal(answer) == KK_NOT_REFUSED ? kk_count(answer) : 0;
}

static inline uint32_t length_at(const uint8_t *bytes)
{
    return (uint32_t)bytes[0] << 24 | (uint32_t)bytes[1] << 16 | (uint32_t)bytes[2] << 8 | bytes[3];
}

/* Reads the case at a place, and gives the place behind it; NULL if there is no such call. */
static inline const uint8_t *read_case(const uint8_t *at, struct one *one)
{
    const size_t length_bytes = 4;
    size_t i;

    one->call = *at++;
    if (one->call >= CALL_COUNT) {
        return NULL;
    }
    for (i = 0; calls[one->call].numbers[i]; i++, at += KK_WORD_BYTES) {
        one->numbers[i] = kk_word(at);
    }
    for (i = 0; calls[one->call].slices[i]; i++) {
        one->lengths[i] = length_at(at);
        one->slices[i] = at + length_bytes;
        at += length_bytes + length_at(at);
    }
    one->lent = length_at(at);
    one->answer = kk_word(at + length_bytes);
    one->written = at + length_bytes + KK_WORD_BYTES;
    return one->written + written_by(one->answer);
}

/* Makes a call on lent memory. */
#define SLICE(i) s[i], l[i]
#define TWO(i) n[i], n[i + 1]
#define MADE(name, numbers, slices, decisions, ...) \
    case CALL_##name:                               \
        return name(__VA_ARGS__, out, one->lent);
static inline __attribute__((always_inline)) uint64_t made(const struct one *one, uint8_t *out)
{
    const uint64_t *n = one->numbers;
    const uint8_t *const *s = one->slices;
    const kk_size *l = one->lengths;

    switch (one->call) {
        CALLS(MADE)
    }
    return 0;
}
