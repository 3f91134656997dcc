/*
 * kkurimyeot.h - the QARMA-64 block engine for C, frames sealed and opened with
 * it, and frame lines read, written and opened; and the QARMA-128 block engine.
 *
 * This header is the manual. Link with libkkurimyeot.a; once both are installed,
 * `pkg-config --cflags --libs kkurimyeot` prints what the compiler has to be told.
 * The files in docs/, examples/ and tests/ that are named here are in the sources.
 *
 *
 * Words
 *
 *   cell      4 bits; 8 in the 128-bit cipher. Sixteen cells make a word; cell 0 is
 *             the most significant.
 *   block     The word that is enciphered or deciphered in one call: 64 bits, or
 *             128 by the calls that begin with kk128_.
 *   tweak     A word beside the key. Each tweak gives another cipher. It need not
 *             be secret.
 *   key       Two words: the outer word w0 and the core word k0. Where a key is
 *             written as bytes or digits, w0 comes first.
 *   schedule  The four words that the engine runs on: the outer words w0 and
 *             w1, the core word k0 and the centre word k1.
 *   turn      To turn a schedule is to make the one under which the engine
 *             undoes what it does under the first.
 *   box       The number of a substitution table for cells: 0, 1 or 2.
 *   rounds    The number r of the paper, 3 to 8, or 3 to 11 in the 128-bit cipher.
 *             The engine runs 2r + 2 rounds.
 *   message   The bytes that are kept secret: 0 to KK_MESSAGE_MAX.
 *   label     Bytes that travel openly beside the message and that the tag also
 *             covers: 0 to KK_LABEL_MAX.
 *   serial    The number of a frame under its key: 0 to KK_SERIAL_MAX.
 *   fill      What makes a last part of 1 to 7 bytes a block: byte 0x80, and then
 *             bytes 0x00.
 *   tag       8 bytes that depend on key, serial, label and message. By them a
 *             changed frame is known.
 *   seal      To seal a message is to encipher it, block by block, and to make
 *             its tag.
 *   sealed    The enciphered blocks and then the tag. KK_SEALED_BYTES() gives
 *   bytes     their number.
 *   open      To open sealed bytes is to decipher them and to give the message if
 *             tag and fill agree.
 *   frame     A serial, a label, a message length and sealed bytes.
 *   line      A frame as text: lowercase hexadecimal digits, ended by byte 0x0A.
 *   place     The number of a byte in a line, from 0.
 *   refusal   The number that says why a call did nothing.
 *
 * The paper is Roberto Avanzi, "The QARMA Block Cipher Family". It chooses
 * box 1 and r = 7, and frames are sealed with these. For 128 bits it chooses r = 11.
 *
 *
 * Lines
 *
 * A line has two lowercase hexadecimal digits for each byte of these fields, then
 * byte 0x0A, and nothing else. Numbers have their most significant digit first.
 *
 *   place         digits   field
 *   0             2        version: 01
 *   2             12       serial; its top digit is 0
 *   14            2        label length l: 00 to 20, which is KK_LABEL_MAX
 *   16            4        message length n: 0000 to 0400, which is KK_MESSAGE_MAX
 *   20            2l       label
 *   20 + 2l       2s       sealed bytes, s being KK_SEALED_BYTES(n)
 *   20 + 2l + 2s           byte 0x0A
 *
 * Bytes of just this shape are a good line. No key enters into it: a good line may
 * still not open.
 *
 * Other bytes are refused with KK_REFUSED_LINE and a place, which is kk_count() of
 * the returned number: the smallest k such that the first k + 1 bytes begin no
 * good line. For a good line cut short it is the count of its bytes, and otherwise
 * less. A byte after the 0x0A is refused at its place, so lines are handed in one
 * at a time.
 *
 * KK_LINE_MAX + 1 bytes of memory are enough to read any input into: the first so
 * many bytes of a longer one are refused as the whole is. With KK_LINE_MAX bytes, an
 * input that starts with the longest line would be cut to a good one.
 *
 * docs/FORMAT.md has frames and lines for those who work without this library,
 * with an example in bytes.
 *
 *
 * Numbers and lent memory
 *
 * Words, tweaks, blocks, box, rounds, serials and the length of a message to be
 * opened are passed as uint64_t. Each of them may have any value: one outside its
 * limits is refused, whatever its upper bits.
 *
 * A label, a message, sealed bytes or a line are passed as a pointer and the
 * number of bytes there, a kk_size: 64 bits on every processor, so that a size_t
 * can be handed in as it is. All these bytes must be the caller's to read, even if
 * they are too many or too few and the call is refused. They are never written.
 *
 * An answer is written to memory that the caller lends: a pointer `out` and the
 * number of bytes there, `out_length`. All `out_length` bytes must be the
 * caller's to write, and none of them may belong to the label, the message, the
 * sealed bytes or the line. An answer made of words has 8 bytes for each word, or
 * 16 in the 128-bit cipher, the most significant first.
 *
 * A value of 128 bits is passed as two numbers, the high one first. In an answer
 * kk_word(out) is then its high number, kk_word(out + KK_WORD_BYTES) its low one.
 *
 * A call that succeeds writes the first bytes of the lent memory, as many as the
 * function says. Every byte past them stays as it was. A call that is refused
 * changes no byte.
 *
 * No pointer needs alignment. A pointer to 0 bytes may be any, NULL among them:
 * nothing is read or written through it. (Looked up in the code that the compiler
 * is given, and tried in tests/calls.c.)
 *
 * An answer depends only on the numbers and bytes that are passed, and not on
 * earlier calls or on what the lent memory held.
 *
 *
 * The returned number
 *
 * Each function returns one uint64_t:
 *
 *   bits 63..56   the refusal, or 0 if the call succeeded
 *   bits 55..32   0
 *   bits 31..0    the number of bytes written, if the call succeeded; the place,
 *                 with KK_REFUSED_LINE; 0, with any other refusal
 *
 * Take it apart with kk_refusal() and kk_count(). If several refusals apply, the
 * first one in the function's list is given.
 *
 *
 * Processors, and what a call takes there
 *
 * This header is for all of them. There is an archive for each
 * (`make archive FOR=NAME`), which needs from outside what is named here and
 * nothing else:
 *
 *   NAME            processor                       needs from outside
 *   x86-64          x86-64, System V calls          memset
 *   aarch64         aarch64, AAPCS64 calls          memset
 *   cortex-m4       Cortex-M4, with or without      __aeabi_memclr,
 *                   its floating point unit,        __aeabi_memclr4,
 *                   hard and soft float calls       __aeabi_memclr8,
 *                                                   __aeabi_memcpy
 *   cortex-m0plus   Cortex-M0+ and Cortex-M0        the same, __aeabi_llsl,
 *                                                   __aeabi_llsr
 *   rv32imc         RISC-V, RV32IMC, ilp32 calls    memcpy, memset
 *   wasm32          WebAssembly with bulk memory    nothing
 *
 * The names with __aeabi are those of Arm's run-time ABI. With GCC, __aeabi_mem..
 * come with the C library (newlib, picolibc) and the shifts __aeabi_ll.. with
 * libgcc; compiler-rt has all of them. For firmware without any of these,
 * examples/board/libc has all that is named here.
 *
 * Stack: less than 4 KiB for any call on any of these, and what the functions from
 * outside take (docs/PERFORMANCE.md has the bytes for each call). No other memory:
 * the archive has no variables.
 *
 * Interrupts: a call may be interrupted anywhere, and an interrupt handler may
 * make calls, if the stack is long enough for both. Calls may run at the same time
 * if none of them writes where another reads or writes. No call masks interrupts
 * or waits for anything. A handler has to restore every register that it changes:
 * on a Cortex-M the processor sees to that, for a handler that is a plain C
 * function; on other processors the handler is written for it (GCC and clang:
 * __attribute__((interrupt))). On a Cortex-M no register of the floating point
 * unit is used. On x86-64 and aarch64 the vector registers are, and on x86-64 the
 * 128 bytes below the stack pointer.
 *
 * Unaligned memory: on a Cortex-M4 several bytes are read and written at once,
 * whatever the address. The processor allows that after a reset, in memory of the
 * kind Normal: leave the bit UNALIGN_TRP of its register CCR as it is. (The same
 * goes for aarch64, with its MMU on, and the bit A of SCTLR.)
 *
 * docs/DECISIONS.md says what was looked up of the archives, docs/CONTRACTS.md what
 * is proved of them and what was tested. examples/board/ has a start-up for
 * Cortex-M boards.
 *
 *
 * Secrets, and what the time of a call can tell
 *
 * Secret are keys, schedule words, blocks and messages, a tweak too, though it need
 * not be, and what is reckoned from them up to sealed bytes and lines. Public are
 * box, rounds, serials, lengths, labels, sealed bytes, lines, and whether a frame
 * opened.
 *
 * Nothing secret decides which instruction is executed next, or which address is
 * read or written, but for one decision of kk_open() and of kk_open_line(): whether
 * the frame opened. A wrong fill goes the same way as a wrong tag. kk_read_line()
 * has no secret: a line is public text. Functions from outside get secrets to copy
 * or to shift, never as a length or as a number of places.
 *
 * That is tested and not proved, by 6,000 calls of all functions with every kind
 * of answer, of the archives as they are built (`make test`): on the machine of the
 * tests, x86-64 or aarch64, by valgrind, with all that is secret marked as undefined;
 * and in emulators for x86-64, aarch64, Cortex-M4, Cortex-M0+ (a Cortex-M0) and
 * RV32IMC, by comparing each instruction and each address with those of the same
 * call with other secrets. For wasm32 it is not tested: whoever runs the module
 * compiles it again.
 *
 * How long an instruction takes is the processor's matter. The archives have no
 * division. They multiply only where the digits of a line are written, which are
 * public, so a multiplication that ends early for small numbers tells nothing. They
 * do shift by secrets: a box of 4 bits is looked up by a shift by a cell. (The boxes
 * of the 128-bit cipher are gates, which shift by fixed numbers only.) A core that
 * shifts place by place (SERV, or PicoRV32 without its barrel shifter) therefore tells
 * something of keys and blocks by its time. Of Cortex-M, aarch64 and x86-64 we know
 * none that does so; newer ones promise it only in a mode that the system sets
 * (PSTATE.DIT, DOITM). docs/PERFORMANCE.md says where such instructions are.
 *
 *
 * Not promised
 *
 * Nothing is promised about how long a call takes, and nothing about what power,
 * radiation or a fault brought about from outside can tell. Copies of keys, blocks
 * and messages that a call leaves in registers or on the stack are not wiped; a
 * refused kk_open() or kk_open_line() too may leave some there. No call knows which
 * serials were used before: a frame opens as often as it is handed in. The file
 * checker refuses a repeat, within one file.
 *
 *
 * Examples
 *
 * At the end of this header. They are compiled when KK_EXAMPLE is defined.
 * examples/loader.c is a whole program: a pad's loader, which opens a line, on a
 * desk and on a board.
 */

#ifndef KKURIMYEOT_H
#define KKURIMYEOT_H

#include <stddef.h>
#include <stdint.h>

#ifdef __cplusplus
#define KK_RESTRICT
extern "C" {
#else
#define KK_RESTRICT restrict
#endif

/* The number of bytes at a pointer, which is passed in 64 bits on every processor. */
#if !defined SIZE_MAX || !defined UINT64_MAX
#error "stdint.h has to define SIZE_MAX; before C++11, define __STDC_LIMIT_MACROS first"
#elif SIZE_MAX < UINT64_MAX
typedef uint64_t kk_size;
#else
typedef size_t kk_size;
#endif

/* Limits of box and rounds. The least box is 0. */
#define KK_BOX_MAX 2
#define KK_ROUNDS_MIN 3
#define KK_ROUNDS_MAX 8

/* Limits of the lengths of message and label, and of the serial. The least of
   each is 0. */
#define KK_MESSAGE_MAX 1024
#define KK_LABEL_MAX 32
#define KK_SERIAL_MAX ((UINT64_C(1) << 44) - 1)

/* Bytes of a word, of a block, of a schedule and of a tag. */
#define KK_WORD_BYTES 8
#define KK_BLOCK_BYTES 8
#define KK_SCHEDULE_BYTES 32
#define KK_TAG_BYTES 8

/* Of the 128-bit cipher. KK_BOX_MAX and KK_ROUNDS_MIN are for both. */
#define KK128_ROUNDS_MAX 11
#define KK128_WORD_BYTES 16
#define KK128_BLOCK_BYTES 16
#define KK128_SCHEDULE_BYTES 64

/* The number of sealed bytes for a message of a length up to KK_MESSAGE_MAX: the
   length rounded up to whole blocks, and the tag. A constant if the length is. */
#define KK_SEALED_BYTES(message_length)                          \
    (((size_t)(message_length) + (KK_BLOCK_BYTES - 1))           \
         / KK_BLOCK_BYTES * KK_BLOCK_BYTES                       \
     + KK_TAG_BYTES)

/* The number of bytes of a line, its 0x0A among them, for lengths up to
   KK_LABEL_MAX and KK_MESSAGE_MAX. A constant if the lengths are. */
#define KK_LINE_BYTES(label_length, message_length)              \
    (20 + 2 * ((size_t)(label_length)                            \
               + KK_SEALED_BYTES(message_length)) + 1)

/* Limits of the number of bytes of a line: KK_LINE_BYTES(0, 0) and
   KK_LINE_BYTES(KK_LABEL_MAX, KK_MESSAGE_MAX). */
#define KK_LINE_MIN 37
#define KK_LINE_MAX 2149

/* Bytes of the five words that kk_read_line() writes. */
#define KK_READ_BYTES 40

/* The refusals by their numbers. kk_refusal() gives one of 0 to 7. */
enum kk_refusals {
    KK_NOT_REFUSED = 0,
    KK_REFUSED_SETTINGS = 1,    /* box or rounds outside the limits */
    KK_REFUSED_LENGTH = 2,      /* message or label longer than allowed */
    KK_REFUSED_SERIAL = 3,      /* serial above 2^44 - 1 */
    KK_REFUSED_SEALED_SIZE = 4, /* sealed bytes are not 8 more than the message
                                   length rounded up to 8 */
    KK_REFUSED_ROOM = 5,        /* lent memory shorter than the answer needs */
    KK_REFUSED_DISAGREES = 6,   /* tag or fill disagrees */
    KK_REFUSED_LINE = 7,        /* not a good line; kk_count() gives the place */

    /* No call here gives these two. The file checker does: it remembers the serials
       of the lines that opened in a file. */
    KK_REFUSED_REPEATED_SERIAL = 8, /* a line before it opened under its serial */
    KK_REFUSED_SERIAL_LIST_FULL = 9 /* a fresh serial after 4,096 others */
};

/* The refusal in a returned number: one of enum kk_refusals. */
static inline unsigned kk_refusal(uint64_t answer)
{
    return (unsigned)(answer >> 56);
}

/* The number of bytes written, or the place, in a returned number. */
static inline uint32_t kk_count(uint64_t answer)
{
    return (uint32_t)answer;
}

/* The number that stands in KK_WORD_BYTES bytes, the most significant first: a word,
   or one of the two numbers of a value of 128 bits. */
static inline uint64_t kk_word(const uint8_t *bytes)
{
    uint64_t word = 0;
    size_t i;

    for (i = 0; i < KK_WORD_BYTES; i++) {
        word = word << 8 | bytes[i];
    }
    return word;
}

/*
 * The schedule of the key (w0, k0): w0; w1, which is w0 rotated right by 1, xor
 * w0 shifted right by 63; k0; and k1, which is k0.
 *
 * Refusals: KK_REFUSED_ROOM if out_length is below KK_SCHEDULE_BYTES.
 * Writes w0, w1, k0, k1 to the first KK_SCHEDULE_BYTES bytes of out.
 */
uint64_t kk_schedule(uint64_t w0, uint64_t k0,
                     uint8_t *KK_RESTRICT out, kk_size out_length);

/*
 * The schedule (w0, w1, k0, k1) turned: w1, w0, k0 xor C0AC29B7C97C50DD, and the
 * mix of k1 (the paper's Q times k1). Turning twice gives the first schedule
 * back.
 *
 * Refusals: KK_REFUSED_ROOM if out_length is below KK_SCHEDULE_BYTES.
 * Writes the four words in that order to the first KK_SCHEDULE_BYTES bytes of
 * out.
 */
uint64_t kk_turn(uint64_t w0, uint64_t w1, uint64_t k0, uint64_t k1,
                 uint8_t *KK_RESTRICT out, kk_size out_length);

/*
 * The engine's answer for a block under a tweak and four free words. Under the
 * turned schedule, with the same box, rounds and tweak, it undoes this.
 *
 * Refusals, in this order:
 *   KK_REFUSED_SETTINGS if box is above KK_BOX_MAX, or rounds is below
 *                       KK_ROUNDS_MIN or above KK_ROUNDS_MAX;
 *   KK_REFUSED_ROOM     if out_length is below KK_BLOCK_BYTES.
 * Writes the answer to the first KK_BLOCK_BYTES bytes of out.
 */
uint64_t kk_engine(uint64_t box, uint64_t rounds,
                   uint64_t w0, uint64_t w1, uint64_t k0, uint64_t k1,
                   uint64_t tweak, uint64_t block,
                   uint8_t *KK_RESTRICT out, kk_size out_length);

/*
 * The block enciphered under a tweak and the key (w0, k0): the engine under the
 * schedule of the key.
 *
 * Refusals and writing: as kk_engine().
 */
uint64_t kk_encipher(uint64_t box, uint64_t rounds,
                     uint64_t w0, uint64_t k0,
                     uint64_t tweak, uint64_t block,
                     uint8_t *KK_RESTRICT out, kk_size out_length);

/*
 * The block deciphered under a tweak and the key (w0, k0): the engine under the
 * turned schedule of the key. With the same box, rounds, key and tweak it undoes
 * kk_encipher(). It cannot tell whether the key or the tweak was the right one.
 *
 * Refusals and writing: as kk_engine().
 */
uint64_t kk_decipher(uint64_t box, uint64_t rounds,
                     uint64_t w0, uint64_t k0,
                     uint64_t tweak, uint64_t block,
                     uint8_t *KK_RESTRICT out, kk_size out_length);

/*
 * The message sealed under the key (w0, k0), a serial and a label: its blocks,
 * the last one filled if it is not whole, each enciphered in its place, and then
 * the tag.
 *
 * Never seal two messages with one serial under one key. Equal blocks in equal
 * places would show, and parts of the two frames could be put together.
 *
 * Refusals, in this order:
 *   KK_REFUSED_LENGTH if message_length is above KK_MESSAGE_MAX, or label_length
 *                     above KK_LABEL_MAX;
 *   KK_REFUSED_SERIAL if serial is above KK_SERIAL_MAX;
 *   KK_REFUSED_ROOM   if out_length is below KK_SEALED_BYTES(message_length).
 * Writes the sealed bytes to the first KK_SEALED_BYTES(message_length) bytes of
 * out, at least 8 and at most 1032.
 */
uint64_t kk_seal(uint64_t w0, uint64_t k0, uint64_t serial,
                 const uint8_t *KK_RESTRICT label, kk_size label_length,
                 const uint8_t *KK_RESTRICT message, kk_size message_length,
                 uint8_t *KK_RESTRICT out, kk_size out_length);

/*
 * The message that the sealed bytes hold under the key (w0, k0), a serial and a
 * label: their blocks deciphered, each in its place, if tag and fill agree.
 *
 * It is told the message length, which sealed bytes do not carry. Within the
 * limits and with enough room, it accepts exactly the sealed bytes that kk_seal()
 * gives for some message of that length under that key, serial and label, and it
 * writes that message.
 *
 * Under one key, serial and label, sealed bytes open at one length at most that is
 * not a multiple of 8: the fill shows where the message ends. That they do not
 * open at a multiple of 8 as well rests on the tag, as with any changed frame: such
 * bytes exist, and whoever has the key can search for them (docs/DECISIONS.md,
 * "Frames").
 *
 * Refusals, in this order:
 *   KK_REFUSED_LENGTH      if message_length is above KK_MESSAGE_MAX, or
 *                          label_length above KK_LABEL_MAX;
 *   KK_REFUSED_SERIAL      if serial is above KK_SERIAL_MAX;
 *   KK_REFUSED_SEALED_SIZE if sealed_length is not KK_SEALED_BYTES(message_length);
 *   KK_REFUSED_ROOM        if out_length is below message_length;
 *   KK_REFUSED_DISAGREES   if tag or fill disagrees.
 * Writes the message to the first message_length bytes of out, at most 1024 and
 * perhaps none, and writes no byte before it has accepted.
 */
uint64_t kk_open(uint64_t w0, uint64_t k0, uint64_t serial,
                 uint64_t message_length,
                 const uint8_t *KK_RESTRICT label, kk_size label_length,
                 const uint8_t *KK_RESTRICT sealed, kk_size sealed_length,
                 uint8_t *KK_RESTRICT out, kk_size out_length);

/*
 * The fields of a line and their places. They are what the line says; that they
 * were sealed so, only kk_open_line() can tell.
 *
 * Refusals, in this order:
 *   KK_REFUSED_LINE if the bytes are not a good line, with the place;
 *   KK_REFUSED_ROOM if out_length is below KK_READ_BYTES.
 * Writes five words to the first KK_READ_BYTES bytes of out: the serial, the label
 * length and the message length in bytes, the place of the label and the place of
 * the sealed bytes. From its place on, each byte of a field has two digits.
 */
uint64_t kk_read_line(const uint8_t *KK_RESTRICT line, kk_size line_length,
                      uint8_t *KK_RESTRICT out, kk_size out_length);

/*
 * The line of the message sealed under the key (w0, k0), a serial and a label: the
 * sealed bytes are those of kk_seal(). It is a good line, and under that key it
 * opens to that message.
 *
 * As with kk_seal(), never two messages with one serial under one key.
 *
 * Refusals, in this order:
 *   KK_REFUSED_LENGTH if message_length is above KK_MESSAGE_MAX, or label_length
 *                     above KK_LABEL_MAX;
 *   KK_REFUSED_SERIAL if serial is above KK_SERIAL_MAX;
 *   KK_REFUSED_ROOM   if out_length is below
 *                     KK_LINE_BYTES(label_length, message_length), the whole line.
 * Writes the line to the first KK_LINE_BYTES(label_length, message_length) bytes
 * of out, at least 37 and at most 2149. The last of them is the 0x0A; no byte 0x00
 * follows.
 */
uint64_t kk_write_line(uint64_t w0, uint64_t k0, uint64_t serial,
                       const uint8_t *KK_RESTRICT label, kk_size label_length,
                       const uint8_t *KK_RESTRICT message, kk_size message_length,
                       uint8_t *KK_RESTRICT out, kk_size out_length);

/*
 * The message that a line holds under the key (w0, k0): what kk_open() gives for
 * the line's serial, message length, label and sealed bytes.
 *
 * With enough room, it accepts exactly the lines that kk_write_line() gives for
 * some serial, label and message under that key, and it writes that message.
 * line_length counts the 0x0A. No byte 0x00 follows the message.
 *
 * Refusals, in this order:
 *   KK_REFUSED_LINE      if the bytes are not a good line, with the place;
 *   KK_REFUSED_ROOM      if out_length is below the line's message length;
 *   KK_REFUSED_DISAGREES if tag or fill disagrees.
 * KK_REFUSED_LENGTH, KK_REFUSED_SERIAL and KK_REFUSED_SEALED_SIZE, which kk_open()
 * can give, do not occur, since a good line is within the limits.
 * Writes the message to the first bytes of out, as many as its length, at most
 * 1024 and perhaps none, and writes no byte before it has accepted.
 */
uint64_t kk_open_line(uint64_t w0, uint64_t k0,
                      const uint8_t *KK_RESTRICT line, kk_size line_length,
                      uint8_t *KK_RESTRICT out, kk_size out_length);

/*
 * The 128-bit cipher, QARMA-128. Each word, tweak and block is two numbers, the
 * high one first, and 16 bytes of an answer. The paper chooses box 1 and r = 11.
 * Frames and lines are not made with it.
 */

/*
 * The schedule of the key (w0, k0): w0; w1, which is w0 rotated right by 1, xor
 * w0 shifted right by 127, all 128 bits as one; k0; and k1, which is k0.
 *
 * Refusals: KK_REFUSED_ROOM if out_length is below KK128_SCHEDULE_BYTES.
 * Writes w0, w1, k0, k1 to the first KK128_SCHEDULE_BYTES bytes of out.
 */
uint64_t kk128_schedule(uint64_t w0_high, uint64_t w0_low,
                        uint64_t k0_high, uint64_t k0_low,
                        uint8_t *KK_RESTRICT out, kk_size out_length);

/*
 * The schedule (w0, w1, k0, k1) turned: w1, w0, k0 xor
 * 243F6A8885A308D313198A2E03707344, and the mix of k1 (the paper's Q times k1).
 * Turning twice gives the first schedule back.
 *
 * Refusals: KK_REFUSED_ROOM if out_length is below KK128_SCHEDULE_BYTES.
 * Writes the four words in that order to the first KK128_SCHEDULE_BYTES bytes of
 * out: eight numbers for kk128_engine(), each by kk_word().
 */
uint64_t kk128_turn(uint64_t w0_high, uint64_t w0_low,
                    uint64_t w1_high, uint64_t w1_low,
                    uint64_t k0_high, uint64_t k0_low,
                    uint64_t k1_high, uint64_t k1_low,
                    uint8_t *KK_RESTRICT out, kk_size out_length);

/*
 * The engine's answer for a block under a tweak and four free words. Under the
 * turned schedule, with the same box, rounds and tweak, it undoes this.
 *
 * Refusals, in this order:
 *   KK_REFUSED_SETTINGS if box is above KK_BOX_MAX, or rounds is below
 *                       KK_ROUNDS_MIN or above KK128_ROUNDS_MAX;
 *   KK_REFUSED_ROOM     if out_length is below KK128_BLOCK_BYTES.
 * Writes the answer to the first KK128_BLOCK_BYTES bytes of out.
 */
uint64_t kk128_engine(uint64_t box, uint64_t rounds,
                      uint64_t w0_high, uint64_t w0_low,
                      uint64_t w1_high, uint64_t w1_low,
                      uint64_t k0_high, uint64_t k0_low,
                      uint64_t k1_high, uint64_t k1_low,
                      uint64_t tweak_high, uint64_t tweak_low,
                      uint64_t block_high, uint64_t block_low,
                      uint8_t *KK_RESTRICT out, kk_size out_length);

/*
 * The block enciphered under a tweak and the key (w0, k0): the engine under the
 * schedule of the key.
 *
 * Refusals and writing: as kk128_engine().
 */
uint64_t kk128_encipher(uint64_t box, uint64_t rounds,
                        uint64_t w0_high, uint64_t w0_low,
                        uint64_t k0_high, uint64_t k0_low,
                        uint64_t tweak_high, uint64_t tweak_low,
                        uint64_t block_high, uint64_t block_low,
                        uint8_t *KK_RESTRICT out, kk_size out_length);

/*
 * The block deciphered under a tweak and the key (w0, k0): the engine under the
 * turned schedule of the key. With the same box, rounds, key and tweak it undoes
 * kk128_encipher(). It cannot tell whether the key or the tweak was the right one.
 *
 * Refusals and writing: as kk128_engine().
 */
uint64_t kk128_decipher(uint64_t box, uint64_t rounds,
                        uint64_t w0_high, uint64_t w0_low,
                        uint64_t k0_high, uint64_t k0_low,
                        uint64_t tweak_high, uint64_t tweak_low,
                        uint64_t block_high, uint64_t block_low,
                        uint8_t *KK_RESTRICT out, kk_size out_length);

#ifdef KK_EXAMPLE
/* Enciphers a block and deciphers it again. Gives 1 if the block came back. */
static inline int kk_example(uint64_t w0, uint64_t k0,
                             uint64_t tweak, uint64_t block)
{
    uint8_t out[KK_BLOCK_BYTES];
    uint64_t answer;

    answer = kk_encipher(1, 7, w0, k0, tweak, block, out, sizeof out);
    if (kk_refusal(answer) != KK_NOT_REFUSED) {
        return 0; /* nothing was written to out */
    }
    /* kk_count(answer) is KK_BLOCK_BYTES now. */
    answer = kk_decipher(1, 7, w0, k0, tweak, kk_word(out), out, sizeof out);
    if (kk_refusal(answer) != KK_NOT_REFUSED) {
        return 0; /* out still has the enciphered block */
    }
    return kk_word(out) == block;
}

/* Enciphers a block of 16 bytes in place, as a memory part does, under a key of 32
   bytes, w0 and then k0, with the number of the block as the tweak. Gives 1 if the
   block is enciphered. kk128_decipher() in its place brings the block back. Whoever
   reads the memory sees when the same block is written to the same place again. */
static inline int kk128_example(const uint8_t key[2 * KK128_WORD_BYTES],
                                uint64_t number,
                                uint8_t block[KK128_BLOCK_BYTES])
{
    uint64_t answer;

    answer = kk128_encipher(1, 11,
                            kk_word(key), kk_word(key + KK_WORD_BYTES),
                            kk_word(key + 2 * KK_WORD_BYTES),
                            kk_word(key + 3 * KK_WORD_BYTES),
                            0, number,
                            kk_word(block), kk_word(block + KK_WORD_BYTES),
                            block, KK128_BLOCK_BYTES);
    return kk_refusal(answer) == KK_NOT_REFUSED;
}

/* Seals a reading of up to 24 bytes, with the number of its lane as the label,
   and gives the number of sealed bytes, or 0 if the reading is too long or no
   serial is left. */
static inline uint32_t kk_seal_example(uint64_t w0, uint64_t k0,
                                       uint64_t *next_serial, uint8_t lane,
                                       const uint8_t *reading, size_t length,
                                       uint8_t out[KK_SEALED_BYTES(24)])
{
    uint64_t answer;

    answer = kk_seal(w0, k0, *next_serial, &lane, 1, reading, length,
                     out, KK_SEALED_BYTES(24));
    if (kk_refusal(answer) != KK_NOT_REFUSED) {
        return 0; /* nothing was written to out */
    }
    *next_serial += 1; /* never the same serial again */
    return kk_count(answer);
}

/* Opens what kk_seal_example() has sealed, given the serial that it used and the
   length of the reading. Gives 1 if out has the reading now, and 0 if the reading
   is too long or the frame is not as it was sealed. */
static inline int kk_open_example(uint64_t w0, uint64_t k0,
                                  uint64_t serial, uint8_t lane, size_t length,
                                  const uint8_t *sealed, size_t sealed_length,
                                  uint8_t out[24])
{
    uint64_t answer;

    answer = kk_open(w0, k0, serial, length, &lane, 1, sealed, sealed_length,
                     out, 24);
    if (kk_refusal(answer) != KK_NOT_REFUSED) {
        return 0; /* nothing was written to out */
    }
    /* kk_count(answer) is length now. */
    return 1;
}

/* Writes the line of a reading of up to 24 bytes, with the number of its lane as
   the label, and opens it again. Gives the number of bytes of the line if out has
   the reading now, and 0 if the reading is too long or no serial is left. */
static inline uint32_t kk_line_example(uint64_t w0, uint64_t k0,
                                       uint64_t *next_serial, uint8_t lane,
                                       const uint8_t *reading, size_t length,
                                       uint8_t line[KK_LINE_BYTES(1, 24)],
                                       uint8_t out[24])
{
    uint64_t answer;
    uint32_t line_length;

    answer = kk_write_line(w0, k0, *next_serial, &lane, 1, reading, length,
                           line, KK_LINE_BYTES(1, 24));
    if (kk_refusal(answer) != KK_NOT_REFUSED) {
        return 0; /* nothing was written to line */
    }
    *next_serial += 1; /* never the same serial again */
    line_length = kk_count(answer);

    answer = kk_open_line(w0, k0, line, line_length, out, 24);
    if (kk_refusal(answer) == KK_REFUSED_LINE) {
        return 0; /* the line is bad at the place kk_count(answer) */
    }
    if (kk_refusal(answer) != KK_NOT_REFUSED) {
        return 0; /* a good line, but nothing was written to out */
    }
    /* kk_count(answer) is length now. */
    return line_length;
}
#endif

#ifdef __cplusplus
}
#endif

#endif
