/*
 * Calls the library so many times, for bench/processors to count the instructions.
 *
 *   board block COUNT    enciphers a block, box 1 and r = 7
 *   board 128 COUNT      enciphers a block of 128 bits, box 1 and r = 11
 *   board line COUNT     opens a line of a message of 24 bytes and a label of 6
 */

#include "kkurimyeot.h"

#include <stdio.h>
#include <string.h>

#define W0 UINT64_C(0x84BE85CE9804E94B)
#define K0 UINT64_C(0xEC2802D4E0A488E9)
#define TWEAK UINT64_C(0x477D469DEC0B8762)

static uint8_t line[KK_LINE_BYTES(6, 24)], message[24];

static int blocks(int count)
{
    uint8_t out[KK_BLOCK_BYTES];

    for (; count > 0; count--) {
        if (kk_encipher(1, 7, W0, K0, TWEAK, 0, out, sizeof out) != KK_BLOCK_BYTES) {
            return 1;
        }
    }
    return 0;
}

static int blocks128(int count)
{
    uint8_t out[KK128_BLOCK_BYTES];

    for (; count > 0; count--) {
        if (kk128_encipher(1, 11, W0, K0, K0, W0, TWEAK, 0, 0, 0, out, sizeof out) != KK128_BLOCK_BYTES) {
            return 1;
        }
    }
    return 0;
}

static int lines(int count)
{
    static const char profile[] = "factory: push 12 hold 50";

    kk_write_line(W0, K0, 1, (const uint8_t *)"lane 4", 6, (const uint8_t *)profile, 24, line, sizeof line);
    for (; count > 0; count--) {
        if (kk_open_line(W0, K0, line, sizeof line, message, sizeof message) != 24) {
            return 1;
        }
    }
    return 0;
}

int main(int argc, char **argv)
{
    int count = argc == 3 ? argv[2][0] - '0' : 0;

    switch (argc == 3 ? argv[1][0] : 0) {
    case 'b':
        return blocks(count);
    case '1':
        return blocks128(count);
    case 'l':
        return lines(count);
    }
    return 2;
}
