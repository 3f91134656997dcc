/*
 * What loader.c and our tests use of the C library, for a compiler that comes without one.
 * Whoever has newlib or picolibc leaves this folder out.
 *
 * printf() knows %s, %.*s, %d, %u and %x, with a width, and 0 before it.
 */

#include <stdarg.h>
#include <stdint.h>
#include <stdio.h>
#include <stdlib.h>
#include <string.h>

int _read(int file, char *bytes, int count);
int _write(int file, const char *bytes, int count);
void _exit(int status) __attribute__((noreturn));

static FILE files[3] = { { 0, 0 }, { 1, 0 }, { 2, 0 } };
FILE *const stdin = &files[0], *const stdout = &files[1], *const stderr = &files[2];

/* Loops that the compiler must not take for the functions that they are. */
#define NOT_ITSELF __asm__ volatile("" ::: "memory")

void *memset(void *bytes, int byte, size_t count)
{
    uint8_t *to = bytes;

    for (; count > 0; count--) {
        *to++ = (uint8_t)byte;
        NOT_ITSELF;
    }
    return bytes;
}

void *memcpy(void *restrict to, const void *restrict from, size_t count)
{
    uint8_t *next = to;
    const uint8_t *byte = from;

    for (; count > 0; count--) {
        *next++ = *byte++;
        NOT_ITSELF;
    }
    return to;
}

int memcmp(const void *one, const void *other, size_t count)
{
    const uint8_t *a = one, *b = other;

    for (; count > 0; count--, a++, b++) {
        if (*a != *b) {
            return *a - *b;
        }
    }
    return 0;
}

size_t strlen(const char *text)
{
    size_t length = 0;

    while (text[length] != 0) {
        length++;
        NOT_ITSELF;
    }
    return length;
}

size_t strspn(const char *text, const char *bytes)
{
    size_t length, i;

    for (length = 0; text[length] != 0; length++) {
        for (i = 0; bytes[i] != text[length]; i++) {
            if (bytes[i] == 0) {
                return length;
            }
        }
    }
    return length;
}

/* Base 16, and the digits up to the first byte that is none. */
unsigned long long strtoull(const char *text, char **end, int base)
{
    unsigned long long number = 0;

    (void)end;
    (void)base;
    for (;; text++) {
        if (*text >= '0' && *text <= '9') {
            number = number << 4 | (unsigned)(*text - '0');
        } else if (*text >= 'a' && *text <= 'f') {
            number = number << 4 | (unsigned)(*text - 'a' + 10);
        } else {
            return number;
        }
    }
}

void exit(int status)
{
    _exit(status);
}

size_t fread(void *bytes, size_t size, size_t count, FILE *file)
{
    char *to = bytes;
    size_t got = 0;

    while (got < size * count) {
        const int more = _read(file->number, to + got, (int)(size * count - got));

        if (more <= 0) {
            file->failed = more < 0;
            break;
        }
        got += (size_t)more;
    }
    return got / size;
}

int ferror(FILE *file)
{
    return file->failed;
}

/* What printf() has to write, in parts. */
struct text {
    FILE *file;
    int count, held;
    char bytes[64];
};

static void flush(struct text *text)
{
    _write(text->file->number, text->bytes, text->held);
    text->held = 0;
}

static void put(struct text *text, char byte)
{
    if (text->held == (int)sizeof text->bytes) {
        flush(text);
    }
    text->bytes[text->held++] = byte;
    text->count++;
}

/* Digits in a base, at least so many, with this before them where they are fewer. */
static void put_number(struct text *text, unsigned number, unsigned base, int width, char before)
{
    char digits[10];
    int count = 0;

    do {
        digits[count++] = "0123456789abcdef"[number % base];
        number /= base;
    } while (number > 0);
    for (; width > count; width--) {
        put(text, before);
    }
    while (count > 0) {
        put(text, digits[--count]);
    }
}

static void put_bytes(struct text *text, const char *bytes, int most)
{
    for (; most != 0 && *bytes != 0; most--) {
        put(text, *bytes++);
    }
}

static int put_all(FILE *file, const char *format, va_list rest)
{
    struct text text = { file, 0, 0, { 0 } };

    for (; *format != 0; format++) {
        char before = ' ';
        int width = 0, most = -1, number;

        if (*format != '%') {
            put(&text, *format);
            continue;
        }
        format++;
        if (format[0] == '.' && format[1] == '*') {
            most = va_arg(rest, int);
            format += 2;
        }
        if (*format == '0') {
            before = '0';
        }
        for (; *format >= '0' && *format <= '9'; format++) {
            width = 10 * width + (*format - '0');
        }
        switch (*format) {
        case 's':
            put_bytes(&text, va_arg(rest, const char *), most);
            break;
        case 'd':
            number = va_arg(rest, int);
            if (number < 0) {
                put(&text, '-');
            }
            put_number(&text, number < 0 ? 0u - (unsigned)number : (unsigned)number, 10, width, before);
            break;
        case 'u':
            put_number(&text, va_arg(rest, unsigned), 10, width, before);
            break;
        case 'x':
            put_number(&text, va_arg(rest, unsigned), 16, width, before);
            break;
        default:
            put(&text, *format);
            break;
        }
    }
    flush(&text);
    return text.count;
}

int printf(const char *format, ...)
{
    va_list rest;
    int count;

    va_start(rest, format);
    count = put_all(stdout, format, rest);
    va_end(rest);
    return count;
}

int fprintf(FILE *file, const char *format, ...)
{
    va_list rest;
    int count;

    va_start(rest, format);
    count = put_all(file, format, rest);
    va_end(rest);
    return count;
}
