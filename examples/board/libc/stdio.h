#ifndef STDIO_H
#define STDIO_H

#include <stddef.h>

typedef struct file {
    int number;
    int failed;
} FILE;

extern FILE *const stdin, *const stdout, *const stderr;

int printf(const char *format, ...);
int fprintf(FILE *file, const char *format, ...);
size_t fread(void *bytes, size_t size, size_t count, FILE *file);
int ferror(FILE *file);

#endif
