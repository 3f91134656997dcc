#ifndef STDLIB_H
#define STDLIB_H

#include <stddef.h>

void exit(int status) __attribute__((noreturn));
unsigned long long strtoull(const char *text, char **end, int base);

#endif
