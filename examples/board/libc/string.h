#ifndef STRING_H
#define STRING_H

#include <stddef.h>

void *memset(void *bytes, int byte, size_t count);
void *memcpy(void *restrict to, const void *restrict from, size_t count);
int memcmp(const void *one, const void *other, size_t count);
size_t strlen(const char *text);
size_t strspn(const char *text, const char *bytes);

#endif
