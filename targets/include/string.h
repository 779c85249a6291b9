/* The part of <string.h> that memory.c defines. */
#ifndef TARGETS_STRING_H
#define TARGETS_STRING_H

#include <stddef.h>

void *memset(void *to, int byte, size_t count);
void *memcpy(void *restrict to, const void *restrict from, size_t count);
void *memmove(void *to, const void *from, size_t count);

#endif
