/* The part of <stddef.h> that the headers need: for a compiler without a C library. */
#ifndef TARGETS_STDDEF_H
#define TARGETS_STDDEF_H

typedef __SIZE_TYPE__ size_t;
#define NULL ((void *)0)

#endif
