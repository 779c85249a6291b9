/* The part of <stdint.h> that the headers need, by the compiler's own names: for a compiler without a C library. */
#ifndef TARGETS_STDINT_H
#define TARGETS_STDINT_H

typedef __UINT8_TYPE__ uint8_t;
typedef __UINT16_TYPE__ uint16_t;
typedef __INT32_TYPE__ int32_t;
typedef __UINT32_TYPE__ uint32_t;
typedef __UINT64_TYPE__ uint64_t;

#define SIZE_MAX __SIZE_MAX__
#define UINT64_MAX __UINT64_MAX__

#endif
