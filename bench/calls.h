/* The kinds of calls in sam.h, as types: the proved ones and those set beside them. */
#ifndef CALLS_H
#define CALLS_H

#include <stddef.h>
#include <stdint.h>

/* Bytes to a table: assemble, unpack and translate. */
typedef uint32_t reading_call(const uint8_t *, size_t, uint64_t *, size_t, uint64_t *, size_t);

/* A table to bytes: list and pack. */
typedef uint32_t writing_call(const uint64_t *, size_t, uint64_t, uint8_t *, size_t, uint64_t *, size_t);

/* Reset, step and step-back. */
typedef uint32_t machine_call(const uint64_t *, size_t, uint64_t, uint64_t *, size_t, uint32_t *, size_t, uint8_t *,
                              size_t, uint64_t *, size_t, uint8_t *, size_t);

typedef uint32_t run_call(const uint64_t *, size_t, uint64_t, uint64_t, uint64_t *, size_t, uint32_t *, size_t,
                          uint8_t *, size_t, uint64_t *, size_t, uint8_t *, size_t, uint64_t *, size_t);

#endif
