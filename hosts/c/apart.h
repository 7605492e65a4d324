/* apart.h: whether buffers stand apart in memory, as overlap.h asks of all that a call is passed. */
#ifndef OVERLAP_APART_H
#define OVERLAP_APART_H

#include <stddef.h>
#include <stdint.h>

/* 1 where no byte of the n at a is one of the m at b, else 0. An empty buffer is apart from any. */
static inline int overlap_apart(const void *a, size_t n, const void *b, size_t m) {
    uintptr_t p = (uintptr_t)a, q = (uintptr_t)b;
    return n == 0 || m == 0 || (p < q ? q - p >= n : p - q >= m);
}

#endif
