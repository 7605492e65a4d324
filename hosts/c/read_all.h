/* read_all.h: what the programs here share: all of standard input in memory, and a way to give up. */
#ifndef OVERLAP_READ_ALL_H
#define OVERLAP_READ_ALL_H

#include <stddef.h>
#include <stdint.h>
#include <stdio.h>
#include <stdlib.h>

/* Ends the program: its name and why on standard error, and exit 2. */
static inline void fail(const char *program, const char *why) {
    fprintf(stderr, "%s: %s\n", program, why);
    exit(2);
}

/* All of standard input, with room for `spare` bytes behind it. */
static inline uint8_t *read_all(const char *program, size_t spare, size_t *len) {
    size_t room = (1 << 16) + spare;
    uint8_t *all = (uint8_t *)malloc(room);
    for (*len = 0; all; ) {
        *len += fread(all + *len, 1, room - spare - *len, stdin);
        if (ferror(stdin)) fail(program, "standard input can't be read");
        if (feof(stdin)) return all;
        if (*len == room - spare) all = (uint8_t *)realloc(all, room *= 2);
    }
    fail(program, "no memory");
    return NULL;
}

#endif
