/*
 * What the C tests share: checks that are counted. A check that fails prints a line.
 */
#ifndef CHECKS_H
#define CHECKS_H

#include <stdarg.h>
#include <stdint.h>
#include <stdio.h>
#include <string.h>

extern unsigned passed, failed;   /* of the file with main */

static inline void check(int holds, const char *format, ...)
{
    if (holds) {
        passed++;
        return;
    }
    failed++;
    va_list args;
    va_start(args, format);
    vprintf(format, args);
    va_end(args);
    putchar('\n');
}

/* A text that says what is checked. It stays for three more calls of text. */
static inline const char *text(const char *format, ...)
{
    static char rooms[4][200];
    static unsigned calls;
    char *room = rooms[calls++ % 4];
    va_list args;
    va_start(args, format);
    vsnprintf(room, sizeof rooms[0], format, args);
    va_end(args);
    return room;
}

static inline void check_bytes(const char *what, const char *where, const uint8_t *expected, const uint8_t *got, size_t n)
{
    size_t i = 0;
    if (memcmp(expected, got, n) == 0) {
        passed++;
        return;
    }
    while (expected[i] == got[i])
        i++;
    check(0, "%s: %s, byte %zu: expected %u, got %u", what, where, i, expected[i], got[i]);
}

/* Says how many passed and failed; what main is to answer. */
static inline int tell_checks(void)
{
    printf("%u passed, %u failed\n", passed, failed);
    return failed == 0 ? 0 : 1;
}

#endif
