/*
 * overlap_apart of hosts/c/apart.h against its meaning: for every two parts of a small buffer, whether a byte is
 * in both. It prints a line for each that fails, and at the end how many passed and failed.
 */
#include "apart.h"
#include "checks.h"

unsigned passed, failed;

enum { ROOM = 9 };

static int in(size_t i, size_t begin, size_t n)
{
    return i >= begin && i < begin + n;
}

static void expect(size_t a, size_t n, size_t b, size_t m)
{
    static const uint8_t room[ROOM];
    int both = 0;
    for (size_t i = 0; i < ROOM; i++)
        both |= in(i, a, n) && in(i, b, m);
    check(overlap_apart(room + a, n, room + b, m) == !both, "%zu bytes at %zu and %zu at %zu: expected %d", n, a, m, b, !both);
}

int main(void)
{
    for (size_t a = 0; a < ROOM; a++)
        for (size_t n = 0; a + n <= ROOM; n++)
            for (size_t b = 0; b < ROOM; b++)
                for (size_t m = 0; b + m <= ROOM; m++)
                    expect(a, n, b, m);
    printf("buffers apart: ");
    return tell_checks();
}
