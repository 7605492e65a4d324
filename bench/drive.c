/* drive.c: one side of the benchmark as an x86-64 program, so that icount.c counts its calls on any processor.
 *
 *   drive ours|c-run|c-block|sse2 <PAIRS     two digits (agreement, disagreement) and frames: `bench frames WORKLOAD` writes them
 *
 * Prints how many pairs there are and how many overlap, the four counts, and a digest of all bytes after the calls:
 * sides that agree print the same line.
 */
#include "overlap.h"
#include <stdio.h>
#include <string.h>
#include <unistd.h>

typedef uint32_t Call(uint8_t *, size_t, uint8_t *, size_t, uint32_t, uint32_t, uint8_t *, size_t);
Call limit_run, limit_block, limit_sse2;
static const struct { const char *name; Call *call; } SIDES[] = { /* ours takes a cap too: overlap_call itself */
    {"ours", NULL}, {"c-run", limit_run}, {"c-block", limit_block}, {"sse2", limit_sse2},
};

enum { ROOM = 1 << 21, MOST = 1000, SIDE_COUNT = sizeof SIDES / sizeof *SIDES };
static uint8_t bytes[ROOM];
struct pairs { uint8_t *work; size_t (*at)[4], n; }; /* of each: where the first is, its length, the second's */

/* The part that is counted, as in bench.rs: one call on every pair, ours with the cap that the others have. Answers how
   many overlap. */
static __attribute__((noinline)) uint64_t timed_pairs(Call *call, const struct pairs *p, uint32_t agreement,
                                                      uint32_t disagreement, uint8_t *counts) {
    uint64_t overlap = 0;
    for (size_t i = 0; i < p->n; i++) {
        const size_t *at = p->at[i];
        overlap += call ? call(p->work + at[0], at[1], p->work + at[2], at[3], agreement, disagreement, counts, 32)
                        : overlap_call(p->work + at[0], at[1], p->work + at[2], at[3], agreement, disagreement, OVERLAP_CAP_MAX, counts, 32);
    }
    return overlap;
}

/* Cuts what follows the digits into pairs; 0 if these don't end with the last byte. */
static int cut(struct pairs *p, size_t len) {
    size_t from = 2, records = 0;
    if (len < from) return 0;
    for (uint32_t size; len - from >= 4 && records < 2 * MOST; records++, from += size) {
        memcpy(&size, p->work + from, 4);
        from += 4;
        if (size > len - from) return 0;
        size_t *place = p->at[records / 2] + records % 2 * 2;
        place[0] = from, place[1] = size;
    }
    p->n = records / 2;
    return from == len && records % 2 == 0;
}

int main(int argc, char **argv) {
    static size_t at[MOST][4];
    struct pairs p = {bytes, at, 0};
    size_t len = 0, side = 0;
    for (ssize_t k; len < ROOM && (k = read(0, bytes + len, ROOM - len)) > 0; len += (size_t)k) {}
    while (argc == 2 && side < SIDE_COUNT && strcmp(argv[1], SIDES[side].name) != 0) side++;
    if (argc != 2 || side == SIDE_COUNT || !cut(&p, len)) return fputs("drive: no such side, or no whole pairs\n", stderr), 2;

    union { uint8_t bytes[32]; unsigned long long n[4]; } counts = {{0}};
    getppid();
    unsigned long long overlap = timed_pairs(SIDES[side].call, &p, bytes[0] - '0', bytes[1] - '0', counts.bytes);
    getppid();

    unsigned long long digest = 14695981039346656037u;
    for (size_t i = 0; i < len; i++) digest = (digest ^ bytes[i]) * 1099511628211u;
    return printf("%zu %llu %llu %llu %llu %llu %016llx\n", p.n, overlap, counts.n[0], counts.n[1], counts.n[2], counts.n[3],
                  digest) < 0;
}
