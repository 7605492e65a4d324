/* host.c: calls the overlap step on one read pair and prints both reads before and after, with the cap of a sequencer
   whose scale stops at 40 and with the largest cap; then asks why the pair doesn't overlap where it is moved apart. */
#include "overlap.h"
#include "overlap_text.h"
#include <stdio.h>
#include <string.h>

#if OVERLAP_VERSION != 2
#error "written for version 2 of overlap.h"
#endif

/* Two records as BAM has them, without their size fields. Both are named "a" and have one
   operation, 4M; the first starts at position 10 (counted from 1), the second at 11. */
static uint8_t first[] = {
    0, 0, 0, 0,  9, 0, 0, 0,  2, 60, 0x49, 0x12,  1, 0, 0x41, 0,      /* reference, pos, name length, mapq, bin, operations, flags */
    4, 0, 0, 0,  0, 0, 0, 0,  10, 0, 0, 0,  5, 0, 0, 0,               /* l_seq, mate reference, mate pos, template length */
    'a', 0,  0x40, 0, 0, 0,  0x12, 0x48,  30, 30, 30, 30 };           /* name, 4M, bases A C G T, qualities */
static uint8_t second[] = {
    0, 0, 0, 0,  10, 0, 0, 0,  2, 60, 0x49, 0x12,  1, 0, 0x81, 0,
    4, 0, 0, 0,  0, 0, 0, 0,  9, 0, 0, 0,  0xFB, 0xFF, 0xFF, 0xFF,
    'a', 0,  0x40, 0, 0, 0,  0x24, 0x11,  20, 30, 10, 40 };           /* bases C G A A */

static void show_read(const uint8_t *r) {
    unsigned ops = r[12] + 256u * r[13], bases = r[16] + 256u * r[17];
    const uint8_t *seq = r + 32 + r[8] + 4 * ops, *qual = seq + (bases + 1) / 2;
    for (unsigned i = 0; i < bases; i++)
        printf("  %c %2u", "=ACMGRSVTWYHKDBN"[seq[i / 2] >> (i % 2 ? 0 : 4) & 15], qual[i]);
    printf("\n");
}

/* Both reads, the second one place to the right. */
static void show(const char *when, const uint8_t *one, const uint8_t *other) {
    printf("first  %s", when);
    show_read(one);
    printf("second %s      ", when);
    show_read(other);
}

static unsigned long long count(const uint8_t *p) {
    unsigned long long n = 0;
    for (int i = 7; i >= 0; i--) n = n * 256 + p[i];
    return n;
}

/* Corrects the pair, and shows it. Where the bases agree, no quality is over the cap then. */
static uint32_t correct(uint8_t *one, uint8_t *other, uint32_t cap, uint8_t *counts) {
    char when[20];
    uint32_t answer = overlap_call(one, sizeof first, other, sizeof second,
                                   OVERLAP_AGREE_CONSENSUS, OVERLAP_DISAGREE_CONSENSUS, cap, counts, OVERLAP_COUNTS_SIZE);
    snprintf(when, sizeof when, "cap %u", (unsigned)cap);
    show(when, one, other);
    return answer;
}

/* What stands in the way of an overlap, or that there is one. Nothing is changed by asking. */
static void say_why(const char *when) {
    char text[OVERLAP_TEXT_SIZE];
    uint32_t reason = overlap_reason_call(first, sizeof first, second, sizeof second);
    printf("%s: %s\n", when, overlap_text(OVERLAP_OF_REASON, reason, text));
}

int main(void) {
    uint8_t counts[OVERLAP_COUNTS_SIZE] = { 0 }, counts_40[OVERLAP_COUNTS_SIZE] = { 0 }, first_40[sizeof first], second_40[sizeof second];
    char text[OVERLAP_TEXT_SIZE];
    memcpy(first_40, first, sizeof first);
    memcpy(second_40, second, sizeof second);
    show("before", first, second);
    uint32_t answer_40 = correct(first_40, second_40, 40, counts_40);
    uint32_t answer = correct(first, second, OVERLAP_CAP_MAX, counts);
    printf("%s: %llu positions, %llu agreeing, %llu disagreeing, %llu corrected\n", overlap_text(OVERLAP_OF_PAIR, answer, text),
           count(counts), count(counts + 8), count(counts + 16), count(counts + 24));

    second[4] = 50;                                                   /* pos */
    say_why("the second at position 51");
    second[14] |= 4;                                                  /* flags */
    say_why("the second unmapped");
    return answer > 1 || answer_40 > 1;
}
