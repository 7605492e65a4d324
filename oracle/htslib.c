/* htslib.c: Debian's htslib as an outside judge of the definitions.
 *
 *   htslib SEED PAIRS
 *
 * Random well-formed pairs go through overlap_call. The records before and after are written as
 * two BAM files, and htslib reads both. Which base sits at which position comes from htslib's
 * pileup, bases and qualities from its readers; from these the rule of the paper, as tests/c/model.h
 * has it, is worked out and held against the bytes after the call, its answer and its counts. A second set has wrong
 * operation lengths and positions near the end: refusal 7 must come exactly where htslib calls
 * the lengths different, refusal 8 exactly where its end of the read is above 2,147,483,646. A third set has unmapped
 * records, other references, negative positions and alignments without a base or without a length on the reference: what
 * overlap_reason_call says of these, and of the first set, must be what htslib's flags, ids, positions, lengths and pileup say.
 *
 * Nearly half of the records have operations of length 0. Lengths and ends come from the whole record. The pileup has faults
 * of its own with them, so for the places it is given the record without them; on how many it places a base elsewhere
 * when given the whole record is told (docs/DIFFERENCES.md).
 */
#include "overlap.h"
#include <htslib/sam.h>
#include <stdio.h>
#include <stdlib.h>
#include <string.h>
#include "../tests/c/model.h"
#include "../tests/c/seeded.h"

enum { ROOM = 4096, SPAN = 4096, MOST_OPERATIONS = 64, LAST = 2147483646 };
typedef struct { uint8_t at[ROOM]; size_t len; } Rec;
typedef struct { Rec rec[2], after[2]; uint32_t ways[2], answer, reason; uint64_t grown[4]; } Pair;
enum set { WELL_FORMED, AT_THE_LIMITS, WITH_REASONS };

static void fail(long pair, const char *what) {
    fprintf(stderr, "FOUND at pair %ld: %s\n", pair, what);
    exit(1);
}

/* ---- seeded records ---- */

uint64_t random_state;
static void append(Rec *r, uint64_t n, int width) {
    put(r->at + r->len, width, n);
    r->len += (size_t)width;
}

/* Clips around aligned stretches with one or two other operations between them. */
static unsigned operations(uint32_t *ops) {
    unsigned n = 0;
    if (below(6) == 0) ops[n++] = (uint32_t)(1 + below(9)) << 4 | BAM_CHARD_CLIP;
    if (below(3) == 0) ops[n++] = (uint32_t)(1 + below(9)) << 4 | BAM_CSOFT_CLIP;
    unsigned stretches = 1 + (unsigned)below(4);
    for (unsigned i = 0; i < stretches; i++) {
        static const uint8_t aligned[] = { BAM_CMATCH, BAM_CMATCH, BAM_CEQUAL, BAM_CDIFF };
        static const uint8_t between[] = { BAM_CINS, BAM_CDEL, BAM_CREF_SKIP, BAM_CPAD };
        ops[n++] = (uint32_t)(1 + below(12)) << 4 | aligned[below(4)];
        if (i + 1 < stretches) ops[n++] = (uint32_t)(1 + below(6)) << 4 | between[below(4)];
    }
    if (below(3) == 0) ops[n++] = (uint32_t)(1 + below(9)) << 4 | BAM_CSOFT_CLIP;
    if (below(6) == 0) ops[n++] = (uint32_t)(1 + below(9)) << 4 | BAM_CHARD_CLIP;
    return n;
}

/* The same with operations of length 0 put before some of them, and behind the last, one to three in a row. */
static unsigned with_zeros(uint32_t *to, const uint32_t *ops, unsigned n) {
    unsigned m = 0;
    for (unsigned i = 0; i <= n; i++) {
        uint64_t zeros = below(3) == 0 ? 1 + below(3) : 0;
        while (zeros--) to[m++] = (uint32_t)below(9);
        if (i < n) to[m++] = ops[i];
    }
    return m;
}

/* A record as BAM has it; with damage, lengths that may not fit and positions near the end. */
static void make(Rec *r, int second, int damage) {
    uint32_t plain[16], ops[MOST_OPERATIONS];
    unsigned n = operations(plain);
    if (below(2)) n = with_zeros(ops, plain, n);
    else memcpy(ops, plain, n * sizeof *ops);
    unsigned bases = (unsigned)bam_cigar2qlen((int)n, ops);
    int64_t pos = 20 + (int64_t)below(12);
    if (damage && below(3) == 0) ops[below(n)] += below(2) ? 16 : 32;
    if (damage && below(2) == 0) pos = LAST - bam_cigar2rlen((int)n, ops) - 2 + (int64_t)below(5);
    if (pos > INT32_MAX) pos = INT32_MAX;
    r->len = 0;
    append(r, 0, 4), append(r, (uint64_t)pos, 4), append(r, 3, 1), append(r, 60, 1), append(r, 4680, 2), append(r, n, 2);
    append(r, (second ? 128 : 64) | below(4) | below(4) << 4, 2);
    append(r, bases, 4), append(r, 0, 4), append(r, below(99), 4), append(r, below(99), 4);
    append(r, 'p' | '1' << 8, 3);
    for (unsigned i = 0; i < n; i++) append(r, ops[i], 4);
    uint64_t few = below(3); /* mostly one letter, four letters, or all sixteen codes */
    for (unsigned i = 0; i < (bases + 1) / 2; i++) {
        uint64_t high = few == 2 ? below(16) : 1ull << (few ? below(4) : 0), low = few == 2 ? below(16) : 1ull << below(few + 1);
        append(r, high << 4 | (2 * i + 1 < bases ? low : 0), 1);
    }
    uint64_t most = below(2) ? 94 : 256;
    for (unsigned i = 0; i < bases; i++) append(r, below(most), 1);
    append(r, 'N' | 'M' << 8 | 'C' << 16, 3), append(r, below(200), 1);
}

/* Puts another operation in the place of each that uses the reference, of the same length: a clip where it uses the read
   too, and else padding, or what stood there where it may stay. */
static void unplace(Rec *r, int gaps_stay) {
    for (uint64_t k = 0; k < operation_count(r->at); k++) {
        uint64_t op = operation_at(r->at, k), code = op % 16;
        if (uses_reference(code) && (uses_read(code) || !gaps_stay))
            put(r->at + NAME + r->at[NAME_LENGTH] + 4 * k, 4, op - code + (uses_read(code) ? BAM_CSOFT_CLIP : BAM_CPAD));
    }
}

static void drop_operations(Rec *r) {
    uint8_t *ops = r->at + NAME + r->at[NAME_LENGTH], *behind = ops + 4 * operation_count(r->at);
    memmove(ops, behind, (size_t)(r->at + r->len - behind));
    r->len -= (size_t)(behind - ops);
    put(r->at + OPERATION_COUNT, 2, 0);
}

/* Gives a record what may keep it from an overlap, at times several at once. */
static void set_aside(Rec *r) {
    if (below(6) == 0) put(r->at + FLAGS, 2, number_at(r->at + FLAGS, 2) | BAM_FUNMAP);
    if (below(4) == 0) put(r->at + REF_ID, 4, below(3) - 1);
    if (below(6) == 0) put(r->at + POS, 4, UINT32_MAX);
    if (below(4) == 0) unplace(r, below(2) == 0);
    if (below(16) == 0) drop_operations(r);
}

/* ---- what htslib reads ---- */

static void write_bam(const char *path, Pair *pairs, long n, int after) {
    FILE *f = fopen(path, "wb");
    Rec head = { "BAM\1", 4 };
    append(&head, 0, 4), append(&head, 2, 4);
    append(&head, 2, 4), append(&head, 'r', 2), append(&head, INT32_MAX, 4);
    append(&head, 2, 4), append(&head, 's', 2), append(&head, INT32_MAX, 4);
    if (!f || fwrite(head.at, 1, head.len, f) != head.len) fail(0, "can't write");
    for (long i = 0; i < 2 * n; i++) {
        Rec *r = after ? &pairs[i / 2].after[i % 2] : &pairs[i / 2].rec[i % 2], size = { { 0 }, 0 };
        append(&size, r->len, 4);
        if (fwrite(size.at, 1, 4, f) != 4 || fwrite(r->at, 1, r->len, f) != r->len) fail(i / 2, "can't write");
    }
    if (fclose(f)) fail(0, "can't write");
}

static int feed(void *data, bam1_t *to) { /* one read, then the end */
    bam1_t **from = data;
    if (!*from || !bam_copy1(to, *from)) return -1;
    *from = NULL;
    return 0;
}
/* base index + 1 at each reference position, 0 where the read has no base, as the pileup of this record has it */
static void piled(bam1_t *b, uint32_t *at) {
    int tid, n;
    hts_pos_t pos;
    const bam_pileup1_t *p;
    memset(at, 0, SPAN * sizeof *at);
    bam_plp_t plp = bam_plp_init(feed, &b);
    while ((p = bam_plp64_auto(plp, &tid, &pos, &n)))
        if (n == 1 && !p->is_del && !p->is_refskip && pos < SPAN) at[pos] = (uint32_t)p->qpos + 1;
    bam_plp_destroy(plp);
}

/* Takes the operations of length 0 out of a record; says how many. */
static unsigned drop_zeros(bam1_t *b) {
    uint32_t *ops = bam_get_cigar(b), kept = 0, n = b->core.n_cigar;
    uint8_t *behind = (uint8_t *)(ops + n);
    for (uint32_t i = 0; i < n; i++)
        if (bam_cigar_oplen(ops[i])) ops[kept++] = ops[i];
    memmove(ops + kept, behind, (size_t)(b->data + b->l_data - behind));
    b->core.n_cigar = kept;
    b->l_data -= (int)(4 * (n - kept));
    return n - kept;
}

/* How many records had operations of length 0, and on how many of these the pileup differs when given them. */
static long zeroed, elsewhere;

/* base index + 1 at each reference position, from the record without its operations of length 0; and on a reference, as the
   pileup leaves out reads of none */
static void sits(bam1_t *b, uint32_t *at) {
    static uint32_t whole[SPAN];
    bam1_t *without = bam_dup1(b);
    if (!without) fail(0, "no memory");
    unsigned dropped = drop_zeros(without);
    without->core.tid = 0;
    piled(without, at);
    bam_destroy1(without);
    if (!dropped) return;
    piled(b, whole);
    zeroed++;
    elsewhere += memcmp(whole, at, sizeof whole) != 0;
}

/* What the pileup says of four bases with these operations: at each position the base's index, or - */
static void show_pileup(const char *spelled, const uint32_t *ops, size_t n) {
    static uint32_t at[SPAN];
    bam1_t *b = bam_init1();
    if (!b || bam_set1(b, 1, "p", 0, 0, 0, 60, n, ops, -1, -1, 0, 4, "ACGT", "IIII", 0) < 0) fail(0, "no memory");
    piled(b, at);
    printf("the pileup of %s:", spelled);
    for (int pos = 0; pos < 5; pos++)
        if (at[pos]) printf(" %u", at[pos] - 1);
        else printf(" -");
    printf("\n");
    bam_destroy1(b);
}
static void show_pileups(void) {
    enum { ONE = 1 << 4, TWO = 2 << 4 };
    show_pileup("2M2M", (uint32_t[]){ TWO, TWO }, 2);
    show_pileup("2M0D2M", (uint32_t[]){ TWO, BAM_CDEL, TWO }, 3);
    show_pileup("2M1I1M", (uint32_t[]){ TWO, ONE | BAM_CINS, ONE }, 3);
    show_pileup("2M0M1I1M", (uint32_t[]){ TWO, 0, ONE | BAM_CINS, ONE }, 4);
}

/* ---- the paper's rule, worked out on what htslib read ---- */

static void rule(bam1_t *x, bam1_t *y, const uint32_t *ways, uint32_t *answer, uint64_t *grown) {
    static uint32_t in_x[SPAN], in_y[SPAN];
    sits(x, in_x), sits(y, in_y);
    *answer = 0;
    for (int pos = 0; pos < SPAN; pos++) {
        if (!in_x[pos] || !in_y[pos]) continue;
        *answer = 1;
        uint32_t i = in_x[pos] - 1, j = in_y[pos] - 1;
        int p = bam_seqi(bam_get_seq(x), i), q = bam_seqi(bam_get_seq(y), j);
        uint8_t *u = bam_get_qual(x) + i, *v = bam_get_qual(y) + j;
        if (seq_nt16_str[p] == 'N' || seq_nt16_str[q] == 'N') continue;
        struct called a = { p, *u }, b = { q, *v };
        unsigned corrected = treat(&a, &b, (struct ways){ ways[0], ways[1], OVERLAP_CAP_MAX });
        bam_set_seqi(bam_get_seq(x), i, a.code), bam_set_seqi(bam_get_seq(y), j, b.code);
        *u = (uint8_t)a.quality, *v = (uint8_t)b.quality;
        grown[0]++, grown[p == q ? 1 : 2]++, grown[3] += corrected;
    }
}

/* The reason by what htslib says of both: flags, ids, positions and lengths, and whether its pileup has them overlap. */
static uint32_t reason(bam1_t *x, bam1_t *y, const uint32_t *ways) {
    uint32_t overlap;
    uint64_t grown[4] = { 0, 0, 0, 0 };
    if ((x->core.flag | y->core.flag) & BAM_FUNMAP) return OVERLAP_REASON_UNMAPPED;
    if (x->core.tid != y->core.tid) return OVERLAP_REASON_REFERENCES_DIFFER;
    if (x->core.pos < 0 || y->core.pos < 0) return OVERLAP_REASON_NEGATIVE_POSITION;
    if (!bam_cigar2rlen((int)x->core.n_cigar, bam_get_cigar(x)) || !bam_cigar2rlen((int)y->core.n_cigar, bam_get_cigar(y)))
        return OVERLAP_REASON_NO_REFERENCE_LENGTH;
    rule(x, y, ways, &overlap, grown);
    return overlap ? 0 : OVERLAP_REASON_NO_SHARED_POSITION;
}

static void same(bam1_t *x, bam1_t *y, long pair) {
    bam1_core_t c = x->core, d = y->core;
    if (c.pos != d.pos || c.tid != d.tid || c.flag != d.flag || c.n_cigar != d.n_cigar || c.l_qseq != d.l_qseq || c.qual != d.qual ||
        c.mtid != d.mtid || c.mpos != d.mpos || c.isize != d.isize || x->l_data != y->l_data)
        fail(pair, "a fixed field changed");
    if (memcmp(x->data, y->data, (size_t)x->l_data)) fail(pair, "name, operations, bases, qualities or tags differ");
}

/* ---- the three sets ---- */

/* Asks for the reason before the call and after it. */
static Pair *called(long n, enum set set) {
    Pair *pairs = calloc((size_t)n, sizeof *pairs);
    if (!pairs) fail(0, "no memory");
    for (Pair *p = pairs; p < pairs + n; p++) {
        uint8_t counts[32] = { 0 };
        for (int k = 0; k < 2; k++) {
            make(&p->rec[k], k, set == AT_THE_LIMITS);
            if (set == WITH_REASONS) set_aside(&p->rec[k]);
            p->after[k] = p->rec[k];
            p->ways[k] = (uint32_t)below(3);
        }
        p->reason = overlap_reason_call(p->rec[0].at, p->rec[0].len, p->rec[1].at, p->rec[1].len);
        p->answer = overlap_call(p->after[0].at, p->after[0].len, p->after[1].at, p->after[1].len,
                                 p->ways[0], p->ways[1], OVERLAP_CAP_MAX, counts, sizeof counts);
        if (overlap_reason_call(p->after[0].at, p->after[0].len, p->after[1].at, p->after[1].len) != p->reason)
            fail(p - pairs, "the reason is another after the call");
        for (int k = 31; k >= 0; k--) p->grown[k / 8] = p->grown[k / 8] << 8 | counts[k];
    }
    return pairs;
}

typedef struct { samFile *file; sam_hdr_t *header; bam1_t *read[2]; } Reader;
static Reader reader(const char *path) {
    Reader r = { sam_open(path, "r"), NULL, { bam_init1(), bam_init1() } };
    r.header = r.file ? sam_hdr_read(r.file) : NULL;
    if (!r.header) fail(0, "htslib can't read the file");
    return r;
}
static void close_reader(Reader r) {
    bam_destroy1(r.read[0]), bam_destroy1(r.read[1]);
    sam_hdr_destroy(r.header);
    sam_close(r.file);
}

static void well_formed(long n) {
    Pair *pairs = called(n, WELL_FORMED);
    long tally[2] = { 0, 0 };
    write_bam("before.bam", pairs, n, 0);
    write_bam("after.bam", pairs, n, 1);
    Reader before = reader("before.bam"), after = reader("after.bam");
    for (long i = 0; i < n; i++) {
        uint32_t answer;
        uint64_t grown[4] = { 0, 0, 0, 0 };
        for (int k = 0; k < 2; k++)
            if (sam_read1(before.file, before.header, before.read[k]) < 0 || sam_read1(after.file, after.header, after.read[k]) < 0)
                fail(i, "htslib can't read a record");
        rule(before.read[0], before.read[1], pairs[i].ways, &answer, grown);
        if (pairs[i].answer != answer) fail(i, "the answer differs");
        if (pairs[i].reason != (answer ? 0 : OVERLAP_REASON_NO_SHARED_POSITION)) fail(i, "the reason differs");
        if (memcmp(pairs[i].grown, grown, sizeof grown)) fail(i, "the counts differ");
        for (int k = 0; k < 2; k++) same(before.read[k], after.read[k], i);
        tally[answer]++;
    }
    printf("%ld pairs agree in every byte, answer and count: overlap %ld, no overlap %ld\n", n, tally[1], tally[0]);
    printf("%ld of their records have operations of length 0; given these, the pileup places a base elsewhere in %ld\n", zeroed, elsewhere);
    close_reader(before), close_reader(after);
    free(pairs);
}

/* 7 or 8 for this record by what htslib says of it, else 0; -4: it refused to read it */
static uint32_t fault(int read, const bam1_t *b) {
    int differ = bam_cigar2qlen((int)b->core.n_cigar, bam_get_cigar(b)) != b->core.l_qseq;
    if (differ != (read == -4)) return 99; /* htslib is of two minds */
    return differ ? 7 : bam_endpos(b) > LAST ? 8 : 0;
}

static void at_the_limits(long n) {
    Pair *pairs = called(n, AT_THE_LIMITS);
    long tally[100] = { 0 };
    write_bam("before.bam", pairs, n, 0);
    Reader before = reader("before.bam");
    for (long i = 0; i < n; i++) {
        uint32_t expected = 0;
        for (uint32_t k = 0; k < 2; k++) {
            int read = sam_read1(before.file, before.header, before.read[k]);
            if (read < 0 && read != -4) fail(i, "htslib can't read a record");
            uint32_t number = fault(read, before.read[k]);
            if (!expected && number) expected = 1100 + 100 * k + number, tally[number]++;
        }
        if ((pairs[i].answer > 1 ? pairs[i].answer : 0) != expected) fail(i, "7 or 8 isn't where htslib's lengths and ends put it");
        if (expected && pairs[i].reason != expected) fail(i, "the reason call has another refusal");
        if (expected && memcmp(pairs[i].rec, pairs[i].after, sizeof pairs[i].rec)) fail(i, "a refusal wrote");
    }
    printf("%ld pairs are refused as htslib's lengths (7: %ld) and ends (8: %ld) have it\n", n, tally[7], tally[8]);
    close_reader(before);
    free(pairs);
}

static void with_reasons(long n) {
    Pair *pairs = called(n, WITH_REASONS);
    long tally[6] = { 0 };
    write_bam("before.bam", pairs, n, 0);
    Reader before = reader("before.bam");
    for (long i = 0; i < n; i++) {
        for (int k = 0; k < 2; k++)
            if (sam_read1(before.file, before.header, before.read[k]) < 0) fail(i, "htslib can't read a record");
        uint32_t expected = reason(before.read[0], before.read[1], pairs[i].ways);
        if (pairs[i].reason != expected) fail(i, "the reason isn't what htslib's flags, ids, positions, lengths and pileup give");
        if (pairs[i].answer != (expected == 0)) fail(i, "the answer doesn't go with the reason");
        tally[expected]++;
    }
    printf("%ld pairs have the reasons that htslib gives them: ", n);
    printf("none %ld, unmapped %ld, references %ld, negative %ld, no length %ld, no shared position %ld\n", tally[0], tally[1], tally[2],
           tally[3], tally[4], tally[5]);
    for (int k = 0; k < 6; k++)
        if (!tally[k] && n >= 1000) fail(n, "a reason never came");
    close_reader(before);
    free(pairs);
}

int main(int argc, char **argv) {
    if (argc != 3) return fprintf(stderr, "htslib SEED PAIRS\n"), 2;
    random_state = strtoull(argv[1], NULL, 10);
    if (seq_nt16_table['N'] != NO_CALL) fail(0, "htslib has another code for N");
    hts_set_log_level(HTS_LOG_OFF); /* it would speak of each differing length, which are wanted here */
    printf("htslib %s, seed %s\n", hts_version(), argv[1]);
    show_pileups();
    well_formed(strtol(argv[2], NULL, 10));
    at_the_limits(strtol(argv[2], NULL, 10));
    with_reasons(strtol(argv[2], NULL, 10));
    return 0;
}
