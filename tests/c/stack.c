/*
 * How much stack the exported calls need. Each is made in a thread whose stack is as large as overlap.h says,
 * with a page below it that can't be touched, so a call that needs more ends this program by a signal.
 *
 * The archive is x86-64 code, and so is this program on every machine: it declares what it uses of the C library
 * by itself, so that it can be compiled where no headers for x86-64 are.
 */
#include "overlap.h"
#include "records.h"

typedef union { char size[56]; long align; } pthread_attr_t;   /* as glibc has it on x86-64 */
typedef unsigned long pthread_t;
int pthread_attr_init(pthread_attr_t *), pthread_attr_setstack(pthread_attr_t *, void *, size_t);
int pthread_create(pthread_t *, const pthread_attr_t *, void *(*)(void *), void *), pthread_join(pthread_t, void **);
int mprotect(void *, size_t, int), printf(const char *, ...);
void *memset(void *, int, size_t), *memcpy(void *, const void *, size_t);

enum { PAGE = 4096, LARGEST = 1 << 20, PAINT = 0xA5 };
enum { OPERATIONS = NAME + 4 };   /* every name has four bytes */

static uint8_t stack[PAGE + LARGEST] __attribute__((aligned(PAGE)));
static uint8_t filed[8 * LONGEST], out[sizeof filed], counts[OVERLAP_COUNTS_SIZE];
static unsigned failed;

/* A record of so many bytes in all, as many of them bases as fit; mates of a pair have the number's half as their
   name. Its operations are 1M1I by turns where `split`, and else one. Bases and qualities are of every kind. */
static void put_record(uint8_t *r, size_t len, unsigned number, int split) {
    size_t bases = split ? 64 : (len - 40) * 2 / 3, ops = split ? 64 : 1;
    memset(r, 0, len);
    put(r + POS, 4, 100 + number % 2);
    put(r + NAME_LENGTH, 1, OPERATIONS - NAME);
    put(r + OPERATION_COUNT, 2, ops);
    put(r + FLAGS, 2, number % 2 ? 129 : 65);
    put(r + L_SEQ, 4, bases);
    put(r + NAME, 3, number / 2);
    for (size_t k = 0; k < ops; k++) put(r + OPERATIONS + 4 * k, 4, split ? 16 + k % 2 : bases * 16);
    for (size_t k = OPERATIONS + 4 * ops; k < len; k++) r[k] = (uint8_t)(k * 37 + number % 2 * (k % 5));
}

/* So many framed records of one length, and behind them their raw trailer; answers how many bytes it all takes. */
static size_t put_filed(unsigned records, size_t len, unsigned agreement, unsigned disagreement) {
    size_t n = 0;
    for (unsigned i = 0; i < records; i++, n += 4 + len) {
        put(filed + n, 4, len);
        put_record(filed + n + 4, len, i, i / 2 % 2);
    }
    if (overlap_trailer_call(filed, n, agreement, disagreement, filed + n, OVERLAP_TRAILER_SIZE) != 0) failed++;
    return n + OVERLAP_TRAILER_SIZE;
}

/* A call to be made: which one, on how much of `filed`, by which strategies and, on a pair, with which cap; and what came of it. */
struct job {
    enum { PAIR, REASON, TRAILER, FILED } call;
    size_t len;
    uint32_t agreement, disagreement, cap, answer;
    uintptr_t top;
};

static void *make(void *of) {
    struct job *j = of;
    j->top = (uintptr_t)__builtin_frame_address(0);
    switch (j->call) {
    case PAIR: j->answer = overlap_call(filed, j->len, out, j->len, j->agreement, j->disagreement, j->cap, counts, sizeof counts); break;
    case REASON: j->answer = overlap_reason_call(filed, j->len, out, j->len); break;
    case TRAILER: j->answer = overlap_trailer_call(filed, j->len, j->agreement, j->disagreement, out, OVERLAP_TRAILER_SIZE); break;
    case FILED: j->answer = overlap_filed_call(filed, j->len, out, sizeof out, counts, sizeof counts); break;
    }
    return 0;
}

/* Makes the call in a thread with a stack of `size` bytes; answers how many of them it used. */
static size_t used_by(struct job *j, size_t size, uint32_t answer) {
    pthread_attr_t attr;
    pthread_t thread;
    uint8_t *end = stack + sizeof stack, *lowest = end - size;
    if (mprotect(lowest - PAGE, PAGE, 0) != 0) failed++;
    memset(lowest, PAINT, size);
    memset(counts, 0, sizeof counts);
    if (pthread_attr_init(&attr) != 0 || pthread_attr_setstack(&attr, lowest, size) != 0
        || pthread_create(&thread, &attr, make, j) != 0 || pthread_join(thread, 0) != 0) return failed++, 0;
    if (mprotect(lowest - PAGE, PAGE, 3) != 0) failed++;
    if (j->answer != answer) printf("expected the answer %u, got %u\n", (unsigned)answer, (unsigned)j->answer), failed++;
    while (*lowest == PAINT) lowest++;
    return (size_t)(j->top - (uintptr_t)lowest);
}

static size_t larger(size_t a, size_t b) { return a < b ? b : a; }

/* Under every pair of strategies, with the least cap and with the largest: a pair of records of this length. */
static size_t pairs(size_t len, size_t size) {
    size_t most = 0;
    for (uint32_t k = 0; k < 36; k++) {
        put_record(filed, len, 0, k / 9 % 2);
        put_record(out, len, 1, k / 9 % 2);
        struct job j = {PAIR, len, k % 9 / 3, k % 3, k < 18 ? OVERLAP_CAP_MAX : OVERLAP_CAP_MIN, 0, 0};
        most = larger(most, used_by(&j, size, 1));
    }
    put_record(filed, len, 0, 0);
    put(filed + OPERATIONS, 4, 9);
    most = larger(most, used_by(&(struct job){PAIR, len, 0, 0, OVERLAP_CAP_MAX, 0, 0}, size, 1105));
    return larger(most, used_by(&(struct job){PAIR, len, 0, 0, OVERLAP_CAP_MAX + 1, 0, 0}, size, 1022));
}

/* Why a pair of records of this length doesn't overlap: it does, is apart, has no reference length, and is refused. */
static size_t reasons(size_t len, size_t size) {
    struct job j = {REASON, len, 0, 0, 0, 0, 0};
    size_t most = 0;
    for (int split = 0; split < 2; split++) {
        put_record(filed, len, 0, split);
        put_record(out, len, 1, split);
        most = larger(most, used_by(&j, size, 0));
        put(out + POS, 4, 1 << 20);
        most = larger(most, used_by(&j, size, OVERLAP_REASON_NO_SHARED_POSITION));
    }
    put_record(out, len, 1, 0);
    put(out + OPERATION_COUNT, 2, 0);
    most = larger(most, used_by(&j, size, OVERLAP_REASON_NO_REFERENCE_LENGTH));
    put(filed + OPERATIONS + 4 * 63, 4, 9);
    return larger(most, used_by(&j, size, 10000 * 63 + 1105));
}

/* Filed groups of so many records of this length: raw under every pair of strategies, torn, and corrected before. */
static size_t groups(unsigned records, size_t len, size_t size) {
    size_t most = 0, n = 0;
    for (uint32_t k = 0; k < 9; k++) {
        n = put_filed(records, len, k / 3, k % 3);
        most = larger(most, used_by(&(struct job){FILED, n, 0, 0, 0, 0, 0}, size, 0));
    }
    most = larger(most, used_by(&(struct job){FILED, n - 1, 0, 0, 0, 0, 0}, size, 1020));
    memcpy(filed, out, n);
    return larger(most, used_by(&(struct job){FILED, n, 0, 0, 0, 0, 0}, size, 1));
}

static void say(const char *call, size_t used, size_t size) {
    printf("%s: %zu bytes of stack, in a thread with %zu\n", call, used, size);
}

int main(void) {
    say("overlap_call", larger(pairs(400, OVERLAP_STACK), pairs(LONGEST, OVERLAP_STACK)), OVERLAP_STACK);
    say("overlap_reason_call", larger(reasons(400, OVERLAP_STACK), reasons(LONGEST, OVERLAP_STACK)), OVERLAP_STACK);
    size_t n = put_filed(MOST_RECORDS, 1024, 0, 0) - OVERLAP_TRAILER_SIZE;
    say("overlap_trailer_call", used_by(&(struct job){TRAILER, n, 2, 2, 0, 0, 0}, OVERLAP_STACK, 0), OVERLAP_STACK);
    say("overlap_filed_call, records of up to 1024 bytes",
        larger(groups(MOST_RECORDS, 1024, OVERLAP_FILED_STACK), groups(2, 400, OVERLAP_FILED_STACK)), OVERLAP_FILED_STACK);
    say("overlap_filed_call, records of any length",
        larger(groups(MOST_RECORDS, 1025, OVERLAP_FILED_LONG_STACK), groups(2, LONGEST, OVERLAP_FILED_LONG_STACK)), OVERLAP_FILED_LONG_STACK);
    if (failed) printf("%u checks of the stack failed\n", failed);
    return failed != 0;
}
