/* The order of judgement: of every two faults the earlier one decides. */
#include "filed.h"

/* What can be wrong with a call, some of it in each record. */
enum kind {
    COUNTS_SLICE, COUNT, PAST_END, SHORT, LONG, NAME_PAST, BASES_PAST, ZERO_WITHIN, MANY, LEFT, MISSING, TRAILER_49, TRAILER_51,
    BAD_STATE, BAD_STRATEGIES, BAD_RECORDS, BAD_DISTANCE, GROWN, DONE, CODE, TOTAL, END, OUT_SHORT, NO_FAULT
};

#define FRAME_FAULTS(k) \
    {"a size past the end in " #k, PAST_END, k, REFUSED(11, k)}, {"short " #k, SHORT, k, REFUSED(1, k)}, \
    {"long " #k, LONG, k, REFUSED(2, k)}, {"name in " #k, NAME_PAST, k, REFUSED(3, k)}, {"bases in " #k, BASES_PAST, k, REFUSED(4, k)}
#define PAIR_FAULTS(k) \
    {"code in " #k, CODE, k, REFUSED(5, k)}, \
    {"total of " #k, TOTAL, k, REFUSED(7, k)}, {"end of " #k, END, k, REFUSED(8, k)}

/* The faults in the order of judgement, with the answer that each gives alone. Of the four records 0 and 3
   are mates, and 1 and 2. */
static const struct fault { const char *name; enum kind kind; int record; uint32_t answer; } FAULTS[] = {
    {"counts slice", COUNTS_SLICE, 0, REFUSED(15, 0)}, {"count", COUNT, 0, REFUSED(9, 0)},
    FRAME_FAULTS(0), FRAME_FAULTS(1), {"zero size before 2", ZERO_WITHIN, 0, REFUSED(20, 0)}, FRAME_FAULTS(2), FRAME_FAULTS(3),
    {"257 records", MANY, 0, REFUSED(12, 256)}, {"3 bytes left", LEFT, 0, REFUSED(11, 4)},
    {"no trailer", MISSING, 0, REFUSED(20, 0)}, {"49 bytes", TRAILER_49, 0, REFUSED(20, 0)}, {"51 bytes", TRAILER_51, 0, REFUSED(20, 0)},
    {"state", BAD_STATE, 0, REFUSED(21, 0)}, {"strategies", BAD_STRATEGIES, 0, REFUSED(21, 0)}, {"records", BAD_RECORDS, 0, REFUSED(21, 0)},
    {"distance", BAD_DISTANCE, 0, REFUSED(21, 0)}, {"growth", GROWN, 0, REFUSED(21, 0)}, {"corrected", DONE, 0, 1},
    PAIR_FAULTS(0), PAIR_FAULTS(3), PAIR_FAULTS(1), PAIR_FAULTS(2),
    {"short output", OUT_SHORT, 0, REFUSED(19, 0)}, {"nothing wrong", NO_FAULT, 0, 0},
};
enum { FAULT_COUNT = sizeof FAULTS / sizeof FAULTS[0] };

/* Which faults the call has that is being built, and whether its reads have lengths of 0 around each operation. */
static int has[NO_FAULT + 1][4], zeros;

/* Whether two faults can't stand together: of one size, or of a trailer that isn't there. */
static int exclude(const struct fault *a, const struct fault *b)
{
    if (a->kind == LEFT || a->kind == MISSING)
        return b->kind >= TRAILER_49 && b->kind <= DONE;
    if (a->kind == TRAILER_49)
        return b->kind == TRAILER_51;
    if (a->kind == BAD_STATE || a->kind == GROWN)
        return b->kind == DONE;
    return a->record == b->record && ((a->kind == PAST_END && b->kind == SHORT) || (a->kind == SHORT && b->kind == LONG));
}

/* Puts an operation of length 0 before each of the four and behind the last, each of another code. */
static void spread(struct read *r)
{
    for (uint32_t i = 4; i-- > 0; )
        r->operations[2 * i + 1] = r->operations[i];
    for (uint32_t i = 0; i <= 4; i++)
        r->operations[2 * i] = (i * 2) % 9;
    r->operation_count = 9;
}

/* Each fault of a pair has an operation of its own. The positions lie just before the last. */
static void add_faulty(int k)
{
    struct read r = {.name = k == 0 || k == 3 ? "a" : "b", .flags = k < 2 ? 64 : 128, .pos = 2147483600u + (uint32_t)k,
                     .operation_count = 4, .operations = {1 * 16 + 4, 3 * 16, 2 * 16, 1 * 16 + 2},
                     .count = 6, .codes = {1, 1, 2, 4, 8, 1}, .qualities = {30, 30, 30, 30, 30, 30}};
    if (has[CODE][k])
        r.operations[0] = 1 * 16 + 9;
    if (has[TOTAL][k])
        r.operations[2] = 3 * 16;
    if (has[END][k])
        r.operations[3] = 0xFFFFFFF2;
    if (zeros)
        spread(&r);
    add(&r);
    if (has[NAME_PAST][k])
        put(record(records - 1) + OPERATION_COUNT, 2, 65535);
    if (has[BASES_PAST][k])
        put(record(records - 1) + L_SEQ, 4, 4294967295);
    if (has[SHORT][k])
        resize_last(31);
    if (has[LONG][k])
        resize_last(LONGEST + 1);
    if (has[PAST_END][k])
        put(record(records - 1) - 4, 4, 4294967295);
}

static void finish_faulty(void)
{
    const uint8_t zeros[4] = {0};
    finish(0);
    trailer()[STATE] = has[BAD_STATE][0] ? 2 : has[DONE][0] ? 1 : 0;
    trailer()[STRATEGIES] = has[BAD_STRATEGIES][0] ? 9 : 0;
    trailer()[RECORDS] += has[BAD_RECORDS][0] ? 1 : 0;
    trailer()[DISTANCE] += has[BAD_DISTANCE][0] ? 1 : 0;
    trailer()[GROWTH] = has[GROWN][0] ? 1 : 0;
    if (has[TRAILER_49][0])
        given.filed.len--;
    if (has[TRAILER_51][0])
        add_bytes(zeros, 1);
    if (has[MISSING][0] || has[LEFT][0])
        given.filed.len = begin[records];
    if (has[LEFT][0])
        add_bytes(zeros, 3);
    lend();
    if (has[COUNTS_SLICE][0])
        given.counts.len = 31;
    if (has[COUNT][0])
        put(at(&given.counts), 8, COUNT_LIMIT + 1);
    if (has[OUT_SHORT][0])
        given.out.len--;
}

static void build_faulty(void)
{
    const uint8_t zeros[4] = {0};
    start_group();
    for (int k = 0; k < 4; k++) {
        if (k == 2 && has[ZERO_WITHIN][0])
            add_bytes(zeros, 4);
        add_faulty(k);
    }
    while (has[MANY][0] && records < 257)
        add_plain("c", 0, 9, 30);
    finish_faulty();
}

uint32_t build_frame_fault(int fault, int k)
{
    const uint32_t numbers[FRAME_FAULT_COUNT] = {11, 1, 2, 3, 4};
    _Static_assert(BASES_PAST - PAST_END + 1 == FRAME_FAULT_COUNT, "PAST_END to BASES_PAST are the faults of a frame");
    memset(has, 0, sizeof has);
    has[PAST_END + fault][k] = 1;
    build_faulty();
    return numbers[fault];
}

/* Of every two faults the earlier one decides. */
static void order_of_two(void)
{
    for (int i = 0; i < FAULT_COUNT; i++) {
        for (int j = i; j < FAULT_COUNT; j++) {
            if (exclude(&FAULTS[i], &FAULTS[j]))
                continue;
            memset(has, 0, sizeof has);
            has[FAULTS[i].kind][FAULTS[i].record] = 1;
            has[FAULTS[j].kind][FAULTS[j].record] = 1;
            build_faulty();
            expect(text("%s before %s", FAULTS[i].name, FAULTS[j].name), FAULTS[i].answer);
        }
    }
}

/* And so does each with all that come after it and can stand together, taken from the front or the back. */
static void order_of_all(void)
{
    for (int i = 0; i < 2 * FAULT_COUNT; i++) {
        const struct fault *taken[FAULT_COUNT] = {&FAULTS[i / 2]};
        int n = 1;
        memset(has, 0, sizeof has);
        for (int j = i / 2 + 1; j < FAULT_COUNT; j++) {
            const struct fault *f = &FAULTS[i % 2 == 0 ? j : FAULT_COUNT + i / 2 - j];
            int free = 1;
            for (int k = 0; k < n; k++)
                free &= !exclude(taken[k], f) && !exclude(f, taken[k]);
            if (free)
                taken[n++] = f;
        }
        for (int k = 0; k < n; k++)
            has[taken[k]->kind][taken[k]->record] = 1;
        build_faulty();
        expect(text("%s before %d that come later", FAULTS[i / 2].name, n - 1), FAULTS[i / 2].answer);
    }
}

void order_of_judgement(void)
{
    for (zeros = 0; zeros <= 1; zeros++) {
        order_of_two();
        order_of_all();
    }
    zeros = 0;
}
