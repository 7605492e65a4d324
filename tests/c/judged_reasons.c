/* Why two records do not overlap: a reference length of 0 and of 1 beside every other fault, and the index of an operation
   whose code is above 8. judged_order.c has every two causes at once. */
#include "judged.h"

enum { NO_LENGTH = OVERLAP_REASON_NO_REFERENCE_LENGTH, NOT_SHARED = OVERLAP_REASON_NO_SHARED_POSITION, OVERLAP = 0 };

/* ---- A reference length of 0, and of 1 ---- */

/* Operations on so many bases, and the reason that they give beside 4M at the same position, 9. */
static const struct alignment {
    const char *operations;
    uint32_t bases, reason;
} ALIGNMENTS[] = {
    {"", 0, NO_LENGTH}, {"", 4, NO_LENGTH}, {"4S", 4, NO_LENGTH}, {"4I", 4, NO_LENGTH}, {"2H4S", 4, NO_LENGTH},
    {"2S2I1P", 4, NO_LENGTH}, {"2S0M2S", 4, NO_LENGTH}, {"0D0N4I0=0X", 4, NO_LENGTH}, {"0M", 0, NO_LENGTH}, {"0D", 0, NO_LENGTH},
    {"0N", 0, NO_LENGTH}, {"0=", 0, NO_LENGTH}, {"0X", 0, NO_LENGTH}, {"3P", 0, NO_LENGTH}, {"3H", 0, NO_LENGTH},
    {"4S", 0, NO_LENGTH}, {"268435455S268435455I", 0, NO_LENGTH}, {"268435455H268435455P", 0, NO_LENGTH},
    {"4S1D", 4, NOT_SHARED}, {"4S1N", 4, NOT_SHARED}, {"1N4I", 4, NOT_SHARED}, {"1D", 0, NOT_SHARED}, {"1N", 0, NOT_SHARED},
    {"1M", 0, NOT_SHARED}, {"1=", 0, NOT_SHARED}, {"1X", 0, NOT_SHARED}, {"0M1D", 0, NOT_SHARED},
    {"1M", 1, OVERLAP}, {"1=", 1, OVERLAP}, {"1X", 1, OVERLAP}, {"4S1M", 5, OVERLAP}, {"0M1M", 1, OVERLAP},
};
enum { ALIGNMENT_COUNT = sizeof ALIGNMENTS / sizeof ALIGNMENTS[0] };

static void build_aligned(struct record *r, const struct alignment *a, int32_t pos)
{
    build_plain(r, pos, a->operations, a->bases, 1, 30);
}

static const char *spelled(const struct alignment *a)
{
    return text("`%s` on %u bases", a->operations, a->bases);
}

/* Beside a good mate, at each place; and at the last position that there is, and one past it. */
static void alone(void)
{
    struct record *r = &given.first;
    for (const struct alignment *a = ALIGNMENTS; a < ALIGNMENTS + ALIGNMENT_COUNT; a++) {
        int32_t last = LAST_END - (a->reason != NO_LENGTH);
        uint32_t far_off = a->reason == NO_LENGTH ? NO_LENGTH : NOT_SHARED;
        build_aligned(r, a, 9); reason_at_each_place(spelled(a), a->reason);
        build_aligned(r, a, last); reason_at_each_place(text("%s, an end at the limit", spelled(a)), far_off);
        build_aligned(r, a, last + 1); reason_at_each_place(text("%s, an end one past the limit", spelled(a)), FAULT(8));
    }
}

/* Every two of them: either without length decides, then either without a base on the reference. */
static void side_by_side(void)
{
    for (const struct alignment *a = ALIGNMENTS; a < ALIGNMENTS + ALIGNMENT_COUNT; a++) {
        for (const struct alignment *b = ALIGNMENTS; b < ALIGNMENTS + ALIGNMENT_COUNT; b++) {
            int without = a->reason == NO_LENGTH || b->reason == NO_LENGTH;
            start_call();
            build_aligned(&given.first, a, 9);
            build_aligned(&given.second, b, 9);
            expect_reason(text("%s and %s", spelled(a), spelled(b)), without ? NO_LENGTH : a->reason == OVERLAP ? b->reason : a->reason);
        }
    }
}

/* ---- The same beside every other fault ---- */

enum fault { SHORT, LONG, NAMED, BASES, UNMAPPED, OTHER_ID, NEGATIVE, CODE, TOTAL, END, APART, FAULTS };
static const char *const WORDS[FAULTS] = {
    "31 bytes", "65537 bytes", "65535 operations", "4294967295 bases", "unmapped", "another id", "a negative position",
    "a code of 9", "a wrong read total", "an end past the limit", "a position far off",
};

/* Puts the fault into a record, and gives the reason that it has there: 0 where the record can't have that fault. */
static uint32_t spoil(struct record *r, const struct alignment *a, enum fault fault)
{
    uint64_t n = operation_count(r->bytes);
    uint32_t bases = used(r->bytes, n, uses_read) == 1 ? 2 : 1;
    switch (fault) {
    case SHORT: r->len = 31; return FAULT(1);
    case LONG: r->len = LONGEST + 1; return FAULT(2);
    case NAMED: set(r, OPERATION_COUNT, 2, 65535); return FAULT(3);
    case BASES: set(r, L_SEQ, 4, 4294967295); return FAULT(4);
    case UNMAPPED: set(r, FLAGS, 2, 4); return OVERLAP_REASON_UNMAPPED;
    case OTHER_ID: set(r, REF_ID, 4, 7); return OVERLAP_REASON_REFERENCES_DIFFER;
    case NEGATIVE: set(r, POS, 4, 0xFFFFFFFF); return OVERLAP_REASON_NEGATIVE_POSITION;
    case CODE:
        build_plain(r, 9, text("%s1M", a->operations), a->bases, 1, 30);
        set_operation(r, (int)n, 1, 9);
        return CODE_FAULT(n);
    case TOTAL: build_plain(r, 9, a->operations, bases, 1, 30); return n > 0 ? FAULT(7) : 0;
    case END: set(r, POS, 4, 2147483647); return FAULT(8);
    default: set(r, POS, 4, 1000000); return 0;
    }
}

/* The alignment at one place and 4M at the other, and the fault in either of the two. */
static void expect_beside(const struct alignment *a, int place, enum fault fault, int faulty)
{
    static const struct alignment mate = {"4M", 4, OVERLAP};
    struct record *records[2] = {&given.first, &given.second};
    start_call();
    build_aligned(records[place], a, 9);
    build_aligned(records[1 - place], &mate, 9);
    uint32_t reason = spoil(records[faulty], faulty == place ? a : &mate, fault);
    if (reason >= 1000)
        reason += 100 * (uint32_t)(1 + faulty);
    else if (reason == 0)
        reason = fault == APART && a->reason == OVERLAP ? NOT_SHARED : a->reason;
    expect_reason(text("%s at place %d, %s at place %d", spelled(a), 1 + place, WORDS[fault], 1 + faulty), reason);
}

static void beside_faults(void)
{
    for (const struct alignment *a = ALIGNMENTS; a < ALIGNMENTS + ALIGNMENT_COUNT; a++)
        for (int place = 0; place < 2; place++)
            for (int fault = SHORT; fault < FAULTS; fault++)
                for (int faulty = 0; faulty < 2; faulty++)
                    expect_beside(a, place, (enum fault)fault, faulty);
}

/* ---- The index of an operation whose code is above 8 ---- */

/* As many operations as a record of 65,536 bytes without a name can have, and indexes up to the last of them. */
enum { MOST_OPERATIONS = 16376 };
static const uint32_t INDEXES[] = {0, 1, 3, 9, MOST_OPERATIONS - 1};
enum { INDEX_COUNT = sizeof INDEXES / sizeof INDEXES[0] };

static void set_code(struct record *r, uint32_t index, uint32_t length, uint32_t code)
{
    set(r, (int)(NAME + 4 * index), 4, length * 16 + code);
}

/* Each code and three lengths, at the end of a list and with others behind it. */
static void codes_at(uint32_t index)
{
    static const uint32_t LENGTHS[] = {0, 1, LONGEST_OPERATION};
    struct record *r = &given.first;
    for (uint32_t code = 9; code <= 15; code++) {
        for (int i = 0; i < 3; i++) {
            build_many(r, index + 1, 0, 0, 0); set_code(r, index, LENGTHS[i], code);
            reason_at_each_place(text("code %u and length %u at the last index, %u", code, LENGTHS[i], index), CODE_FAULT(index));
        }
        build_many(r, MOST_OPERATIONS, 1, 2, 0); set_code(r, index, 1, code);
        reason_at_each_place(text("code %u at index %u of 16376", code, index), CODE_FAULT(index));
    }
    build_many(r, index + 1, 0, 0, 0); set_code(r, index, 1, 8);
    reason_at_each_place(text("code 8 at index %u", index), NOT_SHARED);
}

/* Behind operations of each code, of length 0 and of the greatest; and two of them, of which the first counts. */
static void codes_behind(uint32_t index)
{
    struct record *r = &given.first;
    for (uint32_t code = 0; code <= 8; code++) {
        build_many(r, index + 1, 0, code, 0); set_code(r, index, 1, 9);
        reason_at_each_place(text("code 9 behind %u of code %u and length 0", index, code), CODE_FAULT(index));
        build_many(r, index + 1, LONGEST_OPERATION, code, 0); set_code(r, index, 1, 9);
        reason_at_each_place(text("code 9 behind %u of code %u and the greatest length", index, code), CODE_FAULT(index));
    }
    for (uint32_t second = index + 1; second < MOST_OPERATIONS; second = second < index + 3 ? second + 1 : 2 * second + 1) {
        build_many(r, second + 1, 0, 0, 0); set_code(r, index, 0, 15); set_code(r, second, 1, 9);
        reason_at_each_place(text("codes 15 and 9 at the indexes %u and %u", index, second), CODE_FAULT(index));
    }
    build_many(r, MOST_OPERATIONS, 0, 9, 0);
    reason_at_each_place("16376 times code 9", CODE_FAULT(0));
}

/* Beside 7 and 8 of the same record. A base takes the room of the last operation. */
static void codes_beside(uint32_t index)
{
    struct record *r = &given.first;
    if (index < MOST_OPERATIONS - 1) {
        build_many(r, index + 1, 0, 0, 1); set_code(r, index, 1, 9);
        reason_at_each_place(text("code 9 at index %u, a read total of 0 on a base", index), CODE_FAULT(index));
        build_many(r, index + 2, 0, 0, 1); set_code(r, index, 0, 9); set_code(r, index + 1, 2, 0);
        reason_at_each_place(text("code 9 at index %u, a read total of 2 on a base", index), CODE_FAULT(index));
        build_many(r, index + 2, 0, 0, 1); set_code(r, index + 1, 2, 0);
        reason_at_each_place(text("no code above 8 up to index %u, a read total of 2 on a base", index), FAULT(7));
    }
    build_many(r, index + 1, 0, 0, 0); set_code(r, index, 1, 9); set(r, POS, 4, 2147483647);
    reason_at_each_place(text("code 9 at index %u, an end past the limit", index), CODE_FAULT(index));
}

/* In both records: the first's counts, wherever it stands. */
static void codes_in_both(void)
{
    for (int i = 0; i < INDEX_COUNT; i++) {
        for (int j = 0; j < INDEX_COUNT; j++) {
            start_call();
            build_many(&given.first, INDEXES[i] + 1, 0, 0, 0); set_code(&given.first, INDEXES[i], 1, 9);
            build_many(&given.second, INDEXES[j] + 1, 0, 0, 0); set_code(&given.second, INDEXES[j], 1, 9);
            expect_reason(text("code 9 at index %u of the first and %u of the second", INDEXES[i], INDEXES[j]), CODE_FAULT(INDEXES[i]) + 100);
        }
    }
}

/* Behind a name, which the index doesn't count; and the numbers that the header gives. */
static void indexes_spelled(void)
{
    struct record *r = &given.first;
    for (int i = 0; i < 12; i++) {
        build(r, 9, "1M0M1D0I1M0N1S0P1=0X1M1S", "ACGTACG", "9 9 9 9 9 9 9"); set_operation(r, i, 1, 9);
        reason_at_each_place(text("behind a name, code 9 at index %d of 12", i), CODE_FAULT(i));
    }
    good_pair(); set_operation(&given.first, 0, 4, 9); expect_reason("operation 0 of the first", 1105);
    good_pair(); build(&given.second, 9, "1M1M1M1M", "ACGT", "1 1 1 1"); set_operation(&given.second, 3, 1, 9);
    expect_reason("operation 3 of the second", 31205);
    good_pair(); build_many(&given.second, MOST_OPERATIONS, 0, 0, 0); set_code(&given.second, MOST_OPERATIONS - 1, 0, 9);
    expect_reason("the last operation that there can be, of the second", 163751205);
}

static void indexes(void)
{
    for (int i = 0; i < INDEX_COUNT; i++) {
        codes_at(INDEXES[i]);
        codes_behind(INDEXES[i]);
        codes_beside(INDEXES[i]);
    }
    codes_in_both();
    indexes_spelled();
}

/* ---- One record as both ---- */

/* Both records are only read, and may be the same one. */
static void one_as_both(void)
{
    for (const struct alignment *a = ALIGNMENTS; a < ALIGNMENTS + ALIGNMENT_COUNT; a++) {
        struct record *r = &given.first;
        build_aligned(r, a, 9);
        uint32_t reason = overlap_reason_call(r->bytes, r->len, r->bytes, r->len);
        check(reason == a->reason, "%s as both records: expected the reason %u, got %u", spelled(a), a->reason, reason);
    }
}

void reasons(void)
{
    alone();
    side_by_side();
    beside_faults();
    indexes();
    one_as_both();
}
