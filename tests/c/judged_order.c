/* The order of judgement: of every two faults the earlier one decides, for the call and for the reason. */
#include "judged.h"

/* What can be wrong with a pair, in the order of judgement. Those before SHORT_1 are faults of the call, and the reason
   doesn't know them. */
enum fault {
    NO_COUNTS, SHORT_COUNTS, LONG_COUNTS, AGREEMENT, DISAGREEMENT, CAP_0, CAP_1, CAP_94, LARGEST_CAP, COUNT_0, COUNT_1, COUNT_2, COUNT_3,
    SHORT_1, LONG_1, NAME_1, BASES_1, SHORT_2, LONG_2, NAME_2, BASES_2,
    UNMAPPED_1, UNMAPPED_2, IDS_DIFFER, NEGATIVE_1, NEGATIVE_2,
    CODE_1, TOTAL_1, END_1, CODE_2, TOTAL_2, END_2,
    NO_LENGTH_1, NO_LENGTH_2, APART, NO_FAULT
};

/* Each fault with the answer and the reason that it gives alone; the reason of a code has the operation's index besides. */
static const struct { const char *name; uint32_t answer, reason; } FAULTS[] = {
    [NO_COUNTS] = {"counts of 0 bytes", 1015, 0}, [SHORT_COUNTS] = {"counts of 31 bytes", 1015, 0}, [LONG_COUNTS] = {"counts of 33 bytes", 1015, 0},
    [AGREEMENT] = {"agreement", 1010, 0}, [DISAGREEMENT] = {"disagreement", 1010, 0},
    [CAP_0] = {"cap 0", 1022, 0}, [CAP_1] = {"cap 1", 1022, 0}, [CAP_94] = {"cap 94", 1022, 0}, [LARGEST_CAP] = {"cap 4294967295", 1022, 0},
    [COUNT_0] = {"count 0", 1009, 0}, [COUNT_1] = {"count 1", 1009, 0}, [COUNT_2] = {"count 2", 1009, 0}, [COUNT_3] = {"count 3", 1009, 0},
    [SHORT_1] = {"first short", 1101, 1101}, [LONG_1] = {"first long", 1102, 1102},
    [NAME_1] = {"name of the first", 1103, 1103}, [BASES_1] = {"bases of the first", 1104, 1104},
    [SHORT_2] = {"second short", 1201, 1201}, [LONG_2] = {"second long", 1202, 1202},
    [NAME_2] = {"name of the second", 1203, 1203}, [BASES_2] = {"bases of the second", 1204, 1204},
    [UNMAPPED_1] = {"first unmapped", 0, 1}, [UNMAPPED_2] = {"second unmapped", 0, 1},
    [IDS_DIFFER] = {"ids differ", 0, 2},
    [NEGATIVE_1] = {"first negative", 0, 3}, [NEGATIVE_2] = {"second negative", 0, 3},
    [CODE_1] = {"code in the first", 1105, 1105},
    [TOTAL_1] = {"total of the first", 1107, 1107}, [END_1] = {"end of the first", 1108, 1108},
    [CODE_2] = {"code in the second", 1205, 1205},
    [TOTAL_2] = {"total of the second", 1207, 1207}, [END_2] = {"end of the second", 1208, 1208},
    [NO_LENGTH_1] = {"no reference length of the first", 0, 4}, [NO_LENGTH_2] = {"no reference length of the second", 0, 4},
    [APART] = {"no shared position", 0, 5}, [NO_FAULT] = {"nothing wrong", 1, 0},
};

/* The operations of both records, and the same with lengths of 0 around each; then operation k is the one at 2 * k + 1. */
static const char *const OPERATIONS_OF[2] = {"1S3M2M1D", "0M1S0=3M0I2M0X1D0M"};
enum { CLIP = 0, ALIGNED = 2, DELETED = 3 };

static int index_of(int operation, int zeros)
{
    return zeros ? 2 * operation + 1 : operation;
}

/* Another length for an operation, which keeps its code. */
static void set_length(struct record *r, int i, uint32_t length)
{
    set_operation(r, i, length, (uint32_t)operation_at(r->bytes, (uint64_t)i) % 16);
}

/* Clips in the place of all that uses both, and padding in the place of what uses the reference alone. */
static void drop_reference_length(struct record *r)
{
    for (int i = 0; i < (int)operation_count(r->bytes); i++) {
        uint32_t operation = (uint32_t)operation_at(r->bytes, (uint64_t)i);
        if (uses_reference(operation % 16))
            set_operation(r, i, operation / 16, uses_read(operation % 16) ? 4 : 6);
    }
}

/* A fault of one record, by that of the first. Each has a field or an operation of its own, so that several can be there at
   once; but the end is past the limit by the position and by the lengths, so that it is past it without the lengths too. */
static void spoil_record(struct record *r, enum fault fault, int zeros)
{
    switch (fault) {
    case SHORT_1: r->len = 31; break;
    case LONG_1: r->len = LONGEST + 1; break;
    case NAME_1: set(r, OPERATION_COUNT, 2, 65535); break;
    case BASES_1: set(r, L_SEQ, 4, 4294967295); break;
    case UNMAPPED_1: set(r, FLAGS, 2, 4); break;
    case NEGATIVE_1: set(r, POS, 4, 0xFFFFFFFF); break;
    case CODE_1: set_operation(r, index_of(CLIP, zeros), 1, 9); break;
    case TOTAL_1: set_length(r, index_of(ALIGNED, zeros), 3); break;
    case END_1: set(r, POS, 4, 2147483647); set_length(r, index_of(DELETED, zeros), LONGEST_OPERATION); break;
    case NO_LENGTH_1: drop_reference_length(r); break;
    default: check(0, "fault %d is none of a record", fault);
    }
}

/* A fault of the call. */
static void spoil_call(enum fault fault)
{
    switch (fault) {
    case NO_COUNTS: given.counts_len = 0; break;
    case SHORT_COUNTS: given.counts_len = 31; break;
    case LONG_COUNTS: given.counts_len = 33; break;
    case AGREEMENT: given.ways.agreement = 3; break;
    case DISAGREEMENT: given.ways.disagreement = 3; break;
    case CAP_0: given.ways.cap = 0; break;
    case CAP_1: given.ways.cap = 1; break;
    case CAP_94: given.ways.cap = 94; break;
    case LARGEST_CAP: given.ways.cap = 4294967295; break;
    default: put(given.counts + 8 * (fault - COUNT_0), 8, COUNT_LIMIT + 1);
    }
}

static void spoil(enum fault fault, int zeros)
{
    struct record *a = &given.first, *b = &given.second;
    if (fault < SHORT_1) {
        spoil_call(fault);
        return;
    }
    switch (fault) {
    case IDS_DIFFER: set(a, REF_ID, 4, 7); break;
    case SHORT_2: spoil_record(b, SHORT_1, zeros); break;
    case LONG_2: spoil_record(b, LONG_1, zeros); break;
    case NAME_2: spoil_record(b, NAME_1, zeros); break;
    case BASES_2: spoil_record(b, BASES_1, zeros); break;
    case UNMAPPED_2: spoil_record(b, UNMAPPED_1, zeros); break;
    case NEGATIVE_2: spoil_record(b, NEGATIVE_1, zeros); break;
    case CODE_2: spoil_record(b, CODE_1, zeros); break;
    case TOTAL_2: spoil_record(b, TOTAL_1, zeros); break;
    case END_2: spoil_record(b, END_1, zeros); break;
    case NO_LENGTH_2: spoil_record(b, NO_LENGTH_1, zeros); break;
    case APART: set(b, POS, 4, 2147483620); break;
    case NO_FAULT: break;
    default: spoil_record(a, fault, zeros);
    }
}

/* The reason where these are the faults: that of the first of them which is one of the records. */
static uint32_t reason_of(int first, int second, int zeros)
{
    int fault = first >= SHORT_1 ? first : second <= NO_FAULT ? second : SHORT_1;
    int named = fault == CODE_1 || fault == CODE_2;
    return FAULTS[fault].reason + (named ? INDEX_STEP * (uint32_t)index_of(CLIP, zeros) : 0);
}

/* The first of these faults and the second, or all that come after the first; with a good cap where no fault is the cap's. */
static void expect_first(int first, int second, int zeros, uint32_t cap)
{
    const char *what, *operations = OPERATIONS_OF[zeros];
    start_call();
    given.ways.cap = cap;
    build(&given.first, 2147483600, operations, "AACGTA", "30 30 30 30 30 30");
    build(&given.second, 2147483602, operations, "AACGTA", "20 20 20 20 20 20");
    if (second <= NO_FAULT) {
        spoil((enum fault)second, zeros);
        what = text("%s, cap %u: %s before %s", operations, cap, FAULTS[first].name, FAULTS[second].name);
    } else {
        for (int k = NO_FAULT; k > first; k--)
            spoil((enum fault)k, zeros);
        what = text("%s, cap %u: %s before all that come later", operations, cap, FAULTS[first].name);
    }
    spoil((enum fault)first, zeros);
    expect_answer_and_reason(what, FAULTS[first].answer, reason_of(first, second, zeros));
}

/* Of every two faults the earlier one decides, and so does each with all that come after it: under the largest cap and
   under the least. */
void order_of_judgement(void)
{
    for (int zeros = 0; zeros <= 1; zeros++)
        for (int i = NO_COUNTS; i <= NO_FAULT; i++)
            for (int j = i; j <= NO_FAULT + 1; j++) {
                expect_first(i, j, zeros, MOST_CAP);
                expect_first(i, j, zeros, LEAST_CAP);
            }
}
