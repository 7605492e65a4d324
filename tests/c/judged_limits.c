/* When two records are not compared at all, and each refusal at its limit and one off. */
#include "judged.h"

/* ---- Steps 4 to 6: when two records are not compared at all ---- */

static void expect_ids(const char *what, uint32_t first, uint32_t second, uint32_t reason)
{
    good_pair();
    set(&given.first, REF_ID, 4, first);
    set(&given.second, REF_ID, 4, second);
    expect_reason(what, reason);
}

static void not_compared(void)
{
    const uint32_t overlap = 0, differ = OVERLAP_REASON_REFERENCES_DIFFER;
    expect_ids("two ids of -1", 0xFFFFFFFF, 0xFFFFFFFF, overlap);
    expect_ids("two ids of 2147483647", 2147483647, 2147483647, overlap);
    expect_ids("ids -1 and 0", 0xFFFFFFFF, 0, differ);
    expect_ids("ids 0 and 1", 0, 1, differ);
    expect_ids("ids that differ in the second byte", 0x00000100, 0, differ);
    expect_ids("ids that differ in the third byte", 0, 0x00010000, differ);
    expect_ids("ids that differ in the last byte", 0x01000000, 0, differ);

    struct record *r = &given.first;
    const uint32_t negative = OVERLAP_REASON_NEGATIVE_POSITION;
    good_pair(); set(r, FLAGS, 2, 4); reason_at_each_place("unmapped", OVERLAP_REASON_UNMAPPED);
    good_pair(); set(r, FLAGS, 2, 0xFFFF); reason_at_each_place("every flag", OVERLAP_REASON_UNMAPPED);
    good_pair(); set(r, FLAGS, 2, 0xFFFF - 4); reason_at_each_place("every flag but unmapped", overlap);
    good_pair(); set(r, POS, 4, 0xFFFFFFFF); reason_at_each_place("pos -1", negative);
    good_pair(); set(r, POS, 4, 0x80000000); reason_at_each_place("pos -2147483648", negative);
    good_pair(); set(r, POS, 4, 5); reason_at_each_place("pos 5, up to where the mate starts", OVERLAP_REASON_NO_SHARED_POSITION);
    good_pair(); set(r, POS, 4, 6); reason_at_each_place("pos 6, one base into the mate", overlap);
}

/* ---- Refusals of a record, at the limit and one off ---- */

/* A record of a length with nothing declared: zero bytes, so no name, no operations, no bases. */
static void bare(size_t len)
{
    memset(given.first.bytes, 0, sizeof given.first.bytes);
    given.first.len = len;
}

static void limits_of_layout(void)
{
    struct record *r = &given.first;
    bare(0); at_each_place("length 0", FAULT(1));
    bare(31); at_each_place("length 31", FAULT(1));
    bare(32); at_each_place("length 32, nothing declared", 0);
    bare(32); set(r, NAME_LENGTH, 1, 1); at_each_place("length 32, name length 1", FAULT(3));

    good_pair(); r->len = LONGEST; at_each_place("length 65536", 1);
    good_pair(); r->len = LONGEST + 1; at_each_place("length 65537", FAULT(2));

    bare(32 + 255); set(r, NAME_LENGTH, 1, 255); at_each_place("name to the end", 0);
    bare(31 + 255); set(r, NAME_LENGTH, 1, 255); at_each_place("name one past the end", FAULT(3));
    build(r, 9, "4M", "", ""); r->len = 38; at_each_place("operations to the end", 0);
    build(r, 9, "4M", "", ""); r->len = 37; at_each_place("operations one past the end", FAULT(3));
    bare(LONGEST); set(r, OPERATION_COUNT, 2, 65535); at_each_place("65535 operations", FAULT(3));

    good_pair(); r->len = 44; at_each_place("four qualities to the end", 1);
    good_pair(); r->len = 43; at_each_place("four qualities, one past the end", FAULT(4));
    build(r, 9, "5M", "AAAAA", "1 2 3 4 5"); r->len = 46; at_each_place("five qualities to the end", 1);
    build(r, 9, "5M", "AAAAA", "1 2 3 4 5"); r->len = 45; at_each_place("five qualities, one past the end", FAULT(4));
    bare(34); set(r, L_SEQ, 4, 1); at_each_place("one base to the end", 0);
    bare(33); set(r, L_SEQ, 4, 1); at_each_place("one base, one past the end", FAULT(4));
    good_pair(); set(r, L_SEQ, 4, 4294967295); at_each_place("l_seq 4294967295", FAULT(4));
    good_pair(); set(r, L_SEQ, 4, 2863311531); at_each_place("l_seq 2863311531, which 32 bits would take for 1", FAULT(4));
    good_pair(); set(r, L_SEQ, 4, 2147483648); at_each_place("l_seq 2147483648", FAULT(4));
}

static void limits_of_operations(void)
{
    struct record *r = &given.first;
    char operations[32];
    for (uint32_t code = 0; code < 16; code++) {
        build(r, 9, "4M1M", "AAAA", "1 2 3 4"); set_operation(r, 1, 1, code); set(r, L_SEQ, 4, 0);
        at_each_place(text("operation code %u", code), code <= 8 ? 0 : FAULT(5));
        build(r, 9, "4M1M", "AAAA", "1 2 3 4"); set_operation(r, 1, 0, code);
        at_each_place(text("operation code %u, length 0", code), code <= 8 ? 1 : FAULT(5));
    }
    build(r, 9, "4M1M", "AAAA", "1 2 3 4"); set_operation(r, 0, LONGEST_OPERATION, 15);
    at_each_place("all bits of an operation set", FAULT(5));

    /* Which operations count towards the read, and which towards the reference. */
    for (const char *code = CODES; *code != '\0'; code++) {
        uint32_t count = 3 + (strchr("MIS=X", *code) != NULL);
        int32_t end = 2147483646 - 3 - (strchr("MDN=X", *code) != NULL);
        snprintf(operations, sizeof operations, "3M1%c", *code);
        build_plain(r, 9, operations, count, 1, 30); at_each_place(text("%s, a read total that fits", operations), 1);
        build_plain(r, 9, operations, count - 1, 1, 30); at_each_place(text("%s, one base too few", operations), FAULT(7));
        build_plain(r, 9, operations, count + 1, 1, 30); at_each_place(text("%s, one base too many", operations), FAULT(7));
        build_plain(r, end, operations, count, 1, 30); at_each_place(text("%s, an end at the limit", operations), 0);
        build_plain(r, end + 1, operations, count, 1, 30); at_each_place(text("%s, an end one past the limit", operations), FAULT(8));
    }
    build_plain(r, 9, "4M", 0, 1, 30); at_each_place("no bases, so no total to meet", 0);
    build_plain(r, 9, "", 4, 1, 30); at_each_place("no operations, so no total to meet", 0);
    build(r, 2147483646, "", "", ""); at_each_place("pos 2147483646, no operations", 0);
    build(r, 2147483647, "", "", ""); at_each_place("pos 2147483647, no operations", FAULT(8));
}

static void many(uint32_t count, uint32_t code, uint32_t bases)
{
    build_many(&given.first, count, LONGEST_OPERATION, code, bases);
}

/* Totals that pass 32 bits. 16,376 operations are all that fit: 16,383 make the record too long. */
static void large_totals(void)
{
    struct record *r = &given.first;
    many(16383, 0, 0); at_each_place("16383 times 268435455M", FAULT(2));
    many(16383, 0, 0); r->len = LONGEST; at_each_place("16383 operations in 65536 bytes", FAULT(3));
    many(16376, 0, 0); at_each_place("16376 times 268435455M", FAULT(8));
    many(16375, 0, 1); at_each_place("16375 times 268435455M with a base", FAULT(7));
    many(16376, 1, 0); at_each_place("16376 times 268435455I, no bases", 0);
    many(16375, 1, 1); at_each_place("16375 times 268435455I with a base", FAULT(7));
    many(16376, 5, 0); at_each_place("16376 times 268435455H", 0);

    /* Sixteen of them and one of 20 are 4 more than 2^32. */
    many(17, 4, 4); set(r, NAME + 64, 4, 20 * 16 + 4); at_each_place("a read total of 2^32 + 4", FAULT(7));
    many(17, 2, 0); set(r, NAME + 64, 4, 20 * 16 + 2); at_each_place("a reference total of 2^32 + 4", FAULT(8));
    many(17, 3, 0); set(r, NAME + 64, 4, 16 * 16 + 3); set(r, POS, 4, 9);
    at_each_place("a reference total of 2^32", FAULT(8));
    many(8, 3, 0); set(r, POS, 4, 6); at_each_place("an end of 2147483646", 0);
    many(8, 3, 0); set(r, POS, 4, 7); at_each_place("an end of 2147483647", FAULT(8));
}

/* ---- Refusals of the call ---- */

static void limits_of_the_call(void)
{
    const size_t lengths[] = {0, 31, 33, 40};
    for (size_t i = 0; i < 4; i++) {
        good_pair(); given.counts_len = lengths[i]; expect_answer(text("counts of %zu bytes", lengths[i]), 1015);
    }

    for (uint32_t m = 0; m <= 3; m++) {
        for (uint32_t k = 0; k <= 3; k++) {
            good_pair(); given.ways.agreement = m; given.ways.disagreement = k;
            expect_answer(text("strategy numbers %u and %u", m, k), m < 3 && k < 3 ? 1 : 1010);
        }
    }
    good_pair(); given.ways.agreement = 4294967295; expect_answer("agreement 4294967295", 1010);
    good_pair(); given.ways.disagreement = 4294967295; expect_answer("disagreement 4294967295", 1010);
    good_pair(); given.ways.agreement = 256; expect_answer("agreement 256", 1010);

    for (int i = 0; i < 4; i++) {
        static struct record both;
        const uint64_t growth[4] = {4, 4, 0, 4};
        build(&both, 9, "4M", "ACGT", "50 50 50 50");
        good_pair(); put(given.counts + 8 * i, 8, COUNT_LIMIT);
        expect_answer(text("count %d at the limit", i), 1); expect_after(text("count %d at the limit", i), &both, &both, growth);
        good_pair(); put(given.counts + 8 * i, 8, COUNT_LIMIT + 1); expect_answer(text("count %d one past the limit", i), 1009);
        good_pair(); put(given.counts + 8 * i, 8, UINT64_MAX); expect_answer(text("count %d at its largest", i), 1009);
    }
}

void limits(void)
{
    not_compared();
    limits_of_layout();
    limits_of_operations();
    lengths_of_zero();
    large_totals();
    limits_of_the_call();
}
