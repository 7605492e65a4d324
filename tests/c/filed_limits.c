/* Each refusal at its limit and one off, and buffers and counts at theirs. */
#include "filed.h"

/* A group with one number of its trailer changed. */
static void expect_field(const char *what, int field, int width, uint64_t number, uint32_t answer)
{
    good_group();
    put(trailer() + field, width, number);
    expect(text("%s %" PRIu64, what, number), answer);
}

static void limits_of_trailer(void)
{
    const uint32_t wrong = REFUSED(21, 0);
    for (unsigned b = 0; b < 256; b++) {
        expect_field("state", STATE, 1, b, b < 2 ? b : wrong);
        expect_field("strategies", STRATEGIES, 1, b, b < 9 ? 0 : wrong);
    }
    for (uint64_t n = 0; n < 8; n++)
        expect_field("records", RECORDS, 4, n, n == 3 ? 0 : wrong);
    for (uint64_t n = begin[3] - 4; n <= begin[3] + 4; n++)
        expect_field("distance", DISTANCE, 8, n, n == begin[3] ? 0 : wrong);
    for (int i = 8; i < 64; i += 8) {
        if (i < 32)
            expect_field("records", RECORDS, 4, 3 + (UINT64_C(1) << i), wrong);
        expect_field("distance", DISTANCE, 8, begin[3] ^ UINT64_C(1) << i, wrong);
    }
    expect_field("distance", DISTANCE, 8, begin[3] ^ UINT64_C(1) << 63, wrong);
    for (int i = 0; i < 32; i++) {
        expect_field(text("raw, byte %d of the growth", i), GROWTH + i, 1, 1, wrong);
        good_group();
        trailer()[STATE] = 1;
        put(trailer() + GROWTH + i, 1, 255);
        expect(text("corrected, byte %d of the growth", i), 1);
    }
    good_group(); trailer()[STATE] = 1; expect("corrected, no growth", 1);
    good_group(); trailer()[STATE] = 1; memset(trailer() + GROWTH, 255, 32); expect("corrected, all growth", 1);
}

/* A byte of the zero size that isn't 0 makes it a size: 1 byte, or more than there are. */
static void limits_of_zero_size(void)
{
    good_group(); trailer()[0] = 1; expect("a size of 1", REFUSED(1, 3));
    good_group(); trailer()[0] = 31; expect("a size of 31", REFUSED(1, 3));
    good_group(); trailer()[0] = 46; trailer()[4 + NAME_LENGTH] = 15;
    expect("a size of 46, up to the end, and a name of 15", REFUSED(3, 3));
    good_group(); trailer()[0] = 46; expect("a size of 46, up to the end", REFUSED(20, 0));
    good_group(); trailer()[0] = 47; expect("a size of 47, one past the end", REFUSED(11, 3));
    for (int i = 1; i < 4; i++) {
        good_group(); trailer()[i] = 1; expect(text("byte %d of the zero size is 1", i), REFUSED(11, 3));
    }
}

/* So many bytes from the zero size on, or of it; more than 50 are zero bytes. */
static void limits_of_length(void)
{
    for (size_t n = 0; n <= 60; n++) {
        good_group();
        memset(trailer() + TRAILER, 0, 10);
        given.filed.len = begin[3] + n;
        expect(text("%zu bytes of a trailer", n), n == 50 ? 0 : n == 0 || n > 3 ? REFUSED(20, 0) : REFUSED(11, 3));
        build_256();
        memset(trailer() + TRAILER, 0, 10);
        given.filed.len = begin[256] + n;
        expect(text("%zu bytes of a trailer behind 256 records", n),
               n == 50 ? 0 : n == 0 || n > 3 ? REFUSED(20, 0) : REFUSED(12, 256));
        build_empty();
        memset(trailer() + TRAILER, 0, 10);
        given.filed.len = n;
        expect(text("%zu bytes of a trailer alone", n), n == 50 ? 0 : n == 0 || n > 3 ? REFUSED(20, 0) : REFUSED(11, 0));
    }
    for (int i = 0; i < 4; i++) {
        build_256(); trailer()[i] = 1; expect(text("behind 256 records, byte %d of the zero size is 1", i), REFUSED(12, 256));
    }
}

/* A zero size before each frame. It ends the frames; what stands behind it isn't read as such. */
static void zero_size_within(void)
{
    const uint8_t zeros[TRAILER] = {0};
    for (size_t n = 0; n < 4; n++) {
        start_group();
        for (size_t k = 0; k < 4; k++) {
            if (k == n)
                add_bytes(zeros, 4);
            add_plain("a", k % 2 == 0 ? 64 : 128, 9, 30);
        }
        spoil_total(0);
        finish(0);
        expect(text("a zero size before record %zu", n), REFUSED(20, 0));
    }
    start_group(); finish(0); add_bytes(zeros, TRAILER); lend(); expect("two trailers", REFUSED(20, 0));
    good_group(); add_bytes(at(&given.filed), begin[3]); lend(); expect("frames behind the trailer", REFUSED(20, 0));
}

static void limits_of_buffers(void)
{
    const size_t lengths[] = {0, 1, 31, 33, 64};
    const uint64_t growth[4] = {4, 4, 0, 4};
    for (int d = -2; d <= 40; d++) {
        good_group(); given.out.len = (size_t)((int)given.filed.len + d);
        expect(text("an output %d longer", d), d < 0 ? REFUSED(19, 0) : 0);
    }
    good_group(); given.out.len = 0; expect("no output", REFUSED(19, 0));
    good_group(); trailer()[STATE] = 1; given.out.len = 0; expect("no output, corrected before", 1);
    for (size_t i = 0; i < sizeof lengths / sizeof lengths[0]; i++) {
        good_group(); given.counts.len = lengths[i]; expect(text("counts of %zu bytes", lengths[i]), REFUSED(15, 0));
    }
    for (int i = 0; i < 4; i++) {
        const char *what = i == 0 ? "overlapping" : i == 1 ? "agreeing" : i == 2 ? "disagreeing" : "corrected";
        uint8_t *count = at(&given.counts) + 8 * i;
        good_group(); put(count, 8, COUNT_LIMIT); expect(text("%s at the limit", what), 0);
        check(number_at(at(&after.counts) + 8 * i, 8) == COUNT_LIMIT + growth[i], "%s at the limit: it grew by another number", what);
        good_group(); put(count, 8, COUNT_LIMIT + 1); expect(text("%s one above the limit", what), REFUSED(9, 0));
        good_group(); put(count, 8, UINT64_MAX); expect(text("%s at its largest", what), REFUSED(9, 0));
        good_group(); trailer()[STATE] = 1; put(count, 8, COUNT_LIMIT + 1);
        expect(text("%s one above the limit, corrected before", what), REFUSED(9, 0));
    }
}

/* Counts that carry into each of their bytes. */
static void carries(void)
{
    const uint64_t growth[4] = {4, 4, 0, 4};
    for (int i = 0; i < 4; i++) {
        for (int bits = 8; bits < 64; bits += 8) {
            uint64_t before = (UINT64_C(1) << bits) - 1;
            good_group();
            put(at(&given.counts) + 8 * i, 8, before);
            expect(text("count %d of %" PRIu64, i, before), 0);
            check(number_at(at(&after.counts) + 8 * i, 8) == before + growth[i], "count %d of %" PRIu64 ": it grew by another number", i, before);
        }
    }
}

/* Starts a group whose record k is to be the one that is tried: behind k plain ones. */
static void start_behind(size_t k)
{
    start_group();
    while (records < k)
        add_plain("b", 0, 9, 30);
}

/* Adds a record of zero bytes, so with nothing declared, of which one number is set. */
static void add_bare(size_t size, int field, int width, uint64_t number)
{
    struct read bare = {0};
    add(&bare);
    resize_last(size);
    put(record(records - 1) + field, width, number);
}

static void expect_bare(const char *what, size_t size, int field, int width, uint64_t number, uint32_t fault)
{
    for (size_t k = 0; k < 3; k++) {
        start_behind(k);
        add_bare(size, field, width, number);
        add_plain("c", 0, 9, 30);
        finish(0);
        expect(text("%s, in record %zu", what, k), fault == 0 ? 0 : REFUSED(fault, k));
    }
}

static void limits_of_records(void)
{
    expect_bare("1 byte", 1, 0, 1, 0, 1);
    expect_bare("31 bytes", 31, 0, 1, 0, 1);
    expect_bare("32 bytes", 32, 0, 1, 0, 0);
    expect_bare("65536 bytes", LONGEST, 0, 1, 0, 0);
    expect_bare("65537 bytes", LONGEST + 1, 0, 1, 0, 2);
    expect_bare("a name of 255 to the end", 32 + 255, NAME_LENGTH, 1, 255, 0);
    expect_bare("a name of 255, one past the end", 31 + 255, NAME_LENGTH, 1, 255, 3);
    expect_bare("operations to the end", 32 + 4 * 260, OPERATION_COUNT, 2, 260, 0);
    expect_bare("operations, one past the end", 31 + 4 * 260, OPERATION_COUNT, 2, 260, 3);
    expect_bare("65535 operations", LONGEST, OPERATION_COUNT, 2, 65535, 3);
    expect_bare("an odd number of bases to the end", 32 + 3 + 5, L_SEQ, 4, 5, 0);
    expect_bare("an odd number of bases, one past the end", 31 + 3 + 5, L_SEQ, 4, 5, 4);
    expect_bare("an even number of bases to the end", 32 + 129 + 258, L_SEQ, 4, 258, 0);
    expect_bare("an even number of bases, one past the end", 31 + 129 + 258, L_SEQ, 4, 258, 4);
    expect_bare("4294967295 bases", 64, L_SEQ, 4, 4294967295, 4);
    expect_bare("2863311531 bases, which 32 bits would take for 1", 64, L_SEQ, 4, 2863311531, 4);
}

/* As many operations of length 0 as a record holds, 16,376, and one more, in either mate; and the last of them unknown. */
static void lengths_of_zero(void)
{
    for (uint32_t count = 16376; count <= 16377; count++) {
        for (size_t k = 0; k < 2; k++) {
            for (int unknown = 0; unknown <= 1; unknown++) {
                start_group();
                if (k == 1)
                    add_plain("", 64, 9, 30);
                add_bare(NAME + 4 * count, OPERATION_COUNT, 2, count);
                put(record(k) + FLAGS, 2, k == 0 ? 64 : 128);
                put(record(k) + NAME + 4 * (count - 1), 4, unknown ? 9 : 0);
                if (k == 0)
                    add_plain("", 128, 9, 30);
                finish(0);
                expect(text("%u lengths of 0 in mate %zu, unknown: %d", count, k, unknown),
                       count > 16376 ? REFUSED(2, k) : unknown ? REFUSED(5, k) : 0);
            }
        }
    }
}

/* A size and so many bytes behind it, as the last frame of a group without a trailer. */
static void expect_size(uint64_t size, size_t left, uint32_t fault)
{
    for (size_t k = 0; k < 3; k++) {
        start_behind(k);
        add_bare(left, 0, 1, 0);
        put(record(k) - 4, 4, size);
        lend();
        expect(text("size %" PRIu64 " before %zu bytes, record %zu", size, left, k), fault == 20 ? REFUSED(20, 0) : REFUSED(fault, k));
    }
}

static void limits_of_sizes(void)
{
    expect_size(32, 32, 20);
    expect_size(33, 32, 11);
    expect_size(31, 31, 1);
    expect_size(31, 30, 11);
    expect_size(1, 0, 11);
    expect_size(LONGEST, LONGEST, 20);
    expect_size(LONGEST + 1, LONGEST + 1, 2);
    expect_size(LONGEST + 1, LONGEST, 11);
    expect_size(4294967295, 64, 11);
    expect_size(2147483648, 64, 11);
    expect_size(4294967295 - 3, 64, 11);
}

/* The longest two mates: 43,665 bases beside the name and one operation. */
static void longest_mates(void)
{
    start_group();
    for (size_t k = 0; k < 2; k++) {
        struct read r = {.name = "a", .flags = k == 0 ? 64 : 128, .operation_count = 1, .operations = {43665 * 16}};
        add(&r);
        resize_last(LONGEST);
        put(record(k) + L_SEQ, 4, 43665);
        memset(record(k) + 38, 0x11, 21833);
        memset(record(k) + 38 + 21833, 30, 43665);
    }
    finish(0);
    expect("longest mates", 0);
    expect_growth("longest mates", (const uint64_t[]){43665, 43665, 0, 43665});
}

void limits(void)
{
    limits_of_trailer();
    limits_of_zero_size();
    limits_of_length();
    zero_size_within();
    limits_of_buffers();
    carries();
    limits_of_records();
    lengths_of_zero();
    limits_of_sizes();
    longest_mates();
}
