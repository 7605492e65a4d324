/* Worked cases: what each group becomes, and who is paired with whom in it. */
#include "filed.h"

/* Expects a read of four bases in the output. */
static void expect_read(const char *what, size_t k, unsigned bases, const uint8_t *qualities)
{
    const uint8_t *r = at(&after.out) + begin[k] + 4, *read = r + NAME + r[NAME_LENGTH] + 4;
    check(read[0] == bases >> 8 && read[1] == (bases & 0xFF), "%s: bases of record %zu: expected %04X, got %02X%02X", what, k, bases, read[0], read[1]);
    check_bytes(what, text("qualities of record %zu", k), qualities, read + 2, 4);
}

/* The paper's whole case. */
static void whole_case(void)
{
    const uint8_t first[4] = {30, 50, 60, 20}, second[4] = {50, 60, 20, 40};
    const uint64_t growth[4] = {3, 2, 1, 4};
    struct read r = plain("a", 128, 10, 0);
    memcpy(r.codes, (const uint8_t[]){2, 4, 1, 1}, 4);
    memcpy(r.qualities, (const uint8_t[]){20, 30, 10, 40}, 4);
    start_group();
    add_plain("a", 64, 9, 30);
    add(&r);
    finish(0);
    expect("whole case", 0);
    expect_read("whole case", 0, 0x1248, first);
    expect_read("whole case", 1, 0x2481, second);
    expect_growth("whole case", growth);
}

/* Who is paired with whom: the quality of each read before and after, where mates get the sum. */
static const struct {
    const char *what;
    struct { const char *name; uint32_t flags; uint8_t before, after; } reads[4];
} PAIRINGS[] = {
    {"two mates", {{"a", 64, 30, 50}, {"a", 128, 20, 50}}},
    {"the last before the first", {{"a", 128, 20, 50}, {"a", 64, 30, 50}}},
    {"one unpaired", {{"a", 64, 30, 50}, {"b", 64, 11, 11}, {"a", 128, 20, 50}}},
    {"two pairs, one within the other", {{"a", 64, 30, 50}, {"b", 64, 11, 18}, {"b", 128, 7, 18}, {"a", 128, 20, 50}}},
    {"a later first takes the registration", {{"a", 64, 30, 30}, {"a", 64, 25, 45}, {"a", 128, 20, 45}}},
    {"a later last takes the registration", {{"a", 64, 30, 45}, {"a", 128, 20, 20}, {"a", 128, 15, 45}}},
    {"a first behind the pair takes the registration", {{"a", 64, 30, 30}, {"a", 128, 20, 27}, {"a", 64, 7, 27}}},
    {"a registration taken twice", {{"a", 64, 30, 30}, {"a", 64, 31, 31}, {"a", 64, 32, 52}, {"a", 128, 20, 52}}},
    {"first and last is a first", {{"a", 192, 30, 50}, {"a", 128, 20, 50}}},
    {"two firsts", {{"a", 64, 30, 30}, {"a", 192, 20, 20}}},
    {"two lasts", {{"a", 128, 30, 30}, {"a", 128, 20, 20}}},
    {"neither first nor last", {{"a", 1, 30, 30}, {"a", 128, 20, 20}}},
    {"secondary", {{"a", 64, 30, 50}, {"a", 128, 20, 50}, {"a", 384, 15, 15}, {"a", 320, 14, 14}}},
    {"supplementary", {{"a", 64, 30, 50}, {"a", 128, 20, 50}, {"a", 2176, 15, 15}, {"a", 2112, 14, 14}}},
    {"every flag but those that count", {{"a", 64 | 0xF63B, 30, 50}, {"a", 128 | 0xF63B, 20, 50}}},
    {"empty names of length 0 and 1", {{NULL, 64, 30, 50}, {"", 128, 20, 50}}},
    {"a name that begins as another", {{"a", 64, 30, 30}, {"ab", 128, 20, 20}}},
    {"names that differ in the last byte", {{"ab", 64, 30, 30}, {"ac", 128, 20, 20}}},
    {"an empty name and another", {{NULL, 64, 30, 30}, {"a", 128, 20, 20}}},
};

const size_t PAIRING_COUNT = sizeof PAIRINGS / sizeof PAIRINGS[0];

void build_pairing(size_t i)
{
    start_group();
    for (int k = 0; k < 4 && PAIRINGS[i].reads[k].before != 0; k++)
        add_plain(PAIRINGS[i].reads[k].name, PAIRINGS[i].reads[k].flags, 9, PAIRINGS[i].reads[k].before);
    finish(0);
}

static void pairings(void)
{
    for (size_t i = 0; i < PAIRING_COUNT; i++) {
        uint64_t growth[4] = {0};
        build_pairing(i);
        expect(PAIRINGS[i].what, 0);
        for (size_t k = 0; k < records; k++) {
            uint8_t before = PAIRINGS[i].reads[k].before, q = PAIRINGS[i].reads[k].after;
            expect_read(PAIRINGS[i].what, k, 0x1248, (const uint8_t[]){q, q, q, q});
            growth[0] += q == before ? 0 : 2;
        }
        growth[1] = growth[3] = growth[0];
        expect_growth(PAIRINGS[i].what, growth);
    }
    build_pairing(0);
    record(0)[NAME + 1] = 'x';
    expect("names whose last byte, which isn't compared, differs", 0);
    expect_read("names whose last byte, which isn't compared, differs", 0, 0x1248, (const uint8_t[]){50, 50, 50, 50});
}

static void sizes_of_groups(void)
{
    const uint64_t none[4] = {0}, all[4] = {512, 512, 0, 512}, one[4] = {4, 4, 0, 0};
    build_empty(); expect("empty group", 0); expect_growth("empty group", none);
    check(given.filed.len == 50, "empty group: expected 50 bytes");
    build_no_overlap(); expect("no overlap", 0); expect_growth("no overlap", none);
    check_bytes("no overlap", "frames", at(&given.filed), at(&after.out), begin[records]);
    build_256(); expect("256 records", 0); expect_growth("256 records", all);
    expect_read("256 records", 255, 0x1248, (const uint8_t[]){50, 50, 50, 50});
    build_many(257); expect("257 records", REFUSED(12, 256));
    build_nested(); expect("a filed group in a record's tags", 0); expect_growth("a filed group in a record's tags", one);
}

static void strategies(void)
{
    const uint64_t agree[3] = {1, 1, 0}, disagree[3] = {4, 4, 3};
    for (unsigned s = 0; s < 9; s++) {
        const uint64_t growth[4] = {3, 1, 2, agree[s / 3] + disagree[s % 3]};
        build_strategies(s);
        expect(text("strategies %u", s), 0);
        expect_growth(text("strategies %u", s), growth);
        check(at(&after.out)[begin[records] + STRATEGIES] == s, "strategies %u: the trailer has others", s);
    }
}

static void refused_pairs(void)
{
    build_pairing(0); spoil_total(0); expect("7 in the first", REFUSED(7, 0));
    build_pairing(0); spoil_total(1); expect("7 in the last", REFUSED(7, 1));
    build_pairing(1); spoil_total(0); spoil_total(1); expect("7 in both, the last stands before the first", REFUSED(7, 1));
    build_pairing(2); spoil_total(2); expect("7 in the last of three", REFUSED(7, 2));
    build_pairing(2); spoil_total(1); expect("7 in a record without a mate", 0);
    build_pairing(3); spoil_total(2); spoil_total(3); expect("7 in the lasts of two pairs", REFUSED(7, 3));
    build_pairing(3); spoil_total(1); spoil_total(3); expect("7 in the first of one and the last of another", REFUSED(7, 3));
    build_pairing(3); spoil_total(1); spoil_total(2); expect("7 in both of the second pair", REFUSED(7, 1));
    build_pairing(4); spoil_total(0); expect("7 in a first that lost its registration", 0);
    build_pairing(6); spoil_total(1); spoil_total(2); expect("7 in a pair whose first stands behind", REFUSED(7, 2));
    build_256(); spoil_total(255); expect("7 in the 256th record", REFUSED(7, 255));
    build_256(); spoil_total(254); expect("7 in the 255th record", REFUSED(7, 254));
    build_no_overlap(); spoil_total(1); expect("7 where the two are apart", REFUSED(7, 1));
    build_pairing(0); spoil_total(0); put(record(1) + FLAGS, 2, 128 + 4); expect("7 beside an unmapped mate", 0);
}

void worked_cases(void)
{
    whole_case();
    pairings();
    sizes_of_groups();
    strategies();
    refused_pairs();
}
