/* The cap: what agreement under Consensus gives with every cap there is, beside all qualities; that nothing else goes by
   it; and the caps that are refused. judged_order.c has these beside every other fault. */
#include "judged.h"

_Static_assert(OVERLAP_CAP_MIN == LEAST_CAP && OVERLAP_CAP_MAX == MOST_CAP, "the header has the paper's caps");

enum { SUM = OVERLAP_AGREE_CONSENSUS, LARGER = OVERLAP_AGREE_MAX_QUAL, KEPT = OVERLAP_AGREE_PASS_THROUGH };
enum { BETTER = OVERLAP_DISAGREE_CONSENSUS, BOTH = OVERLAP_DISAGREE_MASK_BOTH, LOWER = OVERLAP_DISAGREE_MASK_LOWER_QUAL };

static const char *said(struct ways ways)
{
    return text("strategies %" PRIu32 " %" PRIu32 ", cap %" PRIu32, ways.agreement, ways.disagreement, ways.cap);
}

/* ---- Worked positions ---- */

enum { A = 1, T = 8, N = NO_CALL };

/* Two bases that share a position, what they become, and by how much the count of corrected ones grows. */
static const struct worked {
    struct ways ways;
    struct called first, second, first_after, second_after;
    unsigned corrected;
} WORKED[] = {
    /* sums under the cap, at it and over it; qualities at it and over it on one side and on both */
    {{SUM, BETTER, 40}, {A, 20}, {A, 19}, {A, 39}, {A, 39}, 1}, {{SUM, BETTER, 40}, {A, 20}, {A, 20}, {A, 40}, {A, 40}, 1},
    {{SUM, BETTER, 40}, {A, 20}, {A, 21}, {A, 40}, {A, 40}, 1}, {{SUM, BETTER, 40}, {A, 30}, {A, 20}, {A, 40}, {A, 40}, 1},
    {{SUM, BETTER, 40}, {A, 0}, {A, 0}, {A, 0}, {A, 0}, 0}, {{SUM, BETTER, 40}, {A, 39}, {A, 0}, {A, 39}, {A, 39}, 1},
    {{SUM, BETTER, 40}, {A, 39}, {A, 39}, {A, 40}, {A, 40}, 1}, {{SUM, BETTER, 40}, {A, 40}, {A, 0}, {A, 40}, {A, 40}, 1},
    {{SUM, BETTER, 40}, {A, 0}, {A, 40}, {A, 40}, {A, 40}, 1}, {{SUM, BETTER, 40}, {A, 40}, {A, 40}, {A, 40}, {A, 40}, 0},
    {{SUM, BETTER, 40}, {A, 41}, {A, 0}, {A, 40}, {A, 40}, 1}, {{SUM, BETTER, 40}, {A, 0}, {A, 41}, {A, 40}, {A, 40}, 1},
    {{SUM, BETTER, 40}, {A, 41}, {A, 40}, {A, 40}, {A, 40}, 1}, {{SUM, BETTER, 40}, {A, 40}, {A, 41}, {A, 40}, {A, 40}, 1},
    {{SUM, BETTER, 40}, {A, 41}, {A, 41}, {A, 40}, {A, 40}, 1}, {{SUM, BETTER, 40}, {A, 60}, {A, 60}, {A, 40}, {A, 40}, 1},
    {{SUM, BETTER, 40}, {A, 93}, {A, 2}, {A, 40}, {A, 40}, 1}, {{SUM, BETTER, 40}, {A, 2}, {A, 93}, {A, 40}, {A, 40}, 1},

    /* sums that pass 8 bits */
    {{SUM, BETTER, 40}, {A, 255}, {A, 255}, {A, 40}, {A, 40}, 1}, {{SUM, BETTER, 40}, {A, 128}, {A, 128}, {A, 40}, {A, 40}, 1},
    {{SUM, BETTER, 40}, {A, 255}, {A, 1}, {A, 40}, {A, 40}, 1}, {{SUM, BETTER, 40}, {A, 200}, {A, 80}, {A, 40}, {A, 40}, 1},
    {{SUM, BETTER, 93}, {A, 255}, {A, 1}, {A, 93}, {A, 93}, 1}, {{SUM, BETTER, 2}, {A, 255}, {A, 2}, {A, 2}, {A, 2}, 1},

    /* the least cap, the largest and the one before it */
    {{SUM, BETTER, 2}, {A, 0}, {A, 0}, {A, 0}, {A, 0}, 0}, {{SUM, BETTER, 2}, {A, 1}, {A, 0}, {A, 1}, {A, 1}, 1},
    {{SUM, BETTER, 2}, {A, 1}, {A, 1}, {A, 2}, {A, 2}, 1}, {{SUM, BETTER, 2}, {A, 2}, {A, 2}, {A, 2}, {A, 2}, 0},
    {{SUM, BETTER, 2}, {A, 3}, {A, 2}, {A, 2}, {A, 2}, 1}, {{SUM, BETTER, 2}, {A, 255}, {A, 255}, {A, 2}, {A, 2}, 1},
    {{SUM, BETTER, 93}, {A, 93}, {A, 93}, {A, 93}, {A, 93}, 0}, {{SUM, BETTER, 93}, {A, 94}, {A, 94}, {A, 93}, {A, 93}, 1},
    {{SUM, BETTER, 93}, {A, 46}, {A, 46}, {A, 92}, {A, 92}, 1}, {{SUM, BETTER, 93}, {A, 46}, {A, 47}, {A, 93}, {A, 93}, 1},
    {{SUM, BETTER, 92}, {A, 46}, {A, 47}, {A, 92}, {A, 92}, 1}, {{SUM, BETTER, 92}, {A, 93}, {A, 93}, {A, 92}, {A, 92}, 1},

    /* no other agreement goes by the cap */
    {{LARGER, BETTER, 40}, {A, 60}, {A, 50}, {A, 60}, {A, 60}, 1}, {{LARGER, BETTER, 40}, {A, 30}, {A, 41}, {A, 41}, {A, 41}, 1},
    {{LARGER, BETTER, 40}, {A, 60}, {A, 60}, {A, 60}, {A, 60}, 0}, {{LARGER, BETTER, 2}, {A, 0}, {A, 255}, {A, 255}, {A, 255}, 1},
    {{KEPT, BETTER, 40}, {A, 60}, {A, 50}, {A, 60}, {A, 50}, 0}, {{KEPT, BETTER, 2}, {A, 255}, {A, 3}, {A, 255}, {A, 3}, 0},

    /* nor any disagreement, nor a position with an N */
    {{SUM, BETTER, 40}, {T, 255}, {A, 30}, {T, 225}, {T, 225}, 2}, {{SUM, BETTER, 40}, {T, 30}, {A, 255}, {A, 225}, {A, 225}, 2},
    {{SUM, BETTER, 40}, {T, 93}, {A, 52}, {T, 41}, {T, 41}, 2}, {{SUM, BETTER, 40}, {T, 60}, {A, 50}, {T, 10}, {T, 10}, 2},
    {{SUM, BETTER, 40}, {T, 60}, {A, 59}, {T, 2}, {T, 2}, 2}, {{SUM, BETTER, 40}, {T, 60}, {A, 60}, {N, 2}, {N, 2}, 2},
    {{SUM, BETTER, 2}, {T, 255}, {A, 0}, {T, 255}, {T, 255}, 2}, {{SUM, BOTH, 40}, {T, 90}, {A, 50}, {N, 2}, {N, 2}, 2},
    {{SUM, LOWER, 40}, {T, 90}, {A, 50}, {T, 90}, {N, 2}, 1}, {{SUM, LOWER, 40}, {T, 50}, {A, 90}, {N, 2}, {A, 90}, 1},
    {{SUM, LOWER, 40}, {T, 90}, {A, 90}, {N, 2}, {N, 2}, 2}, {{SUM, LOWER, 2}, {T, 3}, {A, 255}, {N, 2}, {A, 255}, 1},
    {{SUM, BETTER, 40}, {N, 90}, {A, 90}, {N, 90}, {A, 90}, 0}, {{SUM, BOTH, 40}, {A, 90}, {N, 90}, {A, 90}, {N, 90}, 0},
    {{SUM, LOWER, 40}, {N, 90}, {N, 90}, {N, 90}, {N, 90}, 0},
};

/* A read of so many bases that are all this one. */
static void build_row(struct record *r, struct called base, uint32_t count)
{
    build_plain(r, 9, text("%" PRIu32 "M", count), count, (uint8_t)base.code, (uint8_t)base.quality);
}

/* A row of so many positions, all of them this one. */
static void expect_worked(const struct worked *w, uint32_t count)
{
    static struct record first, second;
    int compared = w->first.code != N && w->second.code != N, agree = w->first.code == w->second.code;
    const uint64_t growth[4] = {(uint64_t)compared * count, (uint64_t)(compared && agree) * count, (uint64_t)(compared && !agree) * count,
                                (uint64_t)w->corrected * count};
    start_call();
    given.ways = w->ways;
    build_row(&given.first, w->first, count);
    build_row(&given.second, w->second, count);
    build_row(&first, w->first_after, count);
    build_row(&second, w->second_after, count);
    const char *what = text("%" PRIu32 " times code %d of quality %d and code %d of quality %d, %s", count, w->first.code,
                            w->first.quality, w->second.code, w->second.quality, said(w->ways));
    expect_answer(what, 1);
    expect_after(what, &first, &second, growth);
}

static void worked_positions(void)
{
    static const uint32_t COUNTS[] = {1, 2, 7, 8, 31, 32, 33, 100, 1000, 43662};
    for (size_t i = 0; i < sizeof WORKED / sizeof WORKED[0]; i++)
        for (size_t k = 0; k < sizeof COUNTS / sizeof COUNTS[0]; k++)
            expect_worked(&WORKED[i], COUNTS[k]);
}

/* ---- Worked pairs ---- */

/* The paper's whole case with the cap 40. */
static void whole_case(void)
{
    static struct record first, second;
    const uint64_t growth[4] = {3, 2, 1, 4};
    start_call();
    given.ways.cap = 40;
    build(&given.first, 9, "4M", "ACGT", "30 30 30 30");
    build(&given.second, 10, "4M", "CGAA", "20 30 10 40");
    build(&first, 9, "4M", "ACGT", "30 40 40 20");
    build(&second, 10, "4M", "CGTA", "40 40 20 40");
    expect_answer("whole case, cap 40", 1);
    expect_after("whole case, cap 40", &first, &second, growth);
}

/* Bases that are clipped, inserted, opposite to a deletion or outside of the mate keep a quality over the cap. */
static void beside_shared(void)
{
    static struct record first, second;
    const uint64_t growth[4] = {3, 3, 0, 3};
    start_call();
    given.ways.cap = 40;
    build(&given.first, 9, "2S6M2S", "AAAAAAAAAA", "90 90 90 90 90 90 90 90 90 90");
    build(&given.second, 11, "3S2M1D1I2M3S", "AAAAAAAAAAA", "90 90 90 90 90 90 90 90 90 90 90");
    build(&first, 9, "2S6M2S", "AAAAAAAAAA", "90 90 90 90 40 40 90 40 90 90");
    build(&second, 11, "3S2M1D1I2M3S", "AAAAAAAAAAA", "90 90 90 40 40 90 40 90 90 90 90");
    expect_answer("90 everywhere, cap 40", 1);
    expect_after("90 everywhere, cap 40", &first, &second, growth);
}

/* ---- Every cap ---- */

/* What may stand at a position: bases that agree, that disagree, and an N in the first, in the second and in both. */
enum kind { AGREE, DISAGREE, FIRST_N, SECOND_N, BOTH_N, KINDS };
static const struct { const char *name; int first, second; } KIND[KINDS] = {
    [AGREE] = {"all agree", A, A}, [DISAGREE] = {"all disagree", T, A}, [FIRST_N] = {"N in the first", N, A},
    [SECOND_N] = {"N in the second", A, N}, [BOTH_N] = {"N in both", N, N},
};

/* The row that is laid down: both reads' bases. */
enum { LONGEST_ROW = 32768 };
static struct called first_row[LONGEST_ROW], second_row[LONGEST_ROW];
static uint32_t row;

static void add_position(int kind, int a, int b)
{
    first_row[row] = (struct called){KIND[kind].first, a};
    second_row[row++] = (struct called){KIND[kind].second, b};
}

/* Expects of the row what the model makes of it, or that its cap is refused; and begins a new one. */
static void expect_row(const char *what, struct ways ways)
{
    int refused = ways.cap < 2 || ways.cap > 93;
    const char *operations = text("%" PRIu32 "M", row);
    start_call();
    given.ways = ways;
    build_coded(&given.first, 9, operations, first_row, row);
    build_coded(&given.second, 9, operations, second_row, row);
    expect_answer(text("%s, %s", what, said(ways)), refused ? 1022 : 1);
    row = 0;
}

/* Qualities around a cap, around its half, and others, as a byte has them. */
enum { AROUND = 17 };
static void put_around(uint8_t *qualities, uint32_t cap)
{
    const uint32_t all[AROUND] = {0, 1, 2, cap / 2 - 1, cap / 2, cap / 2 + 1, cap - 2, cap - 1, cap, cap + 1, 92, 93, 94, 128, 256 - cap, 254, 255};
    for (int i = 0; i < AROUND; i++)
        qualities[i] = (uint8_t)all[i];
}

/* Every two qualities around the cap: where all positions agree, where all disagree, and the five kinds by turns. */
static void around(struct ways ways)
{
    uint8_t q[AROUND];
    put_around(q, ways.cap);
    for (int kind = AGREE; kind <= DISAGREE; kind++) {
        for (int k = 0; k < AROUND * AROUND; k++)
            add_position(kind, q[k / AROUND], q[k % AROUND]);
        expect_row(KIND[kind].name, ways);
    }
    for (int k = 0; k < AROUND * AROUND * KINDS; k++)
        add_position(k % KINDS, q[k / KINDS / AROUND], q[k / KINDS % AROUND]);
    expect_row("every kind by turns", ways);
}

static void every_cap(void)
{
    static const uint32_t LARGE[] = {255, 256, 256 + 2, 256 + 40, 256 + 93, 65536, 65536 + 40, 65536 + 93, 2147483647, 2147483648,
                                     2147483648 + 40, 4294967294, 4294967295};
    for (uint32_t strategies = 0; strategies < 9; strategies++) {
        for (uint32_t cap = 0; cap <= 95; cap++)
            around((struct ways){strategies / 3, strategies % 3, cap});
        for (size_t i = 0; i < sizeof LARGE / sizeof LARGE[0]; i++)
            around((struct ways){strategies / 3, strategies % 3, LARGE[i]});
    }
}

/* All of the examples with every cap, where alignments are of more than a row. */
static void every_example(void)
{
    for (uint32_t cap = 0; cap <= 95; cap++)
        examples(cap);
}

/* ---- Every two qualities ---- */

/* All 65,536 of them at positions of one kind, in two rows. */
static void all_qualities(enum kind kind, struct ways ways)
{
    for (int a = 0; a < 256; a++) {
        for (int b = 0; b < 256; b++)
            add_position(kind, a, b);
        if (row == LONGEST_ROW)
            expect_row(text("%s, qualities %d to %d and all", KIND[kind].name, a - 127, a), ways);
    }
}

/* Where the bases agree under Consensus, with every cap; else with a few. */
static void every_two_qualities(void)
{
    static const uint32_t FEW[] = {2, 40, 93};
    for (uint32_t cap = LEAST_CAP; cap <= MOST_CAP; cap++)
        all_qualities(AGREE, (struct ways){SUM, cap % 3, cap});
    for (int i = 0; i < 3; i++) {
        all_qualities(AGREE, (struct ways){LARGER, BETTER, FEW[i]});
        all_qualities(AGREE, (struct ways){KEPT, BETTER, FEW[i]});
        for (uint32_t disagreement = BETTER; disagreement <= LOWER; disagreement++)
            all_qualities(DISAGREE, (struct ways){SUM, disagreement, FEW[i]});
    }
}

/* ---- Random pairs ---- */

/* Operations of a read of at most MOST_BASES bases, mostly M and some of length 0; gives how many bases they use. */
enum { MOST_OPERATIONS = 6, LONGEST_LENGTH = 60, MOST_BASES = MOST_OPERATIONS * LONGEST_LENGTH };
static uint32_t random_operations(char *operations, size_t room)
{
    uint32_t count = 0, n = 1 + below(MOST_OPERATIONS);
    for (size_t at = 0; n > 0; n--) {
        uint32_t code = once_in(2) ? below(9) : 0, length = once_in(8) ? 0 : 1 + below(once_in(3) ? LONGEST_LENGTH : 8);
        at += (size_t)snprintf(operations + at, room - at, "%" PRIu32 "%c", length, CODES[code]);
        count += uses_read(code) ? length : 0;
    }
    return count;
}

/* A read whose bases are alike but for some, with qualities around the cap and any others. */
static void random_read(struct record *r, uint32_t cap)
{
    struct called bases[MOST_BASES];
    char operations[64];
    uint8_t q[AROUND];
    uint32_t count = random_operations(operations, sizeof operations), same = once_in(2) ? 4 : 50;
    put_around(q, cap);
    for (uint32_t i = 0; i < count; i++) {
        int code = once_in(same) ? (int)below(16) : A, quality = once_in(2) ? q[below(AROUND)] : (int)below(256);
        bases[i] = (struct called){code, quality};
    }
    build_coded(r, 9 + (int32_t)below(20), operations, bases, count);
}

/* Alignments of every kind, with a cap that is refused now and then. */
static void random_pairs(unsigned pairs)
{
    unsigned overlaps = 0;
    for (unsigned i = 0; i < pairs; i++) {
        uint32_t cap = once_in(20) ? below(200) : LEAST_CAP + below(MOST_CAP - LEAST_CAP + 1), strategies = below(9);
        start_call();
        given.ways = (struct ways){once_in(2) ? SUM : strategies / 3, strategies % 3, cap};
        random_read(&given.first, cap);
        random_read(&given.second, cap);
        overlaps += expect_modelled(text("random pair %u, %s", i, said(given.ways))) == 1;
    }
    check(overlaps > pairs / 3, "only %u of %u random pairs overlap", overlaps, pairs);
}

void caps(void)
{
    worked_positions();
    whole_case();
    beside_shared();
    every_cap();
    every_example();
    every_two_qualities();
    random_pairs(10000);
}
