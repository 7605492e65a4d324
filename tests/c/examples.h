/*
 * Pairs of records and what becomes of them: the judged examples of the paper that a pair shows,
 * and a few more of each rule. AT(p) is a position counted from 1, as the paper counts after "at".
 * A read's bases and qualities beside the answer are those after the call; SAME stands for those
 * before it. The last four numbers are the growth of the counts.
 */
enum { CONSENSUS = OVERLAP_AGREE_CONSENSUS };    /* either strategy */
enum { MAX_QUAL = OVERLAP_AGREE_MAX_QUAL, PASS_THROUGH = OVERLAP_AGREE_PASS_THROUGH };                /* agreement */
enum { MASK_BOTH = OVERLAP_DISAGREE_MASK_BOTH, MASK_LOWER_QUAL = OVERLAP_DISAGREE_MASK_LOWER_QUAL };  /* disagreement */
_Static_assert(OVERLAP_AGREE_CONSENSUS == OVERLAP_DISAGREE_CONSENSUS, "CONSENSUS is either strategy");

struct read {
    int32_t pos;              /* counted from 0 */
    const char *operations;   /* as "2S3M" */
    const char *bases;
    const char *qualities;    /* as "30 20" */
};

struct after {
    const char *bases;
    const char *qualities;
};

struct example {
    const char *what;
    uint32_t agreement, disagreement;
    struct read first, second;
    uint32_t answer;
    struct after first_after, second_after;
    uint64_t growth[4];       /* overlapping, agreeing, disagreeing, corrected */
};

#define AT(p) ((p) - 1)
#define ONE(base, quality) {AT(10), "1M", base, quality}
#define SAME {NULL, NULL}
#define NO_GROWTH {0, 0, 0, 0}

static const struct example EXAMPLES[] = {
    /* Agree, Consensus */
    {"agree, 30 and 20", CONSENSUS, CONSENSUS, ONE("A", "30"), ONE("A", "20"),
     1, {"A", "50"}, {"A", "50"}, {1, 1, 0, 1}},
    {"agree, 60 and 40", CONSENSUS, CONSENSUS, ONE("C", "60"), ONE("C", "40"),
     1, {"C", "93"}, {"C", "93"}, {1, 1, 0, 1}},
    {"agree, 255 and 255", CONSENSUS, CONSENSUS, ONE("G", "255"), ONE("G", "255"),
     1, {"G", "93"}, {"G", "93"}, {1, 1, 0, 1}},
    {"agree, 93 and 0", CONSENSUS, CONSENSUS, ONE("T", "93"), ONE("T", "0"),
     1, {"T", "93"}, {"T", "93"}, {1, 1, 0, 1}},
    {"agree, 0 and 0", CONSENSUS, CONSENSUS, ONE("A", "0"), ONE("A", "0"),
     1, {"A", "0"}, {"A", "0"}, {1, 1, 0, 0}},
    {"agree, 46 and 46", CONSENSUS, CONSENSUS, ONE("A", "46"), ONE("A", "46"),
     1, {"A", "92"}, {"A", "92"}, {1, 1, 0, 1}},
    {"agree, 47 and 47", CONSENSUS, CONSENSUS, ONE("A", "47"), ONE("A", "47"),
     1, {"A", "93"}, {"A", "93"}, {1, 1, 0, 1}},

    /* Agree, MaxQual and PassThrough */
    {"agree, larger of 30 and 20", MAX_QUAL, CONSENSUS, ONE("A", "30"), ONE("A", "20"),
     1, {"A", "30"}, {"A", "30"}, {1, 1, 0, 1}},
    {"agree, larger of 20 and 255", MAX_QUAL, CONSENSUS, ONE("A", "20"), ONE("A", "255"),
     1, {"A", "255"}, {"A", "255"}, {1, 1, 0, 1}},
    {"agree, larger of 30 and 30", MAX_QUAL, CONSENSUS, ONE("A", "30"), ONE("A", "30"),
     1, SAME, SAME, {1, 1, 0, 0}},
    {"agree, passed through", PASS_THROUGH, CONSENSUS, ONE("A", "30"), ONE("A", "20"),
     1, SAME, SAME, {1, 1, 0, 0}},

    /* Disagree, Consensus */
    {"disagree, T 30 and A 10", CONSENSUS, CONSENSUS, ONE("T", "30"), ONE("A", "10"),
     1, {"T", "20"}, {"T", "20"}, {1, 0, 1, 2}},
    {"disagree, 31 and 30", CONSENSUS, CONSENSUS, ONE("T", "31"), ONE("A", "30"),
     1, {"T", "2"}, {"T", "2"}, {1, 0, 1, 2}},
    {"disagree, 30 and 31", CONSENSUS, CONSENSUS, ONE("T", "30"), ONE("A", "31"),
     1, {"A", "2"}, {"A", "2"}, {1, 0, 1, 2}},
    {"disagree, 33 and 30", CONSENSUS, CONSENSUS, ONE("T", "33"), ONE("A", "30"),
     1, {"T", "3"}, {"T", "3"}, {1, 0, 1, 2}},
    {"disagree, 30 and 30", CONSENSUS, CONSENSUS, ONE("T", "30"), ONE("A", "30"),
     1, {"N", "2"}, {"N", "2"}, {1, 0, 1, 2}},
    {"disagree, 255 and 30", CONSENSUS, CONSENSUS, ONE("T", "255"), ONE("A", "30"),
     1, {"T", "225"}, {"T", "225"}, {1, 0, 1, 2}},

    /* Disagree, MaskBoth and MaskLowerQual */
    {"disagree, both masked", CONSENSUS, MASK_BOTH, ONE("T", "30"), ONE("A", "10"),
     1, {"N", "2"}, {"N", "2"}, {1, 0, 1, 2}},
    {"disagree, the lower masked, 10 and 30", CONSENSUS, MASK_LOWER_QUAL, ONE("T", "10"), ONE("A", "30"),
     1, {"N", "2"}, SAME, {1, 0, 1, 1}},
    {"disagree, the lower masked, 30 and 10", CONSENSUS, MASK_LOWER_QUAL, ONE("T", "30"), ONE("A", "10"),
     1, SAME, {"N", "2"}, {1, 0, 1, 1}},
    {"disagree, the lower masked, 30 and 30", CONSENSUS, MASK_LOWER_QUAL, ONE("T", "30"), ONE("A", "30"),
     1, {"N", "2"}, {"N", "2"}, {1, 0, 1, 2}},

    /* Bases are compared as codes, and an N stays. */
    {"= against A disagrees", CONSENSUS, CONSENSUS, ONE("=", "30"), ONE("A", "10"),
     1, {"=", "20"}, {"=", "20"}, {1, 0, 1, 2}},
    {"A against = disagrees", CONSENSUS, CONSENSUS, ONE("A", "30"), ONE("=", "10"),
     1, {"A", "20"}, {"A", "20"}, {1, 0, 1, 2}},
    {"= against = agrees", CONSENSUS, CONSENSUS, ONE("=", "30"), ONE("=", "20"),
     1, {"=", "50"}, {"=", "50"}, {1, 1, 0, 1}},
    {"R against A disagrees", CONSENSUS, CONSENSUS, ONE("R", "10"), ONE("A", "30"),
     1, {"A", "20"}, {"A", "20"}, {1, 0, 1, 2}},
    {"R against R agrees", CONSENSUS, CONSENSUS, ONE("R", "10"), ONE("R", "30"),
     1, {"R", "40"}, {"R", "40"}, {1, 1, 0, 1}},
    {"N in the first", CONSENSUS, CONSENSUS, ONE("N", "30"), ONE("A", "20"), 1, SAME, SAME, NO_GROWTH},
    {"N in the second", CONSENSUS, CONSENSUS, ONE("A", "30"), ONE("N", "20"), 1, SAME, SAME, NO_GROWTH},
    {"N in both", CONSENSUS, CONSENSUS, ONE("N", "30"), ONE("N", "20"), 1, SAME, SAME, NO_GROWTH},
    {"an overlap of nothing but N", CONSENSUS, MASK_BOTH,
     {AT(10), "4M", "NNAN", "30 30 30 30"}, {AT(10), "4M", "ANNN", "20 20 20 20"}, 1, SAME, SAME, NO_GROWTH},

    /* Where a base sits. Each sum of qualities says which two bases met. */
    {"2S3M1D2M at 10, 2M1I3M at 12", CONSENSUS, CONSENSUS,
     {AT(10), "2S3M1D2M", "AAAAAAA", "1 2 3 4 5 6 7"}, {AT(12), "2M1I3M", "AAAAAA", "10 20 30 40 50 60"},
     1, {"AAAAAAA", "1 2 3 4 15 46 57"}, {"AAAAAA", "15 20 30 46 57 60"}, {3, 3, 0, 3}},
    {"2M1I3M at 12, 2S3M1D2M at 10", CONSENSUS, CONSENSUS,
     {AT(12), "2M1I3M", "AAAAAA", "10 20 30 40 50 60"}, {AT(10), "2S3M1D2M", "AAAAAAA", "1 2 3 4 5 6 7"},
     1, {"AAAAAA", "15 20 30 46 57 60"}, {"AAAAAAA", "1 2 3 4 15 46 57"}, {3, 3, 0, 3}},
    {"4M at 10, 1M at 13", CONSENSUS, CONSENSUS,
     {AT(10), "4M", "AAAA", "1 2 3 4"}, {AT(13), "1M", "A", "10"},
     1, {"AAAA", "1 2 3 14"}, {"A", "14"}, {1, 1, 0, 1}},
    {"4M at 10, 1M at 14", CONSENSUS, CONSENSUS,
     {AT(10), "4M", "AAAA", "1 2 3 4"}, {AT(14), "1M", "A", "10"}, 0, SAME, SAME, NO_GROWTH},
    {"3M6N3M at 10, 4M at 13", CONSENSUS, CONSENSUS,
     {AT(10), "3M6N3M", "AAAAAA", "1 2 3 4 5 6"}, {AT(13), "4M", "AAAA", "10 20 30 40"}, 0, SAME, SAME, NO_GROWTH},
    {"3M6N3M at 10, 4M at 16", CONSENSUS, CONSENSUS,
     {AT(10), "3M6N3M", "AAAAAA", "1 2 3 4 5 6"}, {AT(16), "4M", "AAAA", "10 20 30 40"},
     1, {"AAAAAA", "1 2 3 44 5 6"}, {"AAAA", "10 20 30 44"}, {1, 1, 0, 1}},
    {"= and X place bases as M does", CONSENSUS, CONSENSUS,
     {AT(10), "2=1X", "AAA", "1 2 3"}, {AT(10), "1H1X1P1M1=", "AAA", "10 20 30"},
     1, {"AAA", "11 22 33"}, {"AAA", "11 22 33"}, {3, 3, 0, 3}},
    {"lengths of 0 in both", CONSENSUS, CONSENSUS,
     {AT(10), "0S1M0M1I1M0D", "AAA", "1 2 3"}, {AT(10), "0M1M0=0N1M0H", "AA", "10 20"},
     1, {"AAA", "11 2 23"}, {"AA", "11 23"}, {2, 2, 0, 2}},
    {"a length of 0 before a deletion", CONSENSUS, CONSENSUS,
     {AT(10), "1M0M1D1M", "AA", "1 2"}, {AT(10), "1D1M", "A", "10"}, 0, SAME, SAME, NO_GROWTH},
    {"a length of 0 before a deletion, the mate behind it", CONSENSUS, CONSENSUS,
     {AT(10), "1M0M1D1M", "AA", "1 2"}, {AT(10), "2N1M", "A", "10"}, 1, {"AA", "1 12"}, {"A", "12"}, {1, 1, 0, 1}},
    {"0M between clips", CONSENSUS, CONSENSUS,
     {AT(10), "2S0M2S", "AAAA", "1 2 3 4"}, {AT(10), "4M", "AAAA", "10 20 30 40"}, 0, SAME, SAME, NO_GROWTH},
    {"0M alone in the first, no bases", CONSENSUS, CONSENSUS,
     {AT(10), "0M", "", ""}, {AT(10), "4M", "AAAA", "1 2 3 4"}, 0, SAME, SAME, NO_GROWTH},
    {"0M alone in the second, with bases", CONSENSUS, CONSENSUS,
     {AT(10), "4M", "AAAA", "1 2 3 4"}, {AT(10), "0M", "AAAA", "1 2 3 4"}, 1207, SAME, SAME, NO_GROWTH},
    {"each strategy where it applies", MAX_QUAL, MASK_LOWER_QUAL,
     {AT(10), "5M", "ACGTN", "10 20 30 40 50"}, {AT(10), "5M", "ACTGA", "20 20 20 50 60"},
     1, {"ACGNN", "20 20 30 2 50"}, {"ACNGA", "20 20 2 50 60"}, {4, 2, 2, 3}},
    {"no bases in the first", CONSENSUS, CONSENSUS,
     {AT(10), "4M", "", ""}, {AT(10), "4M", "AAAA", "1 2 3 4"}, 0, SAME, SAME, NO_GROWTH},
    {"no bases in the second", CONSENSUS, CONSENSUS,
     {AT(10), "4M", "AAAA", "1 2 3 4"}, {AT(10), "4M", "", ""}, 0, SAME, SAME, NO_GROWTH},
    {"no operations in the first", CONSENSUS, CONSENSUS,
     {AT(10), "", "AAAA", "1 2 3 4"}, {AT(10), "4M", "AAAA", "1 2 3 4"}, 0, SAME, SAME, NO_GROWTH},

    /* The end of the reference: the largest position, counted from 1, is 2147483647. */
    {"pos 2147483642, 4M", CONSENSUS, CONSENSUS,
     {2147483642, "4M", "AAAA", "1 2 3 4"}, {2147483642, "4M", "AAAA", "10 20 30 40"},
     1, {"AAAA", "11 22 33 44"}, {"AAAA", "11 22 33 44"}, {4, 4, 0, 4}},
    {"pos 2147483642, 5M in the first", CONSENSUS, CONSENSUS,
     {2147483642, "5M", "AAAAA", "1 2 3 4 5"}, {2147483642, "4M", "AAAA", "10 20 30 40"},
     1108, SAME, SAME, NO_GROWTH},
    {"pos 2147483642, 5M in the second", CONSENSUS, CONSENSUS,
     {2147483642, "4M", "AAAA", "10 20 30 40"}, {2147483642, "5M", "AAAAA", "1 2 3 4 5"},
     1208, SAME, SAME, NO_GROWTH},
    {"pos 2147483647 in the first, no operations", CONSENSUS, CONSENSUS,
     {2147483647, "", "", ""}, {AT(10), "1M", "A", "1"}, 1108, SAME, SAME, NO_GROWTH},
    {"pos 2147483647 in the second, no operations", CONSENSUS, CONSENSUS,
     {AT(10), "1M", "A", "1"}, {2147483647, "", "", ""}, 1208, SAME, SAME, NO_GROWTH},
    {"pos 2147483646, no operations", CONSENSUS, CONSENSUS,
     {2147483646, "", "", ""}, {2147483646, "", "", ""}, 0, SAME, SAME, NO_GROWTH},
};
