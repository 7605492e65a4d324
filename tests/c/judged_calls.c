/* Records built from texts, and calls on a pair of them. */
#include "judged.h"

struct call given, after;

/* ---- Records ---- */

static const char BASES[] = "=ACMGRSVTWYHKDBN";

/* Lays down operations given as "2S3M", and says how many there are. */
static uint32_t lay_operations(struct record *r, const char *operations)
{
    uint32_t n = 0;
    while (*operations != '\0') {
        char *code;
        uint32_t length = (uint32_t)strtoul(operations, &code, 10);
        set_operation(r, (int)n++, length, (uint32_t)(strchr(CODES, *code) - CODES));
        operations = code + 1;
    }
    return n;
}

/* Lays down a whole record. All bytes behind it are 0xEE, as are the four for a tag. */
static void lay(struct record *r, int32_t pos, const char *operations, const uint8_t *codes, const uint8_t *qualities, uint32_t count)
{
    memset(r->bytes, 0xEE, sizeof r->bytes);
    uint32_t n = lay_operations(r, operations);
    uint8_t *bases = put_head(r->bytes, "a", 0x41, 0, (uint32_t)pos, n, count) + 4 * n;
    r->len = (size_t)(put_bases(bases, codes, qualities, count) - r->bytes) + 4;
}

void build(struct record *r, int32_t pos, const char *operations, const char *bases, const char *qualities)
{
    uint8_t codes[64], quals[64];
    uint32_t count = (uint32_t)strlen(bases);
    for (uint32_t i = 0; i < count; i++) {
        char *rest;
        codes[i] = (uint8_t)(strchr(BASES, bases[i]) - BASES);
        quals[i] = (uint8_t)strtoul(qualities, &rest, 10);
        qualities = rest;
    }
    lay(r, pos, operations, codes, quals, count);
}

void build_coded(struct record *r, int32_t pos, const char *operations, const struct called *bases, uint32_t count)
{
    static uint8_t codes[LONGEST], quals[LONGEST];
    for (uint32_t i = 0; i < count; i++) {
        codes[i] = (uint8_t)bases[i].code;
        quals[i] = (uint8_t)bases[i].quality;
    }
    lay(r, pos, operations, codes, quals, count);
}

void build_plain(struct record *r, int32_t pos, const char *operations, uint32_t count, uint8_t code, uint8_t quality)
{
    static struct called bases[LONGEST];
    for (uint32_t i = 0; i < count; i++)
        bases[i] = (struct called){code, quality};
    build_coded(r, pos, operations, bases, count);
}

void build_many(struct record *r, uint32_t count, uint32_t length, uint32_t code, uint32_t bases)
{
    memset(r->bytes, 0, sizeof r->bytes);
    r->len = NAME + 4 * count + (bases + 1) / 2 + bases;
    set(r, OPERATION_COUNT, 2, count);
    set(r, L_SEQ, 4, bases);
    for (uint32_t i = 0; i < count; i++)
        set(r, (int)(NAME + 4 * i), 4, length * 16 + code);
}

/* ---- Calls ---- */

void start_call(void)
{
    given.ways = (struct ways){OVERLAP_AGREE_CONSENSUS, OVERLAP_DISAGREE_CONSENSUS, OVERLAP_CAP_MAX};
    memset(given.counts, 0xEE, sizeof given.counts);
    put_start_counts(given.counts);
    given.counts_len = OVERLAP_COUNTS_SIZE;
}

void good_pair(void)
{
    start_call();
    build(&given.first, 9, "4M", "ACGT", "30 30 30 30");
    build(&given.second, 9, "4M", "ACGT", "20 20 20 20");
}

/* What overlap_call answers where this is the reason, and nothing but the records decides. */
static uint32_t answer_beside(uint32_t reason)
{
    if (reason <= OVERLAP_REASON_NO_SHARED_POSITION)
        return reason == 0;
    return reason % INDEX_STEP;
}

/* Asks for the reason of the records in `after`, and expects it. */
static uint32_t ask_reason(const char *what, const char *when, uint32_t expected)
{
    static struct call before;
    memcpy(&before, &after, sizeof after);
    uint32_t got = overlap_reason_call(after.first.bytes, after.first.len, after.second.bytes, after.second.len);
    check(got == expected, "%s: %s the call, expected the reason %" PRIu32 ", got %" PRIu32, what, when, expected, got);
    check(memcmp(&before, &after, sizeof after) == 0, "%s: %s the call, asking for the reason wrote a byte", what, when);
    return got;
}

/* Expects every byte in `after`, and those watched, as it is in `expected`. */
static void check_call(const char *what, const struct call *expected)
{
    check_bytes(what, "first record", expected->first.bytes, after.first.bytes, sizeof after.first.bytes);
    check_bytes(what, "second record", expected->second.bytes, after.second.bytes, sizeof after.second.bytes);
    check_bytes(what, "counts", expected->counts, after.counts, sizeof after.counts);
}

/* What the model makes of the call in `given`; gives its answer. */
static struct call model;
static uint32_t make_model(void)
{
    memcpy(&model, &given, sizeof given);
    return pair_model((struct lent){model.first.bytes, model.first.len}, (struct lent){model.second.bytes, model.second.len},
                      model.ways, (struct lent){model.counts, model.counts_len});
}

/* Expects what the model makes of the same call. */
static void check_model(const char *what, uint32_t answer)
{
    uint32_t modelled = make_model();
    check(modelled == answer, "%s: expected the answer %" PRIu32 ", the model has %" PRIu32, what, answer, modelled);
    check_call(what, &model);
}

/* Makes both calls, and expects what they answer. */
static void expect_both(const char *what, uint32_t answer, uint32_t reason)
{
    memcpy(&after, &given, sizeof given);
    uint32_t before = ask_reason(what, "before", reason);
    uint32_t got = overlap_call(after.first.bytes, after.first.len, after.second.bytes, after.second.len, after.ways.agreement,
                                after.ways.disagreement, after.ways.cap, after.counts, after.counts_len);
    check(got == answer, "%s: expected the answer %" PRIu32 ", got %" PRIu32, what, answer, got);
    check_model(what, answer);
    if (answer != 1)
        check_call(what, &given);
    check(ask_reason(what, "after", reason) == before, "%s: the reason is another after the call", what);
    if (got != 1009 && got != 1010 && got != 1015 && got != 1022)
        check(got == answer_beside(before), "%s: the answer %" PRIu32 " doesn't go with the reason %" PRIu32, what, got, before);
}

static uint32_t modelled_reason(void)
{
    return reason_model(given.first.bytes, given.first.len, given.second.bytes, given.second.len);
}

void expect_answer(const char *what, uint32_t answer)
{
    expect_both(what, answer, modelled_reason());
}

uint32_t expect_modelled(const char *what)
{
    uint32_t answer = make_model();
    expect_answer(what, answer);
    return answer;
}

void expect_answer_and_reason(const char *what, uint32_t answer, uint32_t reason)
{
    check(modelled_reason() == reason, "%s: expected the reason %" PRIu32 ", the model has %" PRIu32, what, reason, modelled_reason());
    expect_both(what, answer, reason);
}

void expect_reason(const char *what, uint32_t reason)
{
    expect_answer_and_reason(what, answer_beside(reason), reason);
}

void expect_after(const char *what, const struct record *first, const struct record *second, const uint64_t *growth)
{
    uint8_t expected[sizeof given.counts];
    memcpy(expected, given.counts, sizeof expected);
    for (int i = 0; i < 4; i++)
        put(expected + 8 * i, 8, number_at(expected + 8 * i, 8) + growth[i]);
    check_bytes(what, "first record", first->bytes, after.first.bytes, sizeof first->bytes);
    check_bytes(what, "second record", second->bytes, after.second.bytes, sizeof second->bytes);
    check_bytes(what, "counts", expected, after.counts, sizeof expected);
}

static void expect_at_each_place(const char *what, uint32_t expected, void expect(const char *, uint32_t))
{
    static struct record r;
    char placed[200];
    memcpy(&r, &given.first, sizeof r);
    for (int place = 1; place <= 2; place++) {
        good_pair();
        memcpy(place == 1 ? &given.first : &given.second, &r, sizeof r);
        snprintf(placed, sizeof placed, "%s, at place %d", what, place);
        expect(placed, expected < 1000 ? expected : expected + 100 * (uint32_t)place);
    }
}

void at_each_place(const char *what, uint32_t answer)
{
    expect_at_each_place(what, answer, expect_answer);
}

void reason_at_each_place(const char *what, uint32_t reason)
{
    expect_at_each_place(what, reason, expect_reason);
}
