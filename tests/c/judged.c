/*
 * The exported calls on a pair, run on the paper's whole case, on the examples of examples.h, on each refusal and each
 * reason at its limit and one off, on every two faults at once, and with every cap. It prints the seed of the random
 * pairs, a line for each check that fails, and at the end how many passed and failed.
 *
 *   judged [SEED]
 */
#include "judged.h"
#include "examples.h"

unsigned passed, failed;
uint64_t random_state;

/* A record from the hexadecimal that the paper writes. */
static void from_hex(struct record *r, const char *hex)
{
    memset(r->bytes, 0xEE, sizeof r->bytes);
    r->len = 0;
    while (*hex != '\0') {
        if (*hex == ' ') {
            hex++;
            continue;
        }
        char digits[3] = {hex[0], hex[1], '\0'};
        r->bytes[r->len++] = (uint8_t)strtoul(digits, NULL, 16);
        hex += 2;
    }
}

static void whole_case(void)
{
    static struct record first, second;
    const uint64_t growth[4] = {3, 2, 1, 4};
    start_call();
    memset(given.counts, 0, OVERLAP_COUNTS_SIZE);
    from_hex(&given.first, "00000000 09000000 02 3C 4912 0100 4100 04000000 00000000 0A000000 05000000 6100 40000000 1248 1E1E1E1E");
    from_hex(&given.second, "00000000 0A000000 02 3C 4912 0100 8100 04000000 00000000 09000000 FBFFFFFF 6100 40000000 2411 141E0A28");
    from_hex(&first, "00000000 09000000 02 3C 4912 0100 4100 04000000 00000000 0A000000 05000000 6100 40000000 1248 1E323C14");
    from_hex(&second, "00000000 0A000000 02 3C 4912 0100 8100 04000000 00000000 09000000 FBFFFFFF 6100 40000000 2481 323C1428");
    check(given.first.len == 44 && given.second.len == 44, "whole case: expected two records of 44 bytes");
    expect_answer("whole case", 1);
    expect_after("whole case", &first, &second, growth);
}

static void build_after(struct record *r, const struct read *before, const struct after *a)
{
    build(r, before->pos, before->operations, a->bases ? a->bases : before->bases, a->qualities ? a->qualities : before->qualities);
}

void examples(uint32_t cap)
{
    static struct record first, second;
    int refused = cap < LEAST_CAP || cap > MOST_CAP;
    for (size_t i = 0; i < sizeof EXAMPLES / sizeof EXAMPLES[0]; i++) {
        const struct example *e = &EXAMPLES[i];
        const char *what = text("%s, cap %" PRIu32, e->what, cap);
        start_call();
        given.ways = (struct ways){e->agreement, e->disagreement, cap};
        build(&given.first, e->first.pos, e->first.operations, e->first.bases, e->first.qualities);
        build(&given.second, e->second.pos, e->second.operations, e->second.bases, e->second.qualities);
        build_after(&first, &e->first, &e->first_after);
        build_after(&second, &e->second, &e->second_after);
        expect_answer(what, refused ? 1022 : e->answer);
        if (e->answer == 1 && cap == MOST_CAP)
            expect_after(what, &first, &second, e->growth);
    }
}

/* The last base of an odd number shares its byte with nothing: the other half stays. */
static void spare_half(void)
{
    const size_t at = OPERATIONS + 4 + 1;
    start_call();
    build(&given.first, 9, "3M", "AAT", "30 30 30");
    build(&given.second, 9, "3M", "AAC", "30 30 40");
    expect_answer("spare half byte", 1);
    check(after.first.bytes[at] == 0x2A, "spare half byte of the first: expected 2A, got %02X", after.first.bytes[at]);
    check(after.second.bytes[at] == 0x2A, "spare half byte of the second: expected 2A, got %02X", after.second.bytes[at]);
}

/* As many bases as a record of 65,536 bytes can have: 43,665 beside the name and one operation. */
static void longest_reads(void)
{
    static struct record first, second;
    const uint64_t growth[4] = {43665, 0, 43665, 87330};
    start_call();
    build_plain(&given.first, 9, "43665M", 43665, 8, 30);
    build_plain(&given.second, 9, "43665M", 43665, 1, 10);
    given.first.len -= 4; /* no room for the tag */
    given.second.len -= 4;
    build_plain(&first, 9, "43665M", 43665, 8, 20);
    build_plain(&second, 9, "43665M", 43665, 8, 20);
    check(given.first.len == LONGEST, "longest reads: expected a record of 65536 bytes");
    expect_answer("longest reads", 1);
    expect_after("longest reads", &first, &second, growth);
}

int main(int argc, char **argv)
{
    random_state = argc > 1 ? strtoull(argv[1], NULL, 10) : 20261116;
    printf("seed %" PRIu64 "\n", random_state);
    whole_case();
    examples(MOST_CAP);
    spare_half();
    longest_reads();
    limits();
    order_of_judgement();
    reasons();
    caps();
    return tell_checks();
}
