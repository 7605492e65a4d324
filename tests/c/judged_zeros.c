/* Operations of length 0: they count nothing and place no base, whatever stands beside them. */
#include "judged.h"

/* An alignment in parts, on four bases of qualities 1 to 4 beside 4M of 10, 20, 30 and 40: what both become says which
   bases met. */
static const struct alignment {
    const char *parts[4];
    const char *own, *mate;
    uint64_t growth[4];
} ALIGNMENTS[] = {
    {{"4M", NULL}, "11 22 33 44", "11 22 33 44", {4, 4, 0, 4}},
    {{"2M", "2M", NULL}, "11 22 33 44", "11 22 33 44", {4, 4, 0, 4}},
    {{"1M", "1I", "2M", NULL}, "11 2 23 34", "11 23 34 40", {3, 3, 0, 3}},
    {{"1M", "1D", "3M", NULL}, "11 32 43 4", "11 20 32 43", {3, 3, 0, 3}},
    {{"1=", "2N", "3X", NULL}, "11 42 3 4", "11 20 30 42", {2, 2, 0, 2}},
    {{"1S", "2M", "1S", NULL}, "1 12 23 4", "12 23 30 40", {2, 2, 0, 2}},
};

static char operations[128];

/* Puts the parts together, with `times` times an operation before part `place`. */
static const char *with(const struct alignment *a, int place, int times, unsigned length, char code)
{
    char *end = operations;
    *end = '\0';
    for (int k = 0; k < 4; k++) {
        for (int i = 0; k == place && i < times; i++)
            end += snprintf(end, 16, "%u%c", length, code);
        if (a->parts[k] == NULL)
            break;
        end += snprintf(end, 16, "%s", a->parts[k]);
    }
    return operations;
}

static int part_count(const struct alignment *a)
{
    int n = 0;
    while (a->parts[n] != NULL)
        n++;
    return n;
}

/* The alignment with these operations has to meet its mate as it does without the ones of length 0. */
static void expect_placed(const struct alignment *a, const char *spelled)
{
    static struct record own, mate;
    char what[160];
    build(&own, 9, spelled, "AAAA", a->own);
    build(&mate, 9, "4M", "AAAA", a->mate);
    for (int place = 1; place <= 2; place++) {
        start_call();
        build(place == 1 ? &given.first : &given.second, 9, spelled, "AAAA", "1 2 3 4");
        build(place == 1 ? &given.second : &given.first, 9, "4M", "AAAA", "10 20 30 40");
        snprintf(what, sizeof what, "%s, at place %d", spelled, place);
        expect_answer(what, 1);
        expect_after(what, place == 1 ? &own : &mate, place == 1 ? &mate : &own, a->growth);
    }
}

/* Each operation, once and three times, at each place of each alignment. */
static void place_nothing(void)
{
    for (size_t i = 0; i < sizeof ALIGNMENTS / sizeof ALIGNMENTS[0]; i++)
        for (int place = 0; place <= part_count(&ALIGNMENTS[i]); place++)
            for (const char *code = CODES; *code != '\0'; code++)
                for (int times = 1; times <= 3; times += 2)
                    expect_placed(&ALIGNMENTS[i], with(&ALIGNMENTS[i], place, times, 0, *code));
}

/* Length 0 beside length 1, at each place of 2M2M: the read total (7), the end (8) and an unknown code (5). */
static void beside_refusals(void)
{
    struct record *r = &given.first;
    const struct alignment *a = &ALIGNMENTS[1];
    for (const char *code = CODES; *code != '\0'; code++) {
        for (int place = 0; place <= 2; place++) {
            for (unsigned length = 0; length <= 1; length++) {
                uint32_t read = length * (strchr("MIS=X", *code) != NULL);
                int32_t end = 2147483646 - 4 - (int32_t)length * (strchr("MDN=X", *code) != NULL);
                const char *spelled = with(a, place, 1, length, *code);
                for (uint32_t count = 3; count <= 6; count++) {
                    build_plain(r, 9, spelled, count, 1, 30);
                    at_each_place(text("%s on %u bases", spelled, count), count == 4 + read ? 1 : FAULT(7));
                }
                build_plain(r, end, spelled, 4 + read, 1, 30); at_each_place(text("%s, an end at the limit", spelled), 0);
                build_plain(r, end + 1, spelled, 4 + read, 1, 30); at_each_place(text("%s, an end one past the limit", spelled), FAULT(8));
            }
            for (uint32_t unknown = 9; unknown <= 15; unknown += 6) {
                const char *spelled = with(a, place, 2, 0, *code);
                build_plain(r, 9, spelled, 4, 1, 30); set_operation(r, place, 0, unknown);
                at_each_place(text("%s, the first of the two of code %u", spelled, unknown), FAULT(5));
                build_plain(r, 9, spelled, 4, 1, 30); set_operation(r, place + 1, 0, unknown);
                at_each_place(text("%s, the second of the two of code %u", spelled, unknown), FAULT(5));
                build_plain(r, 9, spelled, 5, 1, 30); set_operation(r, place + 1, 1, unknown);
                at_each_place(text("%s, code %u before a total one off", spelled, unknown), FAULT(5));
            }
        }
    }
}

/* No other operation: with bases their total is not met, without there is no overlap. */
static void alone(void)
{
    struct record *r = &given.first;
    for (const char *code = CODES; *code != '\0'; code++) {
        snprintf(operations, sizeof operations, "0%c", *code);
        build_plain(r, 9, operations, 0, 1, 30); at_each_place(text("%s alone, no bases", operations), 0);
        build_plain(r, 9, operations, 1, 1, 30); at_each_place(text("%s alone, a base", operations), FAULT(7));
        build_plain(r, 9, operations, 4, 1, 30); at_each_place(text("%s alone, four bases", operations), FAULT(7));
        build_plain(r, 2147483646, operations, 0, 1, 30); at_each_place(text("%s alone at pos 2147483646", operations), 0);
        build_plain(r, 2147483647, operations, 0, 1, 30); at_each_place(text("%s alone at pos 2147483647", operations), FAULT(8));
    }
}

/* As many as a record holds: 16,376 in 65,536 bytes, one more are too long. Then as many before and behind a base. */
static void in_a_row(void)
{
    struct record *r = &given.first;
    for (uint32_t code = 0; code <= 8; code++) {
        build_many(r, 16376, 0, code, 0); check(r->len == LONGEST, "16376 operations: expected a record of 65536 bytes");
        at_each_place(text("16376 times code %u of length 0", code), 0);
        build_many(r, 16377, 0, code, 0); at_each_place(text("16377 times code %u of length 0", code), FAULT(2));
        build_many(r, 16375, 0, code, 1); at_each_place(text("16375 times code %u of length 0, a base", code), FAULT(7));
        for (int at = 0; at < 16375; at += 8187) {
            build_many(r, 16375, 0, code, 1); set(r, POS, 4, 9); set(r, NAME + 4 * at, 4, 1 * 16);
            at_each_place(text("1M behind %d and before others of length 0", at), 1);
        }
    }
}

void lengths_of_zero(void)
{
    place_nothing();
    beside_refusals();
    alone();
    in_a_row();
}
