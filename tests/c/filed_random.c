/* Random groups, given again, damaged and cut off. */
#include "filed.h"

/* Operations, mostly M, some of length 0; of a spoiled read now and then one of no known code. */
static void random_operations(struct read *r, int spoiled)
{
    r->operation_count = once_in(32) ? 0 : 1 + below(4);
    r->count = 0;
    for (uint32_t i = 0; i < r->operation_count; i++) {
        uint32_t code = once_in(3) ? below(9) : 0, length = 1 + below(5);
        if (once_in(8))
            length = 0;
        if (spoiled && once_in(12))
            code = 9 + below(7);
        r->operations[i] = length * 16 + code;
        if (code == 0 || code == 1 || code == 4 || code == 7 || code == 8)
            r->count += length;
    }
    if (once_in(32))
        r->count = 0;
    if (spoiled && once_in(8))
        r->count++;
}

/* A read with one of so many names. */
static void add_random(uint32_t names, int spoiled)
{
    static const char *const NAMES[] = {"a", "b", "", NULL, "ab"};
    struct read r = {.name = NAMES[below(names)], .flags = once_in(2) ? 64 : 128, .pos = below(5), .tags = below(4)};
    random_operations(&r, spoiled);
    if (once_in(12))
        r.flags ^= once_in(2) ? 64 : 128;
    r.flags |= (once_in(24) ? 4u : 0) | (once_in(24) ? 256u : 0) | (once_in(24) ? 2048u : 0);
    if (once_in(24))
        r.ref_id = once_in(2) ? 1 : 0xFFFFFFFF;
    if (once_in(32))
        r.pos = 0xFFFFFFFF;
    if (spoiled && once_in(8))
        r.pos = 2147483640 + below(8);
    for (uint32_t i = 0; i < r.count; i++) {
        r.codes[i] = once_in(4) ? (uint8_t)below(16) : (uint8_t)(1u << below(4));
        r.qualities[i] = (uint8_t)below(once_in(8) ? 256 : 45);
    }
    add(&r);
}

static void random_frames(void)
{
    uint32_t n = below(13), names = 1 + below(5);
    int spoiled = once_in(4);
    start_group();
    while (records < n)
        add_random(names, spoiled);
}

void random_group(void)
{
    random_frames();
    finish(below(9));
    for (int i = 0; i < 4; i++)
        put(at(&given.counts) + 8 * i, 8, once_in(16) ? COUNT_LIMIT - 8 + below(10) : next() >> 1);
    if (once_in(8))
        given.out.len += below(20);
    else if (once_in(8))
        given.out.len = below(given.out.len);
}

static void change_trailer(void)
{
    uint8_t *t = trailer();
    switch (below(6)) {
    case 0: t[STATE] = (uint8_t)below(4); break;
    case 1: t[STRATEGIES] = (uint8_t)below(12); break;
    case 2: put(t + RECORDS, 4, records - 1 + below(3)); break;
    case 3: put(t + DISTANCE, 8, begin[records] - 1 + below(3)); break;
    case 4: t[GROWTH + below(32)] = (uint8_t)below(3); break;
    case 5: t[STATE] = 1; t[GROWTH + below(32)] = (uint8_t)below(256); break;
    }
}

/* How often a group was corrected (0) and known as corrected (1), and how often refused with each number. */
static unsigned known[2], refused[22];

static uint32_t try_random(const char *what, unsigned i)
{
    uint32_t answer = compare(text("%s %u", what, i));
    if (answer < 2)
        known[answer]++;
    else
        refused[answer % 100]++;
    return answer;
}

/* The group in `from` with one byte changed, with one field of the trailer changed, and cut off. */
static void damage(const struct call *from, const char *what, unsigned i)
{
    copy_call(&given, from);
    at(&given.filed)[below(given.filed.len)] ^= (uint8_t)(1 + below(255));
    try_random(text("%s, damaged,", what), i);
    copy_call(&given, from);
    change_trailer();
    try_random(text("%s, another trailer,", what), i);
    copy_call(&given, from);
    given.filed.len = below(given.filed.len);
    check(try_random(text("%s, cut off,", what), i) > 1000, "%s %u, cut off: it isn't refused", what, i);
}

void random_groups(unsigned groups)
{
    const int numbers[] = {1, 3, 4, 5, 7, 8, 9, 11, 19, 20, 21};
    static struct call raw, corrected;
    for (unsigned i = 0; i < groups; i++) {
        random_group();
        copy_call(&raw, &given);
        if (try_random("random group", i) == 0) {
            give_again("random group");
            copy_call(&corrected, &given);
            check(try_random("random group, again,", i) == 1, "random group %u, again: it isn't known", i);
            damage(&corrected, "corrected group", i);
        }
        damage(&raw, "raw group", i);
    }
    check(known[0] > 0 && known[1] > 0, "random groups: none was corrected, or none was known");
    for (size_t i = 0; i < sizeof numbers / sizeof numbers[0]; i++)
        check(refused[numbers[i]] > 0, "random groups: none was refused with %d", numbers[i]);
}
