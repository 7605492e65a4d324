/* Torn outputs: every proper front of a corrected group is refused. */
#include "filed.h"

/* The output of the group in `given`: every proper front is refused and changes nothing, the whole is
   known, and one byte more is refused. The bytes behind a front are those of the whole. */
static void tear(const char *what, unsigned i)
{
    expect(text("%s %u, torn", what, i), 0);
    give_again(what);
    size_t len = given.filed.len;
    for (size_t k = 0; k < len; k++) {
        given.filed.len = k;
        uint32_t answer = compare(text("%s %u, %zu bytes of its output", what, i, k));
        check(answer > 1000, "%s %u, %zu bytes of its output: not refused", what, i, k);
    }
    given.filed.len = len;
    expect(text("%s %u, its whole output", what, i), 1);
    for (unsigned b = 0; b < 256; b += 51) {
        at(&given.filed)[len] = (uint8_t)b;
        given.filed.len = len + 1;
        expect(text("%s %u, its output and a byte %u", what, i, b), REFUSED(20, 0));
    }
}

void torn_outputs(void)
{
    build_empty(); tear("empty group", 0);
    build_no_overlap(); tear("no overlap", 0);
    build_256(); tear("256 records", 0);
    build_nested(); tear("a filed group in tags", 0);
    for (unsigned i = 0; i < PAIRING_COUNT; i++) {
        build_pairing(i); tear("pairing", i);
    }
    for (unsigned s = 0; s < 9; s++) {
        build_strategies(s); tear("strategies", s);
    }
    for (unsigned i = 0; i < 30;) {
        random_group();
        lend();
        if (compare("random group, to be torn") == 0)
            tear("random group", i++);
    }
}
