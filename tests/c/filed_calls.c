/* Calls with watched bytes around their buffers, compared with the model of model.h. */
#include "filed.h"

struct call given, expected, after;

static void copy_buffer(struct buffer *to, const struct buffer *from)
{
    to->len = from->len;
    memcpy(to->room, from->room, MARGIN + from->len + MARGIN);
}

void copy_call(struct call *to, const struct call *from)
{
    copy_buffer(&to->filed, &from->filed);
    copy_buffer(&to->out, &from->out);
    copy_buffer(&to->counts, &from->counts);
}

void check_buffer(const char *what, const char *where, const struct buffer *want, const struct buffer *got)
{
    check_bytes(what, where, want->room, got->room, MARGIN + want->len + MARGIN);
}

uint32_t compare(const char *what)
{
    copy_call(&expected, &given);
    copy_call(&after, &given);
    uint32_t answer = filed_model(at(&expected.filed), expected.filed.len, at(&expected.out), expected.out.len,
                                  at(&expected.counts), expected.counts.len);
    uint32_t got = overlap_filed_call(at(&after.filed), after.filed.len, at(&after.out), after.out.len,
                                      at(&after.counts), after.counts.len);
    check(got == answer, "%s: expected the answer %" PRIu32 ", got %" PRIu32, what, answer, got);
    check_buffer(what, "filed, which begins at byte 61", &given.filed, &after.filed);
    check_buffer(what, "out, which begins at byte 61", &expected.out, &after.out);
    check_buffer(what, "counts, which begins at byte 61", &expected.counts, &after.counts);
    return answer;
}

void expect(const char *what, uint32_t answer)
{
    uint32_t model = compare(what);
    check(model == answer, "%s: the model should answer %" PRIu32 ", and answers %" PRIu32, what, answer, model);
}

void expect_growth(const char *what, const uint64_t *growth)
{
    const uint8_t *t = at(&after.out) + begin[records];
    check(t[STATE] == 1, "%s: expected state 1, got %u", what, t[STATE]);
    for (int i = 0; i < 4; i++)
        check(number_at(t + GROWTH + 8 * i, 8) == growth[i], "%s: growth of count %d isn't %" PRIu64, what, i, growth[i]);
}

void give_again(const char *what)
{
    for (int i = 0; i < 4; i++) {
        uint64_t grown = number_at(at(&after.counts) + 8 * i, 8) - number_at(at(&given.counts) + 8 * i, 8);
        uint64_t said = number_at(at(&after.out) + begin[records] + GROWTH + 8 * i, 8);
        check(grown == said, "%s: count %d grew by %" PRIu64 ", and the trailer says %" PRIu64, what, i, grown, said);
    }
    memcpy(at(&given.filed), at(&after.out), given.filed.len);
    lend();
}
