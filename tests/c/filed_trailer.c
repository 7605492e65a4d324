/* The trailer call. */
#include "filed.h"

/* Makes the trailer of the frames in given.filed in given.out, and compares it with the model. */
static uint32_t compare_trailer(const char *what, uint32_t agreement, uint32_t disagreement)
{
    copy_call(&expected, &given);
    copy_call(&after, &given);
    uint32_t answer = trailer_model(at(&expected.filed), expected.filed.len, agreement, disagreement, at(&expected.out), expected.out.len);
    uint32_t got = overlap_trailer_call(at(&after.filed), after.filed.len, agreement, disagreement, at(&after.out), after.out.len);
    check(got == answer, "%s: expected the answer %" PRIu32 ", got %" PRIu32, what, answer, got);
    check_buffer(what, "frames, which begins at byte 61", &given.filed, &after.filed);
    check_buffer(what, "trailer, which begins at byte 61", &expected.out, &after.out);
    return answer;
}

static void expect_trailer(const char *what, uint32_t agreement, uint32_t disagreement, size_t room, uint32_t answer)
{
    lend();
    given.out.len = room;
    memset(given.out.room, 0xEE, MARGIN + room + MARGIN);
    uint32_t model = compare_trailer(what, agreement, disagreement);
    check(model == answer, "%s: the model should answer %" PRIu32 ", and answers %" PRIu32, what, answer, model);
}

/* The frames of the good group, with nothing behind them. */
static void good_frames(void)
{
    good_group();
    given.filed.len = begin[records];
}

static void limits_of_making(void)
{
    const uint8_t zeros[4] = {0};
    for (uint32_t m = 0; m <= 3; m++)
        for (uint32_t k = 0; k <= 3; k++) {
            good_frames(); expect_trailer(text("trailer for %u and %u", m, k), m, k, 50, m < 3 && k < 3 ? 0 : REFUSED(10, 0));
        }
    good_frames(); expect_trailer("trailer for 4294967295", 4294967295, 0, 50, REFUSED(10, 0));
    good_frames(); expect_trailer("trailer for 256", 0, 256, 50, REFUSED(10, 0));
    for (size_t room = 0; room <= 60; room++) {
        good_frames(); expect_trailer(text("a trailer in %zu bytes", room), 0, 0, room, room < 50 ? REFUSED(19, 0) : 0);
    }
    start_group(); expect_trailer("trailer of no frames", 2, 2, 50, 0);
    for (size_t n = 1; n <= 4; n++) {
        good_frames(); add_bytes(zeros, n);
        expect_trailer(text("trailer of frames and %zu bytes", n), 0, 0, 50, n < 4 ? REFUSED(11, 3) : REFUSED(1, 3));
        build_256(); given.filed.len = begin[256]; add_bytes(zeros, n);
        expect_trailer(text("trailer of 256 frames and %zu bytes", n), 0, 0, 50, REFUSED(12, 256));
    }
    good_group(); expect_trailer("trailer of a filed group", 0, 0, 50, REFUSED(1, 3));
    build_256(); given.filed.len = begin[256]; expect_trailer("trailer of 256 frames", 0, 0, 50, 0);
    build_many(257); given.filed.len = begin[257]; expect_trailer("trailer of 257 frames", 0, 0, 50, REFUSED(12, 256));
}

/* 10 before the frames' refusals before 19. */
static void order_of_making(void)
{
    for (int k = 0; k < 4; k++)
        for (int fault = 0; fault < FRAME_FAULT_COUNT; fault++) {
            uint32_t refusal = REFUSED(build_frame_fault(fault, k), k);
            given.filed.len = begin[records];
            expect_trailer("10 before a frame and 19", 3, 3, 49, REFUSED(10, 0));
            expect_trailer("a frame before 19", 0, 0, 49, refusal);
            expect_trailer("a frame alone", 0, 0, 50, refusal);
        }
    good_frames(); expect_trailer("10 before 19", 3, 0, 49, REFUSED(10, 0));
    good_frames(); expect_trailer("19 alone", 2, 2, 49, REFUSED(19, 0));
}

/* The trailer that is made is the one that was put there, and behind its frames the group is taken. */
static void random_trailers(unsigned groups)
{
    static uint8_t put_there[TRAILER];
    for (unsigned i = 0; i < groups; i++) {
        random_group();
        uint32_t strategies = trailer()[STRATEGIES];
        memcpy(put_there, trailer(), TRAILER);
        given.filed.len = begin[records];
        expect_trailer(text("random trailer %u", i), strategies / 3, strategies % 3, 50 + below(11), 0);
        check_bytes("random trailer", "trailer", put_there, at(&after.out), TRAILER);
        add_bytes(at(&after.out), TRAILER);
        lend();
        uint32_t number = compare(text("random group %u with a trailer made", i)) % 100;
        check(number != 11 && number != 12 && number != 20 && number != 21, "random trailer %u: the group is refused by %u", i, number);
        given.filed.len = begin[records] == 0 ? 0 : below(begin[records]);
        given.out.len = 40 + below(20);
        if (given.filed.len > 0 && once_in(2))
            at(&given.filed)[below(given.filed.len)] = (uint8_t)below(256);
        compare_trailer(text("random trailer %u, damaged", i), below(4), below(3));
    }
}

void trailer_calls(unsigned random_groups)
{
    limits_of_making();
    order_of_making();
    random_trailers(random_groups);
}
