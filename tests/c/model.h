/*
 * The paper in plain C, the only text of it here: what a shared position becomes under a cap (oracle/htslib.c holds it
 * against what htslib reads), why two records do not overlap, what a pair becomes, frames, mates, and the filed call and
 * the trailer call as include/overlap.h tells them. What a pair of a filed group becomes and adds is asked of
 * overlap_call, with the cap that filed groups keep to. bench/limit.c and bench/program.c tell the same again for speed.
 */
#ifndef MODEL_H
#define MODEL_H

#include "overlap.h"

#include <string.h>

#include "records.h"

/* Where the numbers of a trailer stand. */
enum { STATE = 4, STRATEGIES = 5, RECORDS = 6, GROWTH = 10, DISTANCE = 42, TRAILER = OVERLAP_TRAILER_SIZE };

/* The longest group that is tried. */
enum { LONGEST_GROUP = 1 << 19 };

/* The answer for a refusal by number, at the record of an index, or at 0. */
#define REFUSED(number, place) (1000u + 100u * (uint32_t)(place) + (uint32_t)(number))

/* ---- A shared position ---- */

enum { NO_CALL = 15 };   /* the code of N */

struct called {
    int code, quality;
};

/* What a caller chooses: the strategies by their numbers, and the cap on what agreement under Consensus gives. */
struct ways {
    uint32_t agreement, disagreement, cap;
};

/* What two bases become that share a position, neither of them an N; gives by how much the count of corrected ones grows. */
static inline unsigned treat(struct called *x, struct called *y, struct ways by)
{
    const struct called masked = {NO_CALL, 2};
    int a = x->quality, b = y->quality, larger = a > b ? a : b, apart = a > b ? a - b : b - a, cap = (int)by.cap;
    if (x->code == y->code) {
        if (by.agreement == 0)
            x->quality = y->quality = a + b > cap ? cap : a + b;
        else if (by.agreement == 1)
            x->quality = y->quality = larger;
        return x->quality != a || y->quality != b;
    }
    if (by.disagreement == 0 && apart > 0) {
        struct called winner = {a > b ? x->code : y->code, apart < 2 ? 2 : apart};
        *x = *y = winner;
        return 2;
    }
    if (by.disagreement < 2 || a <= b)
        *x = masked;
    if (by.disagreement < 2 || b <= a)
        *y = masked;
    return by.disagreement == 2 && apart > 0 ? 1 : 2;
}

/* ---- A record ---- */

/* The number that refuses a record of so many bytes, or 0. */
static inline uint32_t fault_of(const uint8_t *r, uint64_t size)
{
    if (size < NAME)
        return 1;
    if (size > LONGEST)
        return 2;
    uint64_t bases = NAME + number_at(r + NAME_LENGTH, 1) + 4 * number_at(r + OPERATION_COUNT, 2);
    uint64_t count = number_at(r + L_SEQ, 4);
    if (bases > size)
        return 3;
    return bases + (count + 1) / 2 + count > size ? 4 : 0;
}

/* ---- Why a pair does not overlap ---- */

/* The largest end of a read on its reference, and what an operation's index adds to refusal 5. */
enum { LAST_END = 2147483646, INDEX_STEP = 10000 };

/* An operation by its index: length * 16 + code. */
static inline uint64_t operation_at(const uint8_t *r, uint64_t k)
{
    return number_at(r + NAME + r[NAME_LENGTH] + 4 * k, 4);
}

static inline int uses_read(uint64_t code)        /* M I S = X */
{
    return code == 0 || code == 1 || code == 4 || code == 7 || code == 8;
}

static inline int uses_reference(uint64_t code)   /* M D N = X */
{
    return code == 0 || code == 2 || code == 3 || code == 7 || code == 8;
}

/* The lengths of the first n operations that use it, added up. */
static inline uint64_t used(const uint8_t *r, uint64_t n, int uses(uint64_t code))
{
    uint64_t sum = 0;
    for (uint64_t k = 0; k < n; k++)
        if (uses(operation_at(r, k) % 16))
            sum += operation_at(r, k) / 16;
    return sum;
}

static inline uint64_t operation_count(const uint8_t *r)
{
    return number_at(r + OPERATION_COUNT, 2);
}

/* 5, 7 or 8 of a record that has its parts, 5 with the operation's index; or 0. */
static inline uint32_t fault_of_operations(const uint8_t *r)
{
    uint64_t n = operation_count(r), count = number_at(r + L_SEQ, 4);
    for (uint64_t k = 0; k < n; k++)
        if (operation_at(r, k) % 16 > 8)
            return 5 + INDEX_STEP * (uint32_t)k;
    if (n > 0 && count > 0 && used(r, n, uses_read) != count)
        return 7;
    return number_at(r + POS, 4) + used(r, n, uses_reference) > LAST_END ? 8 : 0;
}

/* The reference position, counted from 1, at which base i sits; 0 where it sits nowhere. */
static inline uint64_t seat_of(const uint8_t *r, uint64_t i)
{
    uint64_t read = 0, reference = 0;
    for (uint64_t k = 0; k < operation_count(r); k++) {
        uint64_t length = operation_at(r, k) / 16, code = operation_at(r, k) % 16;
        if (uses_read(code) && uses_reference(code) && i >= read && i < read + length)
            return number_at(r + POS, 4) + 1 + reference + (i - read);
        read += uses_read(code) ? length : 0;
        reference += uses_reference(code) ? length : 0;
    }
    return 0;
}

/* Whether a base of one record and a base of the other sit at the same position: every base with every other. */
static inline int share_a_position(const uint8_t *r, const uint8_t *s)
{
    for (uint64_t i = 0; i < number_at(r + L_SEQ, 4); i++) {
        uint64_t seat = seat_of(r, i);
        for (uint64_t j = 0; seat != 0 && j < number_at(s + L_SEQ, 4); j++)
            if (seat_of(s, j) == seat)
                return 1;
    }
    return 0;
}

/* What overlap_reason_call answers. */
static inline uint32_t reason_model(const uint8_t *first, size_t first_len, const uint8_t *second, size_t second_len)
{
    uint32_t fault;
    if ((fault = fault_of(first, first_len)) != 0)
        return REFUSED(fault, 1);
    if ((fault = fault_of(second, second_len)) != 0)
        return REFUSED(fault, 2);
    if ((number_at(first + FLAGS, 2) & 4) != 0 || (number_at(second + FLAGS, 2) & 4) != 0)
        return OVERLAP_REASON_UNMAPPED;
    if (number_at(first + REF_ID, 4) != number_at(second + REF_ID, 4))
        return OVERLAP_REASON_REFERENCES_DIFFER;
    if (number_at(first + POS, 4) > INT32_MAX || number_at(second + POS, 4) > INT32_MAX)
        return OVERLAP_REASON_NEGATIVE_POSITION;
    if ((fault = fault_of_operations(first)) != 0)
        return REFUSED(fault, 1);
    if ((fault = fault_of_operations(second)) != 0)
        return REFUSED(fault, 2);
    if (used(first, operation_count(first), uses_reference) == 0 || used(second, operation_count(second), uses_reference) == 0)
        return OVERLAP_REASON_NO_REFERENCE_LENGTH;
    return share_a_position(first, second) ? 0 : OVERLAP_REASON_NO_SHARED_POSITION;
}

/* ---- What a pair becomes ---- */

/* Some bytes that are lent. */
struct lent {
    uint8_t *at;
    size_t len;
};

/* The base that sits at a reference position, counted from 1; -1 where none does. */
static inline int64_t base_at(const uint8_t *r, uint64_t position)
{
    uint64_t read = 0, seat = number_at(r + POS, 4) + 1;
    for (uint64_t k = 0; k < operation_count(r); k++) {
        uint64_t length = operation_at(r, k) / 16, code = operation_at(r, k) % 16;
        if (uses_read(code) && uses_reference(code) && position >= seat && position < seat + length)
            return number_at(r + L_SEQ, 4) > 0 ? (int64_t)(read + (position - seat)) : -1;
        read += uses_read(code) ? length : 0;
        seat += uses_reference(code) ? length : 0;
    }
    return -1;
}

/* Where the bases of a record begin, two in a byte, and its qualities behind them. */
static inline uint8_t *bases_of(uint8_t *r)
{
    return r + NAME + r[NAME_LENGTH] + 4 * operation_count(r);
}

static inline uint8_t *qualities_of(uint8_t *r)
{
    return bases_of(r) + (number_at(r + L_SEQ, 4) + 1) / 2;
}

static inline struct called base_of(uint8_t *r, uint64_t i)
{
    uint8_t two = bases_of(r)[i / 2];
    struct called base = {i % 2 == 0 ? two >> 4 : two & 15, qualities_of(r)[i]};
    return base;
}

static inline void set_base(uint8_t *r, uint64_t i, struct called base)
{
    uint8_t *two = bases_of(r) + i / 2;
    *two = (uint8_t)(i % 2 == 0 ? base.code << 4 | (*two & 15) : (*two & 0xF0) | base.code);
    qualities_of(r)[i] = (uint8_t)base.quality;
}

/* Treats every shared position of two records that have passed all checks, and adds to the counts' growth. */
static inline void treat_shared(uint8_t *first, uint8_t *second, struct ways by, uint64_t *growth)
{
    for (uint64_t i = 0; i < number_at(first + L_SEQ, 4); i++) {
        uint64_t seat = seat_of(first, i);
        int64_t j = seat == 0 ? -1 : base_at(second, seat);
        if (j < 0)
            continue;
        struct called x = base_of(first, i), y = base_of(second, (uint64_t)j);
        if (x.code == NO_CALL || y.code == NO_CALL)
            continue;
        growth[0]++;
        growth[x.code == y.code ? 1 : 2]++;
        growth[3] += treat(&x, &y, by);
        set_base(first, i, x);
        set_base(second, (uint64_t)j, y);
    }
}

/* What refuses a call before it looks at the records, or 0. */
static inline uint32_t fault_of_call(struct ways by, struct lent counts)
{
    if (counts.len != OVERLAP_COUNTS_SIZE)
        return REFUSED(15, 0);
    if (by.agreement > 2 || by.disagreement > 2)
        return REFUSED(10, 0);
    if (by.cap < LEAST_CAP || by.cap > MOST_CAP)
        return REFUSED(22, 0);
    for (int i = 0; i < 4; i++)
        if (number_at(counts.at + 8 * i, 8) > COUNT_LIMIT)
            return REFUSED(9, 0);
    return 0;
}

/* What overlap_call answers and writes. */
static inline uint32_t pair_model(struct lent first, struct lent second, struct ways by, struct lent counts)
{
    uint64_t growth[4] = {0};
    uint32_t refusal = fault_of_call(by, counts);
    if (refusal != 0)
        return refusal;
    uint32_t reason = reason_model(first.at, first.len, second.at, second.len);
    if (reason != 0)
        return reason <= OVERLAP_REASON_NO_SHARED_POSITION ? 0 : reason % INDEX_STEP;
    treat_shared(first.at, second.at, by, growth);
    for (int i = 0; i < 4; i++)
        put(counts.at + 8 * i, 8, number_at(counts.at + 8 * i, 8) + growth[i]);
    return 1;
}

/* ---- Frames ---- */

/* A group cut into frames: where each begins, and behind them where the last one ends. */
struct cut {
    uint32_t refusal;   /* the answer that a faulty frame gives, or 0 */
    int zero;           /* whether a zero size ended the frames */
    size_t records, begin[MOST_RECORDS + 1];
};

static inline void cut_frames(struct cut *c, const uint8_t *s, size_t len, int zero_ends)
{
    size_t at = 0;
    memset(c, 0, sizeof *c);
    while (at < len) {
        size_t left = len - at;
        uint64_t size = left < 4 ? 0 : number_at(s + at, 4);
        uint32_t fault = 0;
        if (zero_ends && left >= 4 && size == 0) {
            c->zero = 1;
            return;
        }
        if (c->records == MOST_RECORDS)
            fault = 12;
        else if (left < 4 || size > left - 4)
            fault = 11;
        else
            fault = fault_of(s + at + 4, size);
        if (fault != 0) {
            c->refusal = REFUSED(fault, c->records);
            return;
        }
        at += 4 + (size_t)size;
        c->begin[++c->records] = at;
    }
}

/* ---- Mates ---- */

enum { NO_PLACE, FIRST_PLACE, LAST_PLACE };

static inline int place_of(const uint8_t *r)
{
    uint64_t flags = number_at(r + FLAGS, 2);
    if (flags & (256 | 2048))
        return NO_PLACE;
    return flags & 64 ? FIRST_PLACE : flags & 128 ? LAST_PLACE : NO_PLACE;
}

static inline int same_name(const uint8_t *r, const uint8_t *s)
{
    size_t n = r[NAME_LENGTH] > 1 ? r[NAME_LENGTH] - 1u : 0;
    size_t m = s[NAME_LENGTH] > 1 ? s[NAME_LENGTH] - 1u : 0;
    return n == m && memcmp(r + NAME, s + NAME, n) == 0;
}

/* Each record registers, and takes the registration of an earlier one of its name and place. */
static inline void register_all(const uint8_t *s, const struct cut *c, int *place)
{
    for (size_t k = 0; k < c->records; k++) {
        const uint8_t *r = s + c->begin[k] + 4;
        place[k] = place_of(r);
        for (size_t i = 0; i < k; i++)
            if (place[i] != NO_PLACE && place[i] == place[k] && same_name(s + c->begin[i] + 4, r))
                place[i] = NO_PLACE;
    }
}

/* Corrects the pair of records i and j where they stand, and adds to the growth. 0, or the refusal. */
static inline uint32_t correct_pair(uint8_t *s, const struct cut *c, size_t i, size_t j, unsigned strategies, uint64_t *growth)
{
    uint8_t counts[OVERLAP_COUNTS_SIZE] = {0};
    uint32_t answer = overlap_call(s + c->begin[i] + 4, c->begin[i + 1] - c->begin[i] - 4,
                                   s + c->begin[j] + 4, c->begin[j + 1] - c->begin[j] - 4,
                                   strategies / 3, strategies % 3, MOST_CAP, counts, sizeof counts);
    if (answer > 1)
        return REFUSED(answer % 100, answer / 100 % 10 == 1 ? i : j);
    for (int k = 0; k < 4; k++)
        growth[k] += number_at(counts + 8 * k, 8);
    return 0;
}

/* Corrects every pair, in order of the first's index. 0, or the refusal of the first that is refused. */
static inline uint32_t correct_pairs(uint8_t *s, const struct cut *c, unsigned strategies, uint64_t *growth)
{
    int place[MOST_RECORDS];
    register_all(s, c, place);
    for (size_t i = 0; i < c->records; i++) {
        for (size_t j = 0; place[i] == FIRST_PLACE && j < c->records; j++) {
            if (place[j] != LAST_PLACE || !same_name(s + c->begin[i] + 4, s + c->begin[j] + 4))
                continue;
            uint32_t refusal = correct_pair(s, c, i, j, strategies, growth);
            if (refusal != 0)
                return refusal;
        }
    }
    return 0;
}

/* ---- The two calls ---- */

static inline int trailer_is_wrong(const uint8_t *t, size_t records, size_t distance)
{
    int grown = 0;
    for (int i = 0; i < 32; i++)
        grown |= t[GROWTH + i] != 0;
    return t[STATE] > 1 || t[STRATEGIES] > 8 || number_at(t + RECORDS, 4) != records
        || number_at(t + DISTANCE, 8) != distance || (t[STATE] == 0 && grown);
}

static inline uint32_t filed_model(const uint8_t *filed, size_t len, uint8_t *out, size_t out_len, uint8_t *counts, size_t counts_len)
{
    static uint8_t copy[LONGEST_GROUP];
    struct cut c;
    uint64_t growth[4] = {0};
    if (counts_len != OVERLAP_COUNTS_SIZE)
        return REFUSED(15, 0);
    for (int i = 0; i < 4; i++)
        if (number_at(counts + 8 * i, 8) > COUNT_LIMIT)
            return REFUSED(9, 0);
    cut_frames(&c, filed, len, 1);
    if (c.refusal != 0)
        return c.refusal;
    size_t frames = c.begin[c.records];
    if (!c.zero || len - frames != TRAILER)
        return REFUSED(20, 0);
    memcpy(copy, filed, len);
    uint8_t *trailer = copy + frames;
    if (trailer_is_wrong(trailer, c.records, frames))
        return REFUSED(21, 0);
    if (trailer[STATE] == 1)
        return 1;
    uint32_t refusal = correct_pairs(copy, &c, trailer[STRATEGIES], growth);
    if (refusal != 0)
        return refusal;
    if (out_len < len)
        return REFUSED(19, 0);
    trailer[STATE] = 1;
    for (int i = 0; i < 4; i++) {
        put(trailer + GROWTH + 8 * i, 8, growth[i]);
        put(counts + 8 * i, 8, number_at(counts + 8 * i, 8) + growth[i]);
    }
    memcpy(out, copy, len);
    return 0;
}

static inline uint32_t trailer_model(const uint8_t *frames, size_t len, uint32_t agreement, uint32_t disagreement, uint8_t *trailer, size_t trailer_len)
{
    struct cut c;
    if (agreement > 2 || disagreement > 2)
        return REFUSED(10, 0);
    cut_frames(&c, frames, len, 0);
    if (c.refusal != 0)
        return c.refusal;
    if (trailer_len < TRAILER)
        return REFUSED(19, 0);
    memset(trailer, 0, TRAILER);
    trailer[STRATEGIES] = (uint8_t)(3 * agreement + disagreement);
    put(trailer + RECORDS, 4, c.records);
    put(trailer + DISTANCE, 8, len);
    return 0;
}

#endif
