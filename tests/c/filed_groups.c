/* Filed groups, built byte by byte in given.filed. */
#include "filed.h"

size_t records, begin[MOST_RECORDS + 3];

/* ---- Parts ---- */

void start_group(void)
{
    records = 0;
    begin[0] = 0;
    given.filed.len = 0;
}

void add_bytes(const uint8_t *bytes, size_t n)
{
    memcpy(at(&given.filed) + given.filed.len, bytes, n);
    given.filed.len += n;
}

void resize_last(size_t size)
{
    size_t start = begin[records - 1] + 4;
    if (start + size > given.filed.len)
        memset(at(&given.filed) + given.filed.len, 0, start + size - given.filed.len);
    put(record(records - 1) - 4, 4, size);
    begin[records] = given.filed.len = start + size;
}

/* A byte of tags is 0xEE. */
void add(const struct read *r)
{
    begin[records++] = given.filed.len;
    uint8_t *to = record(records - 1);
    uint8_t *operations = put_head(to, r->name, r->flags, r->ref_id, r->pos, r->operation_count, r->count);
    for (uint32_t i = 0; i < r->operation_count; i++)
        put(operations + 4 * i, 4, r->operations[i]);
    uint8_t *tags = put_bases(operations + 4 * r->operation_count, r->codes, r->qualities, r->count);
    memset(tags, 0xEE, r->tags);
    given.filed.len = (size_t)(tags + r->tags - at(&given.filed));
    resize_last((size_t)(tags + r->tags - to));
}

struct read plain(const char *name, uint32_t flags, uint32_t pos, uint8_t quality)
{
    struct read r = {.name = name, .flags = flags, .pos = pos, .operation_count = 1, .operations = {4 * 16}, .count = 4,
                     .codes = {1, 2, 4, 8}, .qualities = {quality, quality, quality, quality}};
    return r;
}

void add_plain(const char *name, uint32_t flags, uint32_t pos, uint8_t quality)
{
    struct read r = plain(name, flags, pos, quality);
    add(&r);
}

void spoil_total(size_t k)
{
    put(record(k) + NAME + record(k)[NAME_LENGTH], 4, 5 * 16);
}

void lend(void)
{
    given.counts.len = OVERLAP_COUNTS_SIZE;
    put_start_counts(at(&given.counts));
    given.out.len = given.filed.len;
    memset(given.out.room, 0xEE, MARGIN + given.out.len + MARGIN);
}

void finish(unsigned strategies)
{
    uint8_t t[TRAILER] = {0};
    t[STRATEGIES] = (uint8_t)strategies;
    put(t + RECORDS, 4, records);
    put(t + DISTANCE, 8, begin[records]);
    add_bytes(t, sizeof t);
    lend();
}

/* ---- Whole groups ---- */

void good_group(void)
{
    start_group();
    add_plain("a", 64, 9, 30);
    add_plain("b", 64, 9, 11);
    add_plain("a", 128, 9, 20);
    finish(0);
}

void build_empty(void)
{
    start_group();
    finish(4);
}

void build_no_overlap(void)
{
    start_group();
    add_plain("a", 64, 9, 30);
    add_plain("a", 128, 13, 20);
    finish(0);
}

void build_many(size_t n)
{
    char name[24];
    start_group();
    for (size_t k = 0; k < n; k++) {
        snprintf(name, sizeof name, "p%zu", k / 2);
        add_plain(name, k % 2 == 0 ? 64 : 128, 9, k % 2 == 0 ? 30 : 20);
    }
    finish(0);
}

void build_256(void)
{
    build_many(256);
}

void build_nested(void)
{
    struct read r = plain("a", 64, 9, 30);
    uint8_t t[TRAILER] = {[STATE] = 1};
    r.tags = TRAILER;
    start_group();
    add(&r);
    memcpy(at(&given.filed) + given.filed.len - TRAILER, t, TRAILER);
    add_plain("a", 128, 9, 20);
    finish(8);
}

void build_strategies(unsigned strategies)
{
    struct read r = plain("a", 128, 9, 20);
    r.codes[1] = 8;
    r.codes[2] = 1;
    r.qualities[2] = 30;
    r.codes[3] = 15;
    start_group();
    add_plain("a", 64, 9, 30);
    add(&r);
    finish(strategies);
}
