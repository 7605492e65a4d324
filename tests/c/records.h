/*
 * What the C tests share of the paper: numbers in bytes, where the numbers of a record stand, its limits, and how a
 * record is laid down. Nothing here needs the C library, as stack.c is compiled where its headers aren't.
 */
#ifndef RECORDS_H
#define RECORDS_H

#include <stddef.h>
#include <stdint.h>

/* Stores a number in `width` bytes, least byte first. */
static inline void put(uint8_t *at, int width, uint64_t number)
{
    for (int i = 0; i < width; i++)
        at[i] = (uint8_t)(number >> (8 * i));
}

/* The number that `width` bytes hold, least byte first. */
static inline uint64_t number_at(const uint8_t *at, int width)
{
    uint64_t number = 0;
    for (int i = width - 1; i >= 0; i--)
        number = number << 8 | at[i];
    return number;
}

/* Where the numbers of a record stand, and its name. */
enum { REF_ID = 0, POS = 4, NAME_LENGTH = 8, OPERATION_COUNT = 12, FLAGS = 14, L_SEQ = 16, NAME = 32 };

/* How long a record may be, how many a group may have, which caps a call accepts, and the largest count. */
enum { LONGEST = 65536, MOST_RECORDS = 256, LEAST_CAP = 2, MOST_CAP = 93 };
#define COUNT_LIMIT UINT64_C(18446744073692774399)

/* Lays down a record's numbers and its name, and gives where its operations begin. A name of NULL has the length 0;
   numbers that no one asks for here are 0. */
static inline uint8_t *put_head(uint8_t *to, const char *name, uint32_t flags, uint32_t ref_id, uint32_t pos,
                                uint32_t operation_count, uint32_t count)
{
    size_t length = 0;
    for (int i = 0; i < NAME; i++)
        to[i] = 0;
    if (name != NULL)
        do
            to[NAME + length] = (uint8_t)name[length];
        while (name[length++] != '\0');
    put(to + REF_ID, 4, ref_id);
    put(to + POS, 4, pos);
    put(to + NAME_LENGTH, 1, length);
    put(to + OPERATION_COUNT, 2, operation_count);
    put(to + FLAGS, 2, flags);
    put(to + L_SEQ, 4, count);
    return to + NAME + length;
}

/* Lays down bases by their codes, and their qualities behind them; gives where these end. The spare half byte of an
   odd number of bases is 0xA. */
static inline uint8_t *put_bases(uint8_t *bases, const uint8_t *codes, const uint8_t *qualities, uint32_t count)
{
    uint8_t *to = bases + (count + 1) / 2;
    for (uint32_t i = 0; i < count; i++) {
        bases[i / 2] = i % 2 == 0 ? (uint8_t)(codes[i] << 4 | 0xA) : (uint8_t)((bases[i / 2] & 0xF0) | codes[i]);
        to[i] = qualities[i];
    }
    return to + count;
}

/* Counts to start with that pass 32 bits and differ. */
static inline void put_start_counts(uint8_t *counts)
{
    const uint64_t numbers[4] = {UINT64_C(5000000000), 70, UINT64_C(90000000000), 11};
    for (int i = 0; i < 4; i++)
        put(counts + 8 * i, 8, numbers[i]);
}

#endif
