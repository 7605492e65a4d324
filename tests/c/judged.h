/*
 * What the files of the program judged share: records built from texts, and calls on a pair of them with watched bytes
 * behind. judged_limits.c, judged_zeros.c, judged_order.c, judged_reasons.c and judged_caps.c are a topic each, with a
 * function for main at its end.
 */
#ifndef JUDGED_H
#define JUDGED_H

#include "overlap.h"

#include <inttypes.h>
#include <stdio.h>
#include <stdlib.h>
#include <string.h>

#include "checks.h"
#include "model.h"
#include "records.h"
#include "seeded.h"

/* ---- Records: judged_calls.c ---- */

/* Every built record has the name "a" and its zero byte, and so its operations here. */
enum { OPERATIONS = NAME + 2 };

/* The longest operation, and the letters of the operations by their codes. */
#define LONGEST_OPERATION 268435455u
static const char CODES[] = "MIDNSHP=X";

/* The bytes behind `len` are watched too: nothing may be written there. */
struct record {
    size_t len;
    uint8_t bytes[LONGEST + 64];
};

static inline void set(struct record *r, int field, int width, uint64_t number)
{
    put(r->bytes + field, width, number);
}

static inline void set_operation(struct record *r, int i, uint32_t length, uint32_t code)
{
    set(r, OPERATIONS + 4 * i, 4, length * 16 + code);
}

/* A record from texts: operations as "2S3M", bases as "ACGT", qualities as "30 20". Four bytes for a tag end it. */
void build(struct record *r, int32_t pos, const char *operations, const char *bases, const char *qualities);

/* The same from codes and qualities by their numbers, as many as a record holds. */
void build_coded(struct record *r, int32_t pos, const char *operations, const struct called *bases, uint32_t count);

/* A record of `count` bases, all of one code and quality. */
void build_plain(struct record *r, int32_t pos, const char *operations, uint32_t count, uint8_t code, uint8_t quality);

/* A record with no name and `count` times one operation, and `bases` bases, all zero bytes. */
void build_many(struct record *r, uint32_t count, uint32_t length, uint32_t code, uint32_t bases);

/* ---- Calls: judged_calls.c ---- */

/* What a call is given, and the same after it. The bytes behind those of the counts are watched too. */
struct call {
    struct record first, second;
    struct ways ways;
    uint8_t counts[OVERLAP_COUNTS_SIZE + 8];
    size_t counts_len;
};

extern struct call given, after;

/* A call that nothing is wrong with, but that its two records are still to be set. */
void start_call(void);

/* The same, with two records that share four positions, and agree at each. */
void good_pair(void);

/* Makes the call, and expects its answer. Every byte has to be as the model has it; and but for answer 1, as it was. Before
   the call and after it the reason is asked for, which writes nothing: it has to be the model's both times, and to go with
   the answer. */
void expect_answer(const char *what, uint32_t answer);

/* The same, with the model's answer, which it gives. */
uint32_t expect_modelled(const char *what);

/* The same, with the reason known without the model; the answer is the one that goes with it. */
void expect_reason(const char *what, uint32_t reason);

/* The same, where the answer goes by something else than the records. */
void expect_answer_and_reason(const char *what, uint32_t answer, uint32_t reason);

/* Expects both records as they are given here after the call, and the counts grown by so much. */
void expect_after(const char *what, const struct record *first, const struct record *second, const uint64_t *growth);

/* What a record is expected to give beside a good one: 0, 1, or a refusal at its place. As a reason: 0, 1 to 5, or a
   refusal, which by an operation's code has the operation's index. */
#define FAULT(number) REFUSED(number, 0)
#define CODE_FAULT(index) (FAULT(5) + INDEX_STEP * (uint32_t)(index))

/* Tries the record in given.first as the first of a pair and as the second. */
void at_each_place(const char *what, uint32_t answer);
void reason_at_each_place(const char *what, uint32_t reason);

/* ---- Examples: judged.c ---- */

/* The pairs of examples.h with this cap. What becomes of them stands there for the largest cap. */
void examples(uint32_t cap);

/* ---- Topics ---- */

void limits(void);
void lengths_of_zero(void);
void order_of_judgement(void);
void reasons(void);
void caps(void);

#endif
