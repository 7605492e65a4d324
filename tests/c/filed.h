/*
 * What the files of the program filed share: calls whose buffers are watched and which are compared with the model of
 * model.h, and filed groups built byte by byte. Every other filed_*.c is a topic, with a function for main at its end.
 */
#ifndef FILED_H
#define FILED_H

#include "overlap.h"

#include <inttypes.h>
#include <stdio.h>
#include <stdlib.h>
#include <string.h>

#include "checks.h"
#include "model.h"
#include "records.h"
#include "seeded.h"

/* ---- Calls: filed_calls.c ---- */

/* The bytes before and behind a lent buffer are watched too: nothing may be written there. The margin is
   odd, so that no buffer is aligned. */
enum { MARGIN = 61 };

struct buffer {
    size_t len;
    uint8_t room[MARGIN + LONGEST_GROUP + MARGIN];
};

struct call {
    struct buffer filed, out, counts;
};

/* What a call is given, what the model makes of it, and what the call made of it. */
extern struct call given, expected, after;

static inline uint8_t *at(struct buffer *b)
{
    return b->room + MARGIN;
}

void copy_call(struct call *to, const struct call *from);
void check_buffer(const char *what, const char *where, const struct buffer *want, const struct buffer *got);

/* Makes the call and compares it with the model, whose answer it gives. */
uint32_t compare(const char *what);

/* The same, where the answer is known without the model. */
void expect(const char *what, uint32_t answer);

/* Expects a corrected group in the output, with these numbers in its trailer. */
void expect_growth(const char *what, const uint64_t *growth);

/* Gives the output of the last call again. Its trailer holds what that call added to the counts. */
void give_again(const char *what);

/* ---- Groups: filed_groups.c ---- */

/* What a frame is made from. */
struct read {
    const char *name;                        /* NULL stands for a name length of 0 */
    uint32_t flags, ref_id, pos;
    uint32_t operation_count, operations[12]; /* length * 16 + code */
    uint32_t count;                          /* of bases */
    uint8_t codes[64], qualities[64];
    uint32_t tags;                           /* how many bytes of them */
};

/* The group in given.filed: where each frame begins, and behind them where the trailer does. */
extern size_t records, begin[MOST_RECORDS + 3];

static inline uint8_t *record(size_t k)
{
    return at(&given.filed) + begin[k] + 4;
}

static inline uint8_t *trailer(void)
{
    return at(&given.filed) + begin[records];
}

/* Parts of a group: its beginning, bytes, frames, the counts and an output that has just room, a raw trailer. */
void start_group(void);
void add_bytes(const uint8_t *bytes, size_t n);
void add(const struct read *r);
void add_plain(const char *name, uint32_t flags, uint32_t pos, uint8_t quality);
void lend(void);
void finish(unsigned strategies);

/* A read of four bases, ACGT, all of one quality. */
struct read plain(const char *name, uint32_t flags, uint32_t pos, uint8_t quality);

/* Gives the last record another length. What is new of it are zero bytes. */
void resize_last(size_t size);

/* Spoils the operation of a plain read: its total no longer meets the number of bases. */
void spoil_total(size_t k);

/* Two mates that share four positions and agree, and one without a mate. */
void good_group(void);

void build_empty(void);
void build_no_overlap(void);

/* So many records: pair after pair, each with a name of its own. */
void build_many(size_t n);
void build_256(void);

/* A record whose tags hold a whole filed group that was corrected. */
void build_nested(void);

/* Two reads that agree at one position and disagree at two, by each strategy. */
void build_strategies(unsigned strategies);

/* ---- Topics ---- */

/* filed_cases.c, with the groups that show who is paired with whom. */
extern const size_t PAIRING_COUNT;
void build_pairing(size_t i);
void worked_cases(void);

/* filed_limits.c */
void limits(void);

/* filed_order.c, with a group whose record k has a fault of its frame; the number that refuses it. */
enum { FRAME_FAULT_COUNT = 5 };
uint32_t build_frame_fault(int fault, int k);
void order_of_judgement(void);

/* filed_random.c, with a raw group and counts to add to. The output is now and then longer, or too short. */
void random_group(void);
void random_groups(unsigned groups);

/* filed_torn.c */
void torn_outputs(void);

/* filed_trailer.c */
void trailer_calls(unsigned random_groups);

#endif
