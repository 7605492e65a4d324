/*
 * overlap.h: the overlap-consensus step on a pair of BAM records, and on a filed group of them.
 *
 * VERSION 2: THE INTERFACE CHANGED. overlap_call takes a cap, behind the two strategies. A host that was written for
 * version 1 has to pass OVERLAP_CAP_MAX there, which gives the results of before, and to be compiled anew with this
 * header. An object that was compiled for version 1 and makes this call doesn't link: the archive has the call under the
 * name overlap_call_2, and none of the name overlap_call. The other three calls are those of version 1.
 *
 * overlap_call takes the two records of a read pair. At each reference position where both have
 * a base it compares the two, writes the bases and qualities that the strategies and the cap give
 * into both records, in place, and counts what it did.
 *
 * overlap_reason_call says why two records don't overlap, by one of five reasons: one of them is unmapped, say, or
 * there is a gap between them. It only reads.
 *
 * overlap_filed_call does as overlap_call with the cap 93 for every pair of a filed group: framed records and a trailer
 * that says whether they were corrected. Given a group that was, it says so and writes nothing, so a job that
 * is sent again does no harm. overlap_trailer_call makes the trailer of a group that is to be filed.
 *
 * Link with liboverlap_c.a (`sh scripts/make.sh overlap_c` writes target/staticlib/liboverlap_c.a, x86-64 code; for trials on
 * another machine `sh scripts/here.sh archive` names an archive of the same calls).
 */
#ifndef OVERLAP_H
#define OVERLAP_H

#include <stddef.h>
#include <stdint.h>

#ifdef __cplusplus
extern "C" {
#endif

/* The version of this interface. It moves when the parameters of a call or one of the two sizes change,
   so a host can refuse to be compiled with another: #if OVERLAP_VERSION != 2, #error, #endif. */
#define OVERLAP_VERSION 2

/* The name of the call in the archive. It has the version in it since which the parameters are these, so that the linker
   refuses an object that was compiled for others. A host without this header, as one in Rust or one that looks the
   call up by its name, says overlap_call_2 itself. */
#define overlap_call overlap_call_2

/* How many bytes the counts take, and the trailer of a filed group. */
#define OVERLAP_COUNTS_SIZE 32
#define OVERLAP_TRAILER_SIZE 50

/* A stack that is enough for a thread that makes overlap_call, overlap_reason_call or overlap_trailer_call;
   overlap_filed_call where no record has over 1024 bytes; and overlap_filed_call on any input. Each holds what the
   thread takes for itself. */
#define OVERLAP_STACK 16384
#define OVERLAP_FILED_STACK 32768
#define OVERLAP_FILED_LONG_STACK 163840

/* What to do where the bases agree (agreement), and where they disagree (disagreement); told below. */
#define OVERLAP_AGREE_CONSENSUS 0
#define OVERLAP_AGREE_MAX_QUAL 1
#define OVERLAP_AGREE_PASS_THROUGH 2
#define OVERLAP_DISAGREE_CONSENSUS 0
#define OVERLAP_DISAGREE_MASK_BOTH 1
#define OVERLAP_DISAGREE_MASK_LOWER_QUAL 2

/* The least cap and the largest, which is where the scale of qualities ends in a SAM file; told below. */
#define OVERLAP_CAP_MIN 2
#define OVERLAP_CAP_MAX 93

/* Why two records don't overlap: answers of overlap_reason_call, told there. */
#define OVERLAP_REASON_UNMAPPED 1
#define OVERLAP_REASON_REFERENCES_DIFFER 2
#define OVERLAP_REASON_NEGATIVE_POSITION 3
#define OVERLAP_REASON_NO_REFERENCE_LENGTH 4
#define OVERLAP_REASON_NO_SHARED_POSITION 5

/*
 * Arguments
 *
 *   first, second   Two BAM records, each from its reference id on, without the size that stands
 *                   before a record in a file.
 *   agreement       What to do where the bases agree, OVERLAP_AGREE_...: 0 CONSENSUS, both get the sum
 *                   of the qualities, at most the cap; 1 MAX_QUAL, both get the larger quality;
 *                   2 PASS_THROUGH, nothing.
 *   disagreement    What to do where they disagree, OVERLAP_DISAGREE_...: 0 CONSENSUS, both get the
 *                   better base, with the difference of the qualities, at least 2 (equal qualities:
 *                   both become N with 2); 1 MASK_BOTH, both become N with 2; 2 MASK_LOWER_QUAL, the
 *                   one of lower quality becomes N with 2 (equal qualities: both).
 *   cap             The most that agreement gives under CONSENSUS: OVERLAP_CAP_MIN, 2, to OVERLAP_CAP_MAX,
 *                   93. It is where the sequencer's scale of qualities stops, as at 40; else pass 93.
 *                   A quality over the cap comes down to it there, and nowhere else: MAX_QUAL and
 *                   PASS_THROUGH go by no cap, and nor does any disagreement. At the cap 40, 30 and 20
 *                   that agree become 40, and so do 60 and 60; 255 and 30 that disagree become 225. A cap
 *                   outside of its range is refused under every strategy.
 *   counts          OVERLAP_COUNTS_SIZE, 32 bytes: four 64-bit numbers, each with its least byte first:
 *                     at 0 overlapping, at 8 agreeing, at 16 disagreeing, at 24 corrected.
 *                   The call adds to what stands there, so begin with 32 zero bytes. The largest
 *                   count that is accepted is 18446744073692774399.
 *
 * overlapping counts the positions that were compared, agreeing and disagreeing what was found
 * there. corrected grows by 1 where the bases agree and either quality changed; by 2 where they
 * disagree, but only by 1 where just one of them was masked.
 *
 * Bases are compared as codes: `=` agrees with `=` alone, and an ambiguity code with itself alone.
 * Where either base is N, the position is left alone and not counted.
 *
 * Answer
 *
 *   0      no overlap: at no reference position do both have a base, or one of them is unmapped
 *          (flag 4) or has a negative position, or their reference ids differ (two ids of -1 are
 *          equal). overlap_reason_call says which
 *   1      overlap: they share a position, even where every shared position holds an N
 *   other  refused: 1000 + 100 * place + number. The place is 1 or 2 for the record at fault, and
 *          0 where no record is. So 1107 is number 7 in the first record. These are all, each
 *          given exactly when its words hold and nothing before it in the order below applies:
 *
 *          number  answers     when
 *           1      1101 1201   the record is under 32 bytes
 *           2      1102 1202   the record is over 65536 bytes
 *           3      1103 1203   its name and operations reach past its end
 *           4      1104 1204   its bases and qualities reach past its end
 *           5      1105 1205   an operation's code is above 8
 *           7      1107 1207   it has bases and operations, and the M I S = X lengths don't add up
 *                              to the number of bases; operations of length 0 are operations too
 *           8      1108 1208   its position plus the M D N = X lengths is above 2147483646
 *           9      1009        one of the counts is above 18446744073692774399
 *          10      1010        a strategy number is not 0, 1 or 2
 *          15      1015        counts_len is not 32
 *          22      1022        the cap is under 2 or over 93
 *
 *          6, an operation of length 0, is withdrawn: no answer carries it any more. Such an operation
 *          counts nothing and places no base.
 *
 * Order of judgement. The first that applies is the answer:
 *
 *   1. 15, then 10, then 22, then 9;
 *   2. 1 to 4 in the first record, then 1 to 4 in the second;
 *   3. either unmapped, then ids that differ, then a negative position: 0;
 *   4. 5, 7 and 8 in the first record, then in the second;
 *   5. no shared position: 0. Else: 1.
 *
 * So a pair that ends at step 3 may have operations that step 4 would refuse.
 *
 * What is written
 *
 *   Answer 1: bases and qualities at shared positions, in both records, and the 32 bytes of counts.
 *   Any other answer: nothing. Every byte of both records and of the counts is as it was.
 *
 * Memory
 *
 *   The two records and the counts must not overlap in memory: that is the caller's to see to, and
 *   is not checked. Each pointer must be good for reads and writes of as many bytes as its length
 *   says. No alignment is asked for. A length may be 0: nothing is then read or written through
 *   that pointer. Let it be other than null there too: the callee takes a pointer and a length for
 *   a slice, as Rust does, and the pointer of a slice is not null even where the slice is empty.
 *
 *   All four calls: each allocates nothing, keeps nothing between calls and has no global state. Any
 *   number of threads may make any of them at the same time, as long as no memory that one of them
 *   writes is passed to another.
 */
uint32_t overlap_call(uint8_t *first, size_t first_len,
                      uint8_t *second, size_t second_len,
                      uint32_t agreement, uint32_t disagreement, uint32_t cap,
                      uint8_t *counts, size_t counts_len);

/*
 * Why there is no overlap. It judges two records as overlap_call does, and where they don't overlap it
 * says which of five reasons that has. It takes no strategies, no cap and no counts: 9, 10, 15 and 22 can't come.
 *
 *   first, second   Two BAM records, as for overlap_call. They are only read.
 *
 * Answer
 *
 *   0      overlap: there is no reason
 *   1      OVERLAP_REASON_UNMAPPED: either record is unmapped (flag 4)
 *   2      OVERLAP_REASON_REFERENCES_DIFFER: their reference ids differ (two ids of -1 are equal)
 *   3      OVERLAP_REASON_NEGATIVE_POSITION: either has a negative position
 *   4      OVERLAP_REASON_NO_REFERENCE_LENGTH: the M D N = X lengths of either total 0, as where it
 *          has clips and insertions alone, or no operations
 *   5      OVERLAP_REASON_NO_SHARED_POSITION: at no reference position do both have a base
 *   other  refused: 1000 + 100 * place + number. The place is 1 or 2 for the record at fault, the
 *          number 1 to 5, 7 or 8, as in the table of overlap_call. Number 5 adds 10000 * the index, from
 *          0 on, of that record's first operation whose code is above 8. So 31205 is operation 3 of the
 *          second record, and 1105 operation 0 of the first. In a refusal, answer % 10000 is what
 *          overlap_call answers, and answer / 10000 the index, which is 0 with any number but 5. The
 *          largest answer is 163751205.
 *
 * Order of judgement. The first that applies is the answer:
 *
 *   1. numbers 1 to 4 in the first record, then in the second: refused;
 *   2. either unmapped: 1; then ids that differ: 2; then a negative position: 3;
 *   3. numbers 5, 7 and 8 in the first record, then in the second: refused;
 *   4. either without reference length: 4; then no shared position: 5. Else: 0.
 *
 * Beside overlap_call. For every two records, and whatever the strategies, the cap and the counts, unless
 * overlap_call answers 1009, 1010, 1015 or 1022: it answers 1 exactly when this call answers 0; it answers 0
 * exactly when this call answers 1 to 5; and else it answers this call's answer % 10000. That is proved.
 *
 * What is written: nothing, whatever the answer. So the call may be made before overlap_call or after it,
 * on the records that were corrected, and answers the same, which is proved too: overlap_call writes none of
 * the bytes that this call goes by.
 *
 * Memory and threads
 *
 *   As for overlap_call, but that both records are only read: they may overlap in memory or be the same
 *   one, and several calls at the same time may be passed the same ones, as long as none of these writes them.
 */
uint32_t overlap_reason_call(const uint8_t *first, size_t first_len,
                             const uint8_t *second, size_t second_len);

/*
 * A filed group: frames end to end, each a 32-bit size and then a record of that many bytes, at most
 * 256 of them; and then the trailer, OVERLAP_TRAILER_SIZE, 50 bytes, with the least byte of each number
 * first:
 *
 *   offset  bytes
 *    0      4     zero, where a size would stand
 *    4      1     state: 0 raw, 1 corrected
 *    5      1     strategies: 3 * agreement + disagreement
 *    6      4     how many records there are
 *   10      32    growth of the four counts when the group was corrected; 0 while it is raw
 *   42      8     how many bytes the frames take: the way from the trailer back to the first of them
 *
 * Arguments
 *
 *   filed    A filed group. It is only read.
 *   out      Where the corrected group goes: as many bytes as filed has, front to back, trailer last.
 *   counts   32 bytes, as for overlap_call.
 *
 * Mates are found by name: a record with flag 64 is a first, else one with flag 128 a last, and none
 * with flag 256 or 2048; of two with one name and place the later one counts.
 *
 * Each pair is treated as by overlap_call with the cap OVERLAP_CAP_MAX, 93: a filed group has no place for another. For
 * a sequencer whose scale stops lower, make overlap_call on each pair.
 *
 * Answer
 *
 *   0      corrected: out holds the corrected filed group. Of its trailer the state is 1 now, and the
 *          growth is what this call added to the counts. The records may be used.
 *   1      already done: filed was corrected before. Nothing is written; its trailer has the growth.
 *   other  refused: 1000 + 100 * place + number. The place is the index of the record at fault, from 0
 *          on, and 0 where no record is; 9, 15, 19, 20 and 21 name none. The numbers 1 to 5, 7 to 9
 *          and 15 are those of overlap_call; and
 *
 *          number  when
 *          11      the size of a record is cut off, or reaches past the end of filed
 *          12      after 256 records there are bytes other than four zero bytes (place 256: 26612)
 *          19      out is shorter than filed
 *          20      no four zero bytes end the frames, or not exactly 50 bytes stand from them on
 *          21      the trailer's state is above 1, its strategies above 8, its number of records or of
 *                  bytes isn't that of the frames, or it is raw and a growth isn't 0
 *
 * Order of judgement: 15; 9; the frames from front to back, at each place four zero bytes first, then
 * 12, 11 and 1 to 4; 20; 21; for a corrected group that is all; the pairs of a raw one in order of the
 * first's index, each with 5, 7 and 8; 19.
 *
 * What is written: for 0, filed_len bytes of out and the counts. For any other answer nothing.
 *
 * A torn output. Of the filed_len bytes that answer 0 writes, no proper front is taken for a filed
 * group: this call refuses it. All of them it answers with 1. That is proved for every input. It speaks
 * of the bytes that were written: store them in a new file, and not over an old one whose end may
 * stay behind them. What no trailer can tell: corrected records under a new raw trailer are raw to
 * anyone who reads them.
 *
 * Memory and threads
 *
 *   As for overlap_call, but that filed is only read, so several calls may be passed the same one.
 *
 *   filed, out and counts must not overlap in memory: A GROUP CAN'T BE CORRECTED IN PLACE. This is not
 *   checked; a call with out == filed answers 0 and writes wrong bytes, and their trailer says corrected,
 *   so that no later call finds it. Assert it before the call, as hosts/c/correct.c does with apart.h.
 */
uint32_t overlap_filed_call(const uint8_t *filed, size_t filed_len,
                            uint8_t *out, size_t out_len,
                            uint8_t *counts, size_t counts_len);

/*
 * Makes the raw trailer of a group, for a correction by the strategies of these numbers. Put it behind
 * the frames, and they are a filed group that overlap_filed_call refuses neither with 11 or 12 nor with
 * 20 or 21.
 *
 *   frames    Framed records, as above, without a trailer. They are only read.
 *   trailer   At least OVERLAP_TRAILER_SIZE bytes. The first 50 are written, the others stay.
 *
 * Answer: 0 made; else 1000 + 100 * place + number, and nothing is written: 10 a strategy number is not
 * 0, 1 or 2; then the frames' 12, 11 and 1 to 4, place as above; then 19, trailer_len is under 50.
 *
 * Memory and threads: as for overlap_call, but that frames is only read, so several calls may be passed
 * the same ones. The two must not overlap in memory; the trailer may begin where the frames end.
 */
uint32_t overlap_trailer_call(const uint8_t *frames, size_t frames_len,
                              uint32_t agreement, uint32_t disagreement,
                              uint8_t *trailer, size_t trailer_len);

#ifdef __cplusplus
}
#endif

#endif
