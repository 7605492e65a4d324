/* overlap_text.h: the answers of overlap.h in words, those of docs/REFUSALS.md. It reads answers.def; copy both. */
#ifndef OVERLAP_TEXT_H
#define OVERLAP_TEXT_H

#include <stddef.h>
#include <stdint.h>
#include <stdio.h>

/* The call that gave an answer; a number means one thing from one call and another from another. */
enum overlap_of { OVERLAP_OF_PAIR = 1, OVERLAP_OF_FILED = 2, OVERLAP_OF_TRAILER = 4, OVERLAP_OF_REASON = 8 };

/* Room for every text, with its closing zero. */
#define OVERLAP_TEXT_SIZE 120

/* A refusal of the table: the record that its place names, the calls that answer with it, and its words. */
enum overlap_at { OVERLAP_AT_NO_RECORD, OVERLAP_AT_RECORD, OVERLAP_AT_RECORD_256 };
struct overlap_refusal { uint32_t number; enum overlap_at at; int calls; const char *words; };

/* The refusal of this number; NULL where there is none. */
static inline const struct overlap_refusal *overlap_refusal(uint32_t number) {
    enum { NO_CALL = 0, PAIR = OVERLAP_OF_PAIR, REASON = OVERLAP_OF_REASON, FILED = OVERLAP_OF_FILED, TRAILER = OVERLAP_OF_TRAILER };
    static const struct overlap_refusal TABLE[] = {
#define ANSWER(call, answer, words)
#define REFUSAL(number, at, calls, words) {number, OVERLAP_AT_##at, calls, words},
#include "answers.def"
#undef ANSWER
#undef REFUSAL
    };
    for (size_t i = 0; i < sizeof TABLE / sizeof TABLE[0]; i++)
        if (TABLE[i].number == number)
            return &TABLE[i];
    return NULL;
}

/* The words for the number of a refusal, as the programs write it in `no NUMBER PLACE`; NULL where there is none. */
static inline const char *overlap_words(uint32_t number) {
    const struct overlap_refusal *r = overlap_refusal(number);
    return r ? r->words : NULL;
}

/* The words for an answer below 1000; NULL where the call has no such answer. */
static inline const char *overlap_plain_words(enum overlap_of call, uint32_t answer) {
#define ANSWER(of, number, words) if (call == OVERLAP_OF_##of && answer == number) return words;
#define REFUSAL(number, at, calls, words)
#include "answers.def"
#undef ANSWER
#undef REFUSAL
    return NULL;
}

/* Whether the call takes a pair, and its places are 1 and 2; those of the others are indexes. */
static inline int overlap_takes_pair(enum overlap_of call) {
    return call == OVERLAP_OF_PAIR || call == OVERLAP_OF_REASON;
}

/* Whether an answer of this call has the index of an operation in it: overlap_reason_call gives it with number 5. */
static inline int overlap_names_operation(enum overlap_of call, const struct overlap_refusal *r) {
    return call == OVERLAP_OF_REASON && r->number == 5;
}

/* Whether the call answers with this refusal at this place and, where it names one, at this operation: 16376 of them
   fill the longest record. */
static inline int overlap_refuses(enum overlap_of call, const struct overlap_refusal *r, uint32_t place, uint32_t operation) {
    if (r == NULL || (r->calls & call) == 0 || operation >= (overlap_names_operation(call, r) ? 16376u : 1u))
        return 0;
    switch (r->at) {
    case OVERLAP_AT_RECORD: return overlap_takes_pair(call) ? place == 1 || place == 2 : place < 256;
    case OVERLAP_AT_RECORD_256: return place == 256;
    default: return place == 0;
    }
}

/* The call by its name in overlap.h. */
static inline const char *overlap_name(enum overlap_of call) {
    switch (call) {
    case OVERLAP_OF_PAIR: return "overlap_call";
    case OVERLAP_OF_REASON: return "overlap_reason_call";
    case OVERLAP_OF_FILED: return "overlap_filed_call";
    default: return "overlap_trailer_call";
    }
}

/* Writes the text of a refusal that the call answers with. */
static inline void overlap_refused_text(enum overlap_of call, const struct overlap_refusal *r, unsigned place, unsigned operation, char *room) {
    const char *record = place == 1 ? "first" : "second";
    char where[60] = "";
    if (overlap_names_operation(call, r))
        snprintf(where, sizeof where, ", %s record, operation with index %u", record, operation);
    else if (r->at != OVERLAP_AT_NO_RECORD && overlap_takes_pair(call))
        snprintf(where, sizeof where, ", %s record", record);
    else if (r->at != OVERLAP_AT_NO_RECORD)
        snprintf(where, sizeof where, ", record with index %u", place);
    snprintf(room, OVERLAP_TEXT_SIZE, "refused: %s (number %u%s)", r->words, (unsigned)r->number, where);
}

/* Writes what an answer of this call means into room, which has OVERLAP_TEXT_SIZE bytes, and returns room.
   An answer that the call never gives gets a text that says so. */
static inline const char *overlap_text(enum overlap_of call, uint32_t answer, char *room) {
    const char *plain = overlap_plain_words(call, answer);
    uint32_t operation = call == OVERLAP_OF_REASON ? answer / 10000 : 0, code = answer - 10000 * operation;
    const struct overlap_refusal *r = code < 1000 ? NULL : overlap_refusal(code % 100);
    uint32_t place = code < 1000 ? 0 : (code - 1000) / 100;
    if (plain)
        snprintf(room, OVERLAP_TEXT_SIZE, "%s", plain);
    else if (overlap_refuses(call, r, place, operation))
        overlap_refused_text(call, r, place, operation, room);
    else
        snprintf(room, OVERLAP_TEXT_SIZE, "answer %u is none of %s's", (unsigned)answer, overlap_name(call));
    return room;
}

#endif
