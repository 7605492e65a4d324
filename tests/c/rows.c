/*
 * The exported call on pairs that share one row of positions, against the model of model.h: rows of every length from 0
 * to 100, at offsets of both parities in each record. All of a row agrees; or it has a fault at each place, which is a
 * difference or an N in the first, in the second or in both; or two faults, 1, 15, 16, 17, 31, 32 and 33 places apart. Each
 * is tried with records that end right behind their last quality, which is the row's, and with bases and up to 40 bytes
 * of tags behind the row; with the largest cap and with another, and where all agrees also with one that is refused.
 * Qualities are over the cap, at it and under it. Behind every buffer is a page that can't be touched: a call that goes past an end ends the
 * program, with a line that says at which case. (Where hosts/far makes the calls, its guards find writes alone.) Where
 * all of a row agrees, the reason is asked for in the same buffers, before the call and after it.
 * It prints the seed, a line for each check that fails, and at the end what was compared.
 *
 *   rows [SEED]
 */
#define _DEFAULT_SOURCE

#include "overlap.h"

#include <errno.h>
#include <inttypes.h>
#include <signal.h>
#include <stdio.h>
#include <stdlib.h>
#include <string.h>
#include <sys/mman.h>
#include <unistd.h>

#include "checks.h"
#include "model.h"
#include "records.h"
#include "seeded.h"

unsigned passed, failed;
uint64_t random_state;

/* ---- Pairs ---- */

enum { LONGEST_ROW = 100, MOST_BASES = 256, ROW_AT = 1000 };

/* A read: how many of its bases stand in front of the row, clipped and aligned, and how many behind it, aligned and
   clipped; how many bytes of tags it has; and its bases by their codes. */
struct read {
    uint32_t clip, lead, tail, end_clip, tags;
    uint8_t codes[MOST_BASES], qualities[MOST_BASES];
};

/* A pair that shares `row` positions. */
struct pair {
    uint32_t row;
    struct ways ways;
    struct read reads[2];
};

static uint32_t begin(const struct read *r)
{
    return r->clip + r->lead;
}

static uint32_t bases(const struct read *r, uint32_t row)
{
    return begin(r) + row + r->tail + r->end_clip;
}

/* Lays down a record, at most MOST_BYTES long; gives its length. */
enum { MOST_BYTES = 1024 };
static size_t lay(uint8_t *to, const struct read *r, uint32_t row)
{
    const uint32_t lengths[3] = {r->clip, r->lead + row + r->tail, r->end_clip}, codes[3] = {4, 0, 4};
    uint32_t operations = 0, count = bases(r, row);
    for (int i = 0; i < 3; i++)
        operations += lengths[i] > 0;
    uint8_t *at = put_head(to, "row", 0x41, 0, ROW_AT - r->lead, operations, count);
    for (int i = 0; i < 3; i++) {
        put(at, lengths[i] > 0 ? 4 : 0, lengths[i] * 16 + codes[i]);
        at += lengths[i] > 0 ? 4 : 0;
    }
    at = put_bases(at, r->codes, r->qualities, count);
    memset(at, 0xDD, r->tags);
    return (size_t)(at + r->tags - to);
}

/* So many bases in front of the row and behind it, of a record that shares none of them: the pair's other record has
   none that are aligned on that side. */
static void surround(struct read *r, uint32_t before, uint32_t behind, int lead, int tail)
{
    r->clip = lead ? 0 : before;
    r->lead = lead ? before : 0;
    r->tail = tail ? behind : 0;
    r->end_clip = tail ? 0 : behind;
}

/* A pair that agrees along its row, which begins at offsets of these parities (2 * first's + second's). A bare one ends
   with the row. A row of no positions has an aligned base of the first in front of it, and one of the second behind it. */
static void agreeing_pair(struct pair *p, uint32_t row, unsigned parities, int bare)
{
    int leads = (int)below(3), tails = (int)below(3);   /* which record has aligned bases there; 2: neither */
    p->row = row;
    for (unsigned i = 0; i < 2; i++) {
        struct read *r = &p->reads[i];
        uint32_t before = (parities >> (1 - i) & 1) + 2 * below(bare ? 2 : 20), behind = bare || once_in(3) ? 0 : below(40);
        surround(r, before, behind, leads == (int)i, tails == (int)i);
        if (row == 0)
            surround(r, i == 0 ? before + 2 : before, i == 1 ? behind + 1 : behind, i == 0, i == 1);
        r->tags = bare || once_in(3) ? 0 : below(41);
        for (uint32_t k = 0; k < bases(r, row); k++) {
            r->codes[k] = (uint8_t)below(16);
            r->qualities[k] = (uint8_t)(once_in(3) ? below(256) : once_in(8) ? p->ways.cap - 1 + below(3) : 2 + below(50));
        }
    }
    for (uint32_t k = 0; k < row; k++)
        p->reads[0].codes[begin(&p->reads[0]) + k] = p->reads[1].codes[begin(&p->reads[1]) + k] = (uint8_t)below(NO_CALL);
}

/* ---- Faults ---- */

enum { DIFFERENCE, FIRST_N, SECOND_N, BOTH_N, FAULTS };

static void spoil(struct pair *p, uint32_t place, int fault)
{
    uint8_t *x = p->reads[0].codes + begin(&p->reads[0]) + place, *y = p->reads[1].codes + begin(&p->reads[1]) + place;
    if (fault == DIFFERENCE)
        *y = (uint8_t)((*x + 1 + below(NO_CALL - 1)) % NO_CALL);
    if (fault == FIRST_N || fault == BOTH_N)
        *x = NO_CALL;
    if (fault == SECOND_N || fault == BOTH_N)
        *y = NO_CALL;
    if (once_in(4))   /* qualities that are equal decide otherwise */
        p->reads[1].qualities[begin(&p->reads[1]) + place] = p->reads[0].qualities[begin(&p->reads[0]) + place];
}

/* ---- What the rules make of a pair ---- */

static void correct(struct pair *p, uint64_t *growth)
{
    struct read *first = &p->reads[0], *second = &p->reads[1];
    for (uint32_t k = 0; k < p->row; k++) {
        uint32_t i = begin(first) + k, j = begin(second) + k;
        struct called x = {first->codes[i], first->qualities[i]}, y = {second->codes[j], second->qualities[j]};
        if (x.code == NO_CALL || y.code == NO_CALL)
            continue;
        growth[0]++;
        growth[x.code == y.code ? 1 : 2]++;
        growth[3] += treat(&x, &y, p->ways);
        first->codes[i] = (uint8_t)x.code;
        first->qualities[i] = (uint8_t)x.quality;
        second->codes[j] = (uint8_t)y.code;
        second->qualities[j] = (uint8_t)y.quality;
    }
}

/* ---- Calls ---- */

/* The case that is tried, for what is printed of it. */
static struct { uint32_t row, places[2], cap; int faults[2], count, bare; unsigned parities, strategies; } now;
static unsigned long calls, bare_calls, capped_calls, refused_calls, asked;

static const char *this_case(void)
{
    static const char *const WORDS[FAULTS] = {"difference", "N in the first", "N in the second", "N in both"};
    const char *fault = now.count < 1 ? "" : text(", %s at %" PRIu32, WORDS[now.faults[0]], now.places[0]);
    const char *other = now.count < 2 ? "" : text(", %s at %" PRIu32, WORDS[now.faults[1]], now.places[1]);
    return text("row of %" PRIu32 ", parities %u%u%s%s, strategies %u %u, cap %" PRIu32 "%s", now.row, now.parities / 2, now.parities % 2,
                fault, other, now.strategies / 3, now.strategies % 3, now.cap, now.bare ? ", nothing behind the row" : "");
}

/* The ends of three buffers: behind each is a page that can't be touched, and MARGIN bytes before a buffer are watched. */
enum { MARGIN = 64, MARK = 0xEE };
static uint8_t *ends[3];

static void went_past(int number)
{
    (void)number;
    printf("%s: the call touched what is behind a buffer\n", this_case());
    fflush(stdout);
    _exit(1);
}

static void guard(void)
{
    size_t page = (size_t)sysconf(_SC_PAGESIZE);
    int out[2];
    check(pipe(out) == 0, "no pipe");
    for (int i = 0; i < 3; i++) {
        uint8_t *room = mmap(NULL, 2 * page, PROT_READ | PROT_WRITE, MAP_PRIVATE | MAP_ANONYMOUS, -1, 0);
        if (room == MAP_FAILED || mprotect(room + page, page, PROT_NONE) != 0) {
            perror("rows: no page that can't be touched");
            exit(2);
        }
        ends[i] = room + page;
        check(write(out[1], ends[i] - 1, 1) == 1 && write(out[1], ends[i], 1) == -1 && errno == EFAULT, "the byte behind buffer %d can be read", i);
    }
    signal(SIGSEGV, went_past);
    signal(SIGBUS, went_past);
}

/* The bytes of a buffer that ends at `end`, and those before it. */
static void check_room(const char *where, const uint8_t *expected, const uint8_t *end, size_t len)
{
    int marked = 1;
    for (int i = 1; i <= MARGIN; i++)
        marked &= end[-(ptrdiff_t)len - i] == MARK;
    if (!marked)
        check(0, "%s: written before the %s", this_case(), where);
    else if (memcmp(expected, end - len, len) != 0)
        check_bytes(this_case(), where, expected, end - len, len);
    else
        passed++;
}

/* Asks for the reason of the records in their buffers: that the row has no positions, if there is one. */
static void ask_reason(uint32_t row, const size_t *len)
{
    uint32_t reason = overlap_reason_call(ends[0] - len[0], len[0], ends[1] - len[1], len[1]);
    uint32_t expected = row > 0 ? 0 : OVERLAP_REASON_NO_SHARED_POSITION;
    check(reason == expected, "%s: expected the reason %" PRIu32 ", got %" PRIu32, this_case(), expected, reason);
    asked++;
}

/* What stands in the three buffers before the call and is expected there after it, and how long each of them is. */
static uint8_t given[3][MOST_BYTES], expected[3][MOST_BYTES];
static size_t len[3];

/* Lays down both records and the counts, and what the rules make of them; gives the answer of the rules. */
static uint32_t lay_buffers(struct pair *p)
{
    uint64_t growth[4] = {0};
    int refused = p->ways.cap < LEAST_CAP || p->ways.cap > MOST_CAP;
    for (int i = 0; i < 2; i++)
        len[i] = lay(given[i], &p->reads[i], p->row);
    len[2] = OVERLAP_COUNTS_SIZE;
    put_start_counts(given[2]);
    if (!refused)
        correct(p, growth);
    for (int i = 0; i < 2; i++)
        lay(expected[i], &p->reads[i], p->row);
    for (int i = 0; i < 4; i++)
        put(expected[2] + 8 * i, 8, number_at(given[2] + 8 * i, 8) + growth[i]);
    for (int i = 0; i < 3; i++) {
        memset(ends[i] - len[i] - MARGIN, MARK, MARGIN);
        memcpy(ends[i] - len[i], given[i], len[i]);
    }
    return refused ? REFUSED(22, 0) : p->row > 0;
}

/* Makes the call and compares the answer, both records and the counts with what the rules say. */
static void compare(struct pair *p)
{
    uint32_t wanted = lay_buffers(p);
    if (now.count == 0)
        ask_reason(p->row, len);
    uint32_t answer = overlap_call(ends[0] - len[0], len[0], ends[1] - len[1], len[1], p->ways.agreement, p->ways.disagreement,
                                   p->ways.cap, ends[2] - len[2], len[2]);
    if (now.count == 0)
        ask_reason(p->row, len);
    if (answer == wanted)
        passed++;
    else
        check(0, "%s: expected the answer %" PRIu32 ", got %" PRIu32, this_case(), wanted, answer);
    check_room("first record", expected[0], ends[0], len[0]);
    check_room("second record", expected[1], ends[1], len[1]);
    check_room("counts", expected[2], ends[2], len[2]);
    calls++;
    bare_calls += (unsigned long)now.bare;
    capped_calls += now.cap != MOST_CAP && wanted < 1000;
    refused_calls += wanted > 1000;
    if (failed > 100)
        exit(tell_checks());   /* it fails everywhere */
}

/* ---- Cases ---- */

/* A pair of the case in `now`, under the pairs of strategies by turns. */
static void try_pair(unsigned *turn)
{
    struct pair p;
    now.strategies = (*turn)++ % 9;
    p.ways = (struct ways){now.strategies / 3, now.strategies % 3, now.cap};
    agreeing_pair(&p, now.row, now.parities, now.bare);
    for (int i = 0; i < now.count; i++)
        spoil(&p, now.places[i], now.faults[i]);
    compare(&p);
}

/* The row with the faults of `now`, bare and not: with the largest cap under one pair of strategies after the other, or under
   all nine; and with another cap under all nine where there is no fault, and in half of the other cases under one. */
static void try_case(int all_nine)
{
    static unsigned turn, capped_turn;
    int largest = all_nine ? 9 : 1, others = now.count == 0 ? 9 : once_in(2);
    for (now.bare = 0; now.bare < 2; now.bare++) {
        now.cap = MOST_CAP;
        for (int k = 0; k < largest; k++)
            try_pair(&turn);
        for (int k = 0; k < others; k++) {
            now.cap = once_in(2) ? 40 : LEAST_CAP + below(MOST_CAP - LEAST_CAP);
            try_pair(&capped_turn);
        }
    }
}

/* The row without a fault, bare and not, with each cap by turns that is refused. */
static void try_refused(void)
{
    static const uint32_t CAPS[] = {0, 1, 94, 256 + 40, 65536 + 40, 2147483648, 4294967295};
    static unsigned turn, cap_turn;
    now.count = 0;
    for (now.bare = 0; now.bare < 2; now.bare++) {
        now.cap = CAPS[cap_turn++ % (sizeof CAPS / sizeof CAPS[0])];
        try_pair(&turn);
    }
}

/* Two faults, the second so many places behind the first; of every two kinds, by turns. */
static void try_two(uint32_t place)
{
    static const uint32_t APART[] = {1, 15, 16, 17, 31, 32, 33};
    static int turn;
    now.count = 2;
    for (size_t i = 0; i < sizeof APART / sizeof APART[0]; i++) {
        if (place + APART[i] >= now.row)
            break;
        now.places[0] = place;
        now.places[1] = place + APART[i];
        now.faults[0] = turn % FAULTS;
        now.faults[1] = turn / FAULTS % FAULTS;
        turn++;
        try_case(0);
    }
}

static void try_row(int all_nine)
{
    now.count = 0;
    try_case(all_nine);
    try_refused();
    for (uint32_t place = 0; place < now.row; place++) {
        now.count = 1;
        now.places[0] = place;
        for (now.faults[0] = 0; now.faults[0] < FAULTS; now.faults[0]++)
            try_case(all_nine);
        try_two(place);
    }
}

/* Rows at whose length the calls change their ways are tried under all nine pairs of strategies. */
static int is_border(uint32_t row)
{
    return row <= 2 || row % 16 <= 1 || row % 16 == 15;
}

int main(int argc, char **argv)
{
    random_state = argc > 1 ? strtoull(argv[1], NULL, 10) : 20261115;
    printf("seed %" PRIu64 "\n", random_state);
    guard();
    for (now.row = 0; now.row <= LONGEST_ROW; now.row++)
        for (now.parities = 0; now.parities < 4; now.parities++)
            try_row(is_border(now.row));
    check(calls == 2 * bare_calls && bare_calls > 0, "%lu of %lu calls had nothing behind the row", bare_calls, calls);
    printf("rows of 0 to %d positions: %lu calls compared with the model, answer, both records and counts; in %lu of them nothing"
           " stands behind the row; %lu have another cap than 93, %lu one that is refused; the reason asked for %lu times\n",
           LONGEST_ROW, calls, bare_calls, capped_calls, refused_calls, asked);
    return tell_checks();
}
