/* limit.c: the paper's pair call (docs/RULES.md) written by hand in C, in place: the anchor beside the archive.
 *
 *   limit_run     intersects aligned runs; plain scalar loop over a run
 *   limit_block   the same, 64 positions a step over local arrays, left to the compiler's vectorizer
 *   limit_sse2    32 positions a step by SSE2, which every x86-64 has; only where this is compiled for one
 *
 * All do all checks in the paper's order and write nothing before the last has passed.
 *
 * It is no model of the paper to judge by, as tests/c/model.h and oracle/judge/model.rs are, but a limit of speed: how fast
 * the step can be when it is written for that alone. No model could serve for it, so the rules stand here once more.
 */
#include <stddef.h>
#include <stdint.h>
#include <string.h>
#define LIKELY(x) __builtin_expect(!!(x), 1)
#define UNLIKELY(x) __builtin_expect(!!(x), 0)
#define INLINE static inline __attribute__((always_inline))

enum { MAX_RECORD = 65536, CAP = 93, NOCALL = 15, MASKQ = 2 };
#define MAX_COUNT 18446744073692774399ull
#define MAX_END 2147483646ll

INLINE uint32_t rd32(const uint8_t *p) { uint32_t v; memcpy(&v, p, 4); return v; }
INLINE uint64_t rd64(const uint8_t *p) { uint64_t v; memcpy(&v, p, 8); return v; }
INLINE void wr64(uint8_t *p, uint64_t v) { memcpy(p, &v, 8); }
INLINE uint32_t rd16(const uint8_t *p) { uint16_t v; memcpy(&v, p, 2); return v; }

typedef struct { uint64_t over, agree, dis, corr; } Counts;

typedef struct {
    uint8_t *rec, *seq, *qual;
    const uint8_t *cig, *end;
    uint32_t nops, lseq;
    int32_t pos;
} Rec;

/* 1 to 4 of the table; 0 is well */
INLINE uint32_t open_rec(uint8_t *b, size_t len, Rec *r) {
    if (UNLIKELY(len < 32)) return 1;
    if (UNLIKELY(len > MAX_RECORD)) return 2;
    uint32_t nops = rd16(b + 12), lseq = rd32(b + 16);
    size_t seq = 32 + (size_t)b[8] + 4 * (size_t)nops;
    if (UNLIKELY(seq > len)) return 3;
    size_t qual = seq + ((size_t)lseq + 1) / 2;
    if (UNLIKELY(qual + lseq > len)) return 4;
    r->rec = b; r->seq = b + seq; r->qual = b + qual;
    r->cig = b + 32 + b[8]; r->end = b + len;
    r->nops = nops; r->lseq = lseq; r->pos = (int32_t)rd32(b + 4);
    return 0;
}

/* 5, 7 and 8; *refend = pos + reference length */
#define OPTYPE 0x3C1A7u
INLINE uint32_t check_ops(const Rec *r, int64_t *refend) {
    uint64_t rd = 0, rf = 0;
    const uint8_t *p = r->cig, *e = p + 4 * (size_t)r->nops;
    for (; p < e; p += 4) {
        uint32_t op = rd32(p), c = op & 15, l = op >> 4, t = OPTYPE >> (2 * c);
        if (UNLIKELY(c > 8)) return 5;
        rd += l & -(t & 1);
        rf += l & -(t >> 1 & 1);
    }
    if (UNLIKELY(r->lseq > 0 && r->nops > 0 && rd != r->lseq)) return 7;
    int64_t end = (int64_t)r->pos + (int64_t)rf;
    if (UNLIKELY(end > MAX_END)) return 8;
    *refend = end;
    return 0;
}

/* ---- bases ---- */
INLINE uint32_t base_at(const uint8_t *seq, uint32_t i) { return seq[i >> 1] >> ((~i & 1) << 2) & 15; }
INLINE void set_base(uint8_t *seq, uint32_t i, uint32_t c) {
    uint32_t sh = (~i & 1) << 2;
    seq[i >> 1] = (uint8_t)((seq[i >> 1] & ~(15u << sh)) | c << sh);
}

/* The four byte strings of a pair. Handed on by value: a store through a uint8_t pointer may
   change anything in memory, so pointers that sit in memory would be read again at each step. */
typedef struct { uint8_t *sa, *qa, *sb, *qb; } Strings;

/* One disagreeing position; answers the growth of corrected. */
static __attribute__((noinline)) uint32_t disagree(uint8_t *sa, uint8_t *pa, uint8_t *sb, uint8_t *pb, uint32_t ia, uint32_t ib, uint32_t how) {
    uint32_t qa = *pa, qb = *pb;
    if (how == 2) {
        if (qa <= qb) { set_base(sa, ia, NOCALL); *pa = MASKQ; }
        if (qb <= qa) { set_base(sb, ib, NOCALL); *pb = MASKQ; }
        return qa == qb ? 2 : 1;
    }
    uint32_t base = NOCALL, q = MASKQ;
    if (how == 0 && qa != qb) {
        base = qa > qb ? base_at(sa, ia) : base_at(sb, ib);
        q = qa > qb ? qa - qb : qb - qa;
        if (q < MASKQ) q = MASKQ;
    }
    set_base(sa, ia, base); set_base(sb, ib, base);
    *pa = (uint8_t)q; *pb = (uint8_t)q;
    return 2;
}
#define DISAGREE(t, i, j, how) disagree(t.sa, t.qa + (i), t.sb, t.qb + (j), i, j, how)

/* One shared position, any strategy */
INLINE void position(Strings t, uint32_t ia, uint32_t ib, uint32_t ag, uint32_t di, Counts *c) {
    uint32_t ca = base_at(t.sa, ia), cb = base_at(t.sb, ib);
    if (UNLIKELY(ca == NOCALL || cb == NOCALL)) return;
    c->over++;
    if (LIKELY(ca == cb)) {
        c->agree++;
        if (ag == 2) return;
        uint32_t qa = t.qa[ia], qb = t.qb[ib], q;
        if (ag == 0) { q = qa + qb; if (q > CAP) q = CAP; }
        else q = qa > qb ? qa : qb;
        t.qa[ia] = (uint8_t)q; t.qb[ib] = (uint8_t)q;
        c->corr += (q != qa) | (q != qb);
    } else {
        c->dis++;
        c->corr += DISAGREE(t, ia, ib, di);
    }
}

/* ---- inner loops over one run of n shared positions ---- */
INLINE void loop_scalar(Strings t, uint32_t ia, uint32_t ib, uint32_t n, uint32_t ag, uint32_t di, Counts *c) {
    Counts l = { 0, 0, 0, 0 };
    for (uint32_t k = 0; k < n; k++) position(t, ia + k, ib + k, ag, di, &l);
    c->over += l.over; c->agree += l.agree; c->dis += l.dis; c->corr += l.corr;
}
/* a function of its own, so that the loop has all registers */
#define OWN(name, ag)                                                                           \
    static __attribute__((noinline)) void name##ag(uint8_t *sa, uint8_t *qa, uint8_t *sb, uint8_t *qb, uint32_t ia, uint32_t ib, uint32_t n, uint32_t di, Counts *c) { \
        Strings t = { sa, qa, sb, qb };                                                         \
        loop_##name(t, ia, ib, n, ag, di, c);                                                   \
    }
#define SPAN(name)                                                                              \
    OWN(name, 0) OWN(name, 1) OWN(name, 2)                                                      \
    INLINE void span_##name(Rec *a, Rec *b, uint32_t ia, uint32_t ib, uint32_t n, uint32_t ag, uint32_t di, Counts *c) { \
        if (ag == 0) name##0(a->seq, a->qual, b->seq, b->qual, ia, ib, n, di, c);               \
        else if (ag == 1) name##1(a->seq, a->qual, b->seq, b->qual, ia, ib, n, di, c);          \
        else name##2(a->seq, a->qual, b->seq, b->qual, ia, ib, n, di, c);                       \
    }
SPAN(scalar)

/* 64 positions a step over local arrays of fixed size, in loops plain enough for the compiler's
   vectorizer (fixed count, 8-bit arithmetic only, no branch, nothing in them that may alias).
   min(a + b, 93) without leaving 8 bits: a cut to 93, b cut to the room left.
   Lanes at and past m count as N. Wants 33 bytes of bases and 64 of qualities in both records. */
enum { W = 64 };
INLINE uint64_t sum_bytes(const uint8_t *p) { /* of W bytes of 0 or 1 */
    uint64_t v = 0;
    for (int i = 0; i < W / 8; i++) v += rd64(p + 8 * i);
    return v * 0x0101010101010101ull >> 56;
}
INLINE void step_block(Strings t, uint32_t ia, uint32_t ib, uint32_t m, uint32_t ag, uint32_t di, Counts *c) {
    uint8_t x[W + 2], y[W + 2], p[W], q[W], called[W], eq[W], ch[W];
    const uint8_t *sa = t.sa + (ia >> 1), *sb = t.sb + (ib >> 1);
    for (int j = 0; j < W / 2 + 1; j++) { x[2 * j] = sa[j] >> 4; x[2 * j + 1] = sa[j] & 15; }
    for (int j = 0; j < W / 2 + 1; j++) { y[2 * j] = sb[j] >> 4; y[2 * j + 1] = sb[j] & 15; }
    memcpy(p, t.qa + ia, W);
    memcpy(q, t.qb + ib, W);
    const uint8_t *xx = x + (ia & 1), *yy = y + (ib & 1), lanes = (uint8_t)m;
    for (int j = 0; j < W; j++) {
        uint8_t top = xx[j] > yy[j] ? xx[j] : yy[j];
        called[j] = (top != NOCALL) & ((uint8_t)j < lanes);
        eq[j] = (xx[j] == yy[j]) & called[j];
    }
    if (ag != 2) {
        for (int j = 0; j < W; j++) {
            uint8_t r;
            if (ag == 0) {
                uint8_t u = p[j] < CAP ? p[j] : CAP, room = (uint8_t)(CAP - u);
                r = (uint8_t)(u + (q[j] < room ? q[j] : room));
            } else r = p[j] > q[j] ? p[j] : q[j];
            ch[j] = eq[j] & ((r != p[j]) | (r != q[j]));
            p[j] = eq[j] ? r : p[j];
            q[j] = eq[j] ? r : q[j];
        }
        memcpy(t.qa + ia, p, W);
        memcpy(t.qb + ib, q, W);
        c->corr += sum_bytes(ch);
    }
    uint64_t so = sum_bytes(called), sq = sum_bytes(eq);
    c->over += so; c->agree += sq; c->dis += so - sq;
    if (UNLIKELY(so != sq))
        for (uint32_t w = 0; w < W; w += 8)
            for (uint64_t d = rd64(called + w) ^ rd64(eq + w); d; d &= d - 1) {
                uint32_t j = w + ((uint32_t)__builtin_ctzll(d) >> 3);
                c->corr += DISAGREE(t, ia + j, ib + j, di);
            }
}
INLINE void loop_block(Strings t, uint32_t ia, uint32_t ib, uint32_t n, uint32_t ag, uint32_t di, Counts *c) {
    for (uint32_t k = 0; k < n; k += W) step_block(t, ia + k, ib + k, n - k < W ? n - k : W, ag, di, c);
}
OWN(block, 0) OWN(block, 1) OWN(block, 2)
INLINE void span_block_own(Rec *a, Rec *b, uint32_t ia, uint32_t ib, uint32_t n, uint32_t ag, uint32_t di, Counts *c) {
    if (ag == 0) block0(a->seq, a->qual, b->seq, b->qual, ia, ib, n, di, c);
    else if (ag == 1) block1(a->seq, a->qual, b->seq, b->qual, ia, ib, n, di, c);
    else block2(a->seq, a->qual, b->seq, b->qual, ia, ib, n, di, c);
}
INLINE void span_block(Rec *a, Rec *b, uint32_t ia, uint32_t ib, uint32_t n, uint32_t ag, uint32_t di, Counts *c) {
    uint32_t fit = (n + W - 1) / W * W; /* reads end here; the qualities are behind the bases */
    if (n < 8 || a->end - (a->qual + ia) < (ptrdiff_t)fit || b->end - (b->qual + ib) < (ptrdiff_t)fit || a->lseq < W || b->lseq < W) {
        uint32_t whole = n < W ? 0 : n / W * W;
        if (a->lseq < W || b->lseq < W) whole = 0;
        if (whole) span_block_own(a, b, ia, ib, whole, ag, di, c);
        span_scalar(a, b, ia + whole, ib + whole, n - whole, ag, di, c);
    } else span_block_own(a, b, ia, ib, n, ag, di, c);
}

/* ---- walking the runs ---- */
typedef struct { const uint8_t *p, *e; int64_t from, to; uint32_t off; int64_t ref; uint32_t read; } Runs;
/* next aligned run, which lengths of 0 may leave empty; adjacent M = X are one run; 0 at the end */
INLINE int next_run(Runs *w) {
    while (w->p < w->e) {
        uint32_t op = rd32(w->p), l = op >> 4, t = OPTYPE >> (2 * (op & 15)) & 3;
        w->p += 4;
        if (t == 3) {
            w->from = w->ref; w->off = w->read;
            w->ref += l; w->read += l;
            while (w->p < w->e) {
                op = rd32(w->p); l = op >> 4; t = OPTYPE >> (2 * (op & 15)) & 3;
                if (t == 3) { w->ref += l; w->read += l; }
                else if (t != 0) break;
                w->p += 4;
            }
            w->to = w->ref;
            return 1;
        }
        w->ref += l & -(t >> 1);
        w->read += l & -(t & 1);
    }
    return 0;
}
INLINE Runs runs(const Rec *r) {
    Runs w = { r->cig, r->cig + 4 * (size_t)r->nops, 0, 0, 0, r->pos, 0 };
    return w;
}

typedef void Span(Rec *, Rec *, uint32_t, uint32_t, uint32_t, uint32_t, uint32_t, Counts *);
INLINE uint32_t walk(Rec *a, Rec *b, uint32_t ag, uint32_t di, Counts *c, Span *span) {
    Runs x = runs(a), y = runs(b);
    uint32_t shared = 0;
    if (!next_run(&x) || !next_run(&y)) return 0;
    for (;;) {
        int64_t lo = x.from > y.from ? x.from : y.from, hi = x.to < y.to ? x.to : y.to;
        if (lo < hi) {
            shared = 1;
            span(a, b, x.off + (uint32_t)(lo - x.from), y.off + (uint32_t)(lo - y.from), (uint32_t)(hi - lo), ag, di, c);
        }
        if (x.to <= y.to) {
            if (x.to == y.to && !next_run(&y)) break;
            if (!next_run(&x)) break;
        } else if (!next_run(&y)) break;
    }
    return shared;
}

/* steps 4 to 7; answer 0 go on, 1 no overlap, else number + 100*place */
INLINE uint32_t judge(const Rec *a, const Rec *b, uint32_t *stop) {
    int64_t ea, eb;
    uint32_t n;
    *stop = 1;
    if ((rd16(a->rec + 14) | rd16(b->rec + 14)) & 4) return 0;
    if (rd32(a->rec) != rd32(b->rec)) return 0;
    if (a->pos < 0 || b->pos < 0) return 0;
    if ((n = check_ops(a, &ea))) return 100 + n;
    if ((n = check_ops(b, &eb))) return 200 + n;
    if (a->lseq == 0 || b->lseq == 0) return 0;
    if (ea <= b->pos || eb <= a->pos) return 0;
    *stop = 0;
    return 0;
}

#define APPLY(name, inner)                                                                      \
    static __attribute__((noinline)) uint32_t apply_##name(Rec *a, Rec *b, uint32_t ag, uint32_t di, Counts *c) { \
        if (ag == 0) return inner(0);                                                           \
        if (ag == 1) return inner(1);                                                           \
        return inner(2);                                                                        \
    }
#define I_RUN(g) walk(a, b, g, di, c, span_scalar)
#define I_BLOCK(g) walk(a, b, g, di, c, span_block)
APPLY(run, I_RUN)
APPLY(block, I_BLOCK)
typedef uint32_t Apply(Rec *, Rec *, uint32_t, uint32_t, Counts *);

INLINE uint32_t call(uint8_t *f, size_t fl, uint8_t *s, size_t sl, uint32_t ag, uint32_t di, uint8_t *counts, size_t cl, Apply *apply) {
    Rec a, b;
    uint32_t n, stop;
    if (UNLIKELY(cl != 32)) return 1000 + 15;
    if (UNLIKELY(ag > 2 || di > 2)) return 1000 + 10;
    Counts c = { rd64(counts), rd64(counts + 8), rd64(counts + 16), rd64(counts + 24) };
    if (UNLIKELY(c.over > MAX_COUNT || c.agree > MAX_COUNT || c.dis > MAX_COUNT || c.corr > MAX_COUNT)) return 1000 + 9;
    if (UNLIKELY((n = open_rec(f, fl, &a)))) return 1100 + n;
    if (UNLIKELY((n = open_rec(s, sl, &b)))) return 1200 + n;
    if (UNLIKELY((n = judge(&a, &b, &stop)))) return 1000 + n;
    if (stop || !apply(&a, &b, ag, di, &c)) return 0;
    wr64(counts, c.over); wr64(counts + 8, c.agree); wr64(counts + 16, c.dis); wr64(counts + 24, c.corr);
    return 1;
}

#define PAIR(name)                                                                              \
    uint32_t limit_##name(uint8_t *f, size_t fl, uint8_t *s, size_t sl, uint32_t ag, uint32_t di, uint8_t *c, size_t cl) { \
        return call(f, fl, s, sl, ag, di, c, cl, apply_##name);                                 \
    }
PAIR(run)
PAIR(block)

/* ---- SSE2 by hand ----
   Bases are compared while they are packed, two a byte. Where they differ or hold an N they are listed with their qualities;
   then all qualities are treated as if all bases agreed, and what is listed is mended. So only exceptions are counted.
   Pairs that aren't plainly well, such as all that are refused, go to limit_run before anything is written.
   Vectors and built-ins of gcc and clang, as emmintrin.h has them: it isn't on every machine that compiles this. */
#ifdef __SSE2__
typedef uint8_t Bytes __attribute__((vector_size(16)));
typedef uint16_t Words __attribute__((vector_size(16)));
typedef uint64_t Longs __attribute__((vector_size(16)));
typedef char Chars __attribute__((vector_size(16)));
#if __has_builtin(__builtin_elementwise_min)
INLINE Bytes smaller(Bytes x, Bytes y) { return __builtin_elementwise_min(x, y); }
INLINE Bytes larger(Bytes x, Bytes y) { return __builtin_elementwise_max(x, y); }
#else
INLINE Bytes smaller(Bytes x, Bytes y) { return (Bytes)__builtin_ia32_pminub128((Chars)x, (Chars)y); }
INLINE Bytes larger(Bytes x, Bytes y) { return (Bytes)__builtin_ia32_pmaxub128((Chars)x, (Chars)y); }
#endif
#if __has_builtin(__builtin_elementwise_add_sat) /* sums of at most 255 */
INLINE Bytes added(Bytes x, Bytes y) { return __builtin_elementwise_add_sat(x, y); }
#else
INLINE Bytes added(Bytes x, Bytes y) { return (Bytes)__builtin_ia32_paddusb128((Chars)x, (Chars)y); }
#endif
INLINE Bytes same(Bytes x, Bytes y) { return (Bytes)(x == y); } /* 255 where equal, else 0 */
INLINE Bytes each(uint8_t x) { return (Bytes){ 0 } + x; }
INLINE uint32_t tops(Bytes x) { return (uint32_t)__builtin_ia32_pmovmskb128((Chars)x); } /* the bytes' top bits */
INLINE uint64_t sum(Bytes x) {
    Longs two = (Longs)__builtin_ia32_psadbw128((Chars)x, (Chars){ 0 });
    return two[0] + two[1];
}
INLINE Bytes load(const uint8_t *p) { Bytes v; memcpy(&v, p, 16); return v; }
INLINE void store(uint8_t *p, Bytes v) { memcpy(p, &v, 16); }

/* Four counts of exceptions in a u64: a record has less than 65,536 bases. */
#define WITH_N 1ull
#define DIFFERING (1ull << 16)
#define UNCHANGED (1ull << 32) /* agreeing, and both qualities stay */
#define TIED (1ull << 48)      /* differing, and the qualities are equal */
INLINE void tell(uint64_t shared, uint64_t exceptions, uint32_t ag, uint32_t di, Counts *c) {
    uint64_t dis = exceptions >> 16 & 0xFFFF, over = shared - (exceptions & 0xFFFF), agree = over - dis;
    c->over += over; c->agree += agree; c->dis += dis;
    c->corr += (ag == 2 ? 0 : agree - (exceptions >> 32 & 0xFFFF)) + (di == 2 ? dis + (exceptions >> 48) : 2 * dis);
}

/* What agreeing bases get, and where neither quality changes by it */
INLINE Bytes agreed(Bytes a, Bytes b, uint32_t ag) { return ag == 0 ? smaller(added(a, b), each(CAP)) : larger(a, b); }
INLINE Bytes stay(Bytes a, Bytes b, Bytes q, uint32_t ag) { return ag == 0 ? same(q, a) & same(q, b) : same(a, b); }

/* ---- mending one position of one record: its byte of bases and the half in it, its quality now, the one it had ---- */
typedef struct { uint8_t *seq, *qual; uint32_t shift, q; } Place;
INLINE void mask(Place p) { *p.seq |= (uint8_t)(NOCALL << p.shift); *p.qual = MASKQ; }
INLINE void restore(Place p) { *p.qual = (uint8_t)p.q; }
/* Two equal qualities were counted as unchanged if agreement keeps them. */
INLINE uint64_t counted(uint32_t q, uint32_t ag) { return ag == 1 || (ag == 0 && (q == 0 || q == CAP)) ? UNCHANGED : 0; }
/* Bases x and y, which differ or one of which is N */
INLINE uint64_t mend(Place a, Place b, uint32_t x, uint32_t y, uint32_t ag, uint32_t di) {
    if (x == NOCALL || y == NOCALL) {
        restore(a); restore(b);
        return UNLIKELY(a.q == b.q) ? WITH_N - counted(a.q, ag) : WITH_N;
    }
    if (a.q == b.q) {
        mask(a); mask(b);
        return DIFFERING + TIED - counted(a.q, ag);
    }
    if (di == 0) {
        uint32_t q = a.q > b.q ? a.q - b.q : b.q - a.q;
        if (a.q > b.q) *b.seq ^= (uint8_t)((x ^ y) << b.shift);
        else *a.seq ^= (uint8_t)((x ^ y) << a.shift);
        *a.qual = *b.qual = (uint8_t)(q < MASKQ ? MASKQ : q);
    } else if (di == 1) { mask(a); mask(b); }
    else if (a.q < b.q) { mask(a); restore(b); }
    else { mask(b); restore(a); }
    return DIFFERING;
}

/* ---- 16 positions or more ----
   The bytes of bases are numbered from the first one of the last step, k from below 0 up to 15, and lanes 2k and 2k + 1 are
   their halves. The first record's lanes begin in high halves, the second's too, or in low ones if `odd`. */
enum { PIECE = 2032 };
typedef struct { int16_t k; uint8_t a[2], b[2], x, y; } Listed; /* a byte's lanes: qualities, bases */

/* Which of 16 bytes have a half that differs or holds an N. The bytes behind a run's last are bases or qualities too. */
INLINE uint32_t unwell(const uint8_t *sa, const uint8_t *sb, int odd) {
    Bytes x = load(sa), y = load(sb);
    if (odd) y = ((Bytes)((Words)y << 4) & each(0xF0)) | ((Bytes)((Words)load(sb + 1) >> 4) & each(0x0F));
    Bytes n = same(added(x, each(0x10)) | each(0xF0), each(0xFF)); /* of x: where only y is N they differ */
    return tops(same(x, y) & ~n) ^ 0xFFFF;
}
INLINE Listed *list_bytes(Listed *l, Strings t, ptrdiff_t k, uint32_t bytes, int odd) {
    for (; bytes; bytes &= bytes - 1, l++) {
        ptrdiff_t j = k + __builtin_ctz(bytes);
        l->k = (int16_t)j;
        memcpy(l->a, t.qa + 2 * j, 2);
        memcpy(l->b, t.qb + 2 * j, 2);
        l->x = t.sa[j]; l->y = odd ? (uint8_t)(t.sb[j] << 4 | t.sb[j + 1] >> 4) : t.sb[j];
    }
    return l;
}
/* From byte k on, a multiple of 16, to the last step's lanes. The last byte may have one lane, with nothing readable behind. */
#define OPAQUE(k) __asm__("" : "+r"(k)) /* else the compiler counts another way, which takes more instructions */
INLINE Listed *list_unwell(Listed *l, Strings t, ptrdiff_t k, uint32_t lanes, int odd) {
    for (; k; k += 16) {
        OPAQUE(k);
        l = list_bytes(l, t, k, unwell(t.sa + k, t.sb + k, odd), odd);
    }
    uint32_t bytes = unwell(t.sa, t.sb, odd), last = lanes / 2;
    l = list_bytes(l, t, 0, bytes & ((1u << last) - 1), odd);
    if ((lanes & 1) && (bytes >> last & 1)) {
        uint8_t x = t.sa[last] & 0xF0, y = odd ? (uint8_t)(t.sb[last] << 4) : t.sb[last] & 0xF0;
        *l++ = (Listed){ (int16_t)last, { t.qa[2 * last], 0 }, { t.qb[2 * last], 0 }, x, y };
    }
    return l;
}

/* n qualities of each as if all bases agreed; answers how many stay in both. The last 16 are read first and written last,
   so that they may overlap the others. Each byte of `kept` counts up to 255: n is below 2 * PIECE. */
static const uint8_t LAST[32] = { 0, 0, 0, 0, 0, 0, 0, 0, 0, 0, 0, 0, 0, 0, 0, 0,
    255, 255, 255, 255, 255, 255, 255, 255, 255, 255, 255, 255, 255, 255, 255, 255 };
INLINE Bytes treat_16(uint8_t *pa, uint8_t *pb, uint32_t ag) {
    Bytes a = load(pa), b = load(pb), q = agreed(a, b, ag);
    store(pa, q); store(pb, q);
    return stay(a, b, q, ag);
}
INLINE uint64_t treat_qualities(uint8_t *pa, uint8_t *pb, uint32_t n, uint32_t ag) {
    uint8_t *ea = pa + n - 16, *eb = pb + n - 16;
    Bytes a = load(ea), b = load(eb), q = agreed(a, b, ag), kept = -(stay(a, b, q, ag) & load(LAST + (n - 1) % 16 + 1));
    ptrdiff_t k = -(ptrdiff_t)((n - 1) / 32 * 32);
    for (pa -= k, pb -= k; k; k += 32) {
        OPAQUE(k);
        kept -= treat_16(pa + k, pb + k, ag);
        kept -= treat_16(pa + k + 16, pb + k + 16, ag);
    }
    if ((n - 1) & 16) kept -= treat_16(pa, pb, ag);
    store(ea, q); store(eb, q);
    return sum(kept);
}

INLINE uint64_t mend_half(const Listed *l, Strings t, uint32_t ag, uint32_t di, int odd, int low) {
    ptrdiff_t k = l->k, j = 2 * k + low;
    Place a = { t.sa + k, t.qa + j, low ? 0 : 4, l->a[low] };
    Place b = { t.sb + k + (odd & low), t.qb + j, low ^ odd ? 0 : 4, l->b[low] };
    return mend(a, b, low ? l->x & 15 : l->x >> 4, low ? l->y & 15 : l->y >> 4, ag, di);
}
INLINE uint64_t mend_listed(const Listed *l, const Listed *end, Strings t, uint32_t ag, uint32_t di, int odd) {
    uint64_t exceptions = 0;
    for (; l != end; l++) {
        uint32_t x = l->x, differs = x ^ l->y;
        if (differs & 0xF0 || x >= 0xF0) exceptions += mend_half(l, t, ag, di, odd, 0);
        if (differs & 0x0F || (x & 0x0F) == 0x0F) exceptions += mend_half(l, t, ag, di, odd, 1);
    }
    return exceptions;
}
/* functions of their own, by agreement, disagreement and `odd` */
typedef uint64_t Mend(const Listed *, const Listed *, const Strings *);
#define MEND(ag, di, odd)                                                                       \
    static __attribute__((noinline)) uint64_t mend_##ag##di##odd(const Listed *l, const Listed *end, const Strings *t) { \
        return mend_listed(l, end, *t, ag, di, odd);                                            \
    }
#define MENDS(ag) MEND(ag, 0, 0) MEND(ag, 0, 1) MEND(ag, 1, 0) MEND(ag, 1, 1) MEND(ag, 2, 0) MEND(ag, 2, 1)
#define NAMES(ag) { { mend_##ag##00, mend_##ag##01 }, { mend_##ag##10, mend_##ag##11 }, { mend_##ag##20, mend_##ag##21 } }
MENDS(0) MENDS(1) MENDS(2)
static Mend *const MENDERS[3][3][2] = { NAMES(0), NAMES(1), NAMES(2) };

/* n positions, fewer than 2 * PIECE, from lane `from` on: where both records begin in a low half lane 0 isn't theirs. */
INLINE uint64_t treat_piece(Strings t, uint32_t from, uint32_t n, uint32_t ag, uint32_t di, int odd) {
    ptrdiff_t first = -(ptrdiff_t)((from + n - 1) / 32 * 16);
    Strings last = { t.sa - first, t.qa - 2 * first, t.sb - first, t.qb - 2 * first };
    Listed list[PIECE], *end = list_unwell(list, last, first, from + n + 2 * (uint32_t)first, odd);
    uint64_t exceptions = ag == 2 ? 0 : UNCHANGED * treat_qualities(t.qa + from, t.qb + from, n, ag);
    if (end == list) return exceptions;
    if (from && list->k == first) { list->x &= 0x0F; list->y &= 0x0F; }
    return exceptions + MENDERS[ag][di][odd](list, end, &last);
}
INLINE uint64_t treat_pieces(Strings t, uint32_t from, uint32_t n, uint32_t ag, uint32_t di, int odd) {
    uint64_t exceptions = 0;
    for (; n >= 2 * PIECE; n -= PIECE) {
        exceptions += treat_piece(t, from, PIECE, ag, di, odd);
        t.sa += PIECE / 2; t.sb += PIECE / 2; t.qa += PIECE; t.qb += PIECE;
    }
    return exceptions + treat_piece(t, from, n, ag, di, odd);
}
INLINE uint64_t treat_many(Strings t, uint32_t ia, uint32_t ib, uint32_t n, uint32_t ag, uint32_t di) {
    uint32_t from = ia & ib & 1;
    Strings u = { t.sa + ia / 2, t.qa + ia - from, t.sb + ib / 2, t.qb + ib - from };
    if (!((ia ^ ib) & 1)) return treat_pieces(u, from, n, ag, di, 0);
    if (ia & 1) u = (Strings){ u.sb, u.qb, u.sa, u.qa }; /* what a position becomes doesn't depend on which is first */
    return treat_pieces(u, 0, n, ag, di, 1);
}

/* ---- 1 to 15 positions, where 16 qualities can be read of both records: bases in a u64, the first one on top ---- */
#define ONES 0x1111111111111111ull
/* from 16 - n on: n lanes of 255 and 0; 32 bytes later n lanes of 93 and 255 */
static const uint8_t FIRST[64] = { 255, 255, 255, 255, 255, 255, 255, 255, 255, 255, 255, 255, 255, 255, 255, 255,
    0, 0, 0, 0, 0, 0, 0, 0, 0, 0, 0, 0, 0, 0, 0, 0, CAP, CAP, CAP, CAP, CAP, CAP, CAP, CAP, CAP, CAP, CAP, CAP, CAP, CAP, CAP, CAP,
    255, 255, 255, 255, 255, 255, 255, 255, 255, 255, 255, 255, 255, 255, 255, 255 };
INLINE uint64_t bases_from(const uint8_t *seq, uint32_t i) { return __builtin_bswap64(rd64(seq + i / 2)) << (i & 1) * 4; }
INLINE Place place(uint8_t *seq, uint8_t *qual, uint32_t i, uint32_t q) {
    return (Place){ seq + i / 2, qual + i, (~i & 1) << 2, q };
}
/* The positions whose half of `bad` isn't 0, the last one lowest; some of these are well. */
static __attribute__((noinline)) uint64_t mend_few(Strings t, Bytes qa, Bytes qb, uint64_t bad, uint32_t ia, uint32_t ib, uint32_t n,
                                                   uint32_t ag, uint32_t di) {
    uint8_t p[16], q[16];
    uint64_t exceptions = 0;
    store(p, qa); store(q, qb);
    do {
        uint32_t k = (uint32_t)__builtin_ctzll(bad) / 4, j = n - 1 - k;
        Place a = place(t.sa, t.qa, ia + j, p[j]), b = place(t.sb, t.qb, ib + j, q[j]);
        uint32_t x = *a.seq >> a.shift & 15, y = *b.seq >> b.shift & 15;
        bad &= ~15ull << 4 * k;
        if (x != y || x == NOCALL) exceptions += mend(a, b, x, y, ag, di);
    } while (bad);
    return exceptions;
}
INLINE uint64_t treat_few(Strings t, uint32_t ia, uint32_t ib, uint32_t n, uint32_t ag, uint32_t di) {
    uint64_t x = bases_from(t.sa, ia), y = bases_from(t.sb, ib), exceptions = 0;
    uint64_t n_or_e = (~ONES - x) & x & 8 * ONES; /* halves of 15, and those of 14 above one */
    uint64_t bad = ((x ^ y) | n_or_e) >> (64 - 4 * n);
    Bytes a = load(t.qa + ia), b = load(t.qb + ib);
    if (ag != 2) {
        Bytes lanes = load(FIRST + 16 - n), p = larger(a, b & lanes), q = larger(b, a & lanes);
        if (ag == 0) {
            Bytes cap = load(FIRST + 48 - n);
            p = smaller(added(a, b & lanes), cap); q = smaller(added(b, a & lanes), cap);
        }
        Bytes kept = (ag == 0 ? same(p, a) & same(q, b) : same(a, b)) & lanes;
        if (ag == 1 || UNLIKELY(tops(kept))) exceptions = UNCHANGED * sum(-kept);
        store(t.qa + ia, p); store(t.qb + ib, q);
    }
    if (UNLIKELY(bad)) exceptions += mend_few(t, a, b, bad, ia, ib, n, ag, di);
    return exceptions;
}

/* ---- the runs that both records share, listed while the operations are judged ---- */
enum { ALIGNED = 0x181, MOST_OPS = 256, LONGEST = 1 << 20 }; /* no sum of so many lengths below LONGEST leaves its half */
#define REFERENCE 1ull
#define READ (1ull << 32)
static const uint64_t USES[16] = { READ + REFERENCE, READ, REFERENCE, REFERENCE, READ, 0, 0, READ + REFERENCE, READ + REFERENCE };
typedef struct { uint32_t ia, ib, n; } Shared;
typedef struct { const uint8_t *p, *end; uint64_t at; uint32_t from, to, off; } Cursor; /* off: from reference to read */

/* The next aligned run; 0 at the end. An operation that limit_run is to judge ends the record with a wrong total. */
INLINE int next_shared(Cursor *c) {
    while (c->p != c->end) {
        uint32_t op = rd32(c->p), code = op & 15;
        if (UNLIKELY(op - 16 >= 16 * LONGEST - 16)) break;
        if (ALIGNED >> code & 1) {
            c->from = (uint32_t)c->at; c->off = (uint32_t)(c->at >> 32) - c->from;
            do { /* adjacent M = X are one run */
                c->at += (op >> 4) * (READ + REFERENCE);
                c->p += 4;
            } while (c->p != c->end && (op = rd32(c->p), ALIGNED >> (op & 15) & 1) && LIKELY(op - 16 < 16 * LONGEST - 16));
            c->to = (uint32_t)c->at;
            return 1;
        }
        if (UNLIKELY(code > 8)) break;
        c->at += (op >> 4) * USES[code];
        c->p += 4;
    }
    if (UNLIKELY(c->p != c->end)) { c->p = c->end; c->at = ~0ull; }
    return 0;
}
INLINE Shared *list_shared(Shared *l, Cursor *x, Cursor *y) {
    int more = next_shared(x) && next_shared(y);
    while (more) {
        uint32_t lo = x->from > y->from ? x->from : y->from, hi = x->to < y->to ? x->to : y->to;
        if (lo < hi) *l++ = (Shared){ lo + x->off, lo + y->off, hi - lo };
        if (x->to < y->to) more = next_shared(x);
        else if (x->to > y->to) more = next_shared(y);
        else more = next_shared(x) && next_shared(y);
    }
    while (next_shared(x)) {}
    while (next_shared(y)) {}
    return l;
}
INLINE int totals_well(const Cursor *c, const Rec *r) { return (uint32_t)(c->at >> 32) == r->lseq && (uint32_t)c->at <= MAX_END; }

/* ---- the call ---- */
INLINE uint32_t treat_shared(const Shared *l, const Shared *end, const Rec *a, const Rec *b, uint32_t ag, uint32_t di, uint8_t *counts) {
    Strings t = { a->seq, a->qual, b->seq, b->qual };
    ptrdiff_t last_a = a->end - a->qual - 16, last_b = b->end - b->qual - 16; /* from there 16 qualities can be read */
    uint64_t shared = 0, exceptions = 0;
    Counts c = { 0, 0, 0, 0 };
    do {
        shared += l->n;
        if (l->n > 15) exceptions += treat_many(t, l->ia, l->ib, l->n, ag, di);
        else if (LIKELY(l->ia <= last_a && l->ib <= last_b)) exceptions += treat_few(t, l->ia, l->ib, l->n, ag, di);
        else { shared -= l->n; loop_scalar(t, l->ia, l->ib, l->n, ag, di, &c); }
    } while (++l != end);
    tell(shared, exceptions, ag, di, &c);
    wr64(counts, rd64(counts) + c.over); wr64(counts + 8, rd64(counts + 8) + c.agree);
    wr64(counts + 16, rd64(counts + 16) + c.dis); wr64(counts + 24, rd64(counts + 24) + c.corr);
    return 1;
}
INLINE int open_well(uint8_t *b, size_t len, Rec *r) {
    uint32_t nops = rd16(b + 12), lseq = rd32(b + 16);
    size_t cig = 32 + (size_t)b[8], seq = cig + 4 * (size_t)nops, qual = seq + ((size_t)lseq + 1) / 2;
    *r = (Rec){ b, b + seq, b + qual, b + cig, b + len, nops, lseq, (int32_t)rd32(b + 4) };
    return qual + lseq <= len;
}
/* Records of any operations, judged up to step 6 */
INLINE uint32_t call_walked(uint8_t *f, size_t fl, uint8_t *s, size_t sl, uint32_t ag, uint32_t di, uint8_t *counts) {
    Rec a, b;
    Shared list[MOST_OPS], *end = list;
    open_well(f, fl, &a); open_well(s, sl, &b);
    Cursor x = { a.cig, a.seq, (uint32_t)a.pos, 0, 0, 0 }, y = { b.cig, b.seq, (uint32_t)b.pos, 0, 0, 0 };
    if (LIKELY(a.nops + b.nops <= MOST_OPS && a.lseq && b.lseq)) {
        end = list_shared(list, &x, &y);
        if (LIKELY(totals_well(&x, &a) && totals_well(&y, &b))) return end == list ? 0 : treat_shared(list, end, &a, &b, ag, di, counts);
    }
    return limit_run(f, fl, s, sl, ag, di, counts, 32);
}
#define WALKED(ag)                                                                              \
    static __attribute__((noinline)) uint32_t walked_##ag(uint8_t *f, size_t fl, uint8_t *s, size_t sl, uint32_t di, uint8_t *counts) { \
        return call_walked(f, fl, s, sl, ag, di, counts);                                       \
    }
WALKED(0) WALKED(1) WALKED(2)

/* Both records are one M, as most are. */
INLINE int is_plain(const Rec *r) { return r->nops == 1 && r->lseq && rd32(r->cig) == 16 * r->lseq; }
INLINE uint32_t call_plain(const Rec *a, const Rec *b, uint32_t ag, uint32_t di, uint8_t *counts) {
    uint32_t x = (uint32_t)a->pos, y = (uint32_t)b->pos, ea = x + a->lseq, eb = y + b->lseq;
    uint32_t lo = x > y ? x : y, hi = ea < eb ? ea : eb;
    Shared one = { lo - x, lo - y, hi - lo };
    if (lo >= hi) return 0;
    if (LIKELY(ag == 0)) return treat_shared(&one, &one + 1, a, b, 0, di, counts);
    if (ag == 1) return treat_shared(&one, &one + 1, a, b, 1, di, counts);
    return treat_shared(&one, &one + 1, a, b, 2, di, counts);
}
uint32_t limit_sse2(uint8_t *f, size_t fl, uint8_t *s, size_t sl, uint32_t ag, uint32_t di, uint8_t *counts, size_t cl) {
    Rec a, b;
    if (UNLIKELY(cl != 32 || ag > 2 || di > 2 || tops(load(counts) | load(counts + 16)) & 0x8080 || fl - 32 > MAX_RECORD - 32
                 || sl - 32 > MAX_RECORD - 32 || !open_well(f, fl, &a) || !open_well(s, sl, &b)))
        return limit_run(f, fl, s, sl, ag, di, counts, cl);
    if ((f[14] | s[14]) & 4 || rd32(f) != rd32(s) || (a.pos | b.pos) < 0) return 0;
    if (is_plain(&a) && is_plain(&b) && LIKELY(((a.pos + a.lseq) | (b.pos + b.lseq)) <= MAX_END)) return call_plain(&a, &b, ag, di, counts);
    if (LIKELY(ag == 0)) return walked_0(f, fl, s, sl, di, counts);
    return ag == 1 ? walked_1(f, fl, s, sl, di, counts) : walked_2(f, fl, s, sl, di, counts);
}
#endif
