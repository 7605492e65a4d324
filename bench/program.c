/* program.c: the program `overlap` of the paper written by hand over limit.c's blocks, names
 * hashed: the anchor beside target/bin/overlap. A limit of speed and no model, as limit.c says of itself. */
#include "limit.c"
#include <stdio.h>
#include <unistd.h>

typedef struct { uint32_t at, len; } Frame;
typedef struct { uint32_t records, pairs, overlapping; } GroupAnswer;

INLINE uint64_t hash_name(const uint8_t *p, size_t n) {
    uint64_t h = n * 0x9E3779B97F4A7C15ull;
    while (n > 8) { h = (h ^ rd64(p)) * 0xff51afd7ed558ccdull; h ^= h >> 32; p += 8; n -= 8; }
    uint64_t t = 0;
    if (n >= 4) t = rd32(p) | (uint64_t)rd32(p + n - 4) << 32;
    else if (n) t = p[0] | (uint64_t)p[n / 2] << 8 | (uint64_t)p[n - 1] << 16;
    h = (h ^ t) * 0xff51afd7ed558ccdull;
    return h ^ h >> 32;
}

/* answers 0, or number*1000 + place */
INLINE uint32_t group(uint8_t *g, size_t gl, uint32_t ag, uint32_t di, uint8_t *counts, GroupAnswer *out) {
    Frame fr[256];
    int16_t first[256], last[256]; /* by name slot */
    uint16_t name_of[256];         /* slot -> a record that has the name */
    int16_t slot_of[256];          /* record -> slot if registered as first, else -1 */
    uint16_t table[512];
    uint64_t hashes[256];
    uint32_t n = 0, slots = 0;
    size_t at = 0;
    Rec r, s;
    uint32_t no, stop;
    if (ag > 2 || di > 2) return 10 * 1000;
    Counts c = { rd64(counts), rd64(counts + 8), rd64(counts + 16), rd64(counts + 24) };
    if (c.over > MAX_COUNT || c.agree > MAX_COUNT || c.dis > MAX_COUNT || c.corr > MAX_COUNT) return 9 * 1000;
    memset(table, 0xFF, sizeof table);
    while (at < gl) {
        if (n == 256) return 12 * 1000 + 256;
        if (gl - at < 4) return 11 * 1000 + n;
        uint32_t size = rd32(g + at);
        if (size > gl - at - 4) return 11 * 1000 + n;
        at += 4;
        if ((no = open_rec(g + at, size, &r))) return no * 1000 + n;
        fr[n].at = (uint32_t)at; fr[n].len = size;
        at += size;
        uint32_t fl = rd16(r.rec + 14), is_first = fl & 64;
        slot_of[n] = -1;
        if (!(fl & (256 | 2048)) && (fl & (64 | 128))) {
            uint32_t l = r.rec[8] > 1 ? r.rec[8] - 1u : 0, k = 0;
            int found = 0;
            uint64_t h = hash_name(r.rec + 32, l);
            uint32_t i = h & 511;
            while (table[i] != 0xFFFF) {
                k = table[i];
                const uint8_t *o = g + fr[name_of[k]].at;
                if (hashes[k] == h && (o[8] > 1 ? o[8] - 1u : 0) == l && memcmp(o + 32, r.rec + 32, l) == 0) { found = 1; break; }
                i = (i + 1) & 511;
            }
            if (!found) { k = slots++; table[i] = (uint16_t)k; hashes[k] = h; }
            if (!found) { name_of[k] = (uint16_t)n; first[k] = last[k] = -1; }
            if (is_first) { first[k] = (int16_t)n; slot_of[n] = (int16_t)k; }
            else last[k] = (int16_t)n;
        }
        n++;
    }
    /* judge every pair before anything is written */
    uint8_t go[256];
    uint32_t pairs = 0, over = 0;
    for (uint32_t i = 0; i < n; i++) {
        int k = slot_of[i];
        go[i] = 0;
        if (k < 0 || first[k] != (int)i || last[k] < 0) continue;
        pairs++;
        open_rec(g + fr[i].at, fr[i].len, &r);
        open_rec(g + fr[last[k]].at, fr[last[k]].len, &s);
        if ((no = judge(&r, &s, &stop))) return no % 100 * 1000 + (no < 200 ? i : (uint32_t)last[k]);
        go[i] = !stop;
    }
    for (uint32_t i = 0; i < n; i++) {
        if (!go[i]) continue;
        int j = last[slot_of[i]];
        open_rec(g + fr[i].at, fr[i].len, &r);
        open_rec(g + fr[j].at, fr[j].len, &s);
        over += apply_block(&r, &s, ag, di, &c);
    }
    wr64(counts, c.over); wr64(counts + 8, c.agree); wr64(counts + 16, c.dis); wr64(counts + 24, c.corr);
    out->records = n; out->pairs = pairs; out->overlapping = over;
    return 0;
}

static uint8_t in[65537];
static int refuse(unsigned number, unsigned place) {
    char h[64];
    int n = snprintf(h, sizeof h, "no %u %u\n", number, place);
    return write(1, h, (size_t)n) == n ? 0 : 1;
}
int main(void) {
    size_t n = 0;
    ssize_t k;
    while (n < sizeof in && (k = read(0, in + n, sizeof in - n)) > 0) n += (size_t)k;
    if (n > 65536) return refuse(14, 0);
    if (n < 2 || in[0] < '0' || in[0] > '2' || in[1] < '0' || in[1] > '2') return refuse(10, 0);
    uint8_t counts[32] = { 0 };
    GroupAnswer a;
    uint32_t r = group(in + 2, n - 2, in[0] - '0', in[1] - '0', counts, &a);
    if (r) return refuse(r / 1000, r % 1000);
    char h[256];
    int m = snprintf(h, sizeof h, "ok %u %u %u %llu %llu %llu %llu\n", a.records, a.pairs, a.overlapping,
        (unsigned long long)rd64(counts), (unsigned long long)rd64(counts + 8), (unsigned long long)rd64(counts + 16), (unsigned long long)rd64(counts + 24));
    if (write(1, h, (size_t)m) != m) return 1;
    for (size_t o = 2; o < n; o += (size_t)k)
        if ((k = write(1, in + o, n - o)) <= 0) return 1;
    return 0;
}
