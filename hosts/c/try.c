/* try.c: tries one input that is written in hexadecimal.
 *
 *   try pair AGREEMENT DISAGREEMENT CAP COUNTS FIRST SECOND   calls the step on a pair
 *   try reason FIRST SECOND                                   asks why a pair doesn't overlap
 *   try filed OUT_LEN COUNTS FILED                            calls the step on a filed group
 *   try trailer AGREEMENT DISAGREEMENT FRAMES                 writes the raw trailer of framed records
 *   try bytes TEXT                                            writes the bytes, as input for a program
 *
 * Two digits make a byte and blanks don't count; 00*32 is 32 such bytes, (2A 00*3)*2 is a part
 * taken twice. `pair` prints the answer and, where a byte changed, both records and the counts;
 * `reason` the answer, and no byte may change; `filed` the answer and, where a byte changed, the
 * output, which begins as OUT_LEN zero bytes, and the counts.
 */
#include "overlap.h"
#include "read_all.h"
#include <ctype.h>
#include <string.h>

enum { ROOM = 1 << 20 };
typedef struct { uint8_t at[ROOM]; size_t len; } Bytes;

static void append(Bytes *to, const uint8_t *from, size_t n) {
    if (n > ROOM - to->len) fail("try", "too long");
    memmove(to->at + to->len, from, n);
    to->len += n;
}

/* Reads up to the text's end or a closing bracket, and answers where it stopped. */
static const char *parse(const char *text, Bytes *out) {
    for (;;) {
        while (isspace((unsigned char)*text)) text++;
        if (*text == 0 || *text == ')') return text;
        size_t start = out->len;
        if (*text == '(') {
            text = parse(text + 1, out);
            if (*text++ != ')') fail("try", "a bracket isn't closed");
        } else {
            char digits[3] = { text[0], text[1], 0 };
            if (!isxdigit((unsigned char)text[0]) || !isxdigit((unsigned char)text[1])) fail("try", "two hexadecimal digits make a byte");
            uint8_t byte = (uint8_t)strtoul(digits, NULL, 16);
            append(out, &byte, 1);
            text += 2;
        }
        if (*text == '*') {
            size_t part = out->len - start;
            unsigned long times = strtoul(text + 1, (char **)&text, 10);
            if (times == 0) out->len = start;
            while (times-- > 1) append(out, out->at + start, part);
        }
    }
}

static Bytes *bytes(const char *text) {
    Bytes *all = calloc(1, sizeof *all);
    if (!all) fail("try", "no memory");
    if (*parse(text, all)) fail("try", "a closing bracket too many");
    return all;
}

static void print(const char *what, const Bytes *b) {
    printf("%s ", what);
    for (size_t i = 0; i < b->len; i++) printf("%02X", b->at[i]);
    printf("\n");
}

/* A number in decimal; one that doesn't fit 32 bits is no strategy and no cap, and stays none. */
static uint32_t number(const char *text) {
    unsigned long n = strtoul(text, NULL, 10);
    return n > UINT32_MAX ? UINT32_MAX : (uint32_t)n;
}

static int same(const Bytes *a, const Bytes *b) {
    return memcmp(a, b, sizeof *a) == 0;
}

static int try_pair(char **args) {
    Bytes *after[3], *before[3];
    int unchanged = 1;
    for (int i = 0; i < 3; i++) after[i] = bytes(args[3 + i]), before[i] = bytes(args[3 + i]);
    uint32_t answer = overlap_call(after[1]->at, after[1]->len, after[2]->at, after[2]->len,
                                   number(args[0]), number(args[1]), number(args[2]), after[0]->at, after[0]->len);
    for (int i = 0; i < 3; i++) unchanged &= same(before[i], after[i]);
    printf("answer %u\n", answer);
    if (!unchanged) print("first", after[1]), print("second", after[2]), print("counts", after[0]);
    return 0;
}

static int try_reason(char **args) {
    Bytes *first = bytes(args[0]), *second = bytes(args[1]);
    uint32_t answer = overlap_reason_call(first->at, first->len, second->at, second->len);
    if (!same(first, bytes(args[0])) || !same(second, bytes(args[1]))) fail("try", "a record was changed, and only its reason asked");
    printf("answer %u\n", answer);
    return 0;
}

static int try_filed(char **args) {
    Bytes *out = bytes(""), *out_before = bytes(""), *counts = bytes(args[1]), *filed = bytes(args[2]);
    out->len = out_before->len = number(args[0]);
    if (out->len > ROOM) fail("try", "too long");
    uint32_t answer = overlap_filed_call(filed->at, filed->len, out->at, out->len, counts->at, counts->len);
    if (!same(filed, bytes(args[2]))) fail("try", "the filed group itself was changed");
    printf("answer %u\n", answer);
    if (!same(out, out_before) || !same(counts, bytes(args[1]))) print("out", out), print("counts", counts);
    return 0;
}

static int try_trailer(char **args) {
    uint8_t trailer[OVERLAP_TRAILER_SIZE];
    Bytes *frames = bytes(args[2]);
    uint32_t answer = overlap_trailer_call(frames->at, frames->len, number(args[0]), number(args[1]), trailer, sizeof trailer);
    if (answer == 0) return fwrite(trailer, 1, sizeof trailer, stdout) == sizeof trailer ? 0 : 1;
    fprintf(stderr, "try: refused with answer %u\n", answer);
    return 1;
}

static int try_bytes(char **args) {
    Bytes *all = bytes(args[0]);
    return fwrite(all->at, 1, all->len, stdout) == all->len ? 0 : 1;
}

int main(int argc, char **argv) {
    static const struct { const char *name; int args, (*run)(char **); } COMMANDS[] = {
        { "pair", 6, try_pair }, { "reason", 2, try_reason }, { "filed", 3, try_filed }, { "trailer", 3, try_trailer },
        { "bytes", 1, try_bytes } };
    for (size_t i = 0; i < sizeof COMMANDS / sizeof COMMANDS[0]; i++)
        if (argc == 2 + COMMANDS[i].args && strcmp(argv[1], COMMANDS[i].name) == 0) return COMMANDS[i].run(argv + 2);
    fail("try", "pair AGREEMENT DISAGREEMENT CAP COUNTS FIRST SECOND, reason FIRST SECOND, filed OUT_LEN COUNTS FILED, "
                "trailer AGREEMENT DISAGREEMENT FRAMES, or bytes TEXT");
    return 2;
}
