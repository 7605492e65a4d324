/*
 * For tests/far.sh.
 *   far         calls from two threads at once, and from a process and its child at once: 0 where each got its own answers
 *   far CALL    one call: pair, reason, filed or trailer
 */
#define _POSIX_C_SOURCE 200809L
#include "overlap.h"
#include <pthread.h>
#include <stdio.h>
#include <string.h>
#include <sys/wait.h>
#include <unistd.h>

enum { TURNS = 500 };

/* What each of two who call at once passes: the length of the counts, and a cap. */
struct own { size_t len; uint32_t cap; };
static struct own right = {32, 40}, wrong = {31, 93};

/* The quality that two bases of quality 30 get that agree, with this cap; 0 where the call answers anything but an overlap. */
static uint8_t agreed(uint32_t cap) {
    enum { LEN = 38, QUALITY = LEN - 1 };
    static const uint8_t record[LEN] = {[12] = 1, [16] = 1, [32] = 0x10, [QUALITY] = 30};   /* 1M, and one base */
    uint8_t first[LEN], second[LEN], counts[32] = {0};
    memcpy(first, record, LEN);
    memcpy(second, record, LEN);
    uint32_t answer = overlap_call(first, LEN, second, LEN, 0, 0, cap, counts, 32);
    return answer == 1 && memcmp(first, second, LEN) == 0 ? first[QUALITY] : 0;
}

/* Calls on records that are too short: with 32 bytes of counts, which are right, the first record is refused. Asks why a
   record of as many bytes, which all who call pass at once, doesn't overlap itself: 32 of them are a record. And calls with
   a cap that is below twice the quality or over it. */
static void *work(void *of) {
    static const uint8_t record[32];
    const struct own *own = of;
    for (int i = 0; i < TURNS; i++) {
        uint8_t first[8] = {0}, second[8] = {0}, counts[32] = {0};
        uint32_t answer = overlap_call(first, 8, second, 8, 0, 0, own->cap, counts, own->len);
        uint32_t reason = overlap_reason_call(record, own->len, record, own->len);
        if (answer != (own == &right ? 1101 : 1015)) return "another's answer";
        if (reason != (own == &right ? OVERLAP_REASON_NO_REFERENCE_LENGTH : 1101)) return "another's reason";
        if (agreed(own->cap) != (own == &right ? 40 : 60)) return "another's cap";
    }
    return NULL;
}

static int two_threads(void) {
    pthread_t other;
    void *here, *there = "";
    if (pthread_create(&other, NULL, work, &right) != 0) return 1;
    here = work(&wrong);
    pthread_join(other, &there);
    return here || there;
}

static int two_processes(void) {
    int ended = 1;
    pid_t child = fork();
    if (child == 0) _exit(work(&right) != NULL);
    int bad = work(&wrong) != NULL;
    return child < 0 || waitpid(child, &ended, 0) != child || ended != 0 || bad;
}

int main(int argc, char **argv) {
    uint8_t a[64] = {0}, b[64] = {0}, c[32] = {0};
    if (argc < 2) return two_threads() | two_processes();
    if (strcmp(argv[1], "pair") == 0) overlap_call(a, 64, b, 64, 0, 0, OVERLAP_CAP_MAX, c, 32);
    else if (strcmp(argv[1], "reason") == 0) overlap_reason_call(a, 64, b, 64);
    else if (strcmp(argv[1], "filed") == 0) overlap_filed_call(a, 64, b, 64, c, 32);
    else if (strcmp(argv[1], "trailer") == 0) overlap_trailer_call(a, 64, 0, 0, b, 64);
    else return 2;
    return 0;
}
