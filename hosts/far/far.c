/*
 * far.c: the exported calls for a host on a machine that isn't x86-64.
 *
 * The archive links into x86-64 programs alone. This file is compiled twice (scripts/far.sh) to bring its calls
 * to a native host:
 *
 *   for x86-64, with SERVER defined, and linked with the archive: a program that does the calls that come in by
 *   standard input, and gives back by standard output what came of each;
 *   natively, with FAR the file that starts that program: the calls of the archive, each of them sent to the server.
 *
 * In the server each buffer stands between guard bytes, at the alignment that it has in the host; a call that
 * writes elsewhere is found out. One server does the calls of a process, one after the other. A call takes some ten
 * microseconds and not a tenth of one: this is for tests and for trying things out.
 */
#ifndef SERVER
#define _POSIX_C_SOURCE 200809L
#endif
#include "overlap.h"

/*
 * The calls. A row has a call's name; its parameters, as overlap.h has them; the numbers and the buffers among these;
 * and the arguments of the server's call, where n[..] are those numbers and B(..) those buffers. A buffer x of x_len
 * bytes is CHANGED(x) where the call may write into it, READ(x) where it may not.
 */
#define CALLS(ROW)                                                                                                \
    ROW(overlap_call,                                                                                             \
        (uint8_t *first, size_t first_len, uint8_t *second, size_t second_len,                                    \
         uint32_t agreement, uint32_t disagreement, uint32_t cap, uint8_t *counts, size_t counts_len),            \
        (agreement, disagreement, cap), (CHANGED(first), CHANGED(second), CHANGED(counts)),                       \
        (B(0), B(1), n[0], n[1], n[2], B(2)))                                                                     \
    ROW(overlap_reason_call,                                                                                      \
        (const uint8_t *first, size_t first_len, const uint8_t *second, size_t second_len),                       \
        (0), (READ(first), READ(second)),                                                                         \
        (B(0), B(1)))                                                                                             \
    ROW(overlap_filed_call,                                                                                       \
        (const uint8_t *filed, size_t filed_len, uint8_t *out, size_t out_len, uint8_t *counts, size_t counts_len), \
        (0), (READ(filed), CHANGED(out), CHANGED(counts)),                                                        \
        (B(0), B(1), B(2)))                                                                                       \
    ROW(overlap_trailer_call,                                                                                     \
        (const uint8_t *frames, size_t frames_len, uint32_t agreement, uint32_t disagreement,                     \
         uint8_t *trailer, size_t trailer_len),                                                                   \
        (agreement, disagreement), (READ(frames), CHANGED(trailer)),                                              \
        (B(0), n[0], n[1], B(1)))

#define AS_NUMBER(name, ...) DO_##name,
enum { CALLS(AS_NUMBER) };

/*
 * A call as it is sent, before the bytes of its buffers; the server takes from `at` how a buffer is aligned, and puts its
 * own place there. Back come a reply and the buffers that may have changed.
 */
enum { NUMBERS = 4, BUFFERS = 4, PARTS = 1 + BUFFERS };      /* the most that a call has */
struct buffer { uint8_t *at; uint64_t len, changed; };
struct call { uint64_t which, numbers[NUMBERS]; struct buffer buffers[BUFFERS]; };
struct reply { uint32_t answer, harm; };
enum { NO_HARM, BESIDE, INTO_READ };                         /* harm: what the call wrote, and must not */
_Static_assert(sizeof(struct call) == 8 * (1 + NUMBERS + 3 * BUFFERS), "both sides lay a call out alike");

#ifdef SERVER                                                /* the kit has its C library without headers */
struct iovec { void *iov_base; size_t iov_len; };
enum { EINTR = 4 };
long readv(int, const struct iovec *, int), writev(int, const struct iovec *, int);
int dprintf(int, const char *, ...), memcmp(const void *, const void *, size_t), *__errno_location(void);
void *memcpy(void *, const void *, size_t), *memset(void *, int, size_t), *aligned_alloc(size_t, size_t), free(void *);
_Noreturn void exit(int);
#define errno (*__errno_location())
#else
#include <errno.h>
#include <pthread.h>
#include <spawn.h>
#include <stdio.h>
#include <stdlib.h>
#include <sys/socket.h>
#include <sys/uio.h>
#include <unistd.h>
extern char **environ;
#endif

_Noreturn static void die(const char *why) {
    dprintf(2, "far: %s\n", why);
    exit(3);
}

static void advance(struct iovec *part, size_t n) {
    for (size_t step; n > 0; part++, n -= step) {
        step = n < part->iov_len ? n : part->iov_len;
        part->iov_base = (uint8_t *)part->iov_base + step;
        part->iov_len -= step;
    }
}

/* Moves all of the parts, in as many turns as it takes. 0 where the other side is gone. */
static int all(long turn(const struct iovec *, int), struct iovec *parts, int count) {
    for (;;) {
        while (count > 0 && parts->iov_len == 0) parts++, count--;
        if (count == 0) return 1;
        long n = turn(parts, count);
        if (n < 0 && errno == EINTR) continue;
        if (n <= 0) return 0;
        advance(parts, (size_t)n);
    }
}

#ifdef SERVER

enum { GUARD = 64, MARK = 0xA5 };

static long take(const struct iovec *parts, int count) { return readv(0, parts, count); }
static long give(const struct iovec *parts, int count) { return writev(1, parts, count); }

/* A place of len bytes, aligned as `host` is, with room for the guards; kept from call to call. */
static uint8_t *place(int i, const uint8_t *host, size_t len) {
    static struct { uint8_t *at; size_t len; } places[2 * BUFFERS];
    size_t whole = (len / GUARD + 4) * GUARD;
    if (places[i].len < whole) {
        free(places[i].at);
        places[i].at = aligned_alloc(GUARD, whole);
        places[i].len = whole;
    }
    if (!places[i].at) die("the server has no memory for a buffer");
    return places[i].at + GUARD + (uintptr_t)host % GUARD;
}

/* Brings in the buffers of a call, each between guards, and a copy of each that is only read. */
static int bring(struct call *c, uint8_t *copies[]) {
    struct iovec parts[BUFFERS];
    for (int i = 0; i < BUFFERS; i++) {
        struct buffer *b = &c->buffers[i];
        b->at = place(i, b->at, b->len);
        memset(b->at - GUARD, MARK, GUARD);
        memset(b->at + b->len, MARK, GUARD);
        parts[i] = (struct iovec){b->at, b->len};
    }
    if (!all(take, parts, BUFFERS)) return 0;
    for (int i = 0; i < BUFFERS; i++) {
        struct buffer *b = &c->buffers[i];
        if (!b->changed) copies[i] = memcpy(place(BUFFERS + i, b->at, b->len), b->at, b->len);
    }
    return 1;
}

static uint32_t harm(const struct call *c, uint8_t *copies[]) {
    uint8_t guard[GUARD];
    memset(guard, MARK, GUARD);
    for (int i = 0; i < BUFFERS; i++) {
        const struct buffer *b = &c->buffers[i];
        if (memcmp(b->at - GUARD, guard, GUARD) != 0 || memcmp(b->at + b->len, guard, GUARD) != 0) return BESIDE;
        if (!b->changed && memcmp(b->at, copies[i], b->len) != 0) return INTO_READ;
    }
    return NO_HARM;
}

#define B(i) b[i].at, b[i].len
#define AS_CASE(name, parameters, numbers, buffers, arguments) case DO_##name: return name arguments;
static uint32_t run(const struct call *c) {
    const uint64_t *n = c->numbers;
    const struct buffer *b = c->buffers;
    switch (c->which) { CALLS(AS_CASE) }
    die("the server has no such call");
}

static int reply(const struct call *c, struct reply r) {
    struct iovec parts[PARTS] = {{&r, sizeof r}};
    for (int i = 0; i < BUFFERS; i++)
        if (c->buffers[i].changed) parts[1 + i] = (struct iovec){c->buffers[i].at, c->buffers[i].len};
    return all(give, parts, PARTS);
}

int main(void) {
    struct call c;
    uint8_t *copies[BUFFERS];
    while (all(take, &(struct iovec){&c, sizeof c}, 1) && bring(&c, copies)) {
        uint32_t answer = run(&c);
        if (!reply(&c, (struct reply){answer, harm(&c, copies)})) break;
    }
    return 0;                                                /* the host is gone */
}

#else

static pthread_mutex_t busy = PTHREAD_MUTEX_INITIALIZER;     /* one call at a time */
static int line = -1;                                        /* to the server */
static pid_t starter;                                        /* whose server it is: a forked process starts its own */

static long take(const struct iovec *parts, int count) { return readv(line, parts, count); }
static long give(const struct iovec *parts, int count) {
    struct msghdr message = {.msg_iov = (struct iovec *)parts, .msg_iovlen = (size_t)count};
    return sendmsg(line, &message, MSG_NOSIGNAL);            /* so that a dead server is an error and no signal */
}

static void start(void) {
    int ends[2];
    pid_t server;
    char *words[] = {FAR, NULL};
    posix_spawn_file_actions_t files;
    if (line >= 0) close(line);
    if (socketpair(AF_UNIX, SOCK_STREAM | SOCK_CLOEXEC, 0, ends) != 0) die("no socket pair to be had");
    if (posix_spawn_file_actions_init(&files) != 0 || posix_spawn_file_actions_adddup2(&files, ends[1], 0) != 0
        || posix_spawn_file_actions_adddup2(&files, ends[1], 1) != 0 || access(FAR, X_OK) != 0
        || posix_spawn(&server, FAR, &files, NULL, words, environ) != 0) die("can't start the server, " FAR);
    posix_spawn_file_actions_destroy(&files);
    close(ends[1]);
    line = ends[0];
    starter = getpid();
}

static uint32_t ask(struct call c) {
    struct reply r;
    struct iovec sent[PARTS] = {{&c, sizeof c}}, back[PARTS] = {{&r, sizeof r}};
    for (int i = 0; i < BUFFERS; i++) {
        sent[1 + i] = (struct iovec){c.buffers[i].at, c.buffers[i].len};
        if (c.buffers[i].changed) back[1 + i] = sent[1 + i];
    }
    pthread_mutex_lock(&busy);
    if (starter != getpid()) start();
    if (!all(give, sent, PARTS) || !all(take, back, PARTS)) die("the server ended before it gave an answer, " FAR);
    pthread_mutex_unlock(&busy);
    if (r.harm == BESIDE) die("the call wrote beside a buffer");
    if (r.harm == INTO_READ) die("the call wrote into a buffer that it may only read");
    return r.answer;
}

#define CHANGED(x) {x, x##_len, 1}
#define READ(x) {(uint8_t *)x, x##_len, 0}
#define LIST(...) {__VA_ARGS__}
#define AS_FUNCTION(name, parameters, numbers, buffers, arguments) \
    uint32_t name parameters { return ask((struct call){DO_##name, LIST numbers, LIST buffers}); }
CALLS(AS_FUNCTION)

#endif
