/* A checkpoint through the library, beside a plain copy of as many words: in a row, with the words in the caches, and each after 128 MiB of other memory were
 * written, without them. Processor time of the thread, the least and the median of 60.
 *
 *   tools/install $PREFIX
 *   cc -O2 -std=c11 -D_POSIX_C_SOURCE=200809L -I$PREFIX/include bench/checkpoints.c $PREFIX/lib/libgithoppu.a -pthread -o /tmp/checkpoints
 *   /tmp/checkpoints
 *
 * A store of 8 sessions, of 1,024 and of 16,384 lines. */
#include "githoppu.h"
#include <stdio.h>
#include <stdlib.h>
#include <time.h>

enum { ROUNDS = 60, OTHER = 128 << 20 };

static unsigned char *other;

static double now(void) {
    struct timespec at;
    clock_gettime(CLOCK_THREAD_CPUTIME_ID, &at);
    return 1e6 * (double)at.tv_sec + 1e-3 * (double)at.tv_nsec;
}

static void leave_caches(void) {
    for (size_t at = 0; at < OTHER; at += 64)
        other[at]++;
}

static int by_size(const void *a, const void *b) {
    double one = *(const double *)a, two = *(const double *)b;
    return (one > two) - (one < two);
}

static void *room(size_t size) {
    void *made = calloc(size, 1);
    if (made == NULL)
        exit(1);
    return made;
}

static void measure(uint64_t lines, int cold) {
    githoppu_session *sessions[8];
    githoppu_words reply;
    uint64_t count;
    double taken[ROUNDS], copied[ROUNDS];
    if (githoppu_open(lines, sessions, 8) != GITHOPPU_DONE || githoppu_add(&sessions[0], "sold", 1, &reply) != GITHOPPU_DONE)
        exit(1);
    if (githoppu_checkpoint_size(&sessions[1], &count) != GITHOPPU_DONE)
        exit(1);
    uint64_t *words = room(8 * count), *from = room(8 * count), *to = room(8 * count);
    for (int round = -3; round < ROUNDS; round++) {
        double begun, ended;
        if (cold)
            leave_caches();
        begun = now();
        if (githoppu_checkpoint_into(&sessions[1], words, (size_t)count) != GITHOPPU_DONE)
            exit(1);
        ended = now();
        if (round >= 0)
            taken[round] = ended - begun;
        if (cold)
            leave_caches();
        begun = now();
        memcpy(to, from, 8 * count);
        ended = now();
        if (round >= 0)
            copied[round] = ended - begun;
        from[to[round + 3]]++;
    }
    qsort(taken, ROUNDS, sizeof *taken, by_size);
    qsort(copied, ROUNDS, sizeof *copied, by_size);
    printf("%llu %s %llu %.0f %.0f %.0f %.0f\n", (unsigned long long)lines, cold ? "cold" : "warm", (unsigned long long)count, taken[0], taken[ROUNDS / 2],
           copied[0], copied[ROUNDS / 2]);
    free(words);
    free(from);
    free(to);
    githoppu_give_up(sessions, 8);
}

int main(void) {
    static const uint64_t lines[] = { 1024, 16384 };
    other = room(OTHER);
    leave_caches();
    puts("lines caches words checkpoint_us_least median copy_us_least median");
    for (int at = 0; at < 2; at++)
        for (int cold = 0; cold < 2; cold++)
            measure(lines[at], cold);
    free(other);
    return 0;
}
