/* Puts and gets through one library, call by call in processor time: what versions.py compares libraries by.
 *
 *   calls LINES THREADS READS SLICES CALLS
 *
 * A store of LINES lines holds 100 documents of 32 bytes. Each of THREADS threads, 1 to 8, with a session of its own, makes SLICES slices of CALLS calls, of
 * 100 of them READS gets and the others puts that change a document; their words are made ready before. The threads begin each 50 slices together. Of each
 * slice there is a line: a turn of the loop of core_probe.h before it and one after it, and the nanoseconds of processor time of a call, all in nanoseconds;
 * and how many other threads ran beside it all the time (-1: some did for a part of it, or the thread itself was interrupted).
 *
 * Status 0, 1 where the store refused an operation or there is no memory, 2 where the words are others. */
#include "core_probe.h"
#include "githoppu.h"
#include <pthread.h>
#include <stdio.h>
#include <stdlib.h>

#ifndef SESSION
#define SESSION githoppu_session *
#endif

enum { KEYS = 100, BYTES = 32, CHANGED_WORDS = 24, TOGETHER = 50, TURNS = 20000, MOST_THREADS = 8, PUT = 1, GET = 4, DOCUMENT_AT = 16 };

/* A slice: its times by the clock of all threads and by the thread's own, in nanoseconds, and the turns before and after it. */
struct slice {
    double from, to, own, before, after;
};

struct work {
    SESSION session;
    int number;
    uint64_t seed;
    struct slice *slices;
};

static githoppu_words puts_of[KEYS], gets_of[KEYS];
static struct work works[MOST_THREADS];
static pthread_barrier_t together;
static int lines, threads, reads, slices, calls;

static void must(int right, const char *what) {
    if (!right) {
        fprintf(stderr, "calls: %s\n", what);
        exit(1);
    }
}

static double wall_ns(void) {
    struct timespec now;
    clock_gettime(CLOCK_MONOTONIC, &now);
    return 1e9 * (double)now.tv_sec + (double)now.tv_nsec;
}

/* The next number of a sequence that looks random (Knuth, The Art of Computer Programming, 2, 3.3.4). */
static uint64_t next(uint64_t *seed) {
    *seed = *seed * 6364136223846793005u + 1442695040888963407u;
    return *seed >> 32;
}

/* Makes the calls of a slice. It stands alone, so that a profiler counts it alone. */
__attribute__((noinline)) static void make_calls(struct work *work, int first) {
    githoppu_words reply, put = puts_of[0];
    for (int i = first; i < first + calls; i++) {
        uint64_t key = next(&work->seed) % KEYS;
        const githoppu_words *op = &gets_of[key];
        if ((work->number * 29 + i) * 37 % 100 >= reads) {
            memcpy(put.word, puts_of[key].word, sizeof *put.word * CHANGED_WORDS);
            /* another document of as many letters */
            for (int word = 0; word < 2; word++)
                put.word[DOCUMENT_AT + 1 + word] = 0x6161616161616161u + (next(&work->seed) & 0x0f0f0f0f0f0f0f0fu);
            op = &put;
        }
        must(githoppu_do(&work->session, op, &reply) == GITHOPPU_DONE, "an operation was refused");
    }
}

static void *run(void *at) {
    struct work *work = at;
    double turn = core_probe(TURNS);
    for (int s = 0; s < slices; s++) {
        struct slice *slice = &work->slices[s];
        double own;
        if (s % TOGETHER == 0)
            pthread_barrier_wait(&together);
        slice->before = turn;
        slice->from = wall_ns();
        own = thread_ns();
        make_calls(work, s * calls);
        slice->own = thread_ns() - own;
        slice->to = wall_ns();
        turn = slice->after = core_probe(TURNS);
    }
    return NULL;
}

/* Whether a thread had a processor all the time of a slice, but for what reading the clocks takes. */
static int ran_through(const struct slice *slice) { return slice->to - slice->from - slice->own <= 0.04 * slice->own + 1500; }

/* The share of a slice in which another thread ran, by that thread's slices and the loops between them. */
static double share_beside(const struct slice *slice, const struct work *other, int *first) {
    double beside = 0;
    while (*first < slices && other->slices[*first].to < slice->from)
        ++*first;
    for (int s = *first; s < slices && other->slices[s].from < slice->to; s++) {
        double from = other->slices[s].from, to = other->slices[s].to;
        if (ran_through(&other->slices[s]))
            beside += (to < slice->to ? to : slice->to) - (from > slice->from ? from : slice->from);
    }
    return beside / (slice->to - slice->from);
}

static void print_slices(const struct work *work) {
    int first[MOST_THREADS] = {0};
    for (int s = 0; s < slices; s++) {
        const struct slice *slice = &work->slices[s];
        int others = ran_through(slice) ? 0 : -1;
        for (int t = 0; t < threads && others >= 0; t++) {
            double share = t == work->number ? 0 : share_beside(slice, &works[t], &first[t]);
            if (share > 0.6)
                others++;
            else if (share > 0.1)
                others = -1;
        }
        printf("%.3f %.3f %.1f %d\n", slice->before, slice->after, slice->own / calls, others);
    }
}

static int number(const char *word, int least, int most) {
    char *end;
    long value = strtol(word, &end, 10);
    if (*word == 0 || *end != 0 || value < least || value > most)
        exit(2);
    return (int)value;
}

int main(int count, char **words) {
    SESSION sessions[MOST_THREADS];
    pthread_t made[MOST_THREADS];
    githoppu_words reply;
    char key[16];
    if (count != 6)
        return 2;
    lines = number(words[1], 64, 16384);
    threads = number(words[2], 1, MOST_THREADS);
    reads = number(words[3], 0, 100);
    slices = number(words[4], 1, 1000000);
    calls = number(words[5], 1, 1000000);
    must(githoppu_open((uint64_t)lines, sessions, (size_t)threads) == GITHOPPU_DONE, "no store");
    for (int i = 0; i < KEYS; i++) {
        int at = i * 37 % KEYS;
        snprintf(key, sizeof key, "key%06d", at);
        githoppu_document_op(&puts_of[at], PUT, key, "0123456789abcdef0123456789abcdef", BYTES, 0);
        githoppu_document_op(&gets_of[at], GET, key, "", 0, 0);
        must(githoppu_do(&sessions[0], &puts_of[at], &reply) == GITHOPPU_DONE, "an operation was refused");
    }
    pthread_barrier_init(&together, NULL, (unsigned)threads);
    for (int t = 0; t < threads; t++) {
        works[t] = (struct work){sessions[t], t, (uint64_t)t * 977 + 5, calloc((size_t)slices, sizeof(struct slice))};
        must(works[t].slices != NULL && pthread_create(&made[t], NULL, run, &works[t]) == 0, "no thread, or no memory");
    }
    for (int t = 0; t < threads; t++)
        pthread_join(made[t], NULL);
    for (int t = 0; t < threads; t++) {
        print_slices(&works[t]);
        sessions[t] = works[t].session;
        free(works[t].slices);
    }
    githoppu_give_up(sessions, (size_t)threads);
    pthread_barrier_destroy(&together);
    return 0;
}
