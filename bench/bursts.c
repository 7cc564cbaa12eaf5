/* The processor time of a call by how many other threads really call at the same time, and by whether the other hardware thread of the core is busy.
 *
 *   tools/install $PREFIX
 *   cc -O2 -std=c11 -D_POSIX_C_SOURCE=200809L -I$PREFIX/include bench/bursts.c $PREFIX/lib/libgithoppu.a -pthread -o /tmp/bursts
 *   /tmp/bursts THREADS READS_OF_100
 *
 * 1 to 8 threads call a store of 1,024 lines with 100 keys, in bursts of 3 ms with a pause between them, so that the system lets them run at once even where
 * it has other work. A thread notes when each 20 calls began and ended, what processor time they took, and the loop of core_probe.h before and after. Of the
 * twenties in which the thread itself was not taken off its processor, the median of a call stands, its quartiles, and how many they are: a line for each
 * number of others that were on a processor all the while and each mode of the core. Twenties that other threads joined or left are left out. */
#include "core_probe.h"
#include "githoppu.h"
#include <pthread.h>
#include <stdio.h>
#include <stdlib.h>

enum { KEYS = 100, LINES = 1024, BURSTS = 400, CALLS = 20, MOST = 60000, THREADS = 8, MODES = 2, LEAST_FOUND = 100, TURNS = 1500 };
#define BURST 3e6
#define PAUSE 3000000L
#define LEAD 300e3

/* Twenty calls: by the clock, in nanoseconds of processor time, and a turn of the loop before and after. */
struct twenty {
    double from, to, took, before, after;
};

struct caller {
    githoppu_session *session;
    int number, reads, count;
    struct twenty *made;
};

static pthread_barrier_t together;
static volatile double begin;

static double clock_ns(void) {
    struct timespec now;
    clock_gettime(CLOCK_MONOTONIC, &now);
    return 1e9 * (double)now.tv_sec + (double)now.tv_nsec;
}

static void must(int right) {
    if (!right) {
        fputs("a call failed\n", stderr);
        exit(1);
    }
}

static void call(struct caller *c, int i) {
    githoppu_words reply;
    char key[16];
    int reads = (i * 37 + c->number * 29) % 100 < c->reads;
    snprintf(key, sizeof key, "key%02d", (i * 61 + c->number * 17) % KEYS);
    must((reads ? githoppu_get(&c->session, key, &reply) : githoppu_add(&c->session, key, 1, &reply)) == GITHOPPU_DONE);
}

static void burst(struct caller *c, double end) {
    double turn = core_probe(TURNS);
    while (clock_ns() < end) {
        struct twenty one = { clock_ns(), 0, thread_ns(), turn, 0 };
        for (int i = 0; i < CALLS; i++)
            call(c, c->count * CALLS + i);
        one.took = thread_ns() - one.took;
        one.to = clock_ns();
        one.after = turn = core_probe(TURNS);
        if (c->count < MOST)
            c->made[c->count++] = one;
    }
}

static void *run(void *at) {
    struct caller *c = at;
    for (int b = 0; b < BURSTS; b++) {
        if (c->number == 0) {
            nanosleep(&(struct timespec){ 0, PAUSE }, NULL);
            begin = clock_ns() + LEAD;
        }
        pthread_barrier_wait(&together);
        while (clock_ns() < begin)
            ;
        burst(c, begin + BURST);
        pthread_barrier_wait(&together);
    }
    return NULL;
}

/* Whether a thread was on its processor all the while. */
static int is_whole(const struct twenty *t) { return t->to - t->from - t->took < 0.1 * (t->to - t->from) + 3000; }

/* How much of some twenty another thread was calling, as a share; `at` is where its calls are looked for, and goes on. */
static double shared_with(const struct caller *other, int *at, const struct twenty *t) {
    double both = 0;
    while (*at < other->count && other->made[*at].to < t->from)
        ++*at;
    for (int i = *at; i < other->count && other->made[i].from < t->to; i++) {
        const struct twenty *o = &other->made[i];
        double from = o->from > t->from ? o->from : t->from, to = o->to < t->to ? o->to : t->to;
        if (is_whole(o))
            both += to - from;
    }
    return both / (t->to - t->from);
}

static int by_time(const void *one, const void *other) {
    double x = *(const double *)one, y = *(const double *)other;
    return (x > y) - (x < y);
}

static void print_found(int others, int mode, double *calls, int found) {
    if (found < LEAST_FOUND)
        return;
    qsort(calls, (size_t)found, sizeof *calls, by_time);
    printf("%d %s %.0f (%.0f to %.0f, %d)\n", others, mode == CORE_ALONE ? "alone" : "shared", calls[found / 2], calls[found / 4],
           calls[found * 3 / 4], found);
}

/* The least turn of the loop, but for one in 100. */
static double least_turn(const struct caller *callers, int threads) {
    static double turns[THREADS * MOST];
    int found = 0;
    for (int c = 0; c < threads; c++)
        for (int i = 0; i < callers[c].count; i++)
            turns[found++] = callers[c].made[i].after;
    must(found > 0);
    qsort(turns, (size_t)found, sizeof *turns, by_time);
    return turns[found / 100];
}

static void tell(const struct caller *callers, int threads) {
    static double calls[THREADS][MODES][THREADS * MOST];
    static int found[THREADS][MODES];
    double least = least_turn(callers, threads);
    for (int c = 0; c < threads; c++) {
        int at[THREADS] = { 0 };
        for (int i = 0; i < callers[c].count; i++) {
            const struct twenty *t = &callers[c].made[i];
            enum core_mode mode = core_mode(least, t->before, t->after);
            int others = 0, is_clear = mode != CORE_MIXED && is_whole(t);
            for (int o = 0; o < threads; o++) {
                double share = o == c ? 0 : shared_with(&callers[o], &at[o], t);
                others += share > 0.9;
                is_clear = is_clear && (share > 0.9 || share < 0.1);
            }
            if (is_clear)
                calls[others][mode][found[others][mode]++] = t->took / CALLS;
        }
    }
    puts("others core ns_a_call");
    for (int others = 0; others < threads; others++)
        for (int mode = 0; mode < MODES; mode++)
            print_found(others, mode, calls[others][mode], found[others][mode]);
}

int main(int count, char **words) {
    static struct caller callers[THREADS];
    githoppu_session *sessions[THREADS];
    pthread_t made[THREADS];
    githoppu_words reply;
    char key[16];
    int threads = count == 3 ? atoi(words[1]) : 0, reads = count == 3 ? atoi(words[2]) : 0;
    if (threads < 1 || threads > THREADS) {
        fputs("usage: bursts THREADS READS_OF_100\n", stderr);
        return 2;
    }
    must(githoppu_open(LINES, sessions, (size_t)threads) == GITHOPPU_DONE);
    for (int i = 0; i < KEYS; i++) {
        snprintf(key, sizeof key, "key%02d", i);
        must(githoppu_add(sessions, key, 0, &reply) == GITHOPPU_DONE);
    }
    must(pthread_barrier_init(&together, NULL, (unsigned)threads) == 0);
    for (int i = 0; i < threads; i++) {
        callers[i] = (struct caller){ sessions[i], i, reads, 0, malloc(MOST * sizeof(struct twenty)) };
        must(callers[i].made != NULL);
        must(pthread_create(&made[i], NULL, run, &callers[i]) == 0);
    }
    for (int i = 0; i < threads; i++) {
        must(pthread_join(made[i], NULL) == 0);
        sessions[i] = callers[i].session;
    }
    tell(callers, threads);
    githoppu_give_up(sessions, (size_t)threads);
    for (int i = 0; i < threads; i++)
        free(callers[i].made);
    return 0;
}
