/* What a data structure in C costs as a program: a call of the hash map of examples/programs, beside one of the document store and beside the same C under a
 * mutex; and an instruction. bench/programs.py builds it, runs it and prints a table.
 *
 *   program_calls calls THREADS MS        a line each: what is called, how, calls of all threads, nanoseconds by the clock and of processor time, the mode
 *   program_calls instructions MS         a line for each kind: nanoseconds of processor time of an instruction, the mode
 *
 * 700 keys; the map has 1,024 lines, the store 4,096. The mode of the core is that of core_probe.h: 0 alone, 1 shared, 2 mixed; of one thread alone. */
#include "core_probe.h"
#include "githoppu.h"
#include "hash_map.h"
#include <pthread.h>
#include <stdio.h>
#include <stdlib.h>

enum { KEYS = 700, MOST_THREADS = 8, TURNS = 20000, SLICE = 64, ROUNDS = 60 };

/* On what the calls are made. */
enum place { PROGRAM, STORE, MUTEX, PLACES };

uint64_t hash_map_run(const uint64_t *request, uint64_t *reply, void *state, uint64_t size);

struct caller {
    githoppu_session *session;
    enum place place;
    int reads;
    uint64_t seed, calls;
    double processor;
};

static uint64_t native[8 * 1023];
static pthread_mutex_t lock = PTHREAD_MUTEX_INITIALIZER;
static double end;

static void must(int right) {
    if (!right)
        abort();
}

static double clock_ns(void) {
    struct timespec now;
    clock_gettime(CLOCK_MONOTONIC, &now);
    return 1e9 * (double)now.tv_sec + (double)now.tv_nsec;
}

static void on_store(struct caller *c, uint64_t key, uint64_t value) {
    githoppu_words reply;
    char name[24], document[24];
    int length = snprintf(document, sizeof document, "%llu", (unsigned long long)value);
    snprintf(name, sizeof name, "key%03d", (int)key);
    must((c->reads ? githoppu_get(&c->session, name, &reply) : githoppu_put(&c->session, name, document, (size_t)length, &reply)) == GITHOPPU_DONE);
}

static void call(struct caller *c) {
    uint64_t key, value, operation = c->reads ? HASH_MAP_GET : HASH_MAP_PUT;
    c->seed ^= c->seed << 13;
    c->seed ^= c->seed >> 7;
    c->seed ^= c->seed << 17;
    key = c->seed % KEYS;
    value = c->seed >> 40;
    if (c->place == STORE)
        on_store(c, key, value);
    else if (c->place == PROGRAM) {
        githoppu_words reply;
        must(githoppu_ask(&c->session, operation, key, value, 0, &reply) == GITHOPPU_DONE);
    } else {
        uint64_t request[4] = {operation, key, value, 0}, reply[4] = {0};
        pthread_mutex_lock(&lock);
        must(hash_map_run(request, reply, native, sizeof native) != 0);
        pthread_mutex_unlock(&lock);
    }
}

static void *run(void *at) {
    struct caller *c = at;
    double from = thread_ns();
    while (clock_ns() < end)
        for (int i = 0; i < SLICE; i++, c->calls++)
            call(c);
    c->processor = thread_ns() - from;
    return NULL;
}

static void open_place(enum place place, githoppu_session **sessions, size_t threads) {
    struct caller first = {NULL, place, 0, 1, 0, 0};
    if (place == PROGRAM)
        must(githoppu_open_object(&hash_map, 1024, sessions, threads) == GITHOPPU_DONE);
    else if (place == STORE)
        must(githoppu_open(4096, sessions, threads) == GITHOPPU_DONE);
    first.session = place == MUTEX ? NULL : sessions[0];
    for (int i = 0; i < 8 * KEYS; i++)
        call(&first);
    sessions[0] = first.session;
}

static void time_calls(enum place place, int reads, int threads, long ms, double least) {
    static const char *const names[PLACES] = {"program", "store", "mutex"};
    githoppu_session *sessions[MOST_THREADS] = {NULL};
    struct caller callers[MOST_THREADS];
    pthread_t made[MOST_THREADS];
    double before, after, from, took, processor = 0;
    uint64_t calls = 0;
    open_place(place, sessions, (size_t)threads);
    before = core_probe(TURNS);
    from = clock_ns();
    end = from + 1e6 * (double)ms;
    for (int t = 0; t < threads; t++) {
        callers[t] = (struct caller){sessions[t], place, reads, 88172645463325252u + 77u * (unsigned)t, 0, 0};
        if (threads == 1)
            run(&callers[0]); /* on the thread whose core is looked at */
        else
            must(pthread_create(&made[t], NULL, run, &callers[t]) == 0);
    }
    for (int t = 0; t < threads; t++) {
        must(threads == 1 || pthread_join(made[t], NULL) == 0);
        sessions[t] = callers[t].session;
        calls += callers[t].calls;
        processor += callers[t].processor;
    }
    took = clock_ns() - from;
    after = core_probe(TURNS);
    printf("%s %s %llu %.0f %.0f %d\n", names[place], reads ? "get" : "put", (unsigned long long)calls, took, processor, core_mode(least, before, after));
    githoppu_give_up(sessions, (size_t)threads);
}

/* ---- an instruction: loops of which each turn makes so many, and reads alone, so that nothing but a run is timed ---- */

/* Word 1 of the request says how many turns: of an addition, an exclusive or, a decrement and a jump; or of two loads of the state and those last two. */
static const uint64_t arithmetic[] = {0x81679, 0x7b7, 0x670f, 0x67af, 0xffffffff00000607, 0xfffc0655, 0x1000000b7, 0x95};
static const uint64_t loads[] = {0x81679, 0x3779, 0x83779, 0xffffffff00000607, 0xfffc0655, 0x1000000b7, 0x95};

static double of_instruction(githoppu_session **session, uint64_t turns) {
    githoppu_words reply;
    double from = thread_ns();
    must(githoppu_ask(session, GITHOPPU_READ(1), turns, 0, 0, &reply) == GITHOPPU_DONE);
    return thread_ns() - from;
}

static void time_instructions(const char *name, const uint64_t *words, size_t count, double least, long ms) {
    githoppu_program program = {words, count, count, 1 << 20};
    githoppu_session *session;
    double until = clock_ns() + 1e6 * (double)ms, best[3] = {0, 0, 0};
    must(githoppu_open_object(&program, 64, &session, 1) == GITHOPPU_DONE);
    while (clock_ns() < until) {
        double before = core_probe(TURNS), small = 1e18, large = 1e18, took;
        enum core_mode mode;
        for (int i = 0; i < 4; i++) {
            took = of_instruction(&session, 100);
            small = took < small ? took : small;
            took = of_instruction(&session, 20100);
            large = took < large ? took : large;
        }
        mode = core_mode(least, before, core_probe(TURNS));
        took = (large - small) / (4.0 * 20000);
        best[mode] = best[mode] == 0 || took < best[mode] ? took : best[mode];
    }
    for (int mode = 0; mode < 3; mode++)
        if (best[mode] > 0)
            printf("%s %.2f %d\n", name, best[mode], mode);
    githoppu_give_up(&session, 1);
}

static double least_turn(void) {
    double least = core_probe(TURNS);
    for (int i = 0; i < 200; i++) {
        double turn = core_probe(TURNS);
        least = turn < least ? turn : least;
    }
    return least;
}

int main(int count, char **words) {
    double least = least_turn();
    if (count == 3 && strcmp(words[1], "instructions") == 0) {
        time_instructions("arithmetic", arithmetic, sizeof arithmetic / 8, least, atol(words[2]));
        time_instructions("loads", loads, sizeof loads / 8, least, atol(words[2]));
        return 0;
    }
    if (count != 4 || strcmp(words[1], "calls") != 0 || atoi(words[2]) < 1 || atoi(words[2]) > MOST_THREADS) {
        fputs("usage: program_calls calls THREADS MS | instructions MS\n", stderr);
        return 2;
    }
    for (int place = 0; place < PLACES; place++)
        for (int reads = 0; reads < 2; reads++)
            time_calls((enum place)place, reads, atoi(words[2]), atol(words[3]), least);
    return 0;
}
