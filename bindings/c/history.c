/* Threads call a document store at once, and each call is written with the times between which it was made: a history, which
 * tools/linearizable.py judges.
 *
 *     history THREADS CALLS SEED       1 to 8 threads, and the calls of each
 */
#include "githoppu.h"
#include <inttypes.h>
#include <pthread.h>
#include <stdio.h>
#include <stdlib.h>
#include <time.h>

enum { MOST_THREADS = 8, KEYS = 3 };

typedef struct call {
    uint64_t begin, end;
    int64_t argument, reply;
    int key;
    enum { PUT, DEL, ADD, GET } operation;
    uint64_t kind;
} call;

typedef struct caller {
    githoppu_session *session;
    call *calls;
    uint64_t seed;
    long count;
    int number, wrong;
} caller;

static const char *const keys[KEYS] = {"a", "b", "c"};

static uint64_t now(void) {
    struct timespec at;
    clock_gettime(CLOCK_MONOTONIC, &at);
    return (uint64_t)at.tv_sec * 1000000000u + (uint64_t)at.tv_nsec;
}

/* A further number of a sequence (xorshift). */
static uint64_t next(uint64_t *seed) {
    *seed ^= *seed << 13;
    *seed ^= *seed >> 7;
    *seed ^= *seed << 17;
    return *seed;
}

static int make(caller *by, call *made) {
    githoppu_words reply;
    char text[1025];
    int status;
    made->begin = now();
    if (made->operation == PUT) {
        int length = snprintf(text, sizeof text, "%" PRId64, made->argument);
        status = githoppu_put(&by->session, keys[made->key], text, (size_t)length, &reply);
    } else if (made->operation == DEL) {
        status = githoppu_del(&by->session, keys[made->key], &reply);
    } else if (made->operation == ADD) {
        status = githoppu_add(&by->session, keys[made->key], made->argument, &reply);
    } else {
        status = githoppu_get(&by->session, keys[made->key], &reply);
    }
    made->end = now();
    if (status != GITHOPPU_DONE)
        return 0;
    made->kind = reply.word[0];
    if (made->kind == GITHOPPU_DOC) {
        githoppu_document(&reply, text);
        made->reply = strtoll(text, NULL, 10);
    } else if (made->kind == GITHOPPU_SUM) {
        made->reply = githoppu_sum(&reply);
    }
    return 1;
}

static void *work(void *at) {
    caller *by = at;
    long i;
    for (i = 0; i < by->count && !by->wrong; i++) {
        call *made = &by->calls[i];
        uint64_t chosen = next(&by->seed);
        made->key = (int)(chosen % KEYS);
        chosen = chosen / KEYS % 8;
        made->operation = chosen < 2 ? PUT : chosen < 3 ? DEL : chosen < 5 ? ADD : GET;
        /* no two puts have one number, nor do sums behind different puts */
        made->argument = made->operation == PUT ? (i + 1) * 1000000000 + by->number * 100000000 : 1 + by->number;
        by->wrong = !make(by, made);
    }
    return NULL;
}

static void put_out(const caller *by, const call *made) {
    static const char *const names[] = {"put", "del", "add", "get"};
    printf("%s %d %" PRIu64 " %" PRIu64 " %s ", keys[made->key], by->number, made->begin, made->end, names[made->operation]);
    if (made->operation == PUT || made->operation == ADD)
        printf("%" PRId64 " ", made->argument);
    else
        printf("- ");
    if (made->kind == GITHOPPU_DOC || made->kind == GITHOPPU_SUM)
        printf("%" PRId64 "\n", made->reply);
    else
        puts(made->kind == GITHOPPU_NEW ? "new" : made->kind == GITHOPPU_REPLACED ? "replaced" : made->kind == GITHOPPU_DELETED ? "deleted" : made->kind == GITHOPPU_ABSENT ? "absent" : "other");
}

int main(int count, char **words) {
    caller callers[MOST_THREADS];
    githoppu_session *sessions[MOST_THREADS];
    pthread_t threads[MOST_THREADS];
    int all = count == 4 ? atoi(words[1]) : 0, i;
    long calls = count == 4 ? atol(words[2]) : 0, k;
    if (all < 1 || all > MOST_THREADS || calls < 1) {
        fputs("history THREADS CALLS SEED, with 1 to 8 threads\n", stderr);
        return 2;
    }
    if (githoppu_open(64, sessions, (size_t)all) != GITHOPPU_DONE)
        return 1;
    for (i = 0; i < all; i++) {
        caller by = {sessions[i], malloc((size_t)calls * sizeof(call)), strtoull(words[3], NULL, 10) * 8 + (uint64_t)i + 1, calls, i, 0};
        if (by.calls == NULL)
            return 1;
        callers[i] = by;
    }
    for (i = 0; i < all; i++)
        if (pthread_create(&threads[i], NULL, work, &callers[i]) != 0)
            return 1;
    for (i = 0; i < all; i++) {
        pthread_join(threads[i], NULL);
        if (callers[i].wrong)
            return 1;
        sessions[i] = callers[i].session;
    }
    for (i = 0; i < all; i++) {
        for (k = 0; k < calls; k++)
            put_out(&callers[i], &callers[i].calls[k]);
        free(callers[i].calls);
    }
    githoppu_give_up(sessions, (size_t)all);
    return 0;
}
