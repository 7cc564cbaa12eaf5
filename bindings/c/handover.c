/* Two threads: one writes, and hands the place behind what it wrote over a pipe; the other catches up with the place, and reads what was written. */
#include "githoppu.h"
#include <pthread.h>
#include <stdio.h>
#include <stdlib.h>
#include <unistd.h>

enum { TIMES = 10000 };

static int ends[2];

static void *write_all(void *at) {
    githoppu_session **session = at;
    githoppu_words reply;
    int i;
    for (i = 0; i < TIMES; i++) {
        uint64_t place;
        if (githoppu_add(session, "written", 1, &reply) != GITHOPPU_DONE)
            abort();
        place = githoppu_place(session);
        if (write(ends[1], &place, sizeof place) != (ssize_t)sizeof place)
            abort();
    }
    return NULL;
}

static void *read_all(void *at) {
    githoppu_session **session = at;
    githoppu_words reply;
    char text[1025];
    int i;
    for (i = 0; i < TIMES; i++) {
        uint64_t place;
        if (read(ends[0], &place, sizeof place) != (ssize_t)sizeof place)
            abort();
        if (githoppu_catch_up(session, place) != GITHOPPU_DONE)
            abort();
        if (githoppu_get(session, "written", &reply) != GITHOPPU_DONE || reply.word[0] != GITHOPPU_DOC)
            abort();
        githoppu_document(&reply, text);
        if (atoi(text) < i + 1 || githoppu_place(session) < place)
            abort();
    }
    return NULL;
}

int main(void) {
    githoppu_session *sessions[2];
    pthread_t threads[2];
    if (githoppu_open(64, sessions, 2) != GITHOPPU_DONE || pipe(ends) != 0)
        return 1;
    if (pthread_create(&threads[0], NULL, write_all, &sessions[0]) != 0 || pthread_create(&threads[1], NULL, read_all, &sessions[1]) != 0)
        return 1;
    pthread_join(threads[0], NULL);
    pthread_join(threads[1], NULL);
    printf("each of %d writes was read by who was told of it\n", TIMES);
    githoppu_give_up(sessions, 2);
    return 0;
}
