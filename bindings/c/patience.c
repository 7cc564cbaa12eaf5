/* A thread is stopped in the middle of an update, by a signal whose handler waits. Each other session can make at most 16 more updates then. The one after
 * them is answered FULL: after GITHOPPU_PATIENCE_MS milliseconds, or after GITHOPPU_ROUNDS rounds, whichever is over first. Once the thread goes on, so do
 * updates. The Makefile builds this with a patience of 300 ms and no end of rounds, and with 3 rounds and a minute. */
#include "githoppu.h"
#include <pthread.h>
#include <sched.h>
#include <semaphore.h>
#include <signal.h>
#include <stdatomic.h>
#include <stdio.h>
#include <stdlib.h>
#include <unistd.h>

enum { MOST_UPDATES = 16, TRIES = 20000, PLACES = 4096, LATE_MS = 60000 };

static sem_t stopped, go_on;
static atomic_int is_over;
/* the updates of the writer that were answered, FULL among them */
static atomic_ulong written;

static void must(int right, const char *what) {
    if (!right) {
        fprintf(stderr, "patience: %s\n", what);
        exit(1);
    }
}

static void wait_for(sem_t *semaphore) {
    while (sem_wait(semaphore) != 0)
        continue;
}

/* It uses no session: a thread that is not scheduled for a while is in the same state. */
static void stop(int signal) {
    (void)signal;
    sem_post(&stopped);
    wait_for(&go_on);
}

static void *write_on(void *at) {
    githoppu_session **session = at;
    githoppu_words reply;
    while (!atomic_load(&is_over)) {
        int status = githoppu_add(session, "written", 1, &reply);
        must(status == GITHOPPU_DONE || status == GITHOPPU_FULL, githoppu_status_text(status));
        atomic_fetch_add(&written, 1);
    }
    return NULL;
}

/* Waits until an update of the writer was answered since, and then a time that differs from try to try, so that a stop comes at any step of an update. A writer that
 * is stopped again and again within one call loses every try to link, and is rightly answered AGAIN: with an update between two stops that cannot be. */
static void let_write(unsigned long since, int tries) {
    int i;
    while (atomic_load(&written) == since)
        sched_yield();
    for (i = 0; i < tries * 37 % PLACES; i++)
        (void)atomic_load(&written);
}

static long now_ms(void) {
    struct timespec now;
    clock_gettime(CLOCK_MONOTONIC, &now);
    return (long)now.tv_sec * 1000 + now.tv_nsec / 1000000;
}

int main(void) {
    githoppu_session *sessions[2];
    githoppu_words reply;
    pthread_t writer;
    struct sigaction action;
    long waited = -1;
    unsigned long since = 0;
    int tries, updates = 0, status = GITHOPPU_DONE;
    /* where neither ends it */
    alarm(300);
    memset(&action, 0, sizeof action);
    action.sa_handler = stop;
    must(sem_init(&stopped, 0, 0) == 0 && sem_init(&go_on, 0, 0) == 0 && sigaction(SIGUSR1, &action, NULL) == 0, "no signal");
    must(githoppu_open(64, sessions, 2) == GITHOPPU_DONE, "no store");
    must(pthread_create(&writer, NULL, write_on, &sessions[0]) == 0, "no thread");
    /* the signal comes at any step of an update, and cells are held at some of them only */
    for (tries = 0; tries < TRIES && status != GITHOPPU_FULL; tries++) {
        let_write(since, tries);
        must(pthread_kill(writer, SIGUSR1) == 0, "no signal");
        wait_for(&stopped);
        for (updates = 0; updates < 4 * MOST_UPDATES; updates++) {
            waited = now_ms();
            status = githoppu_add(&sessions[1], "read", 1, &reply);
            waited = now_ms() - waited;
            if (status != GITHOPPU_DONE)
                break;
        }
        if (status == GITHOPPU_FULL) {
            /* reads go on while the thread is stopped */
            must(githoppu_get(&sessions[1], "read", &reply) == GITHOPPU_DONE && reply.word[0] == GITHOPPU_DOC, "a read does not go on");
        }
        must(status == GITHOPPU_DONE || status == GITHOPPU_FULL, githoppu_status_text(status));
        since = atomic_load(&written);
        sem_post(&go_on);
    }
    must(status == GITHOPPU_FULL, "no update was answered FULL");
    must(updates <= MOST_UPDATES, "more updates than there are cells");
    if (GITHOPPU_ROUNDS > 1000)
        must(waited >= GITHOPPU_PATIENCE_MS && waited < GITHOPPU_PATIENCE_MS + LATE_MS, "FULL came too early or too late");
    else
        must(waited < GITHOPPU_PATIENCE_MS, "the rounds did not end it");
    atomic_store(&is_over, 1);
    pthread_join(writer, NULL);
    must(githoppu_add(&sessions[1], "read", 1, &reply) == GITHOPPU_DONE && reply.word[0] == GITHOPPU_SUM, "updates do not go on");
    githoppu_give_up(sessions, 2);
    printf("a stopped thread: %s\n", GITHOPPU_ROUNDS > 1000 ? "FULL after the time" : "FULL after the rounds");
    fprintf(stderr, "stopped %d times, %d updates, then FULL after %ld ms\n", tries, updates, waited);
    return 0;
}
