/* A process that updates a store by 1 to 8 threads is ended again and again at any moment, and the store is opened anew: everything that was answered or read
 * has to be there, of each client's updates a prefix that its outcome tells, and nothing else.
 *
 *   crash_tests WAY ROUNDS SEED FOLDER     FOLDER is made, and removed in the end
 *
 * kill     it is killed by SIGKILL, on the disk of the machine
 * power    the power fails, on a disk that loses what was not synced (lossy_disk.h)
 * failing  the same, and syncs fail before: the store is closed and opened again then
 * synced   the power fails, with sync NORMAL, and what githoppu_store_sync answered counts
 * normal   the power fails, with sync NORMAL, and what was answered counts: something has to be lost, or the test sees nothing. Status 0 where it was */
#define _GNU_SOURCE
#include "githoppu_store.h"
#include "lossy_disk.h"
#include "test_folders.h"
#include <limits.h>
#include <pthread.h>
#include <signal.h>
#include <stdatomic.h>
#include <sys/mman.h>
#include <sys/wait.h>

enum { WRITERS = 8, KEYS = 7, FRESH = 25 };
enum ways { KILL, POWER, FAILING, SYNCED, NORMAL, WAYS };

static const char *const way_names[WAYS] = {"kill", "power", "failing", "synced", "normal"};

/* What the processes tell each other: how many updates of each writer were sent, and were answered, and the greatest sum that was read. */
static struct told {
    _Atomic uint64_t sent[WRITERS], answered[WRITERS], seen, checkpoints, copies, openings, failures, last_copy;
} *told;

static enum ways way;
static githoppu_store *store;
static _Atomic int stopped;

static uint64_t next(uint64_t *state) {
    *state ^= *state << 13;
    *state ^= *state >> 7;
    *state ^= *state << 17;
    return *state * UINT64_C(0x9E3779B97F4A7C15) >> 33;
}

static uint64_t seeded(uint64_t seed) {
    uint64_t state = seed * 1000003 + 17;
    int i;
    for (i = 0; i < 5; i++)
        next(&state);
    return state;
}

/* ---- The updates of a writer: each third adds 1 to the sum, and the others put a text of their own at one of seven keys. ---- */

static void key_of(char key[32], int writer, uint64_t which) { sprintf(key, "w%d.%d", writer, (int)which); }

static size_t text_of(char text[256], int writer, uint64_t number) {
    int head = sprintf(text, "%d:%llu:", writer, (unsigned long long)number);
    size_t tail = (size_t)(number * 37 + (uint64_t)writer * 11) % 190;
    memset(text + head, 'a' + (int)(number % 26), tail);
    text[head + (int)tail] = 0;
    return (size_t)head + tail;
}

static void operation(githoppu_words *op, int writer, uint64_t number) {
    char key[32], text[256];
    int status;
    if (number % 3 == 0) {
        status = githoppu_document_op(op, 3, "sum", "", 0, 1);
    } else {
        key_of(key, writer, number % KEYS);
        status = githoppu_document_op(op, 1, key, text, text_of(text, writer, number), 0);
    }
    CHECK(status == GITHOPPU_DONE);
}

static void ends(int writer, int status, uint64_t kind) {
    char why[512];
    if (way == FAILING && (status == GITHOPPU_STORE_FAILED || status == GITHOPPU_STORE_READ_ONLY)) {
        stopped = 1;
        return;
    }
    githoppu_store_why(store, why, sizeof why);
    fprintf(stderr, "writer %d: status %d, kind %d: %s\n", writer, status, (int)kind, why);
    _exit(7);
}

/* Sends 1 to 6 updates at once and waits for them; now and then one alone by a call. */
static void *write_on(void *at) {
    int writer = (int)(intptr_t)at;
    uint64_t state = seeded((uint64_t)writer + told->openings * 11);
    while (!stopped) {
        githoppu_store_update *update[6];
        githoppu_words op, reply;
        uint64_t number = told->answered[writer];
        int i, status, count = next(&state) % 2 ? 1 : 1 + (int)(next(&state) % 6);
        memset(&reply, 0, sizeof reply);
        told->sent[writer] = number + (uint64_t)count;
        if (count == 1) {
            operation(&op, writer, number + 1);
            status = githoppu_store_call(store, (unsigned)writer, &op, &reply);
            if (status == GITHOPPU_DONE && way == SYNCED)
                status = githoppu_store_sync(store);
            if (status != GITHOPPU_DONE || reply.word[0] == GITHOPPU_NO_ROOM)
                ends(writer, status, reply.word[0]);
            else
                told->answered[writer] = number + 1;
            continue;
        }
        for (i = 0; i < count; i++) {
            operation(&op, writer, number + 1 + (uint64_t)i);
            CHECK(githoppu_store_submit(store, (unsigned)writer, &op, &update[i]) == GITHOPPU_DONE);
        }
        for (i = 0; i < count; i++) {
            status = githoppu_store_wait(store, update[i], &reply);
            if (status != GITHOPPU_DONE || reply.word[0] == GITHOPPU_NO_ROOM)
                ends(writer, status, reply.word[0]);
            else if (way != SYNCED)
                told->answered[writer] = number + 1 + (uint64_t)i;
        }
        if (way == SYNCED && githoppu_store_sync(store) == GITHOPPU_DONE)
            told->answered[writer] = number + (uint64_t)count;
    }
    return NULL;
}

static uint64_t sum_in(githoppu_store *in) {
    githoppu_words reply;
    char text[1025] = "0";
    CHECK(githoppu_store_get(in, "sum", &reply) == GITHOPPU_DONE);
    if (reply.word[0] == GITHOPPU_DOC)
        githoppu_document(&reply, text);
    return strtoull(text, NULL, 10);
}

static void copy_path(char path[2048], const char *folder, uint64_t number) { snprintf(path, 2048, "%s/copy.%d", folder, (int)number); }

struct reader {
    uint64_t state;
    const char *folder;
};

/* Reads, and now and then makes a checkpoint and a copy. */
static void *read_on(void *at) {
    struct reader *reader = (struct reader *)at;
    uint64_t state = reader->state;
    char copy[2048];
    while (!stopped) {
        uint64_t sum = sum_in(store);
        if (sum > told->seen)
            told->seen = sum;
        if (next(&state) % 200 == 0 && githoppu_store_checkpoint(store) == GITHOPPU_DONE)
            told->checkpoints++;
        if (next(&state) % 400 == 0) {
            uint64_t last = told->last_copy;
            copy_path(copy, reader->folder, last + 1);
            unlink(copy);
            if (githoppu_store_copy(store, copy) == GITHOPPU_DONE) {
                told->copies++;
                told->last_copy = last + 1;
                copy_path(copy, reader->folder, last);
                unlink(copy);
            }
        }
        if (next(&state) % 40 == 0)
            sched_yield();
    }
    return NULL;
}

/* ---- A process that lives until it is ended. ---- */

static githoppu_store_options options_of(uint64_t round) {
    githoppu_store_options options;
    memset(&options, 0, sizeof options);
    options.lines = 512;
    options.readers = 1 + (unsigned)(round % 3);
    options.gather_us = round % 2 ? 0 : 200;
    options.checkpoint_every = 150;
    options.sync = way == SYNCED || way == NORMAL ? GITHOPPU_STORE_NORMAL : GITHOPPU_STORE_FULL;
    return options;
}

/* What the clients find when the store is opened; 0 where that is wrong. A copy may be older than what was answered. */
static int found_right(githoppu_store *in, uint64_t number[WRITERS], int is_copy) {
    githoppu_words reply;
    char key[32], text[1025], wanted[256];
    uint64_t sum = 0, which, last, found;
    int writer, right = 1;
    for (writer = 0; writer < WRITERS; writer++) {
        CHECK(githoppu_store_outcome(in, (unsigned)writer, &number[writer], &reply) == GITHOPPU_DONE);
        if ((!is_copy && number[writer] < told->answered[writer]) || number[writer] > told->sent[writer]) {
            printf("writer %d: %llu updates are there, %llu were answered, %llu sent\n", writer, (unsigned long long)number[writer],
                   (unsigned long long)told->answered[writer], (unsigned long long)told->sent[writer]);
            right = 0;
        }
        sum += number[writer] / 3;
        for (which = 0; which < KEYS; which++) {
            for (last = number[writer]; last > 0 && (last % KEYS != which || last % 3 == 0); last--) {
            }
            key_of(key, writer, which);
            CHECK(githoppu_store_get(in, key, &reply) == GITHOPPU_DONE);
            if (reply.word[0] == GITHOPPU_DOC)
                githoppu_document(&reply, text);
            text_of(wanted, writer, last);
            if (last == 0 ? reply.word[0] != GITHOPPU_ABSENT : reply.word[0] != GITHOPPU_DOC || strcmp(text, wanted) != 0) {
                printf("writer %d: the document at %s is not that of update %llu\n", writer, key, (unsigned long long)last);
                right = 0;
            }
        }
    }
    found = sum_in(in);
    if (found != sum || (way != SYNCED && !is_copy && found < told->seen)) {
        printf("the sum is %llu, of the updates %llu, and %llu was read\n", (unsigned long long)found, (unsigned long long)sum,
               (unsigned long long)told->seen);
        right = 0;
    }
    return right;
}

static githoppu_store *opened(const char *folder, const char *name, uint64_t round) {
    githoppu_store_options options = options_of(round);
    githoppu_store *in;
    char path[4096], why[512];
    int tries, status = GITHOPPU_DONE;
    snprintf(path, sizeof path, "%s/%s", folder, name);
    for (tries = 0; tries < 2; tries++) {
        status = githoppu_store_open(path, &options, &in);
        if (status == GITHOPPU_DONE)
            return in;
        githoppu_store_why(in, why, sizeof why);
        githoppu_store_close(in);
        if (way != FAILING || status != GITHOPPU_STORE_NOT_OPENED)
            break;
    }
    printf("not opened: %d %s\n", status, why);
    return NULL;
}

static void live(const char *folder, uint64_t round, uint64_t seed, int threads) {
    struct reader reader = {seeded(seed), folder};
    uint64_t number[WRITERS], state = seeded(seed + 1);
    for (;;) {
        pthread_t thread[WRITERS + 1];
        int i;
        if (way == FAILING)
            lossy_fail_sync(1 + (int)(next(&state) % 60));
        store = opened(folder, "store", round);
        if (store == NULL || !found_right(store, number, 0))
            _exit(5);
        for (i = 0; i < WRITERS; i++)
            told->sent[i] = told->answered[i] = number[i];
        told->openings++;
        stopped = 0;
        for (i = 0; i < threads; i++)
            CHECK(pthread_create(&thread[i], NULL, write_on, (void *)(intptr_t)i) == 0);
        CHECK(pthread_create(&thread[threads], NULL, read_on, &reader) == 0);
        for (i = 0; i <= threads; i++)
            pthread_join(thread[i], NULL);
        told->failures++;
        githoppu_store_close(store);
    }
}

/* ---- The rounds. ---- */

static void ended_badly(pid_t child, int signal_or_status) {
    int status;
    CHECK(waitpid(child, &status, 0) == child);
    if (way == KILL ? WIFSIGNALED(status) && WTERMSIG(status) == signal_or_status : WIFEXITED(status) && WEXITSTATUS(status) == signal_or_status)
        return;
    fprintf(stderr, "crash_tests: a process ended by itself: %x\n", status);
    exit(1);
}

/* Lets a process live, and ends it. */
static void one_life(const char *folder, const char *after, uint64_t round, uint64_t *state) {
    uint64_t seed = next(state), pause = 500 + next(state) % 100000, before = told->openings;
    long calls = (long)(next(state) % (next(state) % 4 == 0 ? 40 : 900));
    int threads = 1 + (int)(round % WRITERS), opens_first = next(state) % 10 != 0, tries;
    pid_t child = fork(), ended = 0;
    CHECK(child >= 0);
    if (child == 0) {
        if (way != KILL) {
            lossy_begin(folder, seed);
            lossy_power_fails_after(calls, after);
        }
        live(folder, round, seed, threads);
    }
    if (way != KILL) {
        ended_badly(child, LOST_POWER);
        remove_folder(folder);
        CHECK(rename(after, folder) == 0);
        return;
    }
    for (tries = 0; opens_first && told->openings == before && tries < 50000 && ended == 0; tries++) {
        usleep(200);
        ended = waitpid(child, NULL, WNOHANG);
    }
    CHECK(ended == 0);
    usleep((useconds_t)pause);
    kill(child, SIGKILL);
    ended_badly(child, SIGKILL);
}

/* A copy that was answered is there, and each that has its name is whole, wherever it was interrupted. */
static int copy_is_right(const char *folder, uint64_t copy_number, uint64_t round) {
    uint64_t number[WRITERS];
    githoppu_store *copy;
    char path[2048];
    int right;
    copy_path(path, folder, copy_number);
    if (access(path, F_OK) != 0) {
        if (copy_number > told->last_copy || told->last_copy == 0)
            return 1;
        printf("the copy %s is not there\n", path);
        return 0;
    }
    copy = opened(folder, strrchr(path, '/') + 1, round);
    right = copy != NULL && found_right(copy, number, 1);
    return right && githoppu_store_close(copy) == GITHOPPU_DONE;
}

/* What is there is looked at by a process of its own, so that no lock is left; of a disk that loses it is a copy, so that the next life begins with the
 * opening. */
static int judged_right(const char *folder, const char *copy, uint64_t round) {
    uint64_t number[WRITERS];
    int status;
    pid_t child;
    fflush(stdout);
    if (way != KILL)
        copy_folder(folder, copy);
    child = fork();
    CHECK(child >= 0);
    if (child == 0) {
        int i, right;
        if (way != KILL)
            lossy_begin(copy, round);
        store = opened(way == KILL ? folder : copy, "store", round);
        right = store != NULL && found_right(store, number, 0);
        for (i = 0; right && i < 2; i++)
            right = copy_is_right(way == KILL ? folder : copy, told->last_copy + (uint64_t)i, round);
        for (i = 0; right && i < WRITERS; i++)
            told->sent[i] = told->answered[i] = number[i];
        fflush(stdout);
        if (right && round % 2)
            CHECK(githoppu_store_close(store) == GITHOPPU_DONE);
        _exit(right ? 0 : 3);
    }
    CHECK(waitpid(child, &status, 0) == child);
    return WIFEXITED(status) && WEXITSTATUS(status) == 0;
}

int main(int count, char **words) {
    char folder[1024], after[1024], copy[1024], whole[PATH_MAX];
    uint64_t rounds, round, state, updates = 0, seed;
    int i, wrong = 0;
    CHECK(count == 5);
    for (way = KILL; way < WAYS && strcmp(words[1], way_names[way]) != 0; way++) {
    }
    CHECK(way < WAYS);
    rounds = strtoull(words[2], NULL, 10);
    seed = strtoull(words[3], NULL, 10);
    state = seeded(seed);
    told = (struct told *)mmap(NULL, sizeof *told, PROT_READ | PROT_WRITE, MAP_SHARED | MAP_ANONYMOUS, -1, 0);
    CHECK(told != MAP_FAILED);
    mkdir(words[4], 0777);
    CHECK(realpath(words[4], whole) != NULL && strlen(whole) < 900);
    snprintf(folder, sizeof folder, "%s/live", whole);
    snprintf(after, sizeof after, "%s/after", whole);
    snprintf(copy, sizeof copy, "%s/copy", whole);
    remove_folder(after);
    for (round = 0; round < rounds && !wrong; round++) {
        if (round % FRESH == 0) {
            for (i = 0; i < WRITERS; i++) {
                updates += told->answered[i];
                told->sent[i] = told->answered[i] = 0;
            }
            told->seen = told->last_copy = 0;
            new_folder(folder);
        }
        one_life(folder, after, round, &state);
        wrong = !judged_right(folder, copy, round);
    }
    for (i = 0; i < WRITERS; i++)
        updates += told->answered[i];
    remove_folder(folder);
    remove_folder(after);
    remove_folder(copy);
    rmdir(words[4]);
    printf("%s: %llu rounds from seed %llu, %s; %llu updates, %llu openings, %llu checkpoints and %llu copies by calls, %llu failed syncs\n", way_names[way],
           (unsigned long long)round, (unsigned long long)seed,
           !wrong ? "none wrong" : way == NORMAL ? "and an answered update was lost" : "THE LAST ONE WRONG",
           (unsigned long long)updates, (unsigned long long)told->openings, (unsigned long long)told->checkpoints, (unsigned long long)told->copies,
           (unsigned long long)told->failures);
    return wrong != (way == NORMAL);
}
