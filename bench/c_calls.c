/* The processor time of a call through the C library, by one thread alone: an addition and a read of a store; beside it a sorted table of keys and numbers
 * under a mutex, and a table of keys and documents of SQLite in memory. Processor time repeats on a machine that does other work too; calls a second of
 * several threads do not (bench/sessions.c has those).
 *
 *   cc -O2 -std=c11 -D_POSIX_C_SOURCE=200809L bench/c_calls.c $(pkg-config --cflags --libs githoppu) -lsqlite3 -o /tmp/c_calls
 *   /tmp/c_calls
 *
 * 100 keys in 1,024 lines. All six are made in turn, 250 calls each, 400 times. It prints the least, the first tenth and the median of a call, in
 * microseconds. Neither table is durable. It takes two seconds. */
#include "githoppu.h"
#include <pthread.h>
#include <sqlite3.h>
#include <stdio.h>
#include <stdlib.h>
#include <time.h>

enum { KEYS = 100, CALLS = 250, ROUNDS = 400 };

/* On what the calls are made. */
enum place { STORE, MUTEX, SQLITE, PLACES };

struct row {
    char key[16], document[1025];
    long number;
};

static githoppu_session *session;
static struct row table[KEYS];
static pthread_mutex_t lock = PTHREAD_MUTEX_INITIALIZER;
static sqlite3 *database;
static sqlite3_stmt *read_one, *add_one;
static double took[PLACES][2][ROUNDS];

static void must(int right) {
    if (!right)
        abort();
}

static int by_key(const void *key, const void *row) { return strcmp((const char *)key, ((const struct row *)row)->key); }

static void on_store(const char *key, int reads, char *into) {
    githoppu_words reply;
    must((reads ? githoppu_get(&session, key, &reply) : githoppu_add(&session, key, 1, &reply)) == GITHOPPU_DONE);
    if (reads)
        githoppu_document(&reply, into);
}

static void under_mutex(const char *key, int reads, char *into) {
    struct row *row;
    pthread_mutex_lock(&lock);
    row = bsearch(key, table, KEYS, sizeof *table, by_key);
    if (reads)
        strcpy(into, row->document);
    else
        snprintf(row->document, sizeof row->document, "%ld", ++row->number);
    pthread_mutex_unlock(&lock);
}

static void on_sqlite(const char *key, int reads, char *into) {
    sqlite3_stmt *made = reads ? read_one : add_one;
    sqlite3_bind_text(made, 1, key, -1, SQLITE_STATIC);
    must(sqlite3_step(made) == (reads ? SQLITE_ROW : SQLITE_DONE));
    if (reads)
        strcpy(into, (const char *)sqlite3_column_text(made, 0));
    sqlite3_reset(made);
}

static void ask(const char *text) { must(sqlite3_exec(database, text, NULL, NULL, NULL) == SQLITE_OK); }

static void open_all(void) {
    githoppu_words reply;
    char text[64];
    int i;
    must(githoppu_open(1024, &session, 1) == GITHOPPU_DONE);
    must(sqlite3_open_v2(":memory:", &database, SQLITE_OPEN_READWRITE | SQLITE_OPEN_CREATE | SQLITE_OPEN_FULLMUTEX, NULL) == SQLITE_OK);
    ask("CREATE TABLE pairs (key TEXT PRIMARY KEY, document TEXT NOT NULL) WITHOUT ROWID");
    for (i = 0; i < KEYS; i++) {
        snprintf(table[i].key, sizeof table[i].key, "key%02d", i);
        strcpy(table[i].document, "0");
        must(githoppu_add(&session, table[i].key, 0, &reply) == GITHOPPU_DONE);
        snprintf(text, sizeof text, "INSERT INTO pairs VALUES ('key%02d', '0')", i);
        ask(text);
    }
    must(sqlite3_prepare_v2(database, "SELECT document FROM pairs WHERE key = ?1", -1, &read_one, NULL) == SQLITE_OK);
    must(sqlite3_prepare_v2(database, "UPDATE pairs SET document = document + 1 WHERE key = ?1", -1, &add_one, NULL) == SQLITE_OK);
}

/* Microseconds of this thread's processor time. */
static double now(void) {
    struct timespec time;
    clock_gettime(CLOCK_THREAD_CPUTIME_ID, &time);
    return 1e6 * (double)time.tv_sec + 1e-3 * (double)time.tv_nsec;
}

static double time_of_a_call(enum place place, int reads) {
    double from = now();
    char key[16], into[1025];
    int i;
    for (i = 0; i < CALLS; i++) {
        snprintf(key, sizeof key, "key%02d", i * 61 % KEYS);
        if (place == STORE)
            on_store(key, reads, into);
        else if (place == MUTEX)
            under_mutex(key, reads, into);
        else
            on_sqlite(key, reads, into);
    }
    return (now() - from) / CALLS;
}

static int rising(const void *a, const void *b) { return (*(const double *)a > *(const double *)b) - (*(const double *)a < *(const double *)b); }

int main(void) {
    static const char *const names[PLACES] = { "store", "mutex", "SQLite" };
    int round, place, reads;
    open_all();
    for (round = 0; round < ROUNDS; round++)
        for (place = 0; place < PLACES; place++)
            for (reads = 0; reads < 2; reads++)
                took[place][reads][round] = time_of_a_call((enum place)place, reads);
    puts("call least tenth median");
    for (place = 0; place < PLACES; place++)
        for (reads = 0; reads < 2; reads++) {
            double *times = took[place][reads];
            qsort(times, ROUNDS, sizeof *times, rising);
            printf("%s_%s %.2f %.2f %.2f\n", names[place], reads ? "read" : "addition", times[0], times[ROUNDS / 10], times[ROUNDS / 2]);
        }
    githoppu_give_up(&session, 1);
    sqlite3_finalize(read_one);
    sqlite3_finalize(add_one);
    sqlite3_close(database);
    return 0;
}
