/* Additions and reads by 1, 2 and 4 threads: on a store through the library, on a sorted table of keys and numbers under a mutex, and, with
 * -DWITH_SQLITE and -lsqlite3, on a table of keys and documents of SQLite in memory, by one connection that threads share, each with statements of its own.
 *
 *   tools/install $PREFIX
 *   cc -O2 -std=c11 -D_POSIX_C_SOURCE=200809L -I$PREFIX/include bench/sessions.c $PREFIX/lib/libgithoppu.a -pthread -o /tmp/sessions
 *   /tmp/sessions
 *   /tmp/sessions core
 *
 * 100 keys; of 100 calls of a thread 0, 90 or 100 read. The least time of five runs stands. Neither table is durable.
 *
 * With the word `core` the store alone is measured, by 1 and 4 threads, and by processor time: each thread makes its calls in slices, before and after
 * each of which the loop of core_probe.h tells whether the other hardware thread of its core is busy. Of each mode the median of its slices stands, and
 * in brackets their quartiles and how many they are; under 20 slices stand as a `-`. Slices in which the mode changed are left out. Two libraries are
 * compared by running both in turn. Where other work keeps the processors busy, threads seldom run at once: then the rows of 4 are as those of 1. */
#include "core_probe.h"
#include "githoppu.h"
#include <pthread.h>
#include <stdio.h>
#include <stdlib.h>
#include <time.h>
#ifdef WITH_SQLITE
#include <sqlite3.h>
#endif

enum { KEYS = 100, CALLS = 5000, ROUNDS = 5, SLICES = 1000, SLICE = 100, TURNS = 20000 };

/* On what the calls are made. */
enum place { STORE, MUTEX, SQLITE };

struct row {
    char key[16], document[1025];
    long number;
};

/* A turn of the loop before and after a slice of calls, and the nanoseconds of processor time of a call. */
struct slice {
    double before, after, call;
};

struct work {
    githoppu_session *session;
    int number, reads;
    enum place place;
    struct slice *slices; /* SLICES of them, or NULL where the calls are made in one go */
};

static struct row table[KEYS];
static pthread_mutex_t lock = PTHREAD_MUTEX_INITIALIZER;

static int by_key(const void *key, const void *row) { return strcmp((const char *)key, ((const struct row *)row)->key); }

static void under_mutex(const char *key, int reads, char *into) {
    pthread_mutex_lock(&lock);
    struct row *row = bsearch(key, table, KEYS, sizeof *table, by_key);
    if (reads)
        strcpy(into, row->document);
    else
        snprintf(row->document, sizeof row->document, "%ld", ++row->number);
    pthread_mutex_unlock(&lock);
}

static void on_store(githoppu_session **session, const char *key, int reads, char *into) {
    githoppu_words reply;
    int status = reads ? githoppu_get(session, key, &reply) : githoppu_add(session, key, 1, &reply);
    if (status != GITHOPPU_DONE)
        abort();
    if (reads)
        githoppu_document(&reply, into);
}

#ifdef WITH_SQLITE
static sqlite3 *database;

static void ask(const char *text) {
    if (sqlite3_exec(database, text, NULL, NULL, NULL) != SQLITE_OK)
        abort();
}

static sqlite3_stmt *statement(const char *text) {
    sqlite3_stmt *made;
    if (sqlite3_prepare_v2(database, text, -1, &made, NULL) != SQLITE_OK)
        abort();
    return made;
}

static void on_sqlite(sqlite3_stmt *made, const char *key, int reads, char *into) {
    int status;
    sqlite3_bind_text(made, 1, key, -1, SQLITE_STATIC);
    status = sqlite3_step(made);
    if (reads && status == SQLITE_ROW)
        strcpy(into, (const char *)sqlite3_column_text(made, 0));
    else if (reads || status != SQLITE_DONE)
        abort();
    sqlite3_reset(made);
}

static void run_on_sqlite(struct work *w) {
    sqlite3_stmt *read = statement("SELECT document FROM pairs WHERE key = ?1");
    sqlite3_stmt *add = statement("UPDATE pairs SET document = document + 1 WHERE key = ?1");
    char into[1025], key[16];
    for (int i = 0; i < CALLS; i++) {
        int reads = (i * 37 + w->number) % 100 < w->reads;
        snprintf(key, sizeof key, "key%02d", (i * 61 + w->number * 17) % KEYS);
        on_sqlite(reads ? read : add, key, reads, into);
    }
    sqlite3_finalize(read);
    sqlite3_finalize(add);
}

static void open_sqlite(void) {
    char text[64];
    if (sqlite3_open_v2(":memory:", &database, SQLITE_OPEN_READWRITE | SQLITE_OPEN_CREATE | SQLITE_OPEN_FULLMUTEX, NULL) != SQLITE_OK)
        abort();
    ask("CREATE TABLE pairs (key TEXT PRIMARY KEY, document TEXT NOT NULL) WITHOUT ROWID");
    for (int i = 0; i < KEYS; i++) {
        snprintf(text, sizeof text, "INSERT INTO pairs VALUES ('key%02d', '0')", i);
        ask(text);
    }
}

static void close_sqlite(void) { sqlite3_close(database); }
#else
static void run_on_sqlite(struct work *w) { (void)w; }
static void open_sqlite(void) {}
static void close_sqlite(void) {}
#endif

/* The call of a number. */
static void call(struct work *w, int i) {
    char into[1025], key[16];
    int reads = (i * 37 + w->number) % 100 < w->reads;
    snprintf(key, sizeof key, "key%02d", (i * 61 + w->number * 17) % KEYS);
    if (w->session)
        on_store(&w->session, key, reads, into);
    else
        under_mutex(key, reads, into);
}

static void run_slices(struct work *w) {
    double turn = core_probe(TURNS);
    for (int s = 0; s < SLICES; s++) {
        double from = thread_ns();
        for (int i = 0; i < SLICE; i++)
            call(w, s * SLICE + i);
        w->slices[s] = (struct slice){ turn, 0, (thread_ns() - from) / SLICE };
        turn = w->slices[s].after = core_probe(TURNS);
    }
}

static void *run(void *at) {
    struct work *w = at;
    if (w->place == SQLITE) {
        run_on_sqlite(w);
        return NULL;
    }
    if (w->slices)
        run_slices(w);
    for (int i = 0; !w->slices && i < CALLS; i++)
        call(w, i);
    return NULL;
}

static double seconds(githoppu_session **sessions, int threads, int reads, enum place place, struct slice *slices) {
    pthread_t made[8];
    struct work works[8];
    struct timespec from, to;
    clock_gettime(CLOCK_MONOTONIC, &from);
    for (int i = 0; i < threads; i++) {
        works[i] = (struct work){ sessions ? sessions[i] : NULL, i, reads, place, slices ? slices + i * SLICES : NULL };
        if (pthread_create(&made[i], NULL, run, &works[i]) != 0)
            exit(1);
    }
    for (int i = 0; i < threads; i++) {
        pthread_join(made[i], NULL);
        if (sessions)
            sessions[i] = works[i].session;
    }
    clock_gettime(CLOCK_MONOTONIC, &to);
    return (double)(to.tv_sec - from.tv_sec) + 1e-9 * (double)(to.tv_nsec - from.tv_nsec);
}

static double least(int threads, int reads, enum place place) {
    double best = 1e9;
    for (int round = 0; round < ROUNDS; round++) {
        githoppu_session *sessions[8];
        githoppu_words reply;
        if (place == STORE && githoppu_open(1024, sessions, (size_t)threads) != GITHOPPU_DONE)
            exit(1);
        if (place == SQLITE)
            open_sqlite();
        for (int i = 0; i < KEYS; i++) {
            snprintf(table[i].key, sizeof table[i].key, "key%02d", i);
            strcpy(table[i].document, "0");
            table[i].number = 0;
            if (place == STORE)
                githoppu_add(sessions, table[i].key, 0, &reply);
        }
        double took = seconds(place == STORE ? sessions : NULL, threads, reads, place, NULL);
        if (place == STORE)
            githoppu_give_up(sessions, (size_t)threads);
        if (place == SQLITE)
            close_sqlite();
        if (took < best)
            best = took;
    }
    return best;
}

static int by_time(const void *one, const void *other) {
    double x = *(const double *)one, y = *(const double *)other;
    return (x > y) - (x < y);
}

enum { MOST_THREADS = 4, LEAST_SLICES = 20, SHARES = 4 };

/* The slices of a row of `core`. */
struct sliced {
    int threads, reads;
    struct slice slices[MOST_THREADS * SLICES];
};

/* Prints the median of a call over the slices of a mode, its quartiles, and how many slices they are. */
static void print_mode(const struct sliced *row, double least, enum core_mode mode) {
    static double calls[MOST_THREADS * SLICES];
    int found = 0;
    for (int s = 0; s < row->threads * SLICES; s++)
        if (core_mode(least, row->slices[s].before, row->slices[s].after) == mode)
            calls[found++] = row->slices[s].call;
    qsort(calls, (size_t)found, sizeof *calls, by_time);
    if (found >= LEAST_SLICES)
        printf(" %.0f (%.0f to %.0f, %d)", calls[found / 2], calls[found / 4], calls[found * 3 / 4], found);
    else
        printf(" - (%d)", found);
}

static void measure(struct sliced *row) {
    githoppu_session *sessions[MOST_THREADS];
    githoppu_words reply;
    char key[16];
    if (githoppu_open(1024, sessions, (size_t)row->threads) != GITHOPPU_DONE)
        exit(1);
    for (int i = 0; i < KEYS; i++) {
        snprintf(key, sizeof key, "key%02d", i);
        if (githoppu_add(sessions, key, 0, &reply) != GITHOPPU_DONE)
            exit(1);
    }
    seconds(sessions, row->threads, row->reads, STORE, row->slices);
    githoppu_give_up(sessions, (size_t)row->threads);
}

/* The least turn of the loop, but for one in 100, over all rows: in some of them no core may have been alone, and a processor's clock may slip. */
static double least_turn(const struct sliced *rows, int count) {
    static double turns[2 * SHARES * MOST_THREADS * SLICES];
    int found = 0;
    for (int r = 0; r < count; r++)
        for (int s = 0; s < rows[r].threads * SLICES; s++)
            turns[found++] = rows[r].slices[s].after;
    qsort(turns, (size_t)found, sizeof *turns, by_time);
    return turns[found / 100];
}

static int core(void) {
    enum { ROWS = 2 * SHARES };
    static const int shares[SHARES] = { 0, 50, 90, 100 };
    static struct sliced rows[ROWS];
    double least;
    for (int r = 0; r < ROWS; r++) {
        rows[r].threads = r < SHARES ? 1 : MOST_THREADS;
        rows[r].reads = shares[r % SHARES];
        measure(&rows[r]);
    }
    least = least_turn(rows, ROWS);
    puts("threads reads_of_100 ns_a_call_alone ns_a_call_where_the_other_thread_of_the_core_is_busy");
    for (int r = 0; r < ROWS; r++) {
        printf("%d %d", rows[r].threads, rows[r].reads);
        print_mode(&rows[r], least, CORE_ALONE);
        print_mode(&rows[r], least, CORE_SHARED);
        puts("");
    }
    return 0;
}

int main(int count, char **words) {
    static const int counts[] = { 1, 2, 4 }, shares[] = { 0, 90, 100 };
#ifdef WITH_SQLITE
    static const enum place last = SQLITE;
#else
    static const enum place last = MUTEX;
#endif
    if (count > 1)
        return strcmp(words[1], "core") == 0 ? core() : 2;
    puts("threads reads_of_100 store_us_a_call mutex_us_a_call sqlite_us_a_call");
    for (int c = 0; c < 3; c++)
        for (int s = 0; s < 3; s++) {
            printf("%d %d", counts[c], shares[s]);
            for (enum place place = STORE; place <= last; place++)
                printf(" %.2f", 1e6 * least(counts[c], shares[s], place) / ((double)counts[c] * CALLS));
            puts("");
        }
    return 0;
}
