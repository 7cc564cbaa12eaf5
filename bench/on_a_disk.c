/* What bench/on_a_disk.py runs: a store on a disk beside SQLite alone, RocksDB (with -DROCKSDB) and the disk's own sync. Documents of 32 bytes at 1,000 keys,
 * a store of 16,384 lines, each update synced before it is answered. It prints names and numbers.
 *
 *   on_a_disk calls SYSTEM THREADS READS MILLISECONDS FOLDER     READS in 100 calls are reads
 *   on_a_disk recovery UPDATES FOLDER                            a log of so many updates is opened
 *   on_a_disk checkpoints THREADS MILLISECONDS FOLDER            the longest update, without and with a checkpoint every 50 milliseconds
 *
 * The systems: store, gathered (with gather_us 300), sqlite (a connection each), mutex (one connection of SQLite under a mutex), rocksdb, and disk: one thread
 * writes 128 bytes and syncs them. */
#define _GNU_SOURCE
#include "githoppu_store.h"
#include <errno.h>
#include <fcntl.h>
#include <pthread.h>
#include <sqlite3.h>
#include <stdatomic.h>
#include <stdio.h>
#include <stdlib.h>
#include <sys/resource.h>
#include <sys/stat.h>
#include <unistd.h>
#ifdef ROCKSDB
#include <rocksdb/c.h>
#endif

enum { KEYS = 1000, MOST = 64, LINES = 16384 };

static const char *folder;
static int reads_in_100;
static atomic_int begun, stopped;

/* One thread: what it calls by, and what it did. */
struct caller {
    unsigned number;
    void *of;
    uint64_t updates, reads;
    double longest;
};

/* A system: each call is of one key. */
struct system {
    const char *name;
    void (*open)(int threads);
    void *(*join)(unsigned thread);
    void (*put)(struct caller *caller, const char *key, const char *text);
    void (*get)(struct caller *caller, const char *key);
};

static void must(int right, const char *what) {
    if (!right) {
        fprintf(stderr, "on_a_disk: %s: %s\n", what, strerror(errno));
        exit(1);
    }
}

/* Microseconds. */
static double now(void) {
    struct timespec time;
    clock_gettime(CLOCK_MONOTONIC, &time);
    return (double)time.tv_sec * 1e6 + (double)time.tv_nsec / 1e3;
}

static double processor(void) {
    struct rusage used;
    getrusage(RUSAGE_SELF, &used);
    return (double)(used.ru_utime.tv_sec + used.ru_stime.tv_sec) * 1e6 + (double)(used.ru_utime.tv_usec + used.ru_stime.tv_usec);
}

static uint64_t next(uint64_t *state) {
    *state ^= *state << 13;
    *state ^= *state >> 7;
    *state ^= *state << 17;
    return *state * UINT64_C(0x9E3779B97F4A7C15) >> 33;
}

static void key_of(char key[16], uint64_t which) { sprintf(key, "key%05d", (int)(which % KEYS)); }

static void text_of(char text[40], uint64_t number) { sprintf(text, "%032llu", (unsigned long long)number); }

static const char *path_of(const char *name) {
    static char path[4096];
    snprintf(path, sizeof path, "%s/%s", folder, name);
    return path;
}

/* ---- The store on a disk. ---- */

static githoppu_store *store;

static void done(int status) {
    char why[512] = "";
    if (status != GITHOPPU_DONE && store != NULL)
        githoppu_store_why(store, why, sizeof why);
    if (status != GITHOPPU_DONE)
        fprintf(stderr, "on_a_disk: %s %s\n", githoppu_store_text(status), why);
    must(status == GITHOPPU_DONE, "the store");
}

static void open_with(int threads, unsigned gather_us, int sync, uint64_t every) {
    githoppu_store_options options;
    memset(&options, 0, sizeof options);
    options.lines = LINES;
    options.readers = (unsigned)(threads > 7 ? 7 : threads);
    options.gather_us = gather_us;
    options.sync = sync;
    options.checkpoint_every = every;
    done(githoppu_store_open(path_of("store"), &options, &store));
}

/* Puts a document at each key, in one sync. */
static void fill(void) {
    static githoppu_store_update *update[KEYS];
    githoppu_words op, reply;
    char key[16], text[40];
    int i;
    for (i = 0; i < KEYS; i++) {
        key_of(key, (uint64_t)i);
        text_of(text, (uint64_t)i);
        githoppu_document_op(&op, 1, key, text, 32, 0);
        done(githoppu_store_submit(store, 0, &op, &update[i]));
    }
    for (i = 0; i < KEYS; i++)
        done(githoppu_store_wait(store, update[i], &reply));
}

static void open_store(int threads) {
    open_with(threads, 0, GITHOPPU_STORE_FULL, 0);
    fill();
}

static void open_gathered(int threads) {
    open_with(threads, 300, GITHOPPU_STORE_FULL, 0);
    fill();
}

static void *join_store(unsigned thread) {
    (void)thread;
    return NULL;
}

static void put_store(struct caller *caller, const char *key, const char *text) {
    githoppu_words reply;
    done(githoppu_store_put(store, caller->number, key, text, 32, &reply));
    must(reply.word[0] == GITHOPPU_REPLACED, "a put");
}

static void get_store(struct caller *caller, const char *key) {
    githoppu_words reply;
    (void)caller;
    done(githoppu_store_get(store, key, &reply));
    must(reply.word[0] == GITHOPPU_DOC && reply.word[2] == 32, "a get");
}

/* ---- SQLite alone. ---- */

struct connection {
    sqlite3 *db;
    sqlite3_stmt *put, *get;
};

static struct connection only;
static pthread_mutex_t only_lock = PTHREAD_MUTEX_INITIALIZER;

static struct connection connect_sqlite(void) {
    struct connection c;
    static const char table[] = "PRAGMA journal_mode=WAL; PRAGMA synchronous=FULL;"
                                "CREATE TABLE IF NOT EXISTS kv(k TEXT PRIMARY KEY, v BLOB) WITHOUT ROWID";
    must(sqlite3_open(path_of("sqlite"), &c.db) == SQLITE_OK && sqlite3_busy_timeout(c.db, 60000) == SQLITE_OK, "sqlite3_open");
    must(sqlite3_exec(c.db, table, NULL, NULL, NULL) == SQLITE_OK, "a table");
    must(sqlite3_prepare_v2(c.db, "INSERT INTO kv VALUES(?1,?2) ON CONFLICT(k) DO UPDATE SET v=?2", -1, &c.put, NULL) == SQLITE_OK, "a put");
    must(sqlite3_prepare_v2(c.db, "SELECT v FROM kv WHERE k=?1", -1, &c.get, NULL) == SQLITE_OK, "a get");
    return c;
}

static void put_connection(struct connection *c, const char *key, const char *text) {
    int row;
    sqlite3_bind_text(c->put, 1, key, -1, SQLITE_STATIC);
    sqlite3_bind_blob(c->put, 2, text, 32, SQLITE_STATIC);
    while ((row = sqlite3_step(c->put)) == SQLITE_BUSY)
        sqlite3_reset(c->put);
    must(row == SQLITE_DONE, sqlite3_errmsg(c->db));
    sqlite3_reset(c->put);
}

static void get_connection(struct connection *c, const char *key) {
    sqlite3_bind_text(c->get, 1, key, -1, SQLITE_STATIC);
    must(sqlite3_step(c->get) == SQLITE_ROW && sqlite3_column_bytes(c->get, 0) == 32, sqlite3_errmsg(c->db));
    sqlite3_reset(c->get);
}

static void open_sqlite(int threads) {
    char key[16], text[40];
    int i;
    (void)threads;
    only = connect_sqlite();
    must(sqlite3_exec(only.db, "BEGIN", NULL, NULL, NULL) == SQLITE_OK, "BEGIN");
    for (i = 0; i < KEYS; i++) {
        key_of(key, (uint64_t)i);
        text_of(text, (uint64_t)i);
        put_connection(&only, key, text);
    }
    must(sqlite3_exec(only.db, "COMMIT", NULL, NULL, NULL) == SQLITE_OK, "COMMIT");
}

static void *join_sqlite(unsigned thread) {
    static struct connection each[MOST];
    each[thread] = connect_sqlite();
    return &each[thread];
}

static void *join_mutex(unsigned thread) {
    (void)thread;
    return &only;
}

static void put_sqlite(struct caller *caller, const char *key, const char *text) { put_connection((struct connection *)caller->of, key, text); }
static void get_sqlite(struct caller *caller, const char *key) { get_connection((struct connection *)caller->of, key); }

static void put_mutex(struct caller *caller, const char *key, const char *text) {
    pthread_mutex_lock(&only_lock);
    put_sqlite(caller, key, text);
    pthread_mutex_unlock(&only_lock);
}

static void get_mutex(struct caller *caller, const char *key) {
    pthread_mutex_lock(&only_lock);
    get_sqlite(caller, key);
    pthread_mutex_unlock(&only_lock);
}

/* ---- RocksDB. ---- */

#ifdef ROCKSDB
static rocksdb_t *rocks;
static rocksdb_writeoptions_t *synced;
static rocksdb_readoptions_t *read_options;

static void put_rocks(struct caller *caller, const char *key, const char *text) {
    char *error = NULL;
    (void)caller;
    rocksdb_put(rocks, synced, key, strlen(key), text, 32, &error);
    must(error == NULL, "rocksdb_put");
}

static void get_rocks(struct caller *caller, const char *key) {
    char *error = NULL, *text;
    size_t length = 0;
    (void)caller;
    text = rocksdb_get(rocks, read_options, key, strlen(key), &length, &error);
    must(error == NULL && text != NULL && length == 32, "rocksdb_get");
    free(text);
}

static void open_rocks(int threads) {
    rocksdb_options_t *options = rocksdb_options_create();
    char *error = NULL, key[16], text[40];
    int i;
    (void)threads;
    rocksdb_options_set_create_if_missing(options, 1);
    rocks = rocksdb_open(options, path_of("rocksdb"), &error);
    must(error == NULL, "rocksdb_open");
    synced = rocksdb_writeoptions_create();
    read_options = rocksdb_readoptions_create();
    for (i = 0; i < KEYS; i++) {
        key_of(key, (uint64_t)i);
        text_of(text, (uint64_t)i);
        put_rocks(NULL, key, text);
    }
    rocksdb_writeoptions_set_sync(synced, 1);
}
#endif

/* ---- The disk's own sync. ---- */

static int disk_file;
static uint64_t disk_at;

static void open_disk(int threads) {
    static char zeros[1 << 20];
    int i;
    must(threads == 1, "one thread syncs the disk");
    disk_file = open(path_of("disk"), O_RDWR | O_CREAT, 0600);
    must(disk_file >= 0, "open");
    for (i = 0; i < 4; i++)
        must(write(disk_file, zeros, sizeof zeros) == (ssize_t)sizeof zeros, "write");
    must(fsync(disk_file) == 0, "fsync");
}

static void put_disk(struct caller *caller, const char *key, const char *text) {
    char bytes[128] = "";
    (void)caller;
    snprintf(bytes, sizeof bytes, "%s %s", key, text);
    must(pwrite(disk_file, bytes, sizeof bytes, (off_t)(disk_at++ * 128 % (4 << 20))) == (ssize_t)sizeof bytes && fdatasync(disk_file) == 0, "a sync");
}

static void get_disk(struct caller *caller, const char *key) {
    (void)caller;
    must(0, key);
}

static const struct system systems[] = {
    {"store", open_store, join_store, put_store, get_store},
    {"gathered", open_gathered, join_store, put_store, get_store},
    {"sqlite", open_sqlite, join_sqlite, put_sqlite, get_sqlite},
    {"mutex", open_sqlite, join_mutex, put_mutex, get_mutex},
#ifdef ROCKSDB
    {"rocksdb", open_rocks, join_store, put_rocks, get_rocks},
#endif
    {"disk", open_disk, join_store, put_disk, get_disk},
};

/* ---- The measurements. ---- */

static const struct system *measured;

static void *run(void *at) {
    struct caller *caller = (struct caller *)at;
    uint64_t state = 99991 * (uint64_t)(caller->number + 1);
    char key[16], text[40];
    while (!begun)
        usleep(100);
    while (!stopped) {
        key_of(key, next(&state));
        if ((int)(next(&state) % 100) < reads_in_100) {
            measured->get(caller, key);
            caller->reads++;
        } else {
            double before = now();
            text_of(text, caller->updates);
            measured->put(caller, key, text);
            before = now() - before;
            if (before > caller->longest)
                caller->longest = before;
            caller->updates++;
        }
    }
    return NULL;
}

static struct caller callers[MOST];
static pthread_t threads_of[MOST];

static void begin(int threads) {
    int i;
    for (i = 0; i < threads; i++) {
        callers[i].number = (unsigned)i;
        callers[i].of = measured->join((unsigned)i);
        must(pthread_create(&threads_of[i], NULL, run, &callers[i]) == 0, "a thread");
    }
    usleep(10000);
    begun = 1;
}

static void end(int threads) {
    int i;
    stopped = 1;
    for (i = 0; i < threads; i++)
        pthread_join(threads_of[i], NULL);
}

static void measure_calls(int threads, long milliseconds) {
    uint64_t updates = 0, reads = 0;
    double time, used;
    int i;
    measured->open(threads);
    time = now();
    used = processor();
    begin(threads);
    usleep((useconds_t)milliseconds * 1000);
    end(threads);
    time = now() - time;
    used = processor() - used;
    for (i = 0; i < threads; i++) {
        updates += callers[i].updates;
        reads += callers[i].reads;
    }
    printf("updates %llu reads %llu time %.0f processor %.0f\n", (unsigned long long)updates, (unsigned long long)reads, time, used);
}

static void measure_recovery(uint64_t count) {
    static githoppu_store_update *update[512];
    githoppu_words op, reply;
    char key[16], text[40];
    uint64_t i, k;
    struct stat about;
    double time, used;
    open_with(1, 0, GITHOPPU_STORE_NORMAL, UINT64_MAX / 2);
    for (i = 0; i < count; i += 512) {
        for (k = 0; k < 512; k++) {
            key_of(key, i + k);
            text_of(text, i + k);
            githoppu_document_op(&op, 1, key, text, 32, 0);
            done(githoppu_store_submit(store, (unsigned)(k % 8), &op, &update[k]));
        }
        for (k = 0; k < 512; k++)
            done(githoppu_store_wait(store, update[k], &reply));
    }
    i = githoppu_store_place(store);
    done(githoppu_store_close(store));
    must(stat(path_of("store"), &about) == 0, "stat");
    time = now();
    used = processor();
    open_with(1, 0, GITHOPPU_STORE_FULL, 0);
    time = now() - time;
    used = processor() - used;
    must(githoppu_store_place(store) == i, "the updates");
    printf("updates %llu bytes %lld time %.0f processor %.0f\n", (unsigned long long)i, (long long)about.st_size, time, used);
    done(githoppu_store_close(store));
}

static double longest(int threads) {
    double most = 0;
    int i;
    for (i = 0; i < threads; i++) {
        most = callers[i].longest > most ? callers[i].longest : most;
        callers[i].longest = 0;
    }
    return most;
}

/* The checkpoints are made by this thread, so that no update is counted that makes one. */
static void measure_checkpoints(int threads, long milliseconds) {
    double without, whole = 0, from, until;
    int made = 0;
    open_with(threads, 0, GITHOPPU_STORE_FULL, UINT64_MAX / 2);
    fill();
    begin(threads);
    usleep(50000);
    longest(threads);
    usleep((useconds_t)milliseconds * 1000);
    without = longest(threads);
    for (until = now() + (double)milliseconds * 1000; now() < until; made++) {
        from = now();
        done(githoppu_store_checkpoint(store));
        whole += now() - from;
        usleep(50000);
    }
    printf("without %.0f with %.0f checkpoints %d whole %.0f\n", without, longest(threads), made, whole / made);
    end(threads);
    done(githoppu_store_close(store));
}

int main(int count, char **words) {
    must(count > 1, "on_a_disk calls | recovery | checkpoints ..");
    folder = words[count - 1];
    must(mkdir(folder, 0777) == 0, folder);
    if (strcmp(words[1], "calls") == 0 && count == 7) {
        size_t i;
        for (i = 0; i < sizeof systems / sizeof systems[0]; i++)
            if (strcmp(systems[i].name, words[2]) == 0)
                measured = &systems[i];
        must(measured != NULL, words[2]);
        reads_in_100 = atoi(words[4]);
        measure_calls(atoi(words[3]), atol(words[5]));
    } else if (strcmp(words[1], "recovery") == 0 && count == 4) {
        measure_recovery(strtoull(words[2], NULL, 10));
    } else {
        must(strcmp(words[1], "checkpoints") == 0 && count == 5, words[1]);
        measured = &systems[0];
        measure_checkpoints(atoi(words[2]), atol(words[3]));
    }
    return 0;
}
