/* Tests of a store on a disk, one after another in a folder: every call, and every failure that githoppu_store.h names but those of crash_tests.c and
 * damage_tests.c. A disk that is full and syncs that fail are made by lossy_disk.c.
 *
 *   store_tests FOLDER     which is made, and removed in the end */
#define _GNU_SOURCE
#include "githoppu_file.h"
#include "githoppu_store.h"
#include "lossy_disk.h"
#include "test_folders.h"
#include <errno.h>
#include <limits.h>
#include <pthread.h>
#include <sqlite3.h>
#include <sys/wait.h>

enum { LINES = 256 };

static char folder[1024], path[2048], other[2048];
static githoppu_words reply;
static char why[512];

/* Allocations of the store and of the library: the one with this number fails. Those of SQLite and of libc are not counted. */
static int allocation_fails;

void *__real_malloc(size_t size);
void *__real_calloc(size_t count, size_t size);
void *__wrap_malloc(size_t size);
void *__wrap_calloc(size_t count, size_t size);

void *__wrap_malloc(size_t size) { return allocation_fails > 0 && --allocation_fails == 0 ? NULL : __real_malloc(size); }
void *__wrap_calloc(size_t count, size_t size) { return allocation_fails > 0 && --allocation_fails == 0 ? NULL : __real_calloc(count, size); }

/* A new folder for a test, and an empty store's path in it. */
static void fresh(const char *name) {
    snprintf(path, sizeof path, "%s/%s", folder, name);
    new_folder(path);
    snprintf(other, sizeof other, "%s/%s/other", folder, name);
    strcat(path, "/store");
}

static void done_with(const char *name) {
    char gone[2048];
    snprintf(gone, sizeof gone, "%s/%s", folder, name);
    remove_folder(gone);
}

static githoppu_store_options small(void) {
    githoppu_store_options options;
    memset(&options, 0, sizeof options);
    options.lines = LINES;
    options.readers = 2;
    return options;
}

/* What an opening answers, and in why what it says. */
static int open_status(const char *at, const githoppu_store_options *options) {
    githoppu_store *s;
    int status = githoppu_store_open(at, options, &s);
    CHECK(s != NULL);
    githoppu_store_why(s, why, sizeof why);
    if (status != GITHOPPU_DONE) {
        /* it takes nothing but why and close */
        CHECK(githoppu_store_add(s, 0, "sold", 1, &reply) == status && githoppu_store_get(s, "sold", &reply) == status);
        CHECK(githoppu_store_place(s) == 0 && why[0] != 0);
        CHECK(githoppu_store_close(s) == GITHOPPU_DONE);
        return status;
    }
    CHECK(why[0] == 0 && githoppu_store_close(s) == GITHOPPU_DONE);
    return status;
}

static githoppu_store *open_at(const char *at, const githoppu_store_options *options) {
    githoppu_store *s;
    int status = githoppu_store_open(at, options, &s);
    if (status != GITHOPPU_DONE) {
        githoppu_store_why(s, why, sizeof why);
        fprintf(stderr, "%s: %d %s\n", at, status, why);
        exit(1);
    }
    return s;
}

static githoppu_store *open_small(void) {
    githoppu_store_options options = small();
    return open_at(path, &options);
}

static int64_t sold_in(githoppu_store *s) {
    char text[1025];
    CHECK(githoppu_store_get(s, "sold", &reply) == GITHOPPU_DONE);
    if (reply.word[0] == GITHOPPU_ABSENT)
        return 0;
    CHECK(reply.word[0] == GITHOPPU_DOC);
    githoppu_document(&reply, text);
    return atoll(text);
}

static void sell(githoppu_store *s, int count) {
    for (; count > 0; count--)
        CHECK(githoppu_store_add(s, (unsigned)count % 3, "sold", 1, &reply) == GITHOPPU_DONE && reply.word[0] == GITHOPPU_SUM);
}

static void close_it(githoppu_store *s) { CHECK(githoppu_store_close(s) == GITHOPPU_DONE); }

/* Does something to a database from outside, as another program does. */
static void by_sqlite(const char *at, const char *text) {
    sqlite3 *db;
    CHECK(sqlite3_open(at, &db) == SQLITE_OK && sqlite3_exec(db, text, NULL, NULL, NULL) == SQLITE_OK && sqlite3_close(db) == SQLITE_OK);
}

static int64_t number_by_sqlite(const char *at, const char *query) {
    sqlite3 *db;
    sqlite3_stmt *asked;
    int64_t number;
    CHECK(sqlite3_open(at, &db) == SQLITE_OK && sqlite3_prepare_v2(db, query, -1, &asked, NULL) == SQLITE_OK && sqlite3_step(asked) == SQLITE_ROW);
    number = sqlite3_column_int64(asked, 0);
    CHECK(sqlite3_finalize(asked) == SQLITE_OK && sqlite3_close(db) == SQLITE_OK);
    return number;
}

/* How many pages SQLite's own log of a store has had. */
static long wal_pages(void) {
    struct stat about;
    char wal[2100];
    snprintf(wal, sizeof wal, "%s-wal", path);
    return stat(wal, &about) == 0 ? (long)about.st_size / 4120 : 0;
}

/* ---- Calls. ---- */

static void documents(void) {
    char text[1025], key[65], long_key[66], long_text[1026];
    githoppu_store *s;
    uint64_t number;
    fresh("documents");
    s = open_small();
    CHECK(githoppu_store_place(s) == 0);
    CHECK(githoppu_store_put(s, 0, "b", "bread", 5, &reply) == GITHOPPU_DONE && reply.word[0] == GITHOPPU_NEW);
    CHECK(githoppu_store_put(s, 0, "b", "butter", 6, &reply) == GITHOPPU_DONE && reply.word[0] == GITHOPPU_REPLACED);
    CHECK(githoppu_store_get(s, "b", &reply) == GITHOPPU_DONE && githoppu_document(&reply, text) == 6 && strcmp(text, "butter") == 0);
    CHECK(githoppu_store_rev(s, "b", &reply) == GITHOPPU_DONE && reply.word[0] == GITHOPPU_REVISION);
    number = githoppu_number(&reply);
    CHECK(githoppu_store_putif(s, 1, "b", "beer", 4, number + 1, &reply) == GITHOPPU_DONE && reply.word[0] == GITHOPPU_STALE);
    CHECK(githoppu_store_putif(s, 1, "b", "beer", 4, number, &reply) == GITHOPPU_DONE && reply.word[0] == GITHOPPU_SET);
    CHECK(githoppu_store_add(s, 2, "a", -7, &reply) == GITHOPPU_DONE && githoppu_sum(&reply) == -7);
    CHECK(githoppu_store_add(s, 2, "b", 1, &reply) == GITHOPPU_DONE && reply.word[0] == GITHOPPU_NOT_NUMBER);
    CHECK(githoppu_store_next(s, "", &reply) == GITHOPPU_DONE && githoppu_key(&reply, key) == 1 && key[0] == 'a');
    CHECK(githoppu_store_next(s, "a", &reply) == GITHOPPU_DONE && githoppu_key(&reply, key) == 1 && key[0] == 'b');
    CHECK(githoppu_store_next(s, "b", &reply) == GITHOPPU_DONE && reply.word[0] == GITHOPPU_ABSENT);
    CHECK(githoppu_store_count(s, &reply) == GITHOPPU_DONE && githoppu_number(&reply) == 2);
    CHECK(githoppu_store_del(s, 63, "a", &reply) == GITHOPPU_DONE && reply.word[0] == GITHOPPU_DELETED);
    CHECK(githoppu_store_place(s) == 7);
    /* what is refused is not in the log, but for a malformed update, which counts */
    memset(long_key, 'k', 65);
    long_key[65] = 0;
    memset(long_text, 't', sizeof long_text);
    CHECK(githoppu_store_put(s, 0, long_key, "x", 1, &reply) == GITHOPPU_TOO_LONG);
    CHECK(githoppu_store_put(s, 0, "k", long_text, 1025, &reply) == GITHOPPU_TOO_LONG);
    CHECK(githoppu_store_get(s, long_key, &reply) == GITHOPPU_TOO_LONG && githoppu_store_put(s, 64, "k", "x", 1, &reply) == GITHOPPU_STORE_NO_CLIENT);
    CHECK(githoppu_store_get(s, "", &reply) == GITHOPPU_MALFORMED && githoppu_store_rev(s, "a b", &reply) == GITHOPPU_MALFORMED);
    CHECK(githoppu_store_outcome(s, 64, &number, &reply) == GITHOPPU_STORE_NO_CLIENT && githoppu_store_place(s) == 7);
    CHECK(githoppu_store_put(s, 5, "a b", "x", 1, &reply) == GITHOPPU_MALFORMED && reply.word[0] == 0 && githoppu_store_place(s) == 8);
    CHECK(githoppu_store_outcome(s, 5, &number, &reply) == GITHOPPU_DONE && number == 1 && reply.word[0] == 0);
    close_it(s);
    /* opened again: by default options, as it is */
    s = open_at(path, NULL);
    CHECK(githoppu_store_place(s) == 8 && githoppu_store_get(s, "b", &reply) == GITHOPPU_DONE);
    CHECK(githoppu_document(&reply, text) == 4 && strcmp(text, "beer") == 0);
    CHECK(githoppu_store_outcome(s, 63, &number, &reply) == GITHOPPU_DONE && number == 1 && reply.word[0] == GITHOPPU_DELETED);
    CHECK(githoppu_store_outcome(s, 2, &number, &reply) == GITHOPPU_DONE && number == 2 && reply.word[0] == GITHOPPU_NOT_NUMBER);
    CHECK(githoppu_store_outcome(s, 62, &number, &reply) == GITHOPPU_DONE && number == 0);
    /* a document of the greatest length, and one that there is no room for */
    CHECK(githoppu_store_put(s, 0, "long", long_text, 1024, &reply) == GITHOPPU_DONE && reply.word[0] == GITHOPPU_NEW);
    for (number = 0; reply.word[0] != GITHOPPU_NO_ROOM; number++) {
        snprintf(key, sizeof key, "long%d", (int)number);
        CHECK(githoppu_store_put(s, 0, key, long_text, 1024, &reply) == GITHOPPU_DONE);
    }
    close_it(s);
    s = open_small();
    CHECK(githoppu_store_get(s, "long", &reply) == GITHOPPU_DONE && githoppu_document(&reply, text) == 1024);
    CHECK(githoppu_store_get(s, key, &reply) == GITHOPPU_DONE && reply.word[0] == GITHOPPU_ABSENT);
    CHECK(githoppu_store_outcome(s, 0, &number, &reply) == GITHOPPU_DONE && reply.word[0] == GITHOPPU_NO_ROOM);
    close_it(s);
    CHECK(githoppu_store_close(NULL) == GITHOPPU_DONE);
    done_with("documents");
}

static void queue(void) {
    githoppu_store_options options = small();
    githoppu_store *s;
    char text[57];
    int round;
    fresh("queue");
    options.object = &githoppu_store_queue;
    for (round = 0; round < 2; round++) {
        s = open_at(path, &options);
        CHECK(githoppu_store_push(s, 0, "first", &reply) == GITHOPPU_DONE && reply.word[0] == GITHOPPU_PUSHED);
        CHECK(githoppu_store_push(s, 1, "second", &reply) == GITHOPPU_DONE && reply.word[0] == GITHOPPU_PUSHED);
        CHECK(githoppu_store_push(s, 1, "", &reply) == GITHOPPU_MALFORMED);
        CHECK(githoppu_store_len(s, &reply) == GITHOPPU_DONE && githoppu_length(&reply) == 2 + (uint64_t)round);
        CHECK(githoppu_store_peek(s, &reply) == GITHOPPU_DONE && githoppu_text(&reply, text) > 0 && strcmp(text, round ? "second" : "first") == 0);
        CHECK(githoppu_store_pop(s, 2, &reply) == GITHOPPU_DONE && githoppu_text(&reply, text) > 0 && strcmp(text, round ? "second" : "first") == 0);
        CHECK(round == 0 || githoppu_store_checkpoint(s) == GITHOPPU_DONE);
        close_it(s);
    }
    CHECK(open_status(path, NULL) == GITHOPPU_STORE_OTHER);
    done_with("queue");
}

/* What the hooks call a read is what the library takes for one: operations with some words changed, by both. */
static void reads_are_the_librarys(void) {
    static const uint64_t bytes[] = {0, 1, 31, 32, 33, 'a', 126, 127, 128, 255};
    const githoppu_store_object *objects[2] = {&githoppu_store_documents, &githoppu_store_queue};
    uint64_t seed = 7;
    int which, round, reads = 0, updates = 0;
    for (which = 0; which < 2; which++) {
        githoppu_session *session;
        CHECK(objects[which]->open(NULL, 64, &session, 1) == GITHOPPU_DONE);
        for (round = 0; round < 20000; round++) {
            githoppu_words op;
            uint64_t place = githoppu_place(&session);
            int changes, length, status;
            char key[65];
            seed = seed * UINT64_C(6364136223846793005) + 1442695040888963407;
            length = (seed >> 40) % 3 == 0 ? 64 : (int)((seed >> 44) % 9);
            memset(key, 'k', sizeof key);
            key[length] = 0;
            memset(&op, 0, sizeof op);
            if (which == 0)
                githoppu_document_op(&op, (seed >> 33) % 10, key, "", 0, 0);
            else
                githoppu_queue_op(&op, (seed >> 33) % 6, (seed >> 50) % 4 ? "" : "text");
            for (changes = (int)((seed >> 60) % 3); changes > 0; changes--) {
                int word = (int)((seed >> 20) % (changes == 1 ? 144 : 20));
                op.word[word] = changes == 2 ? bytes[(seed >> 52) % 10] : op.word[word] ^ bytes[(seed >> 56) % 10] << (8 * ((seed >> 12) % 8));
                seed = seed * UINT64_C(6364136223846793005) + 1442695040888963407;
            }
            status = githoppu_do(&session, &op, &reply);
            CHECK(status == GITHOPPU_DONE || status == GITHOPPU_MALFORMED);
            CHECK((githoppu_place(&session) == place) == objects[which]->reads(NULL, &op));
            reads += githoppu_place(&session) == place;
            updates += githoppu_place(&session) != place;
        }
        githoppu_give_up(&session, 1);
    }
    CHECK(reads > 2000 && updates > 2000);
}

/* Operations of any words are in the log as they are: what a client learns from it is what it was answered. */
static void any_words(void) {
    uint64_t seed = 3, numbers[2];
    githoppu_words answered[40], learned;
    githoppu_store *s;
    int i, k;
    fresh("words");
    s = open_small();
    for (i = 0; i < 40; i++) {
        githoppu_words op;
        for (k = 0; k < 144; k++) {
            seed = seed * UINT64_C(6364136223846793005) + 1442695040888963407;
            op.word[k] = i < 20 ? seed : (seed >> 60) < 3 ? seed & UINT64_C(0xff00ff0000ff00ff) : 0;
        }
        CHECK(githoppu_store_call(s, (unsigned)i, &op, &answered[i]) == GITHOPPU_MALFORMED);
        memset(&op, 0, sizeof op);
        githoppu_document_op(&op, 3, "sold", "", 0, (int64_t)(seed >> 20));
        CHECK(githoppu_store_call(s, (unsigned)i, &op, &answered[i]) == GITHOPPU_DONE);
    }
    CHECK(githoppu_store_checkpoint(s) == GITHOPPU_DONE);
    close_it(s);
    s = open_small();
    for (i = 0; i < 40; i++) {
        CHECK(githoppu_store_outcome(s, (unsigned)i, numbers, &learned) == GITHOPPU_DONE);
        CHECK(numbers[0] == 2 && memcmp(&learned, &answered[i], sizeof learned) == 0);
    }
    close_it(s);
    done_with("words");
}

/* Many updates of one thread, more than the queue holds, are waited for in any order. */
static void submitted(void) {
    enum { MANY = 2500 };
    static githoppu_store_update *update[MANY];
    githoppu_store *s;
    githoppu_words op;
    uint64_t number;
    int i;
    fresh("submitted");
    s = open_small();
    githoppu_document_op(&op, 3, "sold", "", 0, 1);
    CHECK(githoppu_store_submit(s, 64, &op, &update[0]) == GITHOPPU_STORE_NO_CLIENT && update[0] == NULL);
    for (i = 0; i < MANY; i++)
        CHECK(githoppu_store_submit(s, 7, &op, &update[i]) == GITHOPPU_DONE);
    for (i = MANY - 1; i >= 0; i -= 2)
        CHECK(githoppu_store_wait(s, update[i], &reply) == GITHOPPU_DONE && githoppu_sum(&reply) == i + 1);
    for (i = 0; i < MANY; i += 2)
        CHECK(githoppu_store_wait(s, update[i], &reply) == GITHOPPU_DONE && githoppu_sum(&reply) == i + 1);
    CHECK(githoppu_store_place(s) == MANY);
    /* one that nobody waits for holds up nobody, and is written by a sync */
    CHECK(githoppu_store_submit(s, 7, &op, &update[0]) == GITHOPPU_DONE && githoppu_store_place(s) == MANY);
    CHECK(githoppu_store_sync(s) == GITHOPPU_DONE && githoppu_store_place(s) == MANY + 1);
    CHECK(githoppu_store_wait(s, update[0], &reply) == GITHOPPU_DONE && githoppu_sum(&reply) == MANY + 1);
    /* the closing writes what was submitted; it is left here, as by a program that ends */
    CHECK(githoppu_store_submit(s, 7, &op, &update[0]) == GITHOPPU_DONE);
    close_it(s);
    free(update[0]);
    s = open_small();
    CHECK(githoppu_store_outcome(s, 7, &number, &reply) == GITHOPPU_DONE && number == MANY + 2 && sold_in(s) == MANY + 2);
    close_it(s);
    done_with("submitted");
}

static void *sell_much(void *at) {
    githoppu_store *s = *(githoppu_store **)at;
    static _Atomic unsigned clients;
    unsigned client = clients++ % 64, i;
    githoppu_words mine;
    char key[32];
    for (i = 0; i < 30; i++) {
        CHECK(githoppu_store_add(s, client, "sold", 1, &mine) == GITHOPPU_DONE && mine.word[0] == GITHOPPU_SUM);
        snprintf(key, sizeof key, "client%u", client);
        CHECK(githoppu_store_put(s, client, key, "here", 4, &mine) == GITHOPPU_DONE);
        CHECK(githoppu_store_get(s, key, &mine) == GITHOPPU_DONE && mine.word[0] == GITHOPPU_DOC); /* what was answered is seen */
    }
    return NULL;
}

/* More threads than a store in RAM has sessions, by checkpoints of the store's own, with and without gathering. */
static void many_threads(void) {
    enum { THREADS = 20 };
    githoppu_store_options options = small();
    pthread_t thread[THREADS];
    githoppu_store *s;
    uint64_t number, sum = 0;
    unsigned i;
    int round;
    fresh("threads");
    for (round = 1; round <= 3; round++) {
        options.checkpoint_every = 250;
        options.gather_us = round == 2 ? 300 : 0;
        options.sync = round == 3 ? GITHOPPU_STORE_NORMAL : GITHOPPU_STORE_FULL;
        s = open_at(path, &options);
        for (i = 0; i < THREADS; i++)
            CHECK(pthread_create(&thread[i], NULL, sell_much, &s) == 0);
        for (i = 0; i < THREADS; i++)
            CHECK(pthread_join(thread[i], NULL) == 0);
        /* one more, while no other thread makes a checkpoint: however they ran, none is due after it */
        CHECK(githoppu_store_put(s, 0, "last", "here", 4, &reply) == GITHOPPU_DONE);
        CHECK(sold_in(s) == 30 * THREADS * round && githoppu_store_place(s) == (60 * THREADS + 1) * (uint64_t)round);
        CHECK(githoppu_store_sync(s) == GITHOPPU_DONE);
        close_it(s);
        CHECK(number_by_sqlite(path, "SELECT place FROM checkpoint") > (60 * THREADS + 1) * round - 250);
        CHECK(number_by_sqlite(path, "SELECT count(*) FROM log") < 250);
    }
    s = open_small();
    for (i = 0; i < 64; i++, sum += number)
        CHECK(githoppu_store_outcome(s, i, &number, &reply) == GITHOPPU_DONE);
    CHECK(sum == 180 * THREADS + 3 && sold_in(s) == 90 * THREADS);
    close_it(s);
    done_with("threads");
}

static void checkpoints(void) {
    githoppu_store *s;
    fresh("checkpoints");
    s = open_small();
    sell(s, 10);
    CHECK(githoppu_store_checkpoint(s) == GITHOPPU_DONE && githoppu_store_checkpoint(s) == GITHOPPU_DONE);
    sell(s, 4);
    close_it(s);
    CHECK(number_by_sqlite(path, "SELECT place FROM checkpoint") == 10 && number_by_sqlite(path, "SELECT count(*) FROM log") == 4);
    CHECK(number_by_sqlite(path, "SELECT count(*) FROM outcome") == 3 && number_by_sqlite(path, "SELECT logged FROM meta") == 14);
    s = open_small();
    CHECK(sold_in(s) == 14 && githoppu_store_place(s) == 14);
    close_it(s);
    done_with("checkpoints");
}

static void copies(void) {
    githoppu_store *s, *copy;
    char nowhere[2048], third[2048], left[2048];
    fresh("copies");
    snprintf(nowhere, sizeof nowhere, "%s/copies/none/other", folder);
    s = open_small();
    sell(s, 5);
    CHECK(githoppu_store_checkpoint(s) == GITHOPPU_DONE);
    sell(s, 5);
    CHECK(githoppu_store_copy(s, other) == GITHOPPU_DONE);
    sell(s, 5);
    /* one that is there is not written over, and neither is the store itself */
    CHECK(githoppu_store_copy(s, other) == GITHOPPU_STORE_NOT_WRITTEN);
    githoppu_store_why(s, why, sizeof why);
    CHECK(strstr(why, other) != NULL && strstr(why, "errno 17") != NULL);
    CHECK(githoppu_store_copy(s, path) == GITHOPPU_STORE_NOT_WRITTEN && githoppu_store_copy(s, nowhere) == GITHOPPU_STORE_NOT_WRITTEN);
    /* nor does a copy come beside a log that another database left */
    snprintf(left, sizeof left, "%s/copies/third-wal", folder);
    CHECK(fclose(fopen(left, "wb")) == 0);
    snprintf(third, sizeof third, "%s/copies/third", folder);
    CHECK(githoppu_store_copy(s, third) == GITHOPPU_STORE_NOT_WRITTEN && unlink(left) == 0);
    CHECK(githoppu_store_copy(s, third) == GITHOPPU_DONE && open_status(third, NULL) == GITHOPPU_DONE);
    copy = open_at(other, NULL);
    CHECK(sold_in(copy) == 10 && githoppu_store_place(copy) == 10);
    sell(copy, 1);
    close_it(copy);
    sell(s, 1);
    CHECK(sold_in(s) == 16);
    close_it(s);
    done_with("copies");
}

/* An object of one's own, by its functions: here a document store under another number. */
static void own_object(void) {
    githoppu_store_object mine = githoppu_store_documents;
    githoppu_store_options options = small();
    githoppu_store *s;
    fresh("object");
    mine.number = 77;
    options.object = &mine;
    s = open_at(path, &options);
    sell(s, 3);
    CHECK(githoppu_store_checkpoint(s) == GITHOPPU_DONE);
    close_it(s);
    CHECK(open_status(path, NULL) == GITHOPPU_STORE_OTHER && strstr(why, "77") != NULL);
    s = open_at(path, &options);
    CHECK(sold_in(s) == 3);
    close_it(s);
    done_with("object");
}

static int reads_nothing(const void *context, const githoppu_words *op) {
    (void)context;
    (void)op;
    return 0;
}

/* An update that has another place in RAM than its row: here one that the library takes for a read. The store stops, and says so. */
static void another_place(void) {
    githoppu_store_object wrong = githoppu_store_documents;
    githoppu_store_options options = small();
    githoppu_words op;
    githoppu_store *s;
    fresh("place");
    wrong.reads = reads_nothing;
    options.object = &wrong;
    s = open_at(path, &options);
    sell(s, 2);
    githoppu_document_op(&op, 4, "sold", "", 0, 0);
    CHECK(githoppu_store_call(s, 0, &op, &reply) == GITHOPPU_STORE_FAILED);
    githoppu_store_why(s, why, sizeof why);
    CHECK(strstr(why, "place 2") != NULL && githoppu_store_add(s, 0, "sold", 1, &reply) == GITHOPPU_STORE_READ_ONLY);
    CHECK(githoppu_store_checkpoint(s) == GITHOPPU_STORE_READ_ONLY && githoppu_store_close(s) == GITHOPPU_STORE_READ_ONLY);
    CHECK(open_status(path, NULL) == GITHOPPU_STORE_DAMAGED && strstr(why, "place 2") != NULL);
    done_with("place");
}

/* A store that has had nearly 2^40 updates, from an image whose place is set there: the last ones are done, the next is refused, and none is in the log. */
static void worn(void) {
    enum { UPDATES = 1234 };
    const uint64_t most = UINT64_C(1) << 40, place = most - 2;
    githoppu_store_options options;
    githoppu_session *session, *again;
    githoppu_store *s;
    uint64_t *words, count, k, i;
    int status = GITHOPPU_IMAGE_PLACE;
    fresh("worn");
    CHECK(githoppu_open(64, &session, 1) == GITHOPPU_DONE);
    for (i = 0; i < UPDATES; i++)
        CHECK(githoppu_add(&session, "sold", 2, &reply) == GITHOPPU_DONE);
    CHECK(githoppu_checkpoint_size(&session, &count) == GITHOPPU_DONE);
    words = (uint64_t *)malloc(8 * count);
    CHECK(words != NULL && githoppu_checkpoint_into(&session, words, count) == GITHOPPU_DONE);
    githoppu_give_up(&session, 1);
    /* the root is the place times a number, and a rest; the place is a word of each region, too */
    k = words[5] / UPDATES;
    words[5] += (place - UPDATES) * k;
    for (i = 8; i < count && status != GITHOPPU_DONE; i++)
        if (words[i] == UPDATES) {
            words[i] = place;
            status = githoppu_recover(words, count, &again, 1);
            words[i] = status == GITHOPPU_DONE || status == GITHOPPU_IMAGE_PLACE ? place : UPDATES;
        }
    CHECK(status == GITHOPPU_DONE);
    githoppu_give_up(&again, 1);
    CHECK(githoppu_save_words(other, words, count) == GITHOPPU_DONE);
    free(words);
    memset(&options, 0, sizeof options);
    options.saved = other;
    s = open_at(path, &options);
    CHECK(githoppu_store_place(s) == place);
    sell(s, 2);
    CHECK(githoppu_store_place(s) == most && githoppu_store_add(s, 0, "sold", 1, &reply) == GITHOPPU_WORN);
    CHECK(githoppu_store_checkpoint(s) == GITHOPPU_DONE && sold_in(s) == 2 * UPDATES + 2);
    CHECK(githoppu_store_add(s, 0, "sold", 1, &reply) == GITHOPPU_WORN);
    close_it(s);
    s = open_at(path, NULL);
    CHECK(githoppu_store_place(s) == most && sold_in(s) == 2 * UPDATES + 2 && githoppu_store_add(s, 0, "sold", 1, &reply) == GITHOPPU_WORN);
    close_it(s);
    done_with("worn");
}

static void texts(void) {
    int status;
    for (status = GITHOPPU_STORE_BUSY; status <= GITHOPPU_STORE_NO_CLIENT; status++)
        CHECK(strcmp(githoppu_store_text(status), githoppu_status_text(status)) != 0);
    CHECK(strcmp(githoppu_store_text(GITHOPPU_FULL), githoppu_status_text(GITHOPPU_FULL)) == 0);
    CHECK(strcmp(githoppu_store_text(GITHOPPU_FILE_CHANGED), githoppu_status_text(GITHOPPU_FILE_CHANGED)) == 0);
}

/* ---- Openings that are refused. ---- */

static void bad_options(void) {
    githoppu_store_options options = small();
    fresh("options");
    options.lines = 63;
    CHECK(open_status(path, &options) == GITHOPPU_BAD_SIZE);
    options.lines = 16385;
    CHECK(open_status(path, &options) == GITHOPPU_BAD_SIZE);
    options = small();
    options.readers = 8;
    CHECK(open_status(path, &options) == GITHOPPU_BAD_SIZE);
    options = small();
    options.sync = 2;
    CHECK(open_status(path, &options) == GITHOPPU_BAD_SIZE);
    options = small();
    options.existing = 1;
    CHECK(open_status(path, &options) == GITHOPPU_STORE_NOT_OPENED && access(path, F_OK) != 0);
    close_it(open_small());
    CHECK(open_status(path, &options) == GITHOPPU_DONE);
    options.lines = LINES + 1;
    CHECK(open_status(path, &options) == GITHOPPU_STORE_OTHER && strstr(why, "256 lines") != NULL);
    done_with("options");
}

static void no_file(void) {
    char nowhere[2048], all[2048];
    fresh("none");
    snprintf(nowhere, sizeof nowhere, "%s/none/none/store", folder);
    snprintf(all, sizeof all, "%s/none", folder);
    CHECK(open_status(nowhere, NULL) == GITHOPPU_STORE_NOT_OPENED && strstr(why, nowhere) != NULL);
    CHECK(open_status(all, NULL) == GITHOPPU_STORE_NOT_OPENED && strstr(why, all) != NULL);
    CHECK(open_status("", NULL) == GITHOPPU_STORE_NOT_OPENED && open_status(":memory:", NULL) == GITHOPPU_STORE_NOT_OPENED);
    /* an empty file is a new store */
    CHECK(fclose(fopen(path, "wb")) == 0 && open_status(path, NULL) == GITHOPPU_DONE);
    done_with("none");
}

/* A child of another user, where this one may be anybody: it may not write the file, the folder, or read the file. */
static void no_permission(void) {
    char all[2048];
    int status;
    pid_t child;
    fresh("permission");
    snprintf(all, sizeof all, "%s/permission", folder);
    close_it(open_small());
    if (geteuid() == 0)
        CHECK(chmod(folder, 0755) == 0 && chmod(all, 0755) == 0 && chmod(path, 0644) == 0);
    else
        CHECK(chmod(all, 0555) == 0 && chmod(path, 0444) == 0);
    child = fork();
    CHECK(child >= 0);
    if (child == 0) {
        if (geteuid() == 0)
            CHECK(setgid(65534) == 0 && setuid(65534) == 0);
        if (access(all, R_OK | X_OK) != 0)
            _exit(4); /* the folders above are closed to others: nothing is tried */
        CHECK(open_status(path, NULL) == GITHOPPU_STORE_NOT_OPENED && strstr(why, path) != NULL);
        CHECK(open_status(other, NULL) == GITHOPPU_STORE_NOT_OPENED && strstr(why, "ermission") != NULL);
        _exit(0);
    }
    CHECK(waitpid(child, &status, 0) == child && WIFEXITED(status));
    if (WEXITSTATUS(status) == 4)
        fprintf(stderr, "store_tests: no permission was not tried: another user cannot reach %s\n", all);
    else
        CHECK(WEXITSTATUS(status) == 0);
    CHECK(chmod(all, 0755) == 0 && chmod(path, 0000) == 0);
    CHECK(geteuid() == 0 || open_status(path, NULL) == GITHOPPU_STORE_NOT_OPENED);
    done_with("permission");
}

static int child_status(int (*what)(void)) {
    int status;
    pid_t child = fork();
    CHECK(child >= 0);
    if (child == 0)
        _exit(what());
    CHECK(waitpid(child, &status, 0) == child && WIFEXITED(status));
    return WEXITSTATUS(status);
}

static int open_default(void) { return open_status(path, NULL); }

/* Another process, and this one, get BUSY, also after this one was refused: the lock is not lost by that. */
static void busy(void) {
    githoppu_store *s;
    char linked[2048];
    fresh("busy");
    s = open_small();
    sell(s, 2);
    CHECK(child_status(open_default) == GITHOPPU_STORE_BUSY);
    CHECK(open_status(path, NULL) == GITHOPPU_STORE_BUSY);
    snprintf(linked, sizeof linked, "%s/busy/linked", folder);
    CHECK(symlink(path, linked) == 0 && open_status(linked, NULL) == GITHOPPU_STORE_BUSY && unlink(linked) == 0);
    CHECK(child_status(open_default) == GITHOPPU_STORE_BUSY);
    sell(s, 2);
    CHECK(sold_in(s) == 4);
    close_it(s);
    CHECK(open_status(path, NULL) == GITHOPPU_DONE);
    done_with("busy");
}

static int same_bytes(const char *one, const char *two) {
    unsigned char *bytes[2];
    size_t length[2];
    int same;
    CHECK(githoppu_read_bytes(one, &bytes[0], &length[0]) == GITHOPPU_DONE && githoppu_read_bytes(two, &bytes[1], &length[1]) == GITHOPPU_DONE);
    same = length[0] == length[1] && memcmp(bytes[0], bytes[1], length[0]) == 0;
    free(bytes[0]);
    free(bytes[1]);
    return same;
}

/* A file that is no store is refused, and not one byte of it is changed, nor of a log of SQLite's beside it. */
static void refused_unchanged(int status, const char *says) {
    char before[2100], wal[2100], wal_before[2100];
    int has_wal;
    snprintf(before, sizeof before, "%s.before", path);
    snprintf(wal, sizeof wal, "%s-wal", path);
    snprintf(wal_before, sizeof wal_before, "%s-wal.before", path);
    copy_file(path, before);
    has_wal = access(wal, F_OK) == 0;
    if (has_wal)
        copy_file(wal, wal_before);
    CHECK(open_status(path, NULL) == status && strstr(why, path) != NULL && strstr(why, says) != NULL);
    CHECK(same_bytes(path, before) && unlink(before) == 0);
    CHECK(!has_wal || (same_bytes(wal, wal_before) && unlink(wal_before) == 0 && unlink(wal) == 0));
}

/* Another program that was killed: its database has a log. */
static int leave_a_log(void) {
    static sqlite3 *db;
    CHECK(sqlite3_open(path, &db) == SQLITE_OK);
    CHECK(sqlite3_exec(db, "PRAGMA journal_mode=WAL; INSERT INTO shop VALUES(4)", NULL, NULL, NULL) == SQLITE_OK);
    return 0;
}

static void other_formats(void) {
    githoppu_session *session;
    FILE *file;
    int i;
    fresh("formats");
    by_sqlite(path, "CREATE TABLE shop(sold INTEGER); INSERT INTO shop VALUES(3)");
    refused_unchanged(GITHOPPU_STORE_FORMAT, "another program");
    CHECK(child_status(leave_a_log) == 0 && wal_pages() > 0);
    refused_unchanged(GITHOPPU_STORE_FORMAT, "another program");
    CHECK(unlink(path) == 0);
    file = fopen(path, "wb");
    CHECK(file != NULL);
    for (i = 0; i < 300; i++)
        fprintf(file, "a line of a text\n");
    CHECK(fclose(file) == 0);
    refused_unchanged(GITHOPPU_STORE_FORMAT, "not a database");
    CHECK(unlink(path) == 0 && githoppu_open(64, &session, 1) == GITHOPPU_DONE && githoppu_save(path, &session) == GITHOPPU_DONE);
    githoppu_give_up(&session, 1);
    refused_unchanged(GITHOPPU_STORE_FORMAT, "options.saved");
    CHECK(unlink(path) == 0);
    close_it(open_small());
    by_sqlite(path, "PRAGMA user_version=2");
    CHECK(open_status(path, NULL) == GITHOPPU_STORE_FORMAT && strstr(why, "format 2") != NULL);
    by_sqlite(path, "PRAGMA user_version=1");
    CHECK(open_status(path, NULL) == GITHOPPU_DONE);
    done_with("formats");
}

/* Rows that are changed, missing, doubled or of another table. */
static void damaged_rows(void) {
    static const struct {
        const char *change, *says;
    } rows[] = {
        {"DELETE FROM log WHERE place=7", "row of place 7"},
        {"DELETE FROM log WHERE place>=9", "row of place 9"},
        {"DELETE FROM log WHERE place=4", "row of place 4"},
        {"UPDATE log SET place=99 WHERE place=8", "row of place 8"},
        {"UPDATE log SET client=2 WHERE place=8", "row of place 8"},
        {"UPDATE log SET client=64 WHERE place=8", "row of place 8"},
        {"UPDATE log SET operation=operation||x'00' WHERE place=6", "row of place 6"},
        {"UPDATE log SET operation=x'0100' WHERE place=6", "row of place 6"},
        {"UPDATE log SET crc=crc+1 WHERE place=11", "row of place 11"},
        {"INSERT INTO log SELECT place+8, client, operation, crc FROM log WHERE place=4", "row of place 12"},
        {"UPDATE checkpoint SET place=3", "image of place 3"},
        {"UPDATE checkpoint SET image=zeroblob(length(image))", "image of place 4"},
        {"UPDATE checkpoint SET image=NULL", "image of place 4"},
        {"INSERT INTO checkpoint SELECT place+1, image, crc FROM checkpoint", "image of place 5"},
        {"DELETE FROM checkpoint", "row of place 0"},
        {"UPDATE outcome SET number=number+1 WHERE client=1", "outcome of client 1"},
        {"UPDATE outcome SET client=9 WHERE client=1", "outcome of client 9"},
        {"UPDATE meta SET logged=3", "row of meta"},
        {"UPDATE meta SET lines=512", "row of meta"},
        {"DELETE FROM meta", "row of meta"},
        {"INSERT INTO meta SELECT * FROM meta", "row of meta"},
        {"DROP TABLE log", "no such table"},
        {"ALTER TABLE log RENAME COLUMN operation TO sold", "no such column"},
    };
    githoppu_store *s;
    size_t i;
    fresh("rows");
    s = open_small();
    sell(s, 4);
    CHECK(githoppu_store_checkpoint(s) == GITHOPPU_DONE);
    sell(s, 8);
    close_it(s);
    copy_file(path, other);
    for (i = 0; i < sizeof rows / sizeof rows[0]; i++) {
        copy_file(other, path);
        by_sqlite(path, rows[i].change);
        if (open_status(path, NULL) != GITHOPPU_STORE_DAMAGED || strstr(why, rows[i].says) == NULL || strstr(why, path) == NULL) {
            fprintf(stderr, "store_tests: %s: %s\n", rows[i].change, why);
            exit(1);
        }
    }
    copy_file(other, path);
    CHECK(open_status(path, NULL) == GITHOPPU_DONE);
    done_with("rows");
}

/* ---- A fork, and a store that was saved. ---- */

static githoppu_store *parents;

static int forked(void) {
    githoppu_store_update *update;
    githoppu_words op;
    uint64_t number;
    memset(&op, 0, sizeof op);
    CHECK(githoppu_store_add(parents, 0, "sold", 1, &reply) == GITHOPPU_STORE_FORKED);
    CHECK(githoppu_store_get(parents, "sold", &reply) == GITHOPPU_STORE_FORKED && githoppu_store_get(parents, "", &reply) == GITHOPPU_STORE_FORKED);
    CHECK(githoppu_store_submit(parents, 0, &op, &update) == GITHOPPU_STORE_FORKED && githoppu_store_sync(parents) == GITHOPPU_STORE_FORKED);
    CHECK(githoppu_store_checkpoint(parents) == GITHOPPU_STORE_FORKED && githoppu_store_copy(parents, other) == GITHOPPU_STORE_FORKED);
    CHECK(githoppu_store_outcome(parents, 0, &number, &reply) == GITHOPPU_STORE_FORKED && githoppu_store_place(parents) == 0);
    CHECK(githoppu_store_why(parents, why, sizeof why) > 0 && strstr(why, "fork") != NULL);
    CHECK(githoppu_store_close(parents) == GITHOPPU_STORE_FORKED && open_status(path, NULL) == GITHOPPU_STORE_BUSY);
    return 0;
}

static void a_fork(void) {
    fresh("fork");
    parents = open_small();
    sell(parents, 3);
    CHECK(child_status(forked) == 0);
    sell(parents, 3);
    CHECK(child_status(open_default) == GITHOPPU_STORE_BUSY);
    close_it(parents);
    parents = open_small();
    CHECK(sold_in(parents) == 6);
    close_it(parents);
    done_with("fork");
}

static void saved(void) {
    githoppu_store_options options;
    githoppu_session *session[3];
    githoppu_store *s;
    uint64_t number;
    int i, round;
    FILE *file;
    fresh("saved");
    memset(&options, 0, sizeof options);
    options.saved = other;
    CHECK(open_status(path, &options) == GITHOPPU_NOT_OPENED && strstr(why, other) != NULL);
    CHECK(githoppu_open(128, session, 3) == GITHOPPU_DONE);
    for (i = 0; i < 9; i++)
        CHECK(githoppu_add(&session[i % 2], "sold", 1, &reply) == GITHOPPU_DONE);
    CHECK(githoppu_save(other, &session[2]) == GITHOPPU_DONE);
    githoppu_give_up(session, 3);
    options.lines = 256;
    CHECK(unlink(path) == 0 && open_status(path, &options) == GITHOPPU_STORE_OTHER);
    options.lines = 0;
    for (round = 0; round < 2; round++) {
        s = open_at(path, &options);
        CHECK(sold_in(s) == 9 + round && githoppu_store_place(s) == 9 + (uint64_t)round);
        CHECK(githoppu_store_outcome(s, 1, &number, &reply) == GITHOPPU_DONE && number == 4 && githoppu_sum(&reply) == 8);
        CHECK(githoppu_store_outcome(s, 0, &number, &reply) == GITHOPPU_DONE && number == 5 + (uint64_t)round && githoppu_sum(&reply) == 9 + round);
        CHECK(githoppu_store_outcome(s, 2, &number, &reply) == GITHOPPU_DONE && number == 0);
        CHECK(githoppu_store_add(s, 0, "sold", 1, &reply) == GITHOPPU_DONE);
        close_it(s);
    }
    CHECK(number_by_sqlite(path, "SELECT lines FROM meta") == 128);
    /* of the other kind, and changed */
    CHECK(unlink(path) == 0);
    options.object = &githoppu_store_queue;
    CHECK(open_status(path, &options) == GITHOPPU_OTHER_KIND && strstr(why, "other kind") != NULL && strstr(why, other) != NULL);
    options.object = NULL;
    file = fopen(other, "r+b");
    CHECK(file != NULL && fseek(file, 500, SEEK_SET) == 0 && fputc('x', file) == 'x' && fclose(file) == 0);
    CHECK(unlink(path) == 0 && open_status(path, &options) == GITHOPPU_FILE_CHANGED && strstr(why, other) != NULL);
    done_with("saved");
}

/* ---- A disk that fails, from here on by lossy_disk.c: no test before follows its folder. ---- */

static void fail_from_here(const char *name) {
    char followed[2048];
    fresh(name);
    snprintf(followed, sizeof followed, "%s/%s", folder, name);
    lossy_begin(followed, 1);
}

/* The disk is full in an update, in a checkpoint and in a copy: nothing is changed, reads go on, and where there is room again, it goes on. */
static void full_disk(void) {
    githoppu_store *s;
    int64_t sold;
    int64_t status;
    fail_from_here("full");
    s = open_small();
    sell(s, 20);
    lossy_full_after(30000);
    for (sold = 20, status = 0; status == GITHOPPU_DONE; sold += status == GITHOPPU_DONE)
        status = githoppu_store_add(s, 0, "sold", 1, &reply);
    CHECK(sold > 20 && status == GITHOPPU_STORE_NOT_WRITTEN && githoppu_store_add(s, 0, "sold", 1, &reply) == GITHOPPU_STORE_NOT_WRITTEN);
    githoppu_store_why(s, why, sizeof why);
    CHECK(strstr(why, path) != NULL && strstr(why, "full") != NULL && sold_in(s) == sold && githoppu_store_place(s) == (uint64_t)sold);
    CHECK(githoppu_store_checkpoint(s) == GITHOPPU_STORE_NOT_WRITTEN && githoppu_store_copy(s, other) == GITHOPPU_STORE_NOT_WRITTEN);
    CHECK(access(other, F_OK) != 0 && githoppu_store_close(s) == GITHOPPU_STORE_NOT_WRITTEN);
    lossy_full_after(-1);
    s = open_small();
    CHECK(sold_in(s) == sold);
    /* in the middle of a checkpoint: the log stays */
    lossy_full_after(30000);
    CHECK(githoppu_store_checkpoint(s) == GITHOPPU_STORE_NOT_WRITTEN && sold_in(s) == sold);
    lossy_full_after(-1);
    sell(s, 1);
    CHECK(githoppu_store_checkpoint(s) == GITHOPPU_DONE);
    /* and in the middle of a copy */
    lossy_full_after(30000);
    CHECK(githoppu_store_copy(s, other) == GITHOPPU_STORE_NOT_WRITTEN && access(other, F_OK) != 0);
    lossy_full_after(-1);
    CHECK(githoppu_store_copy(s, other) == GITHOPPU_DONE && githoppu_store_add(s, 0, "sold", 1, &reply) == GITHOPPU_DONE);
    close_it(s);
    s = open_small();
    CHECK(sold_in(s) == sold + 2);
    close_it(s);
    /* a new store on a full disk */
    CHECK(unlink(other) == 0);
    lossy_full_after(3000);
    CHECK(open_status(other, NULL) == GITHOPPU_STORE_NOT_OPENED);
    lossy_full_after(-1);
    CHECK(open_status(other, NULL) == GITHOPPU_DONE);
    done_with("full");
}

/* A sync fails: the update is not known to be there, and until the store is opened again it is read-only. */
static void failed_sync(void) {
    githoppu_store_update *update;
    githoppu_words op;
    githoppu_store *s;
    uint64_t number;
    fail_from_here("sync");
    s = open_small();
    sell(s, 12);
    lossy_fail_sync(1);
    CHECK(githoppu_store_add(s, 5, "sold", 1, &reply) == GITHOPPU_STORE_FAILED);
    githoppu_store_why(s, why, sizeof why);
    CHECK(strstr(why, "COMMIT") != NULL && strstr(why, path) != NULL && strstr(why, "errno 5") != NULL);
    CHECK(githoppu_store_add(s, 5, "sold", 1, &reply) == GITHOPPU_STORE_READ_ONLY && githoppu_store_sync(s) == GITHOPPU_STORE_READ_ONLY);
    githoppu_document_op(&op, 3, "sold", "", 0, 1);
    CHECK(githoppu_store_submit(s, 5, &op, &update) == GITHOPPU_DONE && githoppu_store_wait(s, update, &reply) == GITHOPPU_STORE_READ_ONLY);
    CHECK(githoppu_store_checkpoint(s) == GITHOPPU_STORE_READ_ONLY && githoppu_store_copy(s, other) == GITHOPPU_STORE_READ_ONLY);
    CHECK(sold_in(s) == 12 && githoppu_store_place(s) == 12);
    githoppu_store_why(s, why, sizeof why);
    CHECK(strstr(why, "errno 5") != NULL);
    CHECK(githoppu_store_outcome(s, 5, &number, &reply) == GITHOPPU_DONE && number == 0);
    CHECK(githoppu_store_close(s) == GITHOPPU_STORE_READ_ONLY);
    s = open_small();
    CHECK(githoppu_store_outcome(s, 5, &number, &reply) == GITHOPPU_DONE && number <= 1 && sold_in(s) == 12 + (int64_t)number);
    sell(s, 1);
    close_it(s);
    done_with("sync");
}

/* A write fails: of a full quota it may be tried again, and else the store is read-only. Each write of an update in turn. */
static void failed_write(void) {
    githoppu_store *s;
    int nth, sold = 0;
    fail_from_here("write");
    for (nth = 1; nth <= 2; nth++) {
        s = open_small();
        sell(s, 1);
        lossy_fail_write(nth, EDQUOT);
        CHECK(githoppu_store_add(s, 0, "sold", 1, &reply) == GITHOPPU_STORE_NOT_WRITTEN && sold_in(s) == sold + 1);
        sell(s, 1);
        lossy_fail_write(nth, EIO);
        CHECK(githoppu_store_add(s, 0, "sold", 1, &reply) == GITHOPPU_STORE_FAILED);
        githoppu_store_why(s, why, sizeof why);
        CHECK(strstr(why, "errno 5") != NULL && githoppu_store_add(s, 0, "sold", 1, &reply) == GITHOPPU_STORE_READ_ONLY);
        CHECK(sold_in(s) == sold + 2 && githoppu_store_close(s) == GITHOPPU_STORE_READ_ONLY);
        s = open_small();
        sold += 2;
        CHECK(sold_in(s) == sold);
        close_it(s);
    }
    done_with("write");
}

/* There is no memory for one allocation, each in turn: a call says so and changes nothing, and what was answered is there. */
static void no_memory(void) {
    githoppu_store_options options = small();
    githoppu_store_update *update;
    githoppu_store *s;
    githoppu_words op;
    int nth, status, told = 0;
    int64_t sold = 0;
    fresh("memory");
    close_it(open_small());
    githoppu_document_op(&op, 3, "sold", "", 0, 1);
    for (nth = 1; !allocation_fails; nth++) {
        allocation_fails = nth;
        status = githoppu_store_open(path, &options, &s);
        CHECK(status == GITHOPPU_DONE || status == GITHOPPU_NO_MEMORY);
        if (status == GITHOPPU_DONE) {
            status = githoppu_store_submit(s, 0, &op, &update);
            CHECK(status == GITHOPPU_DONE || (status == GITHOPPU_NO_MEMORY && update == NULL));
            if (status == GITHOPPU_DONE)
                CHECK(githoppu_store_wait(s, update, &reply) == GITHOPPU_DONE && githoppu_sum(&reply) == ++sold);
            status |= githoppu_store_checkpoint(s);
            CHECK(status == GITHOPPU_DONE || status == GITHOPPU_NO_MEMORY);
            CHECK(githoppu_store_add(s, 0, "sold", 1, &reply) == GITHOPPU_DONE && githoppu_sum(&reply) == ++sold);
            unlink(other);
            status |= githoppu_store_copy(s, other);
            CHECK(status == GITHOPPU_DONE || status == GITHOPPU_NO_MEMORY || (status & GITHOPPU_STORE_NOT_WRITTEN));
        }
        told += status != GITHOPPU_DONE;
        CHECK(githoppu_store_close(s) == GITHOPPU_DONE);
    }
    allocation_fails = 0;
    CHECK(told == nth - 2 && told > 8); /* each but the last, which no call came to */
    s = open_small();
    CHECK(sold_in(s) == sold);
    close_it(s);
    done_with("memory");
}

/* Each sync in turn, over a checkpoint of SQLite's own log: none that fails goes untold, and no update that was answered is lost. */
static void no_sync_fails_untold(void) {
    enum { TRIED = 24 };
    githoppu_store_options options = small();
    githoppu_store *s;
    int nth, status, answered;
    fail_from_here("told");
    for (nth = 1; nth <= TRIED; nth++) {
        unlink(path);
        s = open_small();
        for (answered = 0; wal_pages() < 990; answered++)
            CHECK(githoppu_store_add(s, 0, "sold", 1, &reply) == GITHOPPU_DONE);
        lossy_fail_sync(nth);
        for (status = GITHOPPU_DONE; status == GITHOPPU_DONE && answered < 2000; answered += status == GITHOPPU_DONE)
            status = githoppu_store_add(s, 0, "sold", 1, &reply);
        CHECK(lossy_syncs_to_failure() == 0 && (status == GITHOPPU_STORE_FAILED || status == GITHOPPU_STORE_READ_ONLY));
        CHECK(githoppu_store_close(s) == GITHOPPU_STORE_READ_ONLY);
        s = open_at(path, &options);
        CHECK(sold_in(s) == answered || (status == GITHOPPU_STORE_FAILED && sold_in(s) == answered + 1));
        close_it(s);
    }
    done_with("told");
}

int main(int count, char **words) {
    static void (*const tests[])(void) = {
        documents, queue, reads_are_the_librarys, any_words, submitted, many_threads, checkpoints, copies, own_object, another_place, worn, texts, bad_options,
        no_file, no_permission, busy, other_formats, damaged_rows, a_fork, saved, no_memory, full_disk, failed_write, failed_sync,
        no_sync_fails_untold};
    char whole[PATH_MAX];
    size_t i;
    CHECK(count == 2);
    mkdir(words[1], 0777);
    CHECK(realpath(words[1], whole) != NULL && strlen(whole) < 900);
    memcpy(folder, whole, strlen(whole) + 1);
    for (i = 0; i < sizeof tests / sizeof tests[0]; i++)
        tests[i]();
    rmdir(folder);
    printf("%d tests of a store on a disk pass\n", (int)(sizeof tests / sizeof tests[0]));
    return 0;
}
