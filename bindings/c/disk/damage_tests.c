/* A byte of a store's file is changed, a page is lost or doubled, the file is cut: the store is refused with a line that says where, or it is what it was;
 * never anything else. Of SQLite's own log, as a killed process leaves it, a changed byte may also be taken for the end of it: the store is then an older
 * one.
 *
 *   damage_tests FOLDER [STEP]     every STEPth byte, 211 without it, and of SQLite's log every fourth of these; the folder is made, and removed in the end */
#define _GNU_SOURCE
#include "githoppu_file.h"
#include "githoppu_store.h"
#include "lossy_disk.h"
#include "test_folders.h"
#include <limits.h>
#include <sys/wait.h>

enum { CLIENTS = 3, PAGE = 4096 };

static char path[2048], wal[2100];
static unsigned char *file_bytes, *wal_bytes;
static size_t file_length, wal_length;
static int refused, same, older;

/* What a store has after this number of updates, as one number: all documents and outcomes. */
static uint64_t print_of(githoppu_store *s) {
    githoppu_words reply;
    uint64_t print = githoppu_store_place(s), number;
    char key[65] = "", text[1025];
    unsigned client;
    size_t i, length;
    for (;;) {
        CHECK(githoppu_store_next(s, key, &reply) == GITHOPPU_DONE);
        if (reply.word[0] != GITHOPPU_KEY)
            break;
        githoppu_key(&reply, key);
        CHECK(githoppu_store_get(s, key, &reply) == GITHOPPU_DONE && reply.word[0] == GITHOPPU_DOC);
        length = githoppu_document(&reply, text);
        for (i = 0; i <= length; i++)
            print = print * 1099511628211u + (unsigned char)text[i];
    }
    for (client = 0; client < 64; client++) {
        CHECK(githoppu_store_outcome(s, client, &number, &reply) == GITHOPPU_DONE);
        print = print * 1099511628211u + number;
        for (i = 0; i < 144; i++)
            print = print * 1099511628211u + reply.word[i];
    }
    return print;
}

/* The nth update; the prints of the stores that the first ones make, as far as they are in the log. */
enum { FIRST = 40, UPDATES = 75 };
static uint64_t prints[UPDATES + 1];

static void update(githoppu_store *s, int nth) {
    githoppu_words reply;
    char key[16], text[400];
    snprintf(key, sizeof key, "key%d", nth % 9);
    memset(text, 'a' + nth % 26, sizeof text);
    if (nth % 4 == 0)
        CHECK(githoppu_store_add(s, (unsigned)nth % CLIENTS, "sold", nth, &reply) == GITHOPPU_DONE);
    else
        CHECK(githoppu_store_put(s, (unsigned)nth % CLIENTS, key, text, (size_t)(nth * 37) % 399 + 1, &reply) == GITHOPPU_DONE);
}

static githoppu_store_options small(void) {
    githoppu_store_options options;
    memset(&options, 0, sizeof options);
    options.lines = 64;
    options.readers = 1;
    return options;
}

static void put_bytes(const char *at, const unsigned char *bytes, size_t length) {
    FILE *file;
    unlink(at); /* a file that is cut and written again is flushed by some file systems */
    file = fopen(at, "wb");
    CHECK(file != NULL && fwrite(bytes, 1, length, file) == length && fclose(file) == 0);
}

/* Opens what was changed. *least is the oldest state that it may have. */
static void try_it(const char *what, long which, int least) {
    githoppu_store_options options = small();
    githoppu_store *s;
    githoppu_words reply;
    char why[512];
    int status = githoppu_store_open(path, &options, &s), place;
    githoppu_store_why(s, why, sizeof why);
    if (status != GITHOPPU_DONE) {
        if (strstr(why, path) == NULL || (status != GITHOPPU_STORE_DAMAGED && status != GITHOPPU_STORE_FORMAT && status != GITHOPPU_STORE_OTHER)) {
            fprintf(stderr, "damage_tests: %s %ld: %d %s\n", what, which, status, why);
            exit(1);
        }
        refused++;
        CHECK(githoppu_store_close(s) == GITHOPPU_DONE);
        return;
    }
    place = (int)githoppu_store_place(s);
    if (place < least || place > UPDATES || print_of(s) != prints[place]) {
        fprintf(stderr, "damage_tests: %s %ld: a store at place %d that never was, or one that is too old\n", what, which, place);
        exit(1);
    }
    same += place == UPDATES;
    older += place != UPDATES;
    /* and it goes on */
    CHECK(githoppu_store_add(s, 0, "sold", 1, &reply) == GITHOPPU_DONE);
    CHECK(githoppu_store_close(s) == GITHOPPU_DONE);
}

static void begin(void) { refused = same = older = 0; }

static void say(const char *what) { printf("%s: refused %d, as it was %d, older %d\n", what, refused, same, older); }

static void changed_bytes(size_t step) {
    size_t at;
    begin();
    for (at = 0; at < file_length; at += step) {
        unlink(wal);
        file_bytes[at] ^= (unsigned char)(1 << at % 8);
        put_bytes(path, file_bytes, file_length);
        file_bytes[at] ^= (unsigned char)(1 << at % 8);
        try_it("the byte", (long)at, UPDATES);
    }
    say("a byte of the file");
    CHECK(older == 0 && refused > same);
}

/* Each page is zeros, or another page's bytes; and the file ends before it. */
static void changed_pages(void) {
    unsigned char *bytes = (unsigned char *)malloc(file_length);
    size_t pages = file_length / PAGE, page, other;
    CHECK(bytes != NULL);
    begin();
    for (page = 0; page < pages; page++)
        for (other = 0; other < 3; other++) {
            memcpy(bytes, file_bytes, file_length);
            if (other == 0)
                memset(bytes + page * PAGE, 0, PAGE);
            else
                memcpy(bytes + page * PAGE, file_bytes + (page + (other == 1 ? 1 : pages - 1)) % pages * PAGE, PAGE);
            unlink(wal);
            put_bytes(path, bytes, file_length);
            try_it("the page", (long)page, UPDATES);
        }
    for (page = 1; page < pages; page++) {
        unlink(wal);
        put_bytes(path, file_bytes, page * PAGE);
        try_it("cut before the page", (long)page, UPDATES);
    }
    say("a page of the file");
    CHECK(older == 0 && refused > same);
    free(bytes);
}

static void changed_wal(size_t step) {
    size_t at;
    begin();
    for (at = 0; at < wal_length; at += step) {
        wal_bytes[at] ^= (unsigned char)(1 << at % 8);
        put_bytes(wal, wal_bytes, wal_length);
        wal_bytes[at] ^= (unsigned char)(1 << at % 8);
        put_bytes(path, file_bytes, file_length);
        try_it("the byte of SQLite's log", (long)at, FIRST);
    }
    for (at = 0; at < wal_length; at += 20 * step) {
        put_bytes(wal, wal_bytes, at);
        put_bytes(path, file_bytes, file_length);
        try_it("SQLite's log cut at", (long)at, FIRST);
    }
    say("a byte of SQLite's log");
}

static void take_bytes(void) {
    CHECK(githoppu_read_bytes(path, &file_bytes, &file_length) == GITHOPPU_DONE);
    if (githoppu_read_bytes(wal, &wal_bytes, &wal_length) != GITHOPPU_DONE)
        wal_length = 0;
}

/* Makes the store: its first updates are in the file when SQLite's log begins. */
static void make(int closes) {
    githoppu_store_options options = small();
    githoppu_store *s;
    int nth;
    CHECK(githoppu_store_open(path, &options, &s) == GITHOPPU_DONE);
    prints[0] = print_of(s);
    for (nth = 1; nth <= UPDATES; nth++) {
        update(s, nth);
        prints[nth] = print_of(s);
        if (nth == 20)
            CHECK(githoppu_store_checkpoint(s) == GITHOPPU_DONE);
        if (nth == FIRST) {
            CHECK(githoppu_store_close(s) == GITHOPPU_DONE);
            CHECK(githoppu_store_open(path, &options, &s) == GITHOPPU_DONE);
        }
    }
    if (closes)
        CHECK(githoppu_store_close(s) == GITHOPPU_DONE);
    else
        _exit(0); /* as SIGKILL leaves it */
}

int main(int count, char **words) {
    size_t step = count > 2 ? strtoul(words[2], NULL, 10) : 211;
    char whole[PATH_MAX];
    int status;
    pid_t child;
    CHECK((count == 2 || count == 3) && strlen(words[1]) < 900 && step > 0);
    new_folder(words[1]);
    CHECK(realpath(words[1], whole) != NULL && strlen(whole) < 900); /* as SQLite says it */
    snprintf(path, sizeof path, "%s/store", whole);
    snprintf(wal, sizeof wal, "%s-wal", path);
    lossy_begin(whole, 1);
    make(1);
    take_bytes();
    changed_bytes(step);
    changed_pages();
    free(file_bytes);
    remove_folder(words[1]);
    CHECK(mkdir(words[1], 0777) == 0);
    fflush(stdout);
    child = fork();
    CHECK(child >= 0);
    if (child == 0)
        make(0);
    CHECK(waitpid(child, &status, 0) == child && status == 0);
    take_bytes();
    changed_wal(4 * step);
    free(file_bytes);
    free(wal_bytes);
    remove_folder(words[1]);
    return 0;
}
