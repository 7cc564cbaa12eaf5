/* A store on a disk: githoppu_store.h says what it is. Four parts: words as bytes; the database (SQLite's part: what is in the file, and which failure is
 * which); the store in RAM; the queue of updates and its leader. */
#ifndef _POSIX_C_SOURCE
#define _POSIX_C_SOURCE 200809L
#endif
/* An update that is in the log has to be done: a reader that is not scheduled is waited for this long. */
#define GITHOPPU_PATIENCE_MS 60000
#define GITHOPPU_ROUNDS 1073741824
#include "githoppu_store.h"
#include "githoppu_file.h"
#include <pthread.h>
#include <sqlite3.h>
#include <stdarg.h>
#include <stdatomic.h>
#include <time.h>

enum {
    CLIENTS = GITHOPPU_STORE_CLIENTS,
    MOST_READERS = 7,
    WORDS_BYTES = 1728,    /* the most that packed writes: a zero between any two bytes costs two */
    WHY = 512,
    SUBMITTED = 1024,      /* with this number in the queue a submit waits for its own update */
    WAL_PAGES = 1000,      /* SQLite's own log goes into the file when it has this number of pages */
    FORMAT = 1,
    APPLICATION = 0x47697468 /* "Gith", in the head of the file */
};
#define LAST_PLACE (UINT64_C(1) << 40) /* a store has no more updates */

#ifdef __APPLE__
#define GATHER_CLOCK CLOCK_REALTIME /* its conditions know no other */
#else
#define GATHER_CLOCK CLOCK_MONOTONIC
#endif

/* Word 0 of operations of documents and of a queue, as githoppu.h's functions write them. */
enum { PUT = 1, DEL = 2, ADD = 3, GET = 4, NEXT = 5, COUNT = 6, PUTIF = 7, REV = 8 };
enum { PUSH = 1, POP = 2, PEEK = 3, LEN = 4 };

/* ---- Words as bytes. ---- */

/* An operation or a reply in few bytes: the bytes of its words, each word's lowest first, where a run of 1 to 255 zeros is a 0 and its length, and
 * the zeros at the end are left out. */
static size_t packed(const githoppu_words *words, unsigned char into[WORDS_BYTES]) {
    size_t length = 0, zeros = 0, i;
    for (i = 0; i < 8 * 144; i++) {
        unsigned char byte = (unsigned char)(words->word[i / 8] >> (8 * (i % 8)));
        if (i % 8 == 0 && words->word[i / 8] == 0) {
            zeros += 8;
            i += 7;
        } else if (byte == 0) {
            zeros++;
        } else {
            for (; zeros > 0; zeros -= into[length++]) {
                into[length++] = 0;
                into[length] = zeros < 255 ? (unsigned char)zeros : 255;
            }
            into[length++] = byte;
        }
    }
    return length;
}

/* The words that packed made bytes of; 0 where it did not make these. */
static int unpacked(githoppu_words *words, const unsigned char *bytes, size_t length) {
    size_t at = 0, i;
    memset(words, 0, sizeof *words);
    for (i = 0; i < length; i++) {
        if (bytes[i] == 0) {
            if (++i == length)
                return 0;
            at += bytes[i];
        } else if (at >= 8 * 144) {
            return 0;
        } else {
            words->word[at / 8] |= (uint64_t)bytes[i] << (8 * (at % 8));
            at++;
        }
    }
    return 1;
}

/* CRC-32C of two numbers and bytes. */
static int64_t checksum(githoppu_crc *crc, uint64_t first, uint64_t second, const unsigned char *bytes, size_t length) {
    unsigned char head[16];
    githoppu_put_word(head, first);
    githoppu_put_word(head + 8, second);
    crc->state = UINT32_C(0xFFFFFFFF);
    githoppu_crc_add(crc, head, sizeof head);
    githoppu_crc_add(crc, bytes, length);
    return (int64_t)githoppu_crc_value(crc);
}

/* ---- The database. One thread at a time uses it: who opens or closes the store, and else the leader. ---- */

enum statement { BEGIN, COMMIT, ROLLBACK, LOG, LOGGED, KEEP, CLEAR, PUT_BACK, FORGET, NO_IMAGE, IMAGE, OUTCOME, STATEMENTS };

static const char *const sql[STATEMENTS] = {
    "BEGIN IMMEDIATE",
    "COMMIT",
    "ROLLBACK",
    "INSERT INTO log VALUES(?,?,?,?)",
    "UPDATE meta SET logged=?, crc=?",
    "INSERT INTO temp.kept SELECT * FROM main.log WHERE place>=?",
    "DELETE FROM main.log", /* without WHERE it goes by pages and not by rows */
    "INSERT INTO main.log SELECT * FROM temp.kept",
    "DELETE FROM temp.kept",
    "DELETE FROM checkpoint",
    "INSERT INTO checkpoint VALUES(?,?,?)",
    "REPLACE INTO outcome VALUES(?,?,?,?)"};

struct database {
    sqlite3 *handle;
    sqlite3_stmt *statements[STATEMENTS];
    githoppu_crc crc;
    uint64_t object, lines;
    int pages; /* of SQLite's own log, after the last commit */
    char why[WHY];
};

/* When SQLite failed: an update whose COMMIT failed may be in the file, and one that failed before is not. */
enum moment { OPENING, WRITING, COMMITTING };

static const char *path_of(struct database *db) {
    const char *path = db->handle == NULL ? NULL : sqlite3_db_filename(db->handle, "main");
    return path == NULL ? "" : path;
}

/* Keeps a line that says what is wrong. */
static int because(struct database *db, int status, const char *form, ...) {
    va_list more;
    va_start(more, form);
    vsnprintf(db->why, sizeof db->why, form, more);
    va_end(more);
    return status;
}

/* The same where a call of the system failed. */
static int system_fault(struct database *db, int status, const char *call, const char *path) {
    return because(db, status, "%s of %s: %s (errno %d)", call, path, strerror(errno), errno);
}

static int status_of(int code, int error, enum moment moment) {
    int here = moment == OPENING ? GITHOPPU_STORE_NOT_OPENED : moment == WRITING ? GITHOPPU_STORE_NOT_WRITTEN : GITHOPPU_STORE_FAILED;
    /* the last page of a COMMIT is the one that counts, and it was not written where the disk or a quota is full */
    int full = moment == OPENING ? GITHOPPU_STORE_NOT_OPENED : GITHOPPU_STORE_NOT_WRITTEN;
    switch (code & 255) {
    case SQLITE_FULL: return full;
    case SQLITE_CANTOPEN:
    case SQLITE_PERM:
    case SQLITE_AUTH:
    case SQLITE_READONLY: return here;
    case SQLITE_NOMEM: return moment == COMMITTING ? GITHOPPU_STORE_FAILED : GITHOPPU_NO_MEMORY;
    case SQLITE_CORRUPT: return GITHOPPU_STORE_DAMAGED;
    case SQLITE_NOTADB: return moment == OPENING ? GITHOPPU_STORE_FORMAT : GITHOPPU_STORE_DAMAGED;
    case SQLITE_BUSY:
    case SQLITE_LOCKED: return moment == OPENING ? GITHOPPU_STORE_BUSY : GITHOPPU_STORE_FAILED;
    case SQLITE_IOERR:
        if (code == SQLITE_IOERR_WRITE && error == EDQUOT)
            return full;
        return moment == OPENING ? GITHOPPU_STORE_NOT_OPENED : GITHOPPU_STORE_FAILED;
    default: return moment == OPENING ? GITHOPPU_STORE_DAMAGED : GITHOPPU_STORE_FAILED; /* tables that are not ours any more, say */
    }
}

/* The system's error behind SQLite's last one, or 0. Of a COMMIT the files alone know it. */
static int system_error(struct database *db, int code) {
    sqlite3_file *wal = NULL;
    int error = sqlite3_system_errno(db->handle);
    if (error != 0 || (code & 255) != SQLITE_IOERR)
        return error;
    if (sqlite3_file_control(db->handle, "main", SQLITE_FCNTL_JOURNAL_POINTER, &wal) == SQLITE_OK && wal != NULL && wal->pMethods != NULL)
        (void)wal->pMethods->xFileControl(wal, SQLITE_FCNTL_LAST_ERRNO, &error);
    if (error == 0)
        (void)sqlite3_file_control(db->handle, "main", SQLITE_FCNTL_LAST_ERRNO, &error);
    return error;
}

/* What SQLite's last error is to a caller, with a line that says it. */
static int fault(struct database *db, enum moment moment, const char *call) {
    int code = sqlite3_extended_errcode(db->handle), error = system_error(db, code);
    int status = status_of(code, error, moment);
    if (error == 0)
        return because(db, status, "%s in %s: %s (SQLite %d)", call, path_of(db), sqlite3_errmsg(db->handle), code);
    return because(db, status, "%s in %s: %s (SQLite %d); %s (errno %d)", call, path_of(db), sqlite3_errmsg(db->handle), code, strerror(error), error);
}

static int run(struct database *db, const char *call, const char *text) {
    return sqlite3_exec(db->handle, text, NULL, NULL, NULL) == SQLITE_OK ? GITHOPPU_DONE : fault(db, OPENING, call);
}

static int step(struct database *db, enum statement which) {
    int status = GITHOPPU_DONE;
    if (sqlite3_step(db->statements[which]) != SQLITE_DONE)
        status = fault(db, which == COMMIT ? COMMITTING : WRITING, sql[which]);
    sqlite3_reset(db->statements[which]);
    return status;
}

/* Whether all values were bound: sum adds up what sqlite3_bind_.. answered. */
static int bound(struct database *db, enum statement which, int sum) { return sum == SQLITE_OK ? GITHOPPU_DONE : fault(db, WRITING, sql[which]); }

/* Ends a transaction: commits it where all went well, and else takes it back. */
static int end(struct database *db, int status) {
    if (status == GITHOPPU_DONE)
        status = step(db, COMMIT);
    if (status != GITHOPPU_DONE && !sqlite3_get_autocommit(db->handle)) {
        sqlite3_step(db->statements[ROLLBACK]);
        sqlite3_reset(db->statements[ROLLBACK]);
        if (!sqlite3_get_autocommit(db->handle))
            status = GITHOPPU_STORE_FAILED;
    }
    return status;
}

static int64_t checksum_of_meta(struct database *db, uint64_t logged) {
    unsigned char rest[16];
    githoppu_put_word(rest, FORMAT);
    githoppu_put_word(rest + 8, logged);
    return checksum(&db->crc, db->object, db->lines, rest, sizeof rest);
}

/* Writes down up to where the log goes, within a transaction. A page that is lost with the last rows is found by it. */
static int write_logged(struct database *db, uint64_t logged) {
    sqlite3_stmt *meta = db->statements[LOGGED];
    int sum = sqlite3_bind_int64(meta, 1, (int64_t)logged) | sqlite3_bind_int64(meta, 2, checksum_of_meta(db, logged));
    int status = bound(db, LOGGED, sum);
    return status == GITHOPPU_DONE ? step(db, LOGGED) : status;
}

static int write_row(struct database *db, uint64_t place, unsigned client, const unsigned char *bytes, size_t length) {
    sqlite3_stmt *log = db->statements[LOG];
    int sum = sqlite3_bind_int64(log, 1, (int64_t)place) | sqlite3_bind_int64(log, 2, client) |
              sqlite3_bind_blob(log, 3, length == 0 ? (const void *)"" : bytes, (int)length, SQLITE_STATIC) |
              sqlite3_bind_int64(log, 4, checksum(&db->crc, place, client, bytes, length));
    int status = bound(db, LOG, sum);
    return status == GITHOPPU_DONE ? step(db, LOG) : status;
}

static int write_outcome(struct database *db, unsigned client, uint64_t number, const githoppu_words *reply) {
    sqlite3_stmt *outcome = db->statements[OUTCOME];
    unsigned char bytes[WORDS_BYTES];
    size_t length = packed(reply, bytes);
    int sum = sqlite3_bind_int64(outcome, 1, client) | sqlite3_bind_int64(outcome, 2, (int64_t)number) |
              sqlite3_bind_blob(outcome, 3, length == 0 ? (const void *)"" : bytes, (int)length, SQLITE_STATIC) |
              sqlite3_bind_int64(outcome, 4, checksum(&db->crc, client, number, bytes, length));
    int status = bound(db, OUTCOME, sum);
    return status == GITHOPPU_DONE ? step(db, OUTCOME) : status;
}

/* An image, taken at a place, and the outcomes at that place. */
struct image {
    uint64_t place;
    unsigned char *bytes;
    size_t length;
    int64_t crc;
    uint64_t number[CLIENTS];
    githoppu_words reply[CLIENTS];
};

/* Writes an image in place of the one that is there, within a transaction. */
static int write_image(struct database *db, const struct image *image) {
    sqlite3_stmt *insert = db->statements[IMAGE];
    unsigned client;
    int status = step(db, NO_IMAGE);
    if (status == GITHOPPU_DONE)
        status = bound(db, IMAGE,
                       sqlite3_bind_int64(insert, 1, (int64_t)image->place) | sqlite3_bind_int64(insert, 3, image->crc) |
                           sqlite3_bind_blob64(insert, 2, image->bytes, image->length, SQLITE_STATIC));
    if (status == GITHOPPU_DONE)
        status = step(db, IMAGE);
    for (client = 0; client < CLIENTS && status == GITHOPPU_DONE; client++)
        if (image->number[client] > 0)
            status = write_outcome(db, client, image->number[client], &image->reply[client]);
    return status;
}

/* One transaction: an image, and the rows below its place are gone. The few rows above it are set aside meanwhile, so that the others go by pages. */
static int save_image(struct database *db, const struct image *image, uint64_t logged) {
    enum statement rows[] = {KEEP, CLEAR, PUT_BACK, FORGET};
    int i, status = step(db, BEGIN);
    if (status == GITHOPPU_DONE)
        status = bound(db, KEEP, sqlite3_bind_int64(db->statements[KEEP], 1, (int64_t)image->place));
    for (i = 0; i < 4 && status == GITHOPPU_DONE; i++)
        status = step(db, rows[i]);
    if (status == GITHOPPU_DONE)
        status = write_image(db, image);
    if (status == GITHOPPU_DONE)
        status = write_logged(db, logged);
    return end(db, status);
}

/* Writes SQLite's own log into the file, and syncs both. */
static int empty_wal(struct database *db, int how, enum moment moment) {
    int pages = 0, moved = 0;
    if (sqlite3_wal_checkpoint_v2(db->handle, "main", how, &pages, &moved) != SQLITE_OK) {
        int status = fault(db, moment, "a checkpoint of the write-ahead log");
        return status == GITHOPPU_NO_MEMORY ? GITHOPPU_STORE_NOT_WRITTEN : status;
    }
    if (pages != moved)
        return because(db, GITHOPPU_STORE_FAILED, "a checkpoint of the write-ahead log in %s: %d of %d pages were moved", path_of(db), moved, pages);
    db->pages = 0;
    return GITHOPPU_DONE;
}

static int count_pages(void *at, sqlite3 *handle, const char *name, int pages) {
    (void)handle;
    if (strcmp(name, "main") == 0)
        ((struct database *)at)->pages = pages;
    return SQLITE_OK;
}

/* Takes the first number of a query, or 0 where it has no row. */
static int ask_number(struct database *db, const char *query, int64_t *number) {
    sqlite3_stmt *asked;
    int row;
    *number = 0;
    if (sqlite3_prepare_v2(db->handle, query, -1, &asked, NULL) != SQLITE_OK)
        return fault(db, OPENING, query);
    row = sqlite3_step(asked);
    if (row == SQLITE_ROW)
        *number = sqlite3_column_int64(asked, 0);
    row = row == SQLITE_ROW || row == SQLITE_DONE ? GITHOPPU_DONE : fault(db, OPENING, query);
    sqlite3_finalize(asked);
    return row;
}

/* Looks at what the file is, before anything in it is changed: *fresh where it has nothing yet. */
static int identify(struct database *db, int *fresh) {
    int64_t application = 0, version = 0, tables = 0;
    int status = run(db, "BEGIN EXCLUSIVE", "BEGIN EXCLUSIVE");
    if (status == GITHOPPU_DONE)
        status = ask_number(db, "PRAGMA application_id", &application);
    if (status == GITHOPPU_DONE)
        status = ask_number(db, "PRAGMA user_version", &version);
    if (status == GITHOPPU_DONE)
        status = ask_number(db, "SELECT count(*) FROM sqlite_master", &tables);
    if (status == GITHOPPU_DONE)
        status = run(db, "COMMIT", "COMMIT");
    *fresh = application == 0 && version == 0 && tables == 0;
    if (status != GITHOPPU_DONE || *fresh)
        return status;
    if (application != APPLICATION)
        return because(db, GITHOPPU_STORE_FORMAT, "%s is a database of another program", path_of(db));
    if (version != FORMAT)
        return because(db, GITHOPPU_STORE_FORMAT, "%s has the format %lld, and this library knows %d", path_of(db), (long long)version, FORMAT);
    return GITHOPPU_DONE;
}

/* Writes the bytes of SQLite's own log once more, and syncs them. After a sync that failed, the system may show bytes that are not on the disk and that no
 * later sync writes; what is done from here on must not rest on them. */
static int rewrite_wal(struct database *db) {
    const char *path = sqlite3_filename_wal(path_of(db));
    char bytes[32768];
    off_t at = 0;
    ssize_t some = 1;
    int failed, file = open(path, O_RDWR | O_CLOEXEC);
    if (file < 0)
        return errno == ENOENT ? GITHOPPU_DONE : system_fault(db, GITHOPPU_STORE_NOT_OPENED, "open", path);
    while ((some = pread(file, bytes, sizeof bytes, at)) > 0 && pwrite(file, bytes, (size_t)some, at) == some)
        at += some;
    failed = some != 0 || fsync(file) != 0;
    if (failed)
        system_fault(db, GITHOPPU_STORE_NOT_OPENED, "write and fsync", path);
    close(file);
    return failed ? GITHOPPU_STORE_NOT_OPENED : GITHOPPU_DONE;
}

static int use_wal(struct database *db) {
    static const char query[] = "PRAGMA journal_mode=WAL";
    sqlite3_stmt *asked;
    const unsigned char *mode;
    int status = GITHOPPU_DONE;
    if (sqlite3_prepare_v2(db->handle, query, -1, &asked, NULL) != SQLITE_OK)
        return fault(db, OPENING, query);
    if (sqlite3_step(asked) != SQLITE_ROW)
        status = fault(db, OPENING, query);
    else if ((mode = sqlite3_column_text(asked, 0)) == NULL || strcmp((const char *)mode, "wal") != 0)
        status = because(db, GITHOPPU_STORE_NOT_OPENED, "%s in %s: it takes no write-ahead log", query, path_of(db));
    sqlite3_finalize(asked);
    return status;
}

static int prepare(struct database *db) {
    int i, status = run(db, "CREATE TEMP TABLE", "CREATE TEMP TABLE kept(place INTEGER PRIMARY KEY, client INTEGER, operation BLOB, crc INTEGER)");
    for (i = 0; i < STATEMENTS && status == GITHOPPU_DONE; i++)
        if (sqlite3_prepare_v3(db->handle, sql[i], -1, SQLITE_PREPARE_PERSISTENT, &db->statements[i], NULL) != SQLITE_OK)
            status = fault(db, OPENING, sql[i]);
    return status;
}

static int is_saved(const char *path) {
    uint64_t *words;
    size_t count;
    int status = githoppu_load_words(path, &words, &count);
    free(words);
    return status == GITHOPPU_DONE;
}

/* Opens and locks the file. Nothing of it is changed before it is known to be ours. */
static int open_database(struct database *db, const char *path, int existing, int *fresh) {
    int status, flags = SQLITE_OPEN_READWRITE | SQLITE_OPEN_NOMUTEX | (existing ? 0 : SQLITE_OPEN_CREATE);
    githoppu_crc_start(&db->crc);
    if (!sqlite3_threadsafe())
        return because(db, GITHOPPU_STORE_NOT_OPENED, "open of %s: this SQLite was built for one thread alone", path);
    if (sqlite3_open_v2(path, &db->handle, flags, NULL) != SQLITE_OK) {
        if (db->handle == NULL)
            return GITHOPPU_NO_MEMORY;
        status = fault(db, OPENING, "open");
        return path_of(db)[0] == 0 ? because(db, status, "open of %s: %s (SQLite %d)", path, sqlite3_errmsg(db->handle), sqlite3_errcode(db->handle)) : status;
    }
    if (path_of(db)[0] == 0)
        return because(db, GITHOPPU_STORE_NOT_OPENED, "open of \"%s\": this names no file", path);
    status = run(db, "open",
                 "PRAGMA locking_mode=EXCLUSIVE; PRAGMA trusted_schema=OFF; PRAGMA cell_size_check=ON; PRAGMA secure_delete=OFF;"
                 "PRAGMA temp_store=MEMORY; PRAGMA fullfsync=ON; PRAGMA checkpoint_fullfsync=ON; PRAGMA synchronous=FULL");
    if (status == GITHOPPU_DONE)
        status = identify(db, fresh);
    if (status == GITHOPPU_STORE_FORMAT && is_saved(path))
        because(db, status, "%s is a file of githoppu_save: open a new store with options.saved", path_of(db));
    if (status == GITHOPPU_DONE && *fresh && existing)
        status = because(db, GITHOPPU_STORE_NOT_OPENED, "open of %s: it is empty, and a store is to be there", path);
    if (status == GITHOPPU_DONE)
        status = use_wal(db);
    if (status == GITHOPPU_DONE)
        sqlite3_wal_hook(db->handle, count_pages, db); /* in place of SQLite's own checkpoints, whose failures nobody is told */
    if (status == GITHOPPU_DONE)
        status = rewrite_wal(db);
    if (status == GITHOPPU_DONE)
        status = empty_wal(db, SQLITE_CHECKPOINT_TRUNCATE, OPENING);
    return status;
}

/* Makes the tables of a new store in one transaction, with the image that it begins with, or none. */
static int create(struct database *db, const struct image *image, uint64_t logged) {
    char meta[256];
    int status = run(db, "CREATE TABLE",
                     "BEGIN IMMEDIATE;"
                     "CREATE TABLE meta(format INTEGER, object INTEGER, lines INTEGER, logged INTEGER, crc INTEGER);"
                     "CREATE TABLE log(place INTEGER PRIMARY KEY, client INTEGER, operation BLOB, crc INTEGER);"
                     "CREATE TABLE checkpoint(place INTEGER PRIMARY KEY, image BLOB, crc INTEGER);"
                     "CREATE TABLE outcome(client INTEGER PRIMARY KEY, number INTEGER, reply BLOB, crc INTEGER)");
    snprintf(meta, sizeof meta, "INSERT INTO meta VALUES(%d, %lld, %lld, %lld, %lld); PRAGMA application_id=%d; PRAGMA user_version=%d", FORMAT,
             (long long)db->object, (long long)db->lines, (long long)logged, (long long)checksum_of_meta(db, logged), APPLICATION, FORMAT);
    if (status == GITHOPPU_DONE)
        status = run(db, "CREATE TABLE", meta);
    if (status == GITHOPPU_DONE)
        status = prepare(db);
    if (status == GITHOPPU_DONE && image != NULL)
        status = write_image(db, image);
    /* SQLite syncs the folder with the first sync of its log */
    return status == GITHOPPU_DONE ? run(db, "COMMIT", "COMMIT") : status;
}

/* Syncs the folder of a path, so that a name in it is not lost: 0, or -1 with errno. */
static int sync_folder(const char *path) {
    const char *slash = strrchr(path, '/');
    size_t length = slash == NULL ? 0 : (size_t)(slash - path) + 1;
    char *folder = (char *)malloc(length + 2);
    int file, failed, why;
    if (folder == NULL) {
        errno = ENOMEM;
        return -1;
    }
    memcpy(folder, path, length);
    memcpy(folder + length, ".", 2);
    file = open(folder, O_RDONLY | O_CLOEXEC);
    why = errno;
    free(folder);
    if (file < 0) {
        errno = why;
        return -1;
    }
    failed = fsync(file);
    why = errno;
    close(file);
    errno = why;
    return failed;
}

/* Whether nothing of a database is at a path. A log of SQLite's that was left there would be taken for the copy's. */
static int is_free(struct database *db, const char *path, char *name) {
    static const char *const ends[] = {"", "-wal", "-journal"};
    int i;
    for (i = 0; i < 3; i++) {
        sprintf(name, "%s%s", path, ends[i]);
        if (access(name, F_OK) == 0) {
            errno = EEXIST;
            return system_fault(db, GITHOPPU_STORE_NOT_WRITTEN, "a copy to", name);
        }
    }
    return GITHOPPU_DONE;
}

/* A copy at a path where nothing is yet: whole, or not at all. */
static int copy_database(struct database *db, const char *path) {
    char *name = (char *)malloc(strlen(path) + 32);
    sqlite3_stmt *vacuum = NULL;
    int file = -1, status;
    if (name == NULL)
        return GITHOPPU_NO_MEMORY;
    status = is_free(db, path, name);
    if (status != GITHOPPU_DONE) {
        free(name);
        return status;
    }
    sprintf(name, "%s.%ld.new", path, (long)getpid());
    unlink(name); /* left by an earlier process of this number */
    if (sqlite3_prepare_v2(db->handle, "VACUUM INTO ?", -1, &vacuum, NULL) != SQLITE_OK || sqlite3_bind_text(vacuum, 1, name, -1, SQLITE_STATIC) != SQLITE_OK ||
        sqlite3_step(vacuum) != SQLITE_DONE)
        status = fault(db, WRITING, "VACUUM INTO");
    sqlite3_finalize(vacuum);
    /* a failure there is none of the store */
    if (status == GITHOPPU_STORE_FAILED)
        status = GITHOPPU_STORE_NOT_WRITTEN;
    if (status == GITHOPPU_DONE && ((file = open(name, O_RDWR | O_CLOEXEC)) < 0 || fsync(file) != 0))
        status = system_fault(db, GITHOPPU_STORE_NOT_WRITTEN, "fsync", name);
    if (file >= 0)
        close(file);
    if (status == GITHOPPU_DONE && link(name, path) != 0)
        status = system_fault(db, GITHOPPU_STORE_NOT_WRITTEN, "link", path);
    unlink(name);
    if (status == GITHOPPU_DONE && sync_folder(path) != 0) {
        status = system_fault(db, GITHOPPU_STORE_NOT_WRITTEN, "fsync of the folder", path);
        unlink(path);
    }
    free(name);
    return status;
}

static void close_database(struct database *db, int failed) {
    int i;
    for (i = 0; i < STATEMENTS; i++)
        sqlite3_finalize(db->statements[i]);
    /* what a failing disk has is left as it is, for the next opening */
    if (failed && db->handle != NULL)
        sqlite3_db_config(db->handle, SQLITE_DBCONFIG_NO_CKPT_ON_CLOSE, 1, (int *)NULL);
    sqlite3_close(db->handle);
}

/* ---- The store in RAM. ---- */

/* An update in the queue, or a barrier, which writes nothing and is answered with the batch that it is in. */
enum barrier { NO_BARRIER, SYNCS, CLOSES };

struct request {
    struct request *next;
    enum barrier barrier;
    unsigned client;
    int status, taken, done, waited_for; /* waited_for: a thread sleeps on woken, or is about to */
    pthread_cond_t woken;
    const githoppu_words *op;
    githoppu_words *reply;
    size_t length; /* of the operation's bytes */
    unsigned char bytes[WORDS_BYTES];
};

struct githoppu_store_update {
    struct request request;
    githoppu_words op, reply;
};

/* A session for reads; each is alone in its lines of the cache. */
struct reader {
    pthread_mutex_t lock;
    githoppu_session *session;
    char apart[128];
};

struct githoppu_store {
    int opened;    /* what the opening answered */
    pid_t process; /* that opened it */
    githoppu_store_object object;
    unsigned readers, gather_us;
    uint64_t checkpoint_every;
    int sync;

    struct database db; /* the leader's */
    uint64_t logged;    /* the place of the next row; the leader's */

    pthread_mutex_t doing; /* who does a batch in RAM. It is taken before the lead is given up, so batches are done in the log's order */
    githoppu_session *writer;
    _Atomic uint64_t done; /* the store's place; written under doing, as are: */
    int behind;            /* an update that is in the log is not done */
    uint64_t number[CLIENTS];
    githoppu_words reply[CLIENTS];

    struct reader reader[MOST_READERS];

    pthread_mutex_t lock; /* of all that follows */
    pthread_cond_t lead_is_free, all_are_back;
    struct request *first, **last;
    size_t queued;
    int leading, gathering, failed;
    unsigned asking;               /* how many wait for the lead without an update */
    uint64_t batch, in_batch[CLIENTS]; /* the number of the last batch, and of each client's last one, 0 when it is back */
    unsigned away;                 /* how many clients of the last batch are not back */
    char why[WHY];

    pthread_mutex_t saving; /* who makes a checkpoint */
    _Atomic uint64_t next_checkpoint;
};

/* The place of a session's store: by halves, since a session tells only whether its store's place is below another. */
static uint64_t current_place(githoppu_session **session) {
    uint64_t reached = 0, beyond = 2 * LAST_PLACE;
    while (beyond - reached > 1) {
        uint64_t middle = reached + (beyond - reached) / 2;
        if (githoppu_catch_up(session, middle) == GITHOPPU_DONE)
            reached = middle;
        else
            beyond = middle;
    }
    return reached;
}

/* Opens the sessions: of the image that a file has, or of an empty object where there are no words. */
static int open_sessions(githoppu_store *s, const uint64_t *words, size_t count, const char *file) {
    githoppu_session *sessions[1 + MOST_READERS];
    unsigned i;
    int status = words == NULL ? s->object.open(s->object.context, s->db.lines, sessions, 1 + s->readers)
                               : s->object.recover(s->object.context, words, count, sessions, 1 + s->readers);
    if (status != GITHOPPU_DONE)
        return because(&s->db, status, "%s in %s: %s", words == NULL ? "an empty store" : "the image", file, githoppu_store_text(status));
    s->writer = sessions[0];
    for (i = 0; i < s->readers; i++)
        s->reader[i].session = sessions[1 + i];
    s->logged = current_place(&s->writer);
    atomic_store(&s->done, s->logged);
    return GITHOPPU_DONE;
}

/* Does the update of the row of a place. It has to have that place in the store too. */
static int apply(githoppu_store *s, uint64_t place, unsigned client, const githoppu_words *op, githoppu_words *reply) {
    int status = GITHOPPU_STORE_FAILED;
    if (s->behind)
        return GITHOPPU_STORE_FAILED;
    if (place == atomic_load(&s->done))
        status = githoppu_do(&s->writer, op, reply);
    if ((status != GITHOPPU_DONE && status != GITHOPPU_MALFORMED) || githoppu_place(&s->writer) != place + 1) {
        s->behind = 1;
        return GITHOPPU_STORE_FAILED;
    }
    atomic_store(&s->done, place + 1);
    s->number[client]++;
    s->reply[client] = *reply;
    return status;
}

/* ---- What is in the file is taken, row by row. ---- */

static int damaged(struct database *db, const char *what, long long which, const char *how) {
    return because(db, GITHOPPU_STORE_DAMAGED, "%s %lld in %s: %s", what, which, path_of(db), how);
}

static int take_meta(githoppu_store *s, sqlite3_stmt *row) {
    struct database *db = &s->db;
    int64_t format = sqlite3_column_int64(row, 0);
    uint64_t lines = db->lines;
    if (db->object != 0)
        return damaged(db, "the row of meta", 2, "there is one row too many");
    db->object = (uint64_t)sqlite3_column_int64(row, 1);
    db->lines = (uint64_t)sqlite3_column_int64(row, 2);
    s->logged = (uint64_t)sqlite3_column_int64(row, 3);
    if (sqlite3_column_int64(row, 4) != checksum_of_meta(db, s->logged) || format != FORMAT)
        return damaged(db, "the row of meta", 1, "it has another checksum");
    if (db->object != s->object.number)
        return because(db, GITHOPPU_STORE_OTHER, "%s has the object %llu, and %llu is asked for", path_of(db), (unsigned long long)db->object,
                       (unsigned long long)s->object.number);
    if (lines != 0 && lines != db->lines)
        return because(db, GITHOPPU_STORE_OTHER, "%s has %llu lines, and %llu are asked for", path_of(db), (unsigned long long)db->lines,
                       (unsigned long long)lines);
    return GITHOPPU_DONE;
}

static int take_image(githoppu_store *s, sqlite3_stmt *row) {
    struct database *db = &s->db;
    uint64_t place = (uint64_t)sqlite3_column_int64(row, 0), *words;
    const unsigned char *bytes = (const unsigned char *)sqlite3_column_blob(row, 1);
    size_t i, length = (size_t)sqlite3_column_bytes(row, 1);
    int status;
    if (s->writer != NULL)
        return damaged(db, "the image of place", (long long)place, "it is one too many");
    if (bytes == NULL || length % 8 != 0 || sqlite3_column_int64(row, 2) != checksum(&db->crc, place, length, bytes, length))
        return damaged(db, "the image of place", (long long)place, "it has another checksum");
    words = (uint64_t *)malloc(length);
    if (words == NULL)
        return GITHOPPU_NO_MEMORY;
    for (i = 0; i < length / 8; i++)
        words[i] = githoppu_word_at(bytes + 8 * i);
    status = open_sessions(s, words, length / 8, path_of(db));
    free(words);
    if (status == GITHOPPU_DONE && s->logged != place)
        return damaged(db, "the image of place", (long long)place, "it is of another place");
    return status;
}

static int take_outcome(githoppu_store *s, sqlite3_stmt *row) {
    int64_t client = sqlite3_column_int64(row, 0);
    uint64_t number = (uint64_t)sqlite3_column_int64(row, 1);
    const unsigned char *bytes = (const unsigned char *)sqlite3_column_blob(row, 2);
    size_t length = (size_t)sqlite3_column_bytes(row, 2);
    if (sqlite3_column_int64(row, 3) != checksum(&s->db.crc, (uint64_t)client, number, bytes, bytes == NULL ? 0 : length) || client < 0 ||
        client >= CLIENTS || !unpacked(&s->reply[client], bytes, bytes == NULL ? 0 : length))
        return damaged(&s->db, "the outcome of client", (long long)client, "it has another checksum");
    s->number[client] = number;
    return GITHOPPU_DONE;
}

static int take_row(githoppu_store *s, sqlite3_stmt *row) {
    uint64_t place = (uint64_t)sqlite3_column_int64(row, 0);
    int64_t client = sqlite3_column_int64(row, 1);
    const unsigned char *bytes = (const unsigned char *)sqlite3_column_blob(row, 2);
    size_t length = (size_t)sqlite3_column_bytes(row, 2);
    githoppu_words op, reply;
    if (place != s->logged)
        return damaged(&s->db, "the row of place", (long long)s->logged, "it is missing");
    if (sqlite3_column_int64(row, 3) != checksum(&s->db.crc, place, (uint64_t)client, bytes, bytes == NULL ? 0 : length) || client < 0 ||
        client >= CLIENTS || !unpacked(&op, bytes, bytes == NULL ? 0 : length))
        return damaged(&s->db, "the row of place", (long long)place, "it has another checksum");
    if (apply(s, place, (unsigned)client, &op, &reply) == GITHOPPU_STORE_FAILED)
        return damaged(&s->db, "the row of place", (long long)place, "the store does not do its update");
    s->logged++;
    return GITHOPPU_DONE;
}

static int take_all(githoppu_store *s, const char *query, int (*take)(githoppu_store *, sqlite3_stmt *)) {
    sqlite3_stmt *rows;
    int row = SQLITE_ROW, status = GITHOPPU_DONE;
    if (sqlite3_prepare_v2(s->db.handle, query, -1, &rows, NULL) != SQLITE_OK)
        return fault(&s->db, OPENING, query);
    while (status == GITHOPPU_DONE && (row = sqlite3_step(rows)) == SQLITE_ROW)
        status = take(s, rows);
    if (status == GITHOPPU_DONE && row != SQLITE_DONE)
        status = fault(&s->db, OPENING, query);
    sqlite3_finalize(rows);
    return status;
}

static int load(githoppu_store *s) {
    uint64_t end;
    int status = take_all(s, "SELECT format, object, lines, logged, crc FROM meta", take_meta);
    end = s->logged;
    if (status == GITHOPPU_DONE && s->db.object == 0)
        status = damaged(&s->db, "the row of meta", 1, "it is missing");
    if (status == GITHOPPU_DONE)
        status = take_all(s, "SELECT place, image, crc FROM checkpoint", take_image);
    if (status == GITHOPPU_DONE)
        status = take_all(s, "SELECT client, number, reply, crc FROM outcome", take_outcome);
    if (status == GITHOPPU_DONE && s->writer == NULL)
        status = open_sessions(s, NULL, 0, path_of(&s->db));
    atomic_store(&s->next_checkpoint, s->logged + s->checkpoint_every);
    if (status == GITHOPPU_DONE)
        status = take_all(s, "SELECT place, client, operation, crc FROM log ORDER BY place", take_row);
    if (status == GITHOPPU_DONE && s->logged < end)
        status = damaged(&s->db, "the row of place", (long long)s->logged, "it is missing");
    return status == GITHOPPU_DONE ? prepare(&s->db) : status;
}

/* The image of a running store's words, which are freed here. */
static int image_bytes(struct image *image, uint64_t place, uint64_t *words, size_t count) {
    githoppu_crc crc;
    size_t i;
    image->place = place;
    image->length = 8 * count;
    image->bytes = (unsigned char *)malloc(image->length);
    if (image->bytes != NULL) {
        for (i = 0; i < count; i++)
            githoppu_put_word(image->bytes + 8 * i, words[i]);
        githoppu_crc_start(&crc);
        image->crc = checksum(&crc, place, image->length, image->bytes, image->length);
    }
    free(words);
    return image->bytes == NULL ? GITHOPPU_NO_MEMORY : GITHOPPU_DONE;
}

/* The state in a file of githoppu_save: the store begins with it. */
static int take_saved(githoppu_store *s, const char *saved, struct image *image) {
    uint64_t *words = NULL, lines = s->db.lines;
    size_t count = 0;
    unsigned client;
    int status = githoppu_load_words(saved, &words, &count);
    if (status == GITHOPPU_NOT_OPENED || status == GITHOPPU_NOT_READ)
        return system_fault(&s->db, status, "open and read", saved);
    if (status != GITHOPPU_DONE)
        return because(&s->db, status, "%s: %s", saved, githoppu_store_text(status));
    status = open_sessions(s, words, count, saved);
    if (status == GITHOPPU_DONE) {
        s->db.lines = words[4]; /* as githoppu.h says of an image */
        for (client = 0; client < 8; client++)
            if (githoppu_outcome(words, count, client, &s->number[client], s->reply[client].word) != GITHOPPU_DONE)
                s->number[client] = 0;
        memcpy(image->number, s->number, sizeof image->number);
        memcpy(image->reply, s->reply, sizeof image->reply);
    }
    if (status != GITHOPPU_DONE || (lines != 0 && lines != s->db.lines)) {
        free(words);
        return status != GITHOPPU_DONE ? status
                                       : because(&s->db, GITHOPPU_STORE_OTHER, "%s has %llu lines, and %llu are asked for", saved,
                                                 (unsigned long long)s->db.lines, (unsigned long long)lines);
    }
    return image_bytes(image, s->logged, words, count);
}

static int begin(githoppu_store *s, const char *saved) {
    struct image *image = NULL;
    int status;
    s->db.object = s->object.number;
    if (saved != NULL) {
        image = (struct image *)calloc(1, sizeof *image);
        if (image == NULL)
            return GITHOPPU_NO_MEMORY;
        status = take_saved(s, saved, image);
    } else {
        s->db.lines = s->db.lines == 0 ? 16384 : s->db.lines;
        status = open_sessions(s, NULL, 0, path_of(&s->db));
    }
    if (status == GITHOPPU_DONE)
        status = create(&s->db, image, s->logged);
    if (image != NULL)
        free(image->bytes);
    free(image);
    atomic_store(&s->next_checkpoint, s->logged + s->checkpoint_every);
    return status;
}

/* ---- The queue and its leader. ---- */

/* Keeps why the store is read-only from now on, or else the last failure; with the lock. */
static void note(githoppu_store *s, int status, const char *why) {
    if (status == GITHOPPU_DONE || s->failed)
        return;
    s->failed = status == GITHOPPU_STORE_FAILED || status == GITHOPPU_STORE_DAMAGED;
    memcpy(s->why, why, WHY);
}

/* Adds to the queue; with the lock. */
static void enqueue(githoppu_store *s, struct request *r) {
    *s->last = r;
    s->last = &r->next;
    s->queued++;
    if (r->barrier == NO_BARRIER && s->in_batch[r->client] == s->batch) {
        s->in_batch[r->client] = 0;
        if (--s->away == 0 && s->gathering)
            pthread_cond_signal(&s->all_are_back);
    }
}

/* Waits for the clients that were answered last, as long as the options say; with the lock. */
static void gather(githoppu_store *s) {
    struct timespec until;
    if (s->gather_us == 0 || s->away == 0)
        return;
    clock_gettime(GATHER_CLOCK, &until);
    until.tv_nsec += 1000L * (long)(s->gather_us % 1000000);
    until.tv_sec += (time_t)(s->gather_us / 1000000) + until.tv_nsec / 1000000000;
    until.tv_nsec %= 1000000000;
    s->gathering = 1;
    while (s->away > 0 && pthread_cond_timedwait(&s->all_are_back, &s->lock, &until) == 0) {
    }
    s->gathering = 0;
}

/* All that is in the queue; with the lock. */
static struct request *take_queue(githoppu_store *s) {
    struct request *list = s->first, *r;
    s->first = NULL;
    s->last = &s->first;
    s->queued = 0;
    s->batch++;
    s->away = 0;
    for (r = list; r != NULL; r = r->next) {
        r->taken = 1;
        if (r->barrier == NO_BARRIER && s->in_batch[r->client] != s->batch) {
            s->in_batch[r->client] = s->batch;
            s->away++;
        }
    }
    return list;
}

/* Gives up the lead: to who asks for it without an update, else to the first in the queue who sleeps; with the lock. */
static void give_lead(githoppu_store *s) {
    struct request *r = s->first;
    s->leading = 0;
    while (r != NULL && !r->waited_for)
        r = r->next;
    if (s->asking > 0)
        pthread_cond_signal(&s->lead_is_free);
    else if (r != NULL)
        pthread_cond_signal(&r->woken);
}

/* Writes a batch to the log in one transaction. Where it is due, SQLite's own log is emptied after it; *emptied says how that went. */
static int write_batch(githoppu_store *s, const struct request *list, uint64_t *count, int *emptied) {
    struct database *db = &s->db;
    const struct request *r;
    int due = db->pages >= WAL_PAGES, status = GITHOPPU_DONE;
    for (r = list; r != NULL; r = r->next) {
        *count += r->barrier == NO_BARRIER;
        due |= r->barrier == CLOSES || (r->barrier == SYNCS && s->sync == GITHOPPU_STORE_NORMAL);
    }
    if (*count == 0 && (!due || db->pages == 0))
        return GITHOPPU_DONE;
    if (*count > LAST_PLACE - s->logged)
        return because(db, GITHOPPU_WORN, "%s has had 2^40 updates", path_of(db));
    *count = 0;
    status = step(db, BEGIN);
    for (r = list; r != NULL && status == GITHOPPU_DONE; r = r->next)
        if (r->barrier == NO_BARRIER)
            status = write_row(db, s->logged + (*count)++, r->client, r->bytes, r->length);
    if (status == GITHOPPU_DONE && due)
        status = write_logged(db, s->logged + *count);
    status = end(db, status);
    if (status == GITHOPPU_DONE && due)
        *emptied = empty_wal(db, SQLITE_CHECKPOINT_PASSIVE, WRITING);
    return status;
}

/* Writes what is in the queue as one batch, and then does it in RAM, while the next leader may write; with the lock, before and after. */
static void lead(githoppu_store *s) {
    struct request *list, *r, *next;
    uint64_t count = 0, place = s->logged;
    char why[WHY] = "";
    int status, emptied = GITHOPPU_DONE;
    s->leading = 1;
    gather(s);
    list = take_queue(s);
    status = s->failed ? GITHOPPU_STORE_READ_ONLY : GITHOPPU_DONE;
    pthread_mutex_unlock(&s->lock);
    if (status == GITHOPPU_DONE)
        status = write_batch(s, list, &count, &emptied);
    if (status == GITHOPPU_DONE)
        s->logged += count;
    pthread_mutex_lock(&s->doing);
    pthread_mutex_lock(&s->lock);
    note(s, status, s->db.why);
    note(s, emptied, s->db.why);
    give_lead(s);
    pthread_mutex_unlock(&s->lock);
    for (r = list; r != NULL; r = r->next)
        if (status != GITHOPPU_DONE)
            r->status = status;
        else
            r->status = r->barrier == NO_BARRIER ? apply(s, place++, r->client, r->op, r->reply) : emptied;
    if (s->behind)
        snprintf(why, sizeof why, "the update of place %llu is in the log and not done in RAM: open the store again",
                 (unsigned long long)atomic_load(&s->done));
    pthread_mutex_unlock(&s->doing);
    pthread_mutex_lock(&s->lock);
    if (why[0] != 0)
        note(s, GITHOPPU_STORE_FAILED, why);
    for (r = list; r != NULL; r = next) {
        next = r->next;
        r->done = 1;
        pthread_cond_signal(&r->woken);
    }
}

/* Waits for an answer, or leads; with the lock. */
static int answer(githoppu_store *s, struct request *r) {
    r->waited_for = 1;
    while (!r->done)
        if (r->taken || s->leading || s->asking > 0)
            pthread_cond_wait(&r->woken, &s->lock);
        else
            lead(s);
    return r->status;
}

/* Has the lead for something that is no batch. READ_ONLY where there is nothing to be written any more; the lead is taken all the same. */
static int take_lead(githoppu_store *s) {
    int status;
    pthread_mutex_lock(&s->lock);
    for (s->asking++; s->leading;)
        pthread_cond_wait(&s->lead_is_free, &s->lock);
    s->asking--;
    s->leading = 1;
    status = s->failed ? GITHOPPU_STORE_READ_ONLY : GITHOPPU_DONE;
    pthread_mutex_unlock(&s->lock);
    return status;
}

static int end_lead(githoppu_store *s, int status) {
    pthread_mutex_lock(&s->lock);
    note(s, status == GITHOPPU_STORE_READ_ONLY ? GITHOPPU_DONE : status, s->db.why);
    give_lead(s);
    pthread_mutex_unlock(&s->lock);
    return status;
}

/* Whether a store takes calls here. */
static int usable(const githoppu_store *s) { return s->process != getpid() ? GITHOPPU_STORE_FORKED : s->opened; }

/* ---- Checkpoints. ---- */

/* An image of the store of this moment, with its outcomes. Updates wait for no longer than one copy. */
static int take_checkpoint(githoppu_store *s, struct image *image) {
    uint64_t *words = NULL, count = 0, place;
    int status;
    pthread_mutex_lock(&s->doing);
    place = atomic_load(&s->done);
    status = s->behind ? GITHOPPU_STORE_READ_ONLY : githoppu_checkpoint_size(&s->writer, &count);
    if (status == GITHOPPU_DONE && (words = (uint64_t *)malloc((size_t)(8 * count))) == NULL)
        status = GITHOPPU_NO_MEMORY;
    if (status == GITHOPPU_DONE)
        status = githoppu_checkpoint_into(&s->writer, words, (size_t)count);
    memcpy(image->number, s->number, sizeof image->number);
    memcpy(image->reply, s->reply, sizeof image->reply);
    pthread_mutex_unlock(&s->doing);
    if (status == GITHOPPU_DONE)
        return image_bytes(image, place, words, (size_t)count);
    free(words);
    return status;
}

/* A checkpoint; with saving. */
static int save(githoppu_store *s) {
    struct image *image = (struct image *)calloc(1, sizeof *image);
    int status = image == NULL ? GITHOPPU_NO_MEMORY : take_checkpoint(s, image);
    if (status == GITHOPPU_DONE) {
        status = take_lead(s);
        status = end_lead(s, status == GITHOPPU_DONE ? save_image(&s->db, image, s->logged) : status);
    }
    /* where it failed, the next try is some time later */
    atomic_store(&s->next_checkpoint,
                 status == GITHOPPU_DONE ? image->place + s->checkpoint_every : atomic_load(&s->done) + s->checkpoint_every / 8 + 1);
    if (image != NULL)
        free(image->bytes);
    free(image);
    return status;
}

static void save_if_due(githoppu_store *s) {
    if (atomic_load(&s->done) < atomic_load(&s->next_checkpoint) || pthread_mutex_trylock(&s->saving) != 0)
        return;
    if (atomic_load(&s->done) >= atomic_load(&s->next_checkpoint))
        (void)save(s); /* where it fails the log stays, and why says it */
    pthread_mutex_unlock(&s->saving);
}

/* ---- The calls. ---- */

static int make_request(githoppu_store *s, struct request *r, unsigned client, const githoppu_words *op, githoppu_words *reply) {
    int status = usable(s);
    if (status != GITHOPPU_DONE || client >= CLIENTS)
        return status != GITHOPPU_DONE ? status : GITHOPPU_STORE_NO_CLIENT;
    r->next = NULL;
    r->barrier = NO_BARRIER;
    r->client = client;
    r->status = r->taken = r->done = r->waited_for = 0;
    r->op = op;
    r->reply = reply;
    r->length = packed(op, r->bytes);
    return pthread_cond_init(&r->woken, NULL) == 0 ? GITHOPPU_DONE : GITHOPPU_NO_MEMORY;
}

static int update(githoppu_store *s, unsigned client, const githoppu_words *op, githoppu_words *reply, enum barrier barrier) {
    struct request r;
    int status = make_request(s, &r, client, op, reply);
    if (status != GITHOPPU_DONE)
        return status;
    r.barrier = barrier;
    pthread_mutex_lock(&s->lock);
    enqueue(s, &r);
    status = answer(s, &r);
    pthread_mutex_unlock(&s->lock);
    pthread_cond_destroy(&r.woken);
    if (barrier == NO_BARRIER)
        save_if_due(s);
    return status;
}

/* Reads by a session that no other thread uses just now; where all are used, by the one that is this thread's first choice. */
static int look(githoppu_store *s, const githoppu_words *op, githoppu_words *reply) {
    struct reader *mine;
    unsigned i, choice;
    int status = usable(s);
    if (status != GITHOPPU_DONE)
        return status;
    choice = (unsigned)(((uintptr_t)&mine >> 12) * UINT32_C(2654435769) >> 16) % s->readers; /* threads have stacks of their own */
    for (i = 0; i < s->readers; i++) {
        mine = &s->reader[(choice + i) % s->readers];
        if (pthread_mutex_trylock(&mine->lock) == 0)
            break;
    }
    if (i == s->readers) {
        mine = &s->reader[choice];
        pthread_mutex_lock(&mine->lock);
    }
    status = githoppu_do(&mine->session, op, reply);
    pthread_mutex_unlock(&mine->lock);
    return status;
}

int githoppu_store_call(githoppu_store *s, unsigned client, const githoppu_words *op, githoppu_words *reply) {
    return s->object.reads(s->object.context, op) ? look(s, op, reply) : update(s, client, op, reply, NO_BARRIER);
}

int githoppu_store_submit(githoppu_store *s, unsigned client, const githoppu_words *op, githoppu_store_update **out) {
    githoppu_store_update *u = (githoppu_store_update *)malloc(sizeof *u);
    int status = GITHOPPU_NO_MEMORY;
    *out = NULL;
    if (u != NULL) {
        u->op = *op;
        status = make_request(s, &u->request, client, &u->op, &u->reply);
    }
    if (status != GITHOPPU_DONE) {
        free(u);
        return status;
    }
    pthread_mutex_lock(&s->lock);
    enqueue(s, &u->request);
    if (s->queued >= SUBMITTED)
        (void)answer(s, &u->request); /* the wait tells it */
    pthread_mutex_unlock(&s->lock);
    *out = u;
    return GITHOPPU_DONE;
}

int githoppu_store_wait(githoppu_store *s, githoppu_store_update *u, githoppu_words *reply) {
    int status = usable(s);
    if (status != GITHOPPU_DONE)
        return status;
    pthread_mutex_lock(&s->lock);
    status = answer(s, &u->request);
    pthread_mutex_unlock(&s->lock);
    pthread_cond_destroy(&u->request.woken);
    if (status == GITHOPPU_DONE || status == GITHOPPU_MALFORMED)
        *reply = u->reply;
    free(u);
    save_if_due(s);
    return status;
}

static const githoppu_words no_words;

int githoppu_store_sync(githoppu_store *s) { return update(s, 0, &no_words, NULL, SYNCS); }

int githoppu_store_checkpoint(githoppu_store *s) {
    int status = usable(s);
    if (status != GITHOPPU_DONE)
        return status;
    pthread_mutex_lock(&s->saving);
    status = save(s);
    pthread_mutex_unlock(&s->saving);
    return status;
}

int githoppu_store_copy(githoppu_store *s, const char *path) {
    int status = usable(s);
    if (status != GITHOPPU_DONE)
        return status;
    status = take_lead(s);
    if (status == GITHOPPU_DONE) {
        status = step(&s->db, BEGIN);
        status = end(&s->db, status == GITHOPPU_DONE ? write_logged(&s->db, s->logged) : status);
        if (status == GITHOPPU_DONE)
            status = copy_database(&s->db, path);
    }
    return end_lead(s, status);
}

int githoppu_store_outcome(githoppu_store *s, unsigned client, uint64_t *number, githoppu_words *reply) {
    int status = usable(s);
    if (status != GITHOPPU_DONE || client >= CLIENTS)
        return status != GITHOPPU_DONE ? status : GITHOPPU_STORE_NO_CLIENT;
    pthread_mutex_lock(&s->doing);
    *number = s->number[client];
    *reply = s->reply[client];
    pthread_mutex_unlock(&s->doing);
    return GITHOPPU_DONE;
}

uint64_t githoppu_store_place(githoppu_store *s) { return usable(s) == GITHOPPU_DONE ? atomic_load(&s->done) : 0; }

size_t githoppu_store_why(githoppu_store *s, char *into, size_t room) {
    char why[WHY];
    if (s->process != getpid()) {
        snprintf(why, sizeof why, "%s", githoppu_store_text(GITHOPPU_STORE_FORKED));
    } else if (s->opened != GITHOPPU_DONE) {
        memcpy(why, s->db.why, WHY);
    } else {
        pthread_mutex_lock(&s->lock);
        memcpy(why, s->why, WHY);
        pthread_mutex_unlock(&s->lock);
    }
    if (room > 0)
        snprintf(into, room, "%s", why);
    return strlen(why);
}

/* ---- Opening and closing. ---- */

static int make_locks(githoppu_store *s) {
    pthread_condattr_t clock;
    unsigned i;
    int failed = pthread_mutex_init(&s->doing, NULL) | pthread_mutex_init(&s->lock, NULL) | pthread_mutex_init(&s->saving, NULL) |
                 pthread_cond_init(&s->lead_is_free, NULL) | pthread_condattr_init(&clock);
#ifndef __APPLE__
    failed |= pthread_condattr_setclock(&clock, GATHER_CLOCK);
#endif
    failed |= pthread_cond_init(&s->all_are_back, &clock) | pthread_condattr_destroy(&clock);
    for (i = 0; i < MOST_READERS; i++)
        failed |= pthread_mutex_init(&s->reader[i].lock, NULL);
    return failed == 0 ? GITHOPPU_DONE : GITHOPPU_NO_MEMORY;
}

static void drop_locks(githoppu_store *s) {
    unsigned i;
    pthread_mutex_destroy(&s->doing);
    pthread_mutex_destroy(&s->lock);
    pthread_mutex_destroy(&s->saving);
    pthread_cond_destroy(&s->lead_is_free);
    pthread_cond_destroy(&s->all_are_back);
    for (i = 0; i < MOST_READERS; i++)
        pthread_mutex_destroy(&s->reader[i].lock);
}

/* Frees the sessions and closes the file. */
static void put_down(githoppu_store *s, int failed) {
    unsigned i;
    githoppu_give_up(&s->writer, 1);
    for (i = 0; i < MOST_READERS; i++)
        githoppu_give_up(&s->reader[i].session, 1);
    close_database(&s->db, failed);
}

static int open_store(githoppu_store *s, const char *path, const githoppu_store_options *o) {
    int fresh = 0, status;
    if (s->readers > MOST_READERS || (o->lines != 0 && (o->lines < 64 || o->lines > 16384)) ||
        (o->sync != GITHOPPU_STORE_FULL && o->sync != GITHOPPU_STORE_NORMAL))
        return because(&s->db, GITHOPPU_BAD_SIZE, "open of %s: the lines are not 64 to 16,384, the readers not 1 to 7, or sync is no such number", path);
    status = open_database(&s->db, path, o->existing, &fresh);
    if (status == GITHOPPU_DONE)
        status = fresh ? begin(s, o->saved) : load(s);
    if (status == GITHOPPU_DONE && s->sync == GITHOPPU_STORE_NORMAL)
        status = run(&s->db, "PRAGMA synchronous", "PRAGMA synchronous=NORMAL");
    return status;
}

int githoppu_store_open(const char *path, const githoppu_store_options *options, githoppu_store **store) {
    static const githoppu_store_options defaults;
    const githoppu_store_options *o = options == NULL ? &defaults : options;
    githoppu_store *s = (githoppu_store *)calloc(1, sizeof *s);
    *store = s;
    if (s == NULL)
        return GITHOPPU_NO_MEMORY;
    s->process = getpid();
    s->object = o->object == NULL ? githoppu_store_documents : *o->object;
    s->db.lines = o->lines;
    s->readers = o->readers == 0 ? 3 : o->readers;
    s->gather_us = o->gather_us;
    s->checkpoint_every = o->checkpoint_every == 0 ? 100000 : o->checkpoint_every < LAST_PLACE ? o->checkpoint_every : LAST_PLACE;
    s->sync = o->sync;
    s->last = &s->first;
    s->batch = 1;
    s->opened = make_locks(s);
    if (s->opened == GITHOPPU_DONE)
        s->opened = open_store(s, path, o);
    if (s->opened == GITHOPPU_NO_MEMORY)
        because(&s->db, GITHOPPU_NO_MEMORY, "open of %s: out of memory", path);
    if (s->opened != GITHOPPU_DONE)
        put_down(s, 1);
    return s->opened;
}

int githoppu_store_close(githoppu_store *s) {
    int status = GITHOPPU_DONE;
    if (s == NULL)
        return GITHOPPU_DONE;
    if (s->process != getpid())
        return GITHOPPU_STORE_FORKED;
    if (s->opened == GITHOPPU_DONE) {
        status = update(s, 0, &no_words, NULL, CLOSES);
        put_down(s, s->failed);
    }
    drop_locks(s);
    free(s);
    return status;
}

/* ---- The objects, and the calls of each. ---- */

static int32_t open_documents(const void *context, uint64_t lines, githoppu_session **sessions, size_t count) {
    (void)context;
    return githoppu_open(lines, sessions, count);
}

static int32_t recover_documents(const void *context, const uint64_t *words, size_t words_count, githoppu_session **sessions, size_t count) {
    (void)context;
    return githoppu_recover(words, words_count, sessions, count);
}

/* Whether it is a read of the library's: well-formed as well, since a malformed operation of any kind is an update that changes nothing. */
static int reads_documents(const void *context, const githoppu_words *op) {
    uint64_t kind = op->word[0], length = op->word[1], i;
    (void)context;
    if ((kind != GET && kind != NEXT && kind != COUNT && kind != REV) || length > 64)
        return 0;
    if (kind == COUNT ? length > 0 : kind != NEXT && length == 0)
        return 0;
    for (i = 0; i < 64; i++) {
        unsigned char byte = (unsigned char)(op->word[8 + i / 8] >> (8 * (i % 8)));
        if (i < length ? byte <= ' ' || byte > '~' : byte != 0)
            return 0;
    }
    for (i = 2; i < 144; i++)
        if ((i < 8 || i >= 16) && op->word[i] != 0)
            return 0;
    return 1;
}

static int32_t open_queue(const void *context, uint64_t lines, githoppu_session **sessions, size_t count) {
    (void)context;
    return githoppu_open_queue(lines, sessions, count);
}

static int32_t recover_queue(const void *context, const uint64_t *words, size_t words_count, githoppu_session **sessions, size_t count) {
    (void)context;
    return githoppu_recover_queue(words, words_count, sessions, count);
}

static int reads_queue(const void *context, const githoppu_words *op) {
    int i;
    (void)context;
    for (i = 1; i < 144; i++)
        if (op->word[i] != 0)
            return 0;
    return op->word[0] == PEEK || op->word[0] == LEN;
}

const githoppu_store_object githoppu_store_documents = {1, open_documents, recover_documents, reads_documents, NULL};
const githoppu_store_object githoppu_store_queue = {2, open_queue, recover_queue, reads_queue, NULL};

/* Does an operation that comes without a client: a read, or a malformed one, which is not even logged. */
static int read_call(githoppu_store *s, int status, const githoppu_words *op, githoppu_words *reply) {
    if (status != GITHOPPU_DONE)
        return status;
    if (s->object.reads(s->object.context, op))
        return look(s, op, reply);
    memset(reply, 0, sizeof *reply);
    status = usable(s);
    return status == GITHOPPU_DONE ? GITHOPPU_MALFORMED : status;
}

static int document_update(githoppu_store *s, unsigned client, uint64_t kind, const char *key, const char *document, size_t length, int64_t number,
                           githoppu_words *reply) {
    githoppu_words op;
    int status = githoppu_document_op(&op, kind, key, document, length, number);
    return status == GITHOPPU_DONE ? update(s, client, &op, reply, NO_BARRIER) : status;
}

static int document_read(githoppu_store *s, uint64_t kind, const char *key, githoppu_words *reply) {
    githoppu_words op;
    return read_call(s, githoppu_document_op(&op, kind, key, "", 0, 0), &op, reply);
}

static int queue_update(githoppu_store *s, unsigned client, uint64_t kind, const char *text, githoppu_words *reply) {
    githoppu_words op;
    int status = githoppu_queue_op(&op, kind, text);
    return status == GITHOPPU_DONE ? update(s, client, &op, reply, NO_BARRIER) : status;
}

static int queue_read(githoppu_store *s, uint64_t kind, githoppu_words *reply) {
    githoppu_words op;
    return read_call(s, githoppu_queue_op(&op, kind, ""), &op, reply);
}

int githoppu_store_put(githoppu_store *s, unsigned client, const char *key, const char *document, size_t length, githoppu_words *reply) {
    return document_update(s, client, PUT, key, document, length, 0, reply);
}

int githoppu_store_putif(githoppu_store *s, unsigned client, const char *key, const char *document, size_t length, uint64_t revision,
                         githoppu_words *reply) {
    return document_update(s, client, PUTIF, key, document, length, (int64_t)revision, reply);
}

int githoppu_store_del(githoppu_store *s, unsigned client, const char *key, githoppu_words *reply) {
    return document_update(s, client, DEL, key, "", 0, 0, reply);
}

int githoppu_store_add(githoppu_store *s, unsigned client, const char *key, int64_t amount, githoppu_words *reply) {
    return document_update(s, client, ADD, key, "", 0, amount, reply);
}

int githoppu_store_get(githoppu_store *s, const char *key, githoppu_words *reply) { return document_read(s, GET, key, reply); }

int githoppu_store_rev(githoppu_store *s, const char *key, githoppu_words *reply) { return document_read(s, REV, key, reply); }

int githoppu_store_next(githoppu_store *s, const char *above, githoppu_words *reply) { return document_read(s, NEXT, above, reply); }

int githoppu_store_count(githoppu_store *s, githoppu_words *reply) { return document_read(s, COUNT, "", reply); }

int githoppu_store_push(githoppu_store *s, unsigned client, const char *text, githoppu_words *reply) { return queue_update(s, client, PUSH, text, reply); }

int githoppu_store_pop(githoppu_store *s, unsigned client, githoppu_words *reply) { return queue_update(s, client, POP, "", reply); }

int githoppu_store_peek(githoppu_store *s, githoppu_words *reply) { return queue_read(s, PEEK, reply); }

int githoppu_store_len(githoppu_store *s, githoppu_words *reply) { return queue_read(s, LEN, reply); }

const char *githoppu_store_text(int status) {
    switch (status) {
    case GITHOPPU_STORE_BUSY: return "another process has the file open, or this one has already";
    case GITHOPPU_STORE_NOT_OPENED: return "the file cannot be opened or made";
    case GITHOPPU_STORE_FORMAT: return "the file is no store, or of an unknown version";
    case GITHOPPU_STORE_OTHER: return "the file is of another object or another number of lines";
    case GITHOPPU_STORE_DAMAGED: return "the file is damaged";
    case GITHOPPU_STORE_NOT_WRITTEN: return "nothing was written or changed: it may be tried again";
    case GITHOPPU_STORE_FAILED: return "writing or syncing failed: open the file again to know whether the update is there";
    case GITHOPPU_STORE_READ_ONLY: return "the store is read-only since a failure: open the file again";
    case GITHOPPU_STORE_FORKED: return "the process is a fork of the one that opened the store";
    case GITHOPPU_STORE_NO_CLIENT: return "the number of the client is above 63";
    default: return githoppu_status_text(status);
    }
}
