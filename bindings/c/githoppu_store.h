/* A store on a disk, for C99, C11 and C++: a document store or a queue of githoppu.h in RAM, whose updates are in a database of SQLite before they are
 * answered. Many threads share one sync, reads wait for nobody, and opening the file again gives everything that was answered. Compile githoppu_store.c
 * (C11) into the program, and link it with githoppu's library, libsqlite3 (3.31 or later) and pthreads.
 *
 * THE LOG COMES FIRST. An update joins a queue. The first caller that finds no leader leads: it gives the updates in the queue their places, writes them
 * to the log in one transaction, which is one sync, and then does them in RAM in the same order while the next leader syncs. From time to time a
 * checkpoint puts an image of the whole store into the database and deletes the log below it. Opening takes the image and does the log that is after it.
 *
 * WHAT IS KEPT, with sync FULL (the default): an update that was answered DONE is there after the process was killed at any moment, and after a power
 * failure, if the disk keeps what it said it had synced. Of updates that were under way a prefix of their order may be there; githoppu_store_outcome tells each
 * client which of its own are. No read shows what a power failure can take away. With NORMAL all that holds for the death of the process; a power failure
 * may take away the updates after the last githoppu_store_sync, the last ones first, also where they were answered or read.
 *
 * WHAT IS NOT SEEN. SQLite takes a byte that changed in its write-ahead log (PATH-wal) for the end of that log: what stood after it is lost without a
 * word. That file holds the updates since SQLite's last own checkpoint, some 1,000 pages of 4 KiB. In PATH itself every changed byte that matters
 * is found when it is opened: rows and images have checksums, rows have no gaps, and the end of the log is known. PATH without its PATH-wal, as a plain copy of
 * a store that runs, is an older store: copy it by githoppu_store_copy.
 *
 * RULES, which no code checks. Any threads may make any calls at once, but for githoppu_store_close, which comes after all others have returned. A client's
 * number (0 to 63) is used by one thread at a time, if that wants to know its outcome. The program does not open and close PATH by other means
 * while the store is open: POSIX then drops the lock that keeps other processes out. No pointer is null but where it is said. A fork of the process has
 * no store: its calls answer GITHOPPU_STORE_FORKED and do nothing, and it opens none that its parent has open.
 *
 * What is tested: bindings/c/disk (each failure that is named here, kills, power failures). Nothing of it is proved; the store in RAM is (githoppu.h).
 */
#ifndef GITHOPPU_STORE_H
#define GITHOPPU_STORE_H

#include "githoppu.h"

#ifdef __cplusplus
extern "C" {
#endif

/* What a call answers beside the statuses of githoppu.h. githoppu_store_why then tells which call of which path failed, in the system's and SQLite's words. */
enum githoppu_store_status {
    GITHOPPU_STORE_BUSY = 64,        /* of an opening: another process has the file open, or this one has already */
    GITHOPPU_STORE_NOT_OPENED = 65,  /* of an opening: the file cannot be opened or made: it is a folder, there is no such folder, no permission, .. */
    GITHOPPU_STORE_FORMAT = 66,      /* of an opening: the file is none of this library's stores, or of a version that it does not know. It is as it was */
    GITHOPPU_STORE_OTHER = 67,       /* of an opening: the file is of another object, or of another number of lines, than the options say */
    GITHOPPU_STORE_DAMAGED = 68,     /* the file is damaged: a row, an image or a page is changed or missing */
    GITHOPPU_STORE_NOT_WRITTEN = 69, /* of an update, a checkpoint or a copy: the disk is full, say. Nothing is changed, and it may be tried again */
    GITHOPPU_STORE_FAILED = 70,      /* writing or syncing failed. Whether the update is in the file is not known before that is opened again, and then
                                        githoppu_store_outcome tells. Until then the store is read-only: it has what was answered before */
    GITHOPPU_STORE_READ_ONLY = 71,   /* an earlier call answered FAILED or DAMAGED: nothing is changed. Reads go on; close the store and open it again */
    GITHOPPU_STORE_FORKED = 72,      /* the process is a fork of the one that opened the store: nothing is done */
    GITHOPPU_STORE_NO_CLIENT = 73    /* a client's number is above 63: nothing is changed */
};

enum { GITHOPPU_STORE_CLIENTS = 64 };

/* When an update is answered. */
enum githoppu_store_sync {
    GITHOPPU_STORE_FULL = 0,  /* when it is on the disk */
    GITHOPPU_STORE_NORMAL = 1 /* when it is in a file of the system: the death of the process does not take it away, a power failure may */
};

/* An object that a file keeps. Another one than the two below is told by its functions; each gets the context. */
typedef struct githoppu_store_object {
    uint64_t number;                                                                         /* which the file keeps: 1 and 2 are those below */
    int32_t (*open)(const void *context, uint64_t lines, githoppu_session **sessions, size_t count);     /* as githoppu_open */
    int32_t (*recover)(const void *context, const uint64_t *words, size_t words_count, githoppu_session **sessions, size_t count); /* as githoppu_recover */
    int (*reads)(const void *context, const githoppu_words *op); /* whether the library takes an operation for a read: it is well-formed, and of a kind that
                                                                    changes nothing. Where this is wrong the store becomes read-only, and a read
                                                                    that was taken for an update is in the file, which is then DAMAGED */
    const void *context;
} githoppu_store_object;

extern const githoppu_store_object githoppu_store_documents; /* the document store of githoppu_open */
extern const githoppu_store_object githoppu_store_queue;     /* the queue of githoppu_open_queue */

/* How a store is opened. What is 0 has the default; null in place of the options is all defaults. */
typedef struct githoppu_store_options {
    const githoppu_store_object *object; /* what the file keeps; null: documents */
    const char *saved;                   /* a file of githoppu_save, with whose state a new store begins: clients 0 to 7 have the outcomes of its sessions
                                            0 to 7. Null: a new store is empty. Of a store that is there it is not looked at */
    uint64_t lines;                      /* 64 to 16,384 lines of 64 bytes; 0: those that the file has, and 16,384 of a new store */
    uint64_t checkpoint_every;           /* a checkpoint after the given number of updates, by a caller whose own update is answered already; 0: 100,000 */
    unsigned readers;                    /* how many reads are made at once: 1 to 7, each for one region of memory more; 0: 3 */
    unsigned gather_us;                  /* how many microseconds a leader waits at most for the clients that were answered last and are not back yet, so
                                            that more updates share a sync. A client alone never waits. 0: none; 300 is worth it from 4 clients on */
    int sync;                            /* GITHOPPU_STORE_FULL or GITHOPPU_STORE_NORMAL */
    int existing;                        /* not 0: a store that is not there is not made, and the opening answers NOT_OPENED. 0: a missing file and an
                                            empty one become a new store */
} githoppu_store_options;

typedef struct githoppu_store githoppu_store;
typedef struct githoppu_store_update githoppu_store_update;

/* What a status of this header, of githoppu_file.h or of githoppu.h says, in one line. */
const char *githoppu_store_text(int status);

/* Opens the store in a file, which is made where there is none. DONE; one of BUSY to DAMAGED; BAD_SIZE of options out of range; NO_MEMORY; AGAIN, which no
 * run is known to answer; and with options.saved what githoppu_load answers. Where it is not DONE, *store is null, or it is a store that takes
 * githoppu_store_why and githoppu_store_close alone. */
int githoppu_store_open(const char *path, const githoppu_store_options *options, githoppu_store **store);

/* Closes a store, also null: updates that were submitted are written, and SQLite's own log goes into the file. DONE; READ_ONLY of a store that was;
 * NOT_WRITTEN or FAILED where that failed: with sync FULL nothing that was answered is lost then. The memory is freed in any case, but for FORKED. */
int githoppu_store_close(githoppu_store *store);

/* What went wrong, in one line, ended by a 0 and cut where the room ends: the call, the path, the words of SQLite and of the system. It is the first failure
 * that made the store read-only, else the last one; "" before any. How many bytes the whole line has. */
size_t githoppu_store_why(githoppu_store *store, char *into, size_t room);

/* ---- Updates of documents. DONE, and the reply as of githoppu_put and its kin; what githoppu.h's functions answer of a malformed operation or of one that
 * is too long; NO_CLIENT, NOT_WRITTEN, FAILED, READ_ONLY, DAMAGED, FORKED or NO_MEMORY. One that is refused by its reply, as STALE or NO_ROOM, is in the log
 * too. ---- */

int githoppu_store_put(githoppu_store *store, unsigned client, const char *key, const char *document, size_t length, githoppu_words *reply);
int githoppu_store_putif(githoppu_store *store, unsigned client, const char *key, const char *document, size_t length, uint64_t revision,
                         githoppu_words *reply);
int githoppu_store_del(githoppu_store *store, unsigned client, const char *key, githoppu_words *reply);
int githoppu_store_add(githoppu_store *store, unsigned client, const char *key, int64_t amount, githoppu_words *reply);

/* ---- Reads of documents: as githoppu_get and its kin, and FORKED. They see every update that was answered before, and wait at most for another
 * read, where more threads read at once than options.readers. They go on in a store that is read-only. ---- */

int githoppu_store_get(githoppu_store *store, const char *key, githoppu_words *reply);
int githoppu_store_rev(githoppu_store *store, const char *key, githoppu_words *reply);
int githoppu_store_next(githoppu_store *store, const char *above, githoppu_words *reply);
int githoppu_store_count(githoppu_store *store, githoppu_words *reply);

/* ---- A queue: push and pop are updates, peek and len reads. ---- */

int githoppu_store_push(githoppu_store *store, unsigned client, const char *text, githoppu_words *reply);
int githoppu_store_pop(githoppu_store *store, unsigned client, githoppu_words *reply);
int githoppu_store_peek(githoppu_store *store, githoppu_words *reply);
int githoppu_store_len(githoppu_store *store, githoppu_words *reply);

/* Any operation of the store's object, by its 144 words. */
int githoppu_store_call(githoppu_store *store, unsigned client, const githoppu_words *op, githoppu_words *reply);

/* Many updates of one thread in one sync. A submit puts an update into the queue, and *update is what waits for it. It is written when anybody next makes an
 * update, waits or syncs, or when 1,024 are in the queue. A wait answers as the update's call does, and frees it; each is waited for
 * once. A client's updates are done in the order in which it submitted them. A submit answers DONE, NO_CLIENT, NO_MEMORY or FORKED. */
int githoppu_store_submit(githoppu_store *store, unsigned client, const githoppu_words *op, githoppu_store_update **update);
int githoppu_store_wait(githoppu_store *store, githoppu_store_update *update, githoppu_words *reply);

/* Writes what was submitted, and syncs: from DONE on a power failure takes away no update that was answered before, also with sync NORMAL. */
int githoppu_store_sync(githoppu_store *store);

/* Puts an image of the store into the file and deletes the log below it, while updates go on but for one transaction. It makes the next opening
 * short. NOT_WRITTEN: the log stays, and nothing is lost. */
int githoppu_store_checkpoint(githoppu_store *store);

/* A backup: writes the whole store to a new file, which can be opened as a store, and syncs it. Reads go on, updates wait. NOT_WRITTEN: there is no
 * such file, also where there was one of this name already. A copy that was killed may leave a file PATH.PID.new, which is none. */
int githoppu_store_copy(githoppu_store *store, const char *path);

/* How many updates of a client took effect, over all runs since the store was new, and the reply to the last of them. A malformed operation counts. So after
 * a crash a client learns whether its last update is there. */
int githoppu_store_outcome(githoppu_store *store, unsigned client, uint64_t *number, githoppu_words *reply);

/* The place after the last update that was done: how many updates the store has had. It means the same after the store was opened again. 0 of a fork. */
uint64_t githoppu_store_place(githoppu_store *store);

#ifdef __cplusplus
}
#endif

#endif
