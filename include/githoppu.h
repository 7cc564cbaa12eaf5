/* Githoppu for C99, C11 and C++: a document store, a bounded queue, and data structures of one's own in C (objects of programs), each of which 1 to 8
 * sessions share without a lock; an image of what a crash (a power failure) leaves of them; and recovery from an image. Nothing is durable by itself:
 * persistent memory is simulated in RAM, and the data end with the process unless an image of the store, closed or running, was written to a file
 * (githoppu_file.h does that).
 *
 * `tools/install PREFIX` puts out the library; a program is compiled and linked by `cc shop.c $(pkg-config --cflags --libs githoppu)`, by CMake's package
 * githoppu, or with libgithoppu.a alone (docs/C_AND_RUST.md).
 *
 * THREE RULES, which the caller has to keep and no code checks:
 *   1. A session is a pointer that githoppu_open, githoppu_recover or a call of a session put out, and a closed store one that a closing put out. Pass it to
 *      this library alone. After a call took it, pass on only the pointer that this call put into *out.
 *   2. One call at a time uses a session. It passes from one thread to another by a lock, the start or the end of a thread, or an atomic with
 *      sequential consistency. It goes to no signal handler, and to no forked child of a program with threads.
 *   3. What the arguments point to is the caller's for the whole call: an operation and a reply have 144 words each, an image and the slots for
 *      sessions have the number that is passed with them. No two of these areas overlap, and no pointer is null, also where it points to no words.
 *
 * WHO OWNS WHAT. Sessions and closed stores are the library's until they are dropped. Keys, documents, operations, replies and the words of images are
 * the caller's, and the library keeps no pointer to them. The library calls malloc in the opens, the recoveries, githoppu_outcome and the
 * closing of the last session only, and frees in those and when the last session or a closed store is dropped. A malloc of the program's own has to
 * align a block of n bytes to each power of two up to 16 that divides n.
 *
 * THREADS. Different threads may use different sessions at once, and any thread may make any call under rule 2. The library starts no thread and
 * takes no lock. A call makes at most the given number of tries and answers AGAIN, FULL or PENDING where other sessions were in the way.
 *
 * LOOK AT BOTH, the status and the kind of the reply (word 0): DONE says that there is an answer, and the kind which one it is, as NO_ROOM of a put. A
 * malformed operation, as one with an empty key, changes nothing and is answered MALFORMED by the functions of this header, githoppu_put and those like it.
 */
#ifndef GITHOPPU_H
#define GITHOPPU_H

#include <stddef.h>
#include <stdint.h>
#include <string.h>
#include <time.h>

#include "githoppu_program.h"

#ifndef GITHOPPU_YIELD
#if defined(__unix__) || defined(__APPLE__)
#include <sched.h>
#define GITHOPPU_YIELD() sched_yield()
#else
#define GITHOPPU_YIELD() ((void)0)
#endif
#endif

/* The version of this header. GITHOPPU_VERSION is a million times the first number, a thousand times the second, and the third. */
#define GITHOPPU_VERSION_MAJOR 0
#define GITHOPPU_VERSION_MINOR 5
#define GITHOPPU_VERSION_PATCH 0
#define GITHOPPU_VERSION (GITHOPPU_VERSION_MAJOR * 1000000 + GITHOPPU_VERSION_MINOR * 1000 + GITHOPPU_VERSION_PATCH)
#define GITHOPPU_VERSION_TEXT "0.5.0"

#ifdef __cplusplus
extern "C" {
#endif

/* What a call answers: the library's own functions, those of this header and those of githoppu_file.h. githoppu_status_text says each in words. */
enum githoppu_status {
    GITHOPPU_DONE = 0,        /* it is answered, and the reply is written: look at its kind too */
    GITHOPPU_PENDING = 1,     /* the operation is in the log and will take effect, but is not acknowledged yet: call githoppu_finish until DONE, and make
                                 no other call of the session before; do not submit the operation again */
    GITHOPPU_AGAIN = 2,       /* other sessions were in the way. The operation is not in the log: call again. Of an opening or a recovery: the new sessions'
                                 queue did not take its first entry; no run is known to answer it, and nothing is left of the call: call again */
    GITHOPPU_FULL = 3,        /* the operation is not in the log: another session still reads the last 16 updates of this one; yield, and call again. Where a
                                 thread is stopped for good inside a writing call, each other session can make at most 16 more updates, and after
                                 that every update answers FULL; reads go on */
    GITHOPPU_WORN = 4,        /* the operation is not in the log: the store has had 2^40 updates and takes no more; it can still be read */
    GITHOPPU_STOPPED = 5,     /* the session has reached its limit of steps. Sessions of this library have none, so this is never answered */
    GITHOPPU_OUT_OF_TURN = 6, /* a call while an operation is pending, a finish while none is, a call or a finish of a closed store, an image of what is not
                                 closed, or a closing of what is closed: nothing is changed */
    GITHOPPU_BAD_SIZE = 7,    /* the lines are not 64 to 16,384, the sessions not 1 to 8, a session's number not 0 to 7, a program's fuel above 2^20, or an
                                 image has another number of words than was passed: nothing is changed */
    GITHOPPU_NO_MEMORY = 8,   /* malloc gave no memory. What the call had taken is freed, and nothing else is changed */
    GITHOPPU_NO_SESSION = 9,  /* of the functions in this header: the pointer to the session, or to the closed store, is null */
    GITHOPPU_TOO_LONG = 10,   /* of the functions in this header: a key above 64 bytes, a document above 1,024, or a text above 56 */
    GITHOPPU_OTHERS = 11,     /* of a closing: this session is closed, and other sessions of the store are not */
    GITHOPPU_LOST = 12,       /* of a closing: it was the last, and did not find all that were closed before. *out has those that it found: close that again.
                                 No run of the library is known to answer it */
    /* of a recovery and of githoppu_outcome: why the words are refused. The first check that fails is answered, in this order; that a result is a reply
       is checked last, after 20 */
    GITHOPPU_NOT_AN_IMAGE = 13,  /* they are not an image: fewer than 8 words, another name, a format that is neither 1 nor 2, a kind that is not 1 to 3,
                                    numbers of sessions or lines that no store has, or one of the last two words of the head is not 0 */
    GITHOPPU_OTHER_KIND = 14,    /* the image is of another kind than is asked for: of a store, of a queue, or of an object of a program */
    GITHOPPU_IMAGE_SIZE = 15,    /* it has another number of words than its format, sessions and lines make */
    GITHOPPU_IMAGE_ROOT = 16,    /* the root's place is above 2^40 */
    GITHOPPU_IMAGE_VERSION = 17, /* the object's version is not known, or the image is of another program than this one and the one before it */
    GITHOPPU_IMAGE_PLACE = 18,   /* the place in the replica that the root names is not the root's */
    GITHOPPU_IMAGE_BODY = 19,    /* a result in that replica is no reply of such an object (144 zeros are, of a malformed operation), or its documents or
                                    texts are none that the library writes */
    GITHOPPU_IMAGE_NUMBERS = 20, /* a result there has a number above the place */
    /* of githoppu_check_version */
    GITHOPPU_OLD_HEADER = 21,    /* the library is newer than this header */
    GITHOPPU_OLD_LIBRARY = 22,   /* this header is newer than the library */
    GITHOPPU_BEHIND = 23,        /* of catching up: the current place is below the one asked for, so no session of this store was answered at it */
    GITHOPPU_MALFORMED = 24,     /* of the functions in this header that do an operation: a key, a document or a text has a byte that it must not have, or
                                    is empty (githoppu_put, githoppu_push). It is answered: nothing is changed, the reply's kind is 0, and a write counts
                                    as an update of the session (githoppu_outcome). githoppu_call and githoppu_finish answer DONE instead */
    /* of objects of programs */
    GITHOPPU_BAD_PROGRAM = 25,   /* the words are no program: githoppu_program_why tells why, and the instruction */
    GITHOPPU_FAULTED = 26,       /* of the functions in this header that run an operation of a program: it ended by a fault, which word 0 of the reply names
                                    (githoppu_fault_text). It is answered: nothing is changed, and a write counts as an update of the session.
                                    githoppu_call, githoppu_finish, githoppu_do and githoppu_end answer DONE instead */
    /* of the functions in githoppu_file.h. Where a call of the system failed, errno says why */
    GITHOPPU_NOT_OPENED = 32,        /* of a load: the file cannot be opened, or it is no regular file (errno) */
    GITHOPPU_NOT_READ = 33,          /* of a load: reading failed (errno) */
    GITHOPPU_FILE_FOREIGN = 34,      /* of a load: no save of githoppu wrote the file */
    GITHOPPU_FILE_LENGTH = 35,       /* of a load: the file is shorter or longer than it was saved */
    GITHOPPU_FILE_CHANGED = 36,      /* of a load: a byte of the file was changed: the checksum is another */
    GITHOPPU_FILE_FORMAT = 37,       /* of a load: a save of another version wrote the file, in a format that this one does not know */
    GITHOPPU_NOT_MADE = 38,          /* of a save: the new file cannot be made in the folder of the path (errno) */
    GITHOPPU_NOT_WRITTEN = 39,       /* of a save: writing failed, as on a full disk (errno) */
    GITHOPPU_NOT_SYNCED = 40,        /* of a save: the new file cannot be synced (errno) */
    GITHOPPU_NOT_RENAMED = 41,       /* of a save: the new file cannot be renamed to the path (errno) */
    GITHOPPU_FOLDER_NOT_SYNCED = 42, /* of a save: the path has the new file, and its folder cannot be synced (errno): after a crash of the machine the path
                                        may have the old file */
    GITHOPPU_FILE_EMPTY = 43,        /* of a load: the file has no bytes */
    GITHOPPU_NOT_REGULAR = 44        /* of a save: the path is a folder, a device, a pipe or a socket, and is left as it is (errno) */
};

/* ---- The library's own functions. The functions further below call these, and are easier to use. ---- */

/* A session of a store, a queue or an object of a program, and what is left of one that is closed: what they are is the library's. They are two types, so
 * that a compiler tells them apart. What is said below of a store holds of each of the three. */
typedef struct githoppu_session githoppu_session;
typedef struct githoppu_closed githoppu_closed;

/* A session, or a closed store, as an argument: one pointer, by value. The call puts it back into *out. */
typedef struct githoppu_session_handle {
    githoppu_session *at;
} githoppu_session_handle;

typedef struct githoppu_closed_handle {
    githoppu_closed *at;
} githoppu_closed_handle;

/* One of both: what a closing leaves, and what a drop takes. */
typedef union githoppu_either {
    githoppu_session *session;
    githoppu_closed *closed;
} githoppu_either;

/* The version of the library, as GITHOPPU_VERSION is of the header. githoppu_check_version compares both. */
uint64_t githoppu_version(void);

/* Opens an empty document store, or an empty queue, in the given number of lines of 64 bytes, with count sessions, which it puts into
 * sessions[0] to sessions[count - 1]. A document takes a line and one for each 56 bytes of its key and of its text; a text in a queue
 * takes one line; the first line is the object's own. DONE, BAD_SIZE, NO_MEMORY or AGAIN; where it is not DONE no slot is written. */
int32_t githoppu_open(uint64_t lines, githoppu_session **sessions, size_t count);
int32_t githoppu_open_queue(uint64_t lines, githoppu_session **sessions, size_t count);

/* Opens an object of a program: its first line of 64 bytes is the library's, and the others are zeros. The first `instructions` of the words are
 * instructions, the others constants; an operation takes at most `fuel` instructions. DONE, BAD_SIZE (the lines, the sessions, or a fuel above 2^20),
 * BAD_PROGRAM, NO_MEMORY or AGAIN; where it is not DONE no slot is written. The library keeps a copy of the words. tools/program makes them of a file in C
 * (docs/OBJECTS_IN_C.md). Each githoppu_call then runs the program once; any words are an operation, so none is malformed. */
int32_t githoppu_open_program(const uint64_t *program, size_t words, uint64_t instructions, uint64_t fuel, uint64_t lines, githoppu_session **sessions,
                              size_t count);

/* Says why words are no program. DONE, and *fault is 0; or BAD_PROGRAM: *fault is one of githoppu_refusal, and *at the number of the first instruction at
 * fault; or NO_MEMORY. */
int32_t githoppu_program_fault(const uint64_t *program, size_t words, uint64_t instructions, uint64_t *fault, uint64_t *at);

/* The fingerprint of a program with its fuel: the version of its images. DONE, BAD_PROGRAM, BAD_SIZE (the fuel) or NO_MEMORY. */
int32_t githoppu_program_fingerprint(const uint64_t *program, size_t words, uint64_t instructions, uint64_t fuel, uint64_t *fingerprint);

/* Does an operation, with the given number of tries (0 counts as 1, and more than 2^20 as 2^20). DONE, PENDING, AGAIN, FULL, WORN, STOPPED or
 * OUT_OF_TURN. The reply is written where it is DONE; nothing is promised of its words after any other answer. A malformed operation is DONE with a reply of
 * 144 zeros, and changes nothing. */
int32_t githoppu_call(githoppu_session_handle session, const uint64_t op[144], uint64_t reply[144], uint64_t tries, githoppu_session **out);

/* Goes on with the pending operation, for the given number of turns. DONE, PENDING, STOPPED or OUT_OF_TURN. The reply is written where it is DONE, as of
 * githoppu_call. */
int32_t githoppu_finish(githoppu_session_handle session, uint64_t reply[144], uint64_t tries, githoppu_session **out);

/* The place that tells another session of the store what this one has seen: behind the operation that it was answered last, of a read the place
 * that was read, or the greatest place that it caught up with; 0 before. DONE, or OUT_OF_TURN and 0 of a closed store. It goes to other threads by any
 * channel, as a number.
 *
 * See_place has a session see a place that another one told. DONE: its later answers stand at or above the place, so they hold what the other
 * session was answered. BEHIND: the current place is below it, which is so of no place that a session of this store told. STOPPED, or OUT_OF_TURN while an
 * operation is pending. */
int32_t githoppu_place_of(githoppu_session_handle session, uint64_t *place, githoppu_session **out);
int32_t githoppu_see_place(githoppu_session_handle session, uint64_t place, githoppu_session **out);

/* Closes a session, in any state: its last operation may be pending. Sessions are closed in any order, by any threads; no closing waits for another.
 * DONE: it was the last, and out->closed is the closed store, of which githoppu_image writes an image. OTHERS: other sessions are open, and *out is null.
 * After every other answer out->session is to be closed again, or dropped: AGAIN: others were in the way, and it is the session, or what the last one
 * found. NO_MEMORY: it was the last, and it is the store with all its sessions. LOST: it was the last and a session is missing among those that were
 * closed; it has the others. OUT_OF_TURN: what was passed is no session but a closed store, and *out is that. After a session was dropped, every other
 * closing answers OTHERS, and the last one drops the store. */
int32_t githoppu_close(githoppu_session_handle session, githoppu_either *out);

/* Writes an image of a closed store or queue, what a crash at the moment of closing leaves, into the given words, and its number of words into *needed. DONE
 * where count is that number, and else BAD_SIZE, and no word is written (so ask once with count 0). Choice 0 leaves of each word its durable value, choice
 * 1 the value that was stored last, and each other choice of each word that was not yet durable a made-up number (the choice times one more than the
 * word's address, modulo 2^64); the root is one of those that may be left. All of them hold every acknowledged update; only what was pending may be there
 * or not. The same choice gives the same words.
 * OUT_OF_TURN where it is not closed: *needed is 0. The closed store is at *out again.
 *
 * An image is 8 words (the name "githoppu" in bytes, the format, the kind 1 of a store, 2 of a queue or 3 of a program's object, the sessions, the lines, the
 * root, 0 and 0), and then in format 1, which this call writes, those of all replicas: 128 * (146 + lines) bytes for each session, and 64; in format 2, which
 * githoppu_checkpoint writes, those of one replica, which stands for each: 64 * (146 + lines) bytes, and 64. Each call that takes an image takes both
 * formats. Its words have the machine's byte order. An image has no checksum: a byte that is changed in a document, or in a replica that the root does not
 * name, is not seen. A file of githoppu_file.h has one. */
int32_t githoppu_image(githoppu_closed_handle closed, uint64_t choice, uint64_t *words, size_t count, uint64_t *needed, githoppu_closed **out);

/* Takes an image of a running store or queue, of whatever session, while the others go on: an image of one moment, in format 2, of which githoppu_recover
 * opens a store and githoppu_outcome tells outcomes. It holds every update that any session was answered before the call began, and what it holds is
 * durable. One replica is read for the time of one copy, as a reader does. No memory is taken, and it waits for nobody.
 * DONE where count is the number of words that an image has, which is put into *needed; with another count BAD_SIZE, and no word is written (so ask once
 * with count 0). AGAIN: other sessions were in the way in 16 tries; call again. STOPPED, or OUT_OF_TURN while an operation is pending; of what is no
 * session OUT_OF_TURN and *needed is 0. After AGAIN and STOPPED the words are no image. */
int32_t githoppu_checkpoint(githoppu_session_handle session, uint64_t *words, size_t count, uint64_t *needed, githoppu_session **out);

/* Opens a store, or a queue, from the words of an image, with count sessions, which may be more or fewer than the image is of: DONE, BAD_SIZE,
 * NO_MEMORY, AGAIN, or one of NOT_AN_IMAGE to IMAGE_NUMBERS. Where it is not DONE no slot is written. Every update that was acknowledged before is there. */
int32_t githoppu_recover(const uint64_t *words, size_t words_count, githoppu_session **sessions, size_t count);
int32_t githoppu_recover_queue(const uint64_t *words, size_t words_count, githoppu_session **sessions, size_t count);

/* Opens an object of a program from the words of an image of it, as githoppu_recover does; BAD_PROGRAM comes after BAD_SIZE and before the refusals of the
 * image. An image of a program with another fingerprint is refused, IMAGE_VERSION, unless that fingerprint is `before` (0 for none): then the image is taken
 * over, and the program is run once as an update with the request GITHOPPU_UPGRADE and that fingerprint (githoppu_program.h). */
int32_t githoppu_recover_program(const uint64_t *program, size_t words, uint64_t instructions, uint64_t fuel, uint64_t before, const uint64_t *image,
                                 size_t image_words, githoppu_session **sessions, size_t count);

/* What became of the last update of a session, as the words of an image of a store or a queue say. Sessions are numbered from 0, in the order in which
 * githoppu_open or githoppu_recover put them out. DONE: *number counts the updates of that session that took effect, over all runs since the store was
 * opened empty, and reply is the reply to the last of them; where there was none, *number is 0 and so is each word of the reply. Reads are not counted;
 * malformed operations are. So a program that counts the updates that it submits knows after a crash whether the one that was not acknowledged took
 * effect: it did where *number is one more than the last acknowledged, and then its reply is here. What githoppu_recover opens from these words has the
 * updates that are counted here, and no others. BAD_SIZE, NO_MEMORY, NOT_AN_IMAGE, or one of IMAGE_SIZE to IMAGE_NUMBERS; where it is not DONE nothing is
 * written. */
int32_t githoppu_outcome(const uint64_t *words, size_t words_count, uint64_t session, uint64_t *number, uint64_t reply[144]);

/* Drops a session, in any state, or a closed store. Dropping the last session frees the store or the queue. */
void githoppu_drop(githoppu_either what);

#ifdef __cplusplus
}
#endif

/* Whether the header and the library that is linked are of one version, but for the third number, which changes no call: DONE, OLD_HEADER or OLD_LIBRARY. */
static inline int githoppu_check_version(void) {
    uint64_t library = githoppu_version() / 1000, header = GITHOPPU_VERSION / 1000;
    if (library == header)
        return GITHOPPU_DONE;
    return library > header ? GITHOPPU_OLD_HEADER : GITHOPPU_OLD_LIBRARY;
}

/* What a status says, in one line: of each status of this library, those of files among them. */
static inline const char *githoppu_status_text(int status) {
    switch (status) {
    case GITHOPPU_DONE: return "done";
    case GITHOPPU_PENDING: return "the operation is in the log and not acknowledged yet";
    case GITHOPPU_AGAIN: return "other sessions were in the way";
    case GITHOPPU_FULL: return "another session still reads the last 16 updates of this one";
    case GITHOPPU_WORN: return "the store has had 2^40 updates and takes no more";
    case GITHOPPU_STOPPED: return "the session has reached its limit of steps";
    case GITHOPPU_OUT_OF_TURN: return "the session or the closed store does not take this call now";
    case GITHOPPU_BAD_SIZE: return "a number of lines, sessions or words, or the fuel, is out of range";
    case GITHOPPU_NO_MEMORY: return "out of memory";
    case GITHOPPU_NO_SESSION: return "the pointer to the session or to the closed store is null";
    case GITHOPPU_TOO_LONG: return "a key, a document or a text is too long";
    case GITHOPPU_OTHERS: return "the session is closed, and other sessions are not";
    case GITHOPPU_LOST: return "the last session did not find all that were closed before";
    case GITHOPPU_NOT_AN_IMAGE: return "the words are not an image";
    case GITHOPPU_OTHER_KIND: return "the image is of another kind of object";
    case GITHOPPU_IMAGE_SIZE: return "the image has a wrong number of words";
    case GITHOPPU_IMAGE_ROOT: return "the image's root has a place above 2^40";
    case GITHOPPU_IMAGE_VERSION: return "the version of the object in the image is not known, or it is of another program";
    case GITHOPPU_IMAGE_PLACE: return "the image's root and its replica have different places";
    case GITHOPPU_IMAGE_BODY: return "the image's results or contents are not valid";
    case GITHOPPU_IMAGE_NUMBERS: return "a result in the image has a number above the place";
    case GITHOPPU_OLD_HEADER: return "the library is newer than the header";
    case GITHOPPU_OLD_LIBRARY: return "the header is newer than the library";
    case GITHOPPU_BEHIND: return "the current place is below the one asked for";
    case GITHOPPU_MALFORMED: return "a key, a document or a text is empty or has a byte that it must not have";
    case GITHOPPU_BAD_PROGRAM: return "the words are no program";
    case GITHOPPU_FAULTED: return "the operation ended by a fault and changed nothing";
    case GITHOPPU_NOT_OPENED: return "the file cannot be opened";
    case GITHOPPU_NOT_READ: return "the file cannot be read";
    case GITHOPPU_FILE_FOREIGN: return "the file was not saved by githoppu";
    case GITHOPPU_FILE_LENGTH: return "the file is shorter or longer than it was saved";
    case GITHOPPU_FILE_CHANGED: return "a byte of the file was changed since it was saved";
    case GITHOPPU_FILE_FORMAT: return "the file has a format that this version does not know";
    case GITHOPPU_NOT_MADE: return "the new file cannot be made";
    case GITHOPPU_NOT_WRITTEN: return "the new file cannot be written";
    case GITHOPPU_NOT_SYNCED: return "the new file cannot be synced";
    case GITHOPPU_NOT_RENAMED: return "the new file cannot be renamed";
    case GITHOPPU_FOLDER_NOT_SYNCED: return "the folder of the new file cannot be synced";
    case GITHOPPU_FILE_EMPTY: return "the file is empty";
    case GITHOPPU_NOT_REGULAR: return "the path is a folder, a device, a pipe or a socket";
    default: return "no status of this version of the library";
    }
}

/* ---- Functions over the words of operations and replies. ---- */

/* An operation or a reply. Of documents: word 0 is the kind, 1 and 2 the lengths of the key and of the document, 3 a number, 8 to 15 the key
 * and 16 to 143 the document. Of a queue: word 0 is the kind, 1 the length of the text or the number, and 2 to 8 the text. Texts are packed
 * eight bytes to a word, the first in the lowest bits; what a kind does not use is 0. Of a program: githoppu_program.h. */
typedef struct githoppu_words {
    uint64_t word[144];
} githoppu_words;

/* Word 0 of a reply of a document store. */
enum githoppu_reply {
    GITHOPPU_NO_OPERATION = 0, /* the operation is malformed: a key is 1 to 64 visible ASCII characters, a document 1 to 1,024 bytes from 32 on */
    GITHOPPU_NEW = 1,          /* of put: the key had no document */
    GITHOPPU_REPLACED = 2,     /* of put: it had one */
    GITHOPPU_DELETED = 3,      /* of del */
    GITHOPPU_ABSENT = 4,       /* of del and get: the key has no document; of next: no key is above */
    GITHOPPU_DOC = 5,          /* of get: the document */
    GITHOPPU_SUM = 6,          /* of add: the sum, which is the key's document now */
    GITHOPPU_NOT_NUMBER = 7,   /* of add: the document is no whole number; nothing is changed */
    GITHOPPU_OVERFLOW = 8,     /* of add: the sum does not fit a signed 64-bit number; nothing is changed */
    GITHOPPU_NO_ROOM = 9,      /* of put, putif and add: not enough lines are free; nothing is changed */
    GITHOPPU_KEY = 10,         /* of next: the key */
    GITHOPPU_COUNT = 11,       /* of count: how many documents there are */
    GITHOPPU_SET = 12,         /* of putif: the document is put; its new revision */
    GITHOPPU_STALE = 13,       /* of putif: the key has another revision, which is in the reply, 0 where it is missing; nothing is changed */
    GITHOPPU_REVISION = 14     /* of rev: the key's revision */
};

/* Word 0 of a reply of a queue. */
enum githoppu_queue_reply {
    GITHOPPU_NO_QUEUE_OPERATION = 0, /* the operation is malformed: a text is 1 to 56 visible ASCII characters */
    GITHOPPU_PUSHED = 1,
    GITHOPPU_QUEUE_FULL = 2,         /* of push: each line holds a text; nothing is changed */
    GITHOPPU_TEXT = 3,               /* of pop and peek: the text at the front */
    GITHOPPU_EMPTY = 4,              /* of pop and peek */
    GITHOPPU_LENGTH = 5              /* of len: how many texts there are */
};

/* What the kind of a reply says, word 0 of it, in one line: of a document store, and of a queue. */
static inline const char *githoppu_reply_text(uint64_t kind) {
    switch (kind) {
    case GITHOPPU_NO_OPERATION: return "the operation is malformed";
    case GITHOPPU_NEW: return "put, the key was new";
    case GITHOPPU_REPLACED: return "put, a document was replaced";
    case GITHOPPU_DELETED: return "deleted";
    case GITHOPPU_ABSENT: return "there is no such key";
    case GITHOPPU_DOC: return "the document";
    case GITHOPPU_SUM: return "the sum";
    case GITHOPPU_NOT_NUMBER: return "the document is no whole number";
    case GITHOPPU_OVERFLOW: return "the sum does not fit a signed 64-bit number";
    case GITHOPPU_NO_ROOM: return "not enough lines are free";
    case GITHOPPU_KEY: return "the key";
    case GITHOPPU_COUNT: return "the number of documents";
    case GITHOPPU_SET: return "put, with its new revision";
    case GITHOPPU_STALE: return "the key has another revision";
    case GITHOPPU_REVISION: return "the revision";
    default: return "no reply of this version of the library";
    }
}

static inline const char *githoppu_queue_reply_text(uint64_t kind) {
    switch (kind) {
    case GITHOPPU_NO_QUEUE_OPERATION: return "the operation is malformed";
    case GITHOPPU_PUSHED: return "pushed";
    case GITHOPPU_QUEUE_FULL: return "the queue is full";
    case GITHOPPU_TEXT: return "the text at the front";
    case GITHOPPU_EMPTY: return "the queue is empty";
    case GITHOPPU_LENGTH: return "the number of texts";
    default: return "no reply of this version of the library";
    }
}

/* How often a function of this header calls, and for how many milliseconds since the first refusal, before it returns the last answer: AGAIN, FULL or
 * PENDING. Whichever is over first ends it. Define others before this header. */
#ifndef GITHOPPU_ROUNDS
#define GITHOPPU_ROUNDS 1048576
#endif
#ifndef GITHOPPU_PATIENCE_MS
#define GITHOPPU_PATIENCE_MS 1000
#endif

/* Milliseconds since some moment, by a clock that is never set, in steps of GITHOPPU_CLOCK_STEP. Where <time.h> does not declare that clock, as with -std=c11
 * and neither -pthread nor _POSIX_C_SOURCE, it is the time of day in whole seconds. */
#ifdef CLOCK_MONOTONIC
#define GITHOPPU_CLOCK_STEP 1
static inline uint64_t githoppu_clock(void) {
    struct timespec now;
    return clock_gettime(CLOCK_MONOTONIC, &now) == 0 ? (uint64_t)now.tv_sec * 1000 + (uint64_t)now.tv_nsec / 1000000 : 0;
}
#else
#define GITHOPPU_CLOCK_STEP 1000
static inline uint64_t githoppu_clock(void) { return (uint64_t)time(NULL) * 1000; }
#endif

/* How patient a function has been: how many rounds were refused, and since when. */
typedef struct githoppu_patience {
    uint64_t since;
    long rounds;
} githoppu_patience;

/* After a round that was refused: yields, and says whether another is to be made. */
static inline int githoppu_goes_on(githoppu_patience *patience) {
    uint64_t now = githoppu_clock();
    if (patience->rounds == 0)
        patience->since = now;
    patience->rounds++;
    if (patience->rounds >= GITHOPPU_ROUNDS || now - patience->since >= (uint64_t)(GITHOPPU_PATIENCE_MS) + GITHOPPU_CLOCK_STEP)
        return 0;
    GITHOPPU_YIELD();
    return 1;
}

/* Packs bytes into words, on a machine of any byte order. */
static inline void githoppu_pack(uint64_t *words, const char *bytes, size_t length) {
    size_t i;
    for (i = 0; i < length; i++)
        words[i / 8] |= (uint64_t)(unsigned char)bytes[i] << (8 * (i % 8));
}

/* Unpacks the first length bytes of words, and puts a 0 after them: into has room for length + 1. */
static inline void githoppu_unpack(char *into, const uint64_t *words, size_t length) {
    size_t i;
    for (i = 0; i < length; i++)
        into[i] = (char)(unsigned char)(words[i / 8] >> (8 * (i % 8)));
    into[length] = 0;
}

/* MALFORMED in place of DONE where the reply is that of a malformed operation. */
static inline int githoppu_answered(int status, const githoppu_words *reply) {
    return status == GITHOPPU_DONE && reply->word[0] == GITHOPPU_NO_OPERATION ? GITHOPPU_MALFORMED : status;
}

static inline int githoppu_end_within(githoppu_session **session, githoppu_words *reply, githoppu_patience *patience) {
    int status;
    do {
        githoppu_session_handle handle;
        handle.at = *session;
        status = githoppu_finish(handle, reply->word, 16, session);
    } while (status == GITHOPPU_PENDING && githoppu_goes_on(patience));
    return githoppu_answered(status, reply);
}

/* Finishes a pending operation. What githoppu_finish answers, MALFORMED or NO_SESSION; PENDING only after GITHOPPU_ROUNDS rounds or GITHOPPU_PATIENCE_MS
 * milliseconds: call it again. */
static inline int githoppu_end(githoppu_session **session, githoppu_words *reply) {
    githoppu_patience patience = {0, 0};
    return *session == NULL ? GITHOPPU_NO_SESSION : githoppu_end_within(session, reply, &patience);
}

/* Does an operation, and tries again until it is answered. What githoppu_call answers, MALFORMED or NO_SESSION; AGAIN, FULL and PENDING only after
 * GITHOPPU_ROUNDS rounds or GITHOPPU_PATIENCE_MS milliseconds. After AGAIN and FULL the operation is not in the log, and can be done again. After PENDING it
 * is in the log: finish it by githoppu_end. */
static inline int githoppu_do(githoppu_session **session, const githoppu_words *op, githoppu_words *reply) {
    githoppu_patience patience = {0, 0};
    int status;
    if (*session == NULL)
        return GITHOPPU_NO_SESSION;
    do {
        githoppu_session_handle handle;
        handle.at = *session;
        status = githoppu_call(handle, op->word, reply->word, 16, session);
    } while ((status == GITHOPPU_AGAIN || status == GITHOPPU_FULL) && githoppu_goes_on(&patience));
    return status == GITHOPPU_PENDING ? githoppu_end_within(session, reply, &patience) : githoppu_answered(status, reply);
}

/* The place that tells another session what this one has seen: 0 where the session is null. */
static inline uint64_t githoppu_place(githoppu_session **session) {
    githoppu_session_handle handle;
    uint64_t place = 0;
    handle.at = *session;
    if (handle.at != NULL)
        (void)githoppu_place_of(handle, &place, session);
    return place;
}

/* Has a session see a place that another one told: what githoppu_see_place answers, or NO_SESSION. */
static inline int githoppu_catch_up(githoppu_session **session, uint64_t place) {
    githoppu_session_handle handle;
    handle.at = *session;
    return handle.at == NULL ? GITHOPPU_NO_SESSION : githoppu_see_place(handle, place, session);
}

/* Closes a session, and tries again while others are in the way. What githoppu_close answers, or NO_SESSION; AGAIN only after GITHOPPU_ROUNDS rounds or
 * GITHOPPU_PATIENCE_MS milliseconds. At DONE the closed store is at *closed, else nothing is written there. *session is null where the session is closed,
 * and else what is to be closed again. */
static inline int githoppu_close_one(githoppu_session **session, githoppu_closed **closed) {
    githoppu_patience patience = {0, 0};
    githoppu_either left;
    int status;
    if (*session == NULL)
        return GITHOPPU_NO_SESSION;
    do {
        githoppu_session_handle handle;
        handle.at = *session;
        status = githoppu_close(handle, &left);
        *session = status == GITHOPPU_DONE || status == GITHOPPU_OTHERS ? NULL : left.session;
    } while (status == GITHOPPU_AGAIN && githoppu_goes_on(&patience));
    if (status == GITHOPPU_DONE)
        *closed = left.closed;
    return status;
}

/* Closes sessions in turn; a slot that is null is skipped. What the last closing answered, or NO_SESSION where all are null: DONE where that closed
 * the store, OTHERS where other sessions of it are open. It ends at the first answer that is not OTHERS; what is left in the slots is open. After
 * NO_MEMORY call it again. */
static inline int githoppu_close_all(githoppu_session **sessions, size_t count, githoppu_closed **closed) {
    int status = GITHOPPU_NO_SESSION;
    size_t i;
    for (i = 0; i < count && (status == GITHOPPU_NO_SESSION || status == GITHOPPU_OTHERS); i++)
        if (sessions[i] != NULL)
            status = githoppu_close_one(&sessions[i], closed);
    return status;
}

/* How many words an image of a closed store has: DONE, or NO_SESSION. */
static inline int githoppu_image_size(githoppu_closed **closed, uint64_t *count) {
    githoppu_closed_handle handle;
    uint64_t none = 0;
    int status;
    handle.at = *closed;
    if (handle.at == NULL)
        return GITHOPPU_NO_SESSION;
    status = githoppu_image(handle, 0, &none, 0, count, closed);
    return status == GITHOPPU_BAD_SIZE ? GITHOPPU_DONE : status;
}

/* Writes an image of a closed store: what githoppu_image answers, or NO_SESSION. */
static inline int githoppu_image_into(githoppu_closed **closed, uint64_t choice, uint64_t *words, size_t count) {
    githoppu_closed_handle handle;
    uint64_t needed;
    handle.at = *closed;
    return handle.at == NULL ? GITHOPPU_NO_SESSION : githoppu_image(handle, choice, words, count, &needed, closed);
}

/* How many words an image of the store of a running session has: DONE, or NO_SESSION. */
static inline int githoppu_checkpoint_size(githoppu_session **session, uint64_t *count) {
    githoppu_session_handle handle;
    uint64_t none = 0;
    int status;
    handle.at = *session;
    if (handle.at == NULL)
        return GITHOPPU_NO_SESSION;
    status = githoppu_checkpoint(handle, &none, 0, count, session);
    return status == GITHOPPU_BAD_SIZE ? GITHOPPU_DONE : status;
}

/* Takes an image of a running store or queue, and tries again while others are in the way. What githoppu_checkpoint answers, or NO_SESSION; AGAIN only
 * after GITHOPPU_ROUNDS rounds or GITHOPPU_PATIENCE_MS milliseconds. */
static inline int githoppu_checkpoint_into(githoppu_session **session, uint64_t *words, size_t count) {
    githoppu_patience patience = {0, 0};
    int status;
    if (*session == NULL)
        return GITHOPPU_NO_SESSION;
    do {
        githoppu_session_handle handle;
        uint64_t needed;
        handle.at = *session;
        status = githoppu_checkpoint(handle, words, count, &needed, session);
    } while (status == GITHOPPU_AGAIN && githoppu_goes_on(&patience));
    return status;
}

/* Drops sessions of a store or a queue. Each slot is null afterwards; one that is null is skipped. */
static inline void githoppu_give_up(githoppu_session **sessions, size_t count) {
    size_t i;
    for (i = 0; i < count; i++) {
        githoppu_either it;
        it.session = sessions[i];
        sessions[i] = NULL;
        if (it.session != NULL)
            githoppu_drop(it);
    }
}

/* Drops a closed store or queue. The slot is null afterwards; one that is null is let be. */
static inline void githoppu_give_up_closed(githoppu_closed **closed) {
    githoppu_either it;
    it.closed = *closed;
    *closed = NULL;
    if (it.closed != NULL)
        githoppu_drop(it);
}

/* The words of an operation of documents. DONE or TOO_LONG. */
static inline int githoppu_document_op(githoppu_words *op, uint64_t kind, const char *key, const char *document, size_t length, int64_t number) {
    size_t key_length = strlen(key);
    memset(op, 0, sizeof *op);
    if (key_length > 64 || length > 1024)
        return GITHOPPU_TOO_LONG;
    op->word[0] = kind;
    op->word[1] = key_length;
    op->word[2] = length;
    op->word[3] = (uint64_t)number;
    githoppu_pack(op->word + 8, key, key_length);
    githoppu_pack(op->word + 16, document, length);
    return GITHOPPU_DONE;
}

static inline int githoppu_document_call(githoppu_session **session, uint64_t kind, const char *key, const char *document, size_t length, int64_t number,
                                         githoppu_words *reply) {
    githoppu_words op;
    int status = githoppu_document_op(&op, kind, key, document, length, number);
    return status == GITHOPPU_DONE ? githoppu_do(session, &op, reply) : status;
}

/* Puts a document at a key: NEW, REPLACED or NO_ROOM in the reply. A key has 1 to 64 bytes, each a visible ASCII character (33 to 126: no space), and
 * ends by a 0. A document has 1 to 1,024 bytes from 32 on: no control character, as a line feed or a tab, but any byte above, so UTF-8 too.
 *
 * These, and what follows, answer as githoppu_do does, and TOO_LONG: at DONE the reply says what was done; MALFORMED where a byte is none of these, or a
 * key or document is empty, and nothing is changed. */
static inline int githoppu_put(githoppu_session **session, const char *key, const char *document, size_t length, githoppu_words *reply) {
    return githoppu_document_call(session, 1, key, document, length, 0, reply);
}

/* Deletes the document of a key: DELETED or ABSENT. */
static inline int githoppu_del(githoppu_session **session, const char *key, githoppu_words *reply) {
    return githoppu_document_call(session, 2, key, "", 0, 0, reply);
}

/* Adds to the number that is the document of a key, and is 0 where there is none: SUM (githoppu_sum), NOT_NUMBER, OVERFLOW or NO_ROOM. */
static inline int githoppu_add(githoppu_session **session, const char *key, int64_t amount, githoppu_words *reply) {
    return githoppu_document_call(session, 3, key, "", 0, amount, reply);
}

/* Reads the document of a key: DOC (githoppu_document) or ABSENT. */
static inline int githoppu_get(githoppu_session **session, const char *key, githoppu_words *reply) {
    return githoppu_document_call(session, 4, key, "", 0, 0, reply);
}

/* Reads the least key above one, or above none where that is "": KEY (githoppu_key) or ABSENT. */
static inline int githoppu_next(githoppu_session **session, const char *above, githoppu_words *reply) {
    return githoppu_document_call(session, 5, above, "", 0, 0, reply);
}

/* Reads how many documents there are: COUNT (githoppu_number). */
static inline int githoppu_count(githoppu_session **session, githoppu_words *reply) {
    return githoppu_document_call(session, 6, "", "", 0, 0, reply);
}

/* Puts a document at a key where the key has this revision, 0 where it is missing: SET, STALE (githoppu_number of both) or NO_ROOM. */
static inline int githoppu_putif(githoppu_session **session, const char *key, const char *document, size_t length, uint64_t revision, githoppu_words *reply) {
    return githoppu_document_call(session, 7, key, document, length, (int64_t)revision, reply);
}

/* Reads the revision of a key: REVISION (githoppu_number) or ABSENT. */
static inline int githoppu_rev(githoppu_session **session, const char *key, githoppu_words *reply) {
    return githoppu_document_call(session, 8, key, "", 0, 0, reply);
}

/* The words of an operation of a queue. DONE or TOO_LONG. */
static inline int githoppu_queue_op(githoppu_words *op, uint64_t kind, const char *text) {
    size_t length = strlen(text);
    memset(op, 0, sizeof *op);
    if (length > 56)
        return GITHOPPU_TOO_LONG;
    op->word[0] = kind;
    op->word[1] = length;
    githoppu_pack(op->word + 2, text, length);
    return GITHOPPU_DONE;
}

static inline int githoppu_queue_call(githoppu_session **session, uint64_t kind, const char *text, githoppu_words *reply) {
    githoppu_words op;
    int status = githoppu_queue_op(&op, kind, text);
    return status == GITHOPPU_DONE ? githoppu_do(session, &op, reply) : status;
}

/* Puts a text after the last one: PUSHED or QUEUE_FULL. A text has 1 to 56 bytes, each a visible ASCII character (33 to 126), and ends by a 0. */
static inline int githoppu_push(githoppu_session **session, const char *text, githoppu_words *reply) {
    return githoppu_queue_call(session, 1, text, reply);
}

/* Takes the text at the front: TEXT (githoppu_text) or EMPTY. */
static inline int githoppu_pop(githoppu_session **session, githoppu_words *reply) {
    return githoppu_queue_call(session, 2, "", reply);
}

/* Reads the text at the front: TEXT or EMPTY. */
static inline int githoppu_peek(githoppu_session **session, githoppu_words *reply) {
    return githoppu_queue_call(session, 3, "", reply);
}

/* Reads how many texts there are: LENGTH (githoppu_length). */
static inline int githoppu_len(githoppu_session **session, githoppu_words *reply) {
    return githoppu_queue_call(session, 4, "", reply);
}

/* ---- What a reply says. Each buffer ends by a 0, and the length without it is given. ---- */

static inline size_t githoppu_document(const githoppu_words *reply, char into[1025]) {
    size_t length = reply->word[2] > 1024 ? 1024 : (size_t)reply->word[2];
    githoppu_unpack(into, reply->word + 16, length);
    return length;
}

static inline size_t githoppu_key(const githoppu_words *reply, char into[65]) {
    size_t length = reply->word[1] > 64 ? 64 : (size_t)reply->word[1];
    githoppu_unpack(into, reply->word + 8, length);
    return length;
}

static inline size_t githoppu_text(const githoppu_words *reply, char into[57]) {
    size_t length = reply->word[1] > 56 ? 56 : (size_t)reply->word[1];
    githoppu_unpack(into, reply->word + 2, length);
    return length;
}

static inline int64_t githoppu_sum(const githoppu_words *reply) { return (int64_t)reply->word[3]; }
static inline uint64_t githoppu_number(const githoppu_words *reply) { return reply->word[3]; }
static inline uint64_t githoppu_length(const githoppu_words *reply) { return reply->word[1]; }

/* ---- Objects of programs: data structures of one's own in C (docs/OBJECTS_IN_C.md). ---- */

/* A program. `tools/program FILE.c -o FILE.h` writes one as a constant, by the name of the file. */
typedef struct githoppu_program {
    const uint64_t *words;
    size_t count;          /* of words */
    uint64_t instructions; /* the first ones are instructions, the others constants */
    uint64_t fuel;         /* how many instructions one operation may take, at most 2^20 */
} githoppu_program;

/* Why words are no program: *fault of githoppu_program_fault. */
enum githoppu_refusal {
    GITHOPPU_REFUSED_LENGTH = 1,   /* there are no instructions, more than 65,536, or more than there are words */
    GITHOPPU_REFUSED_OPCODE = 2,   /* an operation that is not known */
    GITHOPPU_REFUSED_UNUSED = 3,   /* a field that the instruction does not use is not zero */
    GITHOPPU_REFUSED_REGISTER = 4, /* a register above 10, or one above 9 that is written */
    GITHOPPU_REFUSED_TARGET = 5,   /* a jump or a call that leads to no instruction */
    GITHOPPU_REFUSED_END = 6,      /* the last instruction goes on behind the end */
    GITHOPPU_REFUSED_HELPER = 7,   /* a call of a helper, or by an address in a register */
    GITHOPPU_REFUSED_MAP = 8,      /* an address of a map */
    GITHOPPU_REFUSED_ATOMIC = 9,   /* an atomic operation */
    GITHOPPU_REFUSED_PACKET = 10   /* an access to a packet */
};

static inline const char *githoppu_refusal_text(uint64_t fault) {
    switch (fault) {
    case 0: return "the words are a program";
    case GITHOPPU_REFUSED_LENGTH: return "it has no instructions, more than 65,536, or more than there are words";
    case GITHOPPU_REFUSED_OPCODE: return "an operation that is not known";
    case GITHOPPU_REFUSED_UNUSED: return "a field that the instruction does not use is not zero";
    case GITHOPPU_REFUSED_REGISTER: return "a register that there is none of, or a write of register 10";
    case GITHOPPU_REFUSED_TARGET: return "a jump or a call that leads to no instruction";
    case GITHOPPU_REFUSED_END: return "the last instruction goes on behind the end";
    case GITHOPPU_REFUSED_HELPER: return "a call of a helper, or by an address in a register";
    case GITHOPPU_REFUSED_MAP: return "an address of a map";
    case GITHOPPU_REFUSED_ATOMIC: return "an atomic operation";
    case GITHOPPU_REFUSED_PACKET: return "an access to a packet";
    default: return "no refusal of this version of the library";
    }
}

/* What word 0 of a reply says of a run, in one line. */
static inline const char *githoppu_fault_text(uint64_t kind) {
    switch (kind) {
    case GITHOPPU_RAN: return "the function returned";
    case GITHOPPU_BAD_ADDRESS: return "an address that is no place to load from or store to";
    case GITHOPPU_UNALIGNED: return "an address that is no multiple of the bytes that are loaded or stored";
    case GITHOPPU_STORE_IN_READ: return "a store to the state in an operation that only reads";
    case GITHOPPU_TOO_MANY_STORES: return "more than 256 stores to the state";
    case GITHOPPU_OUT_OF_FUEL: return "more instructions than an operation may take";
    case GITHOPPU_TOO_DEEP: return "more than 7 calls within one another";
    case GITHOPPU_NO_INSTRUCTION: return "no instruction is there";
    default: return "no reply of this version of the library";
    }
}

/* Puts text behind what is in a buffer that ends by a 0, as far as there is room. */
static inline void githoppu_append(char *text, size_t size, const char *more) {
    size_t at = strlen(text), i;
    for (i = 0; more[i] != 0 && at + 1 < size; i++)
        text[at++] = more[i];
    text[at] = 0;
}

/* Writes in one line why a program is refused, with the number of the instruction, or that the words are a program, and cuts the line to `size` bytes with
 * the 0 behind it; where the size is 0 nothing is written, and the text may be null. DONE, BAD_PROGRAM or NO_MEMORY. */
static inline int githoppu_program_why(const githoppu_program *program, char *text, size_t size) {
    uint64_t fault = 0, at = 0;
    char number[24];
    size_t digit = sizeof number - 1;
    int status = githoppu_program_fault(program->words, program->count, program->instructions, &fault, &at);
    if (size == 0)
        return status;
    text[0] = 0;
    if (status == GITHOPPU_BAD_PROGRAM && fault != GITHOPPU_REFUSED_LENGTH) {
        number[digit] = 0;
        do
            number[--digit] = (char)('0' + (int)(at % 10));
        while ((at /= 10) != 0);
        githoppu_append(text, size, "instruction ");
        githoppu_append(text, size, number + digit);
        githoppu_append(text, size, ": ");
    }
    githoppu_append(text, size, status == GITHOPPU_NO_MEMORY ? githoppu_status_text(status) : githoppu_refusal_text(fault));
    return status;
}

/* Opens an object of a program: what githoppu_open_program answers. */
static inline int githoppu_open_object(const githoppu_program *program, uint64_t lines, githoppu_session **sessions, size_t count) {
    return githoppu_open_program(program->words, program->count, program->instructions, program->fuel, lines, sessions, count);
}

/* Opens it from the words of an image: what githoppu_recover_program answers. `before` is another program whose images are taken over, or null for none;
 * where it is no program, or its fuel is above 2^20, that is answered first, by the same statuses. */
static inline int githoppu_recover_object(const githoppu_program *program, const githoppu_program *before, const uint64_t *image, size_t image_words,
                                          githoppu_session **sessions, size_t count) {
    uint64_t fingerprint = 0;
    int status = GITHOPPU_DONE;
    if (before != NULL)
        status = githoppu_program_fingerprint(before->words, before->count, before->instructions, before->fuel, &fingerprint);
    return status != GITHOPPU_DONE ? status
                                   : githoppu_recover_program(program->words, program->count, program->instructions, program->fuel, fingerprint, image,
                                                              image_words, sessions, count);
}

/* FAULTED in place of DONE where the run ended by a fault. */
static inline int githoppu_ran(int status, const githoppu_words *reply) {
    return status == GITHOPPU_DONE && reply->word[0] != GITHOPPU_RAN ? GITHOPPU_FAULTED : status;
}

/* Runs an operation whose request begins with these words, 144 at most, and has zeros behind them. What githoppu_do answers, TOO_LONG, or FAULTED; after
 * PENDING finish it by githoppu_end. */
static inline int githoppu_request(githoppu_session **session, const uint64_t *words, size_t count, githoppu_words *reply) {
    githoppu_words request;
    if (count > 144)
        return GITHOPPU_TOO_LONG;
    memset(&request, 0, sizeof request);
    memcpy(request.word, words, count * sizeof *words);
    return githoppu_ran(githoppu_do(session, &request, reply), reply);
}

/* Runs an operation, whose number is GITHOPPU_UPDATE(n) or GITHOPPU_READ(n), with three numbers as words 1 to 3 of the request: as githoppu_request does. */
static inline int githoppu_ask(githoppu_session **session, uint64_t operation, uint64_t first, uint64_t second, uint64_t third, githoppu_words *reply) {
    uint64_t words[4];
    words[0] = operation;
    words[1] = first;
    words[2] = second;
    words[3] = third;
    return githoppu_request(session, words, 4, reply);
}

/* Of a run that returned: what the function returned, and the words of its reply, 136 of them. */
static inline uint64_t githoppu_returned(const githoppu_words *reply) { return reply->word[1]; }
static inline const uint64_t *githoppu_replied(const githoppu_words *reply) { return reply->word + 8; }

/* Of a run that a fault ended: the number of the instruction, and the address. */
static inline uint64_t githoppu_fault_at(const githoppu_words *reply) { return reply->word[1]; }
static inline uint64_t githoppu_fault_address(const githoppu_words *reply) { return reply->word[2]; }

#endif
