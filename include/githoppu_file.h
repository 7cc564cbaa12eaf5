/* Images of Githoppu in files, for C99, C11 and C++ on POSIX systems (Linux, macOS, BSD). Include it in place of githoppu.h or after it. With -std=c99 or
 * -std=c11 define _POSIX_C_SOURCE as 200809L before the first header.
 *
 * A save writes a new file beside the old one, syncs it, renames it over the old one, and syncs the folder. So after a crash of the machine the path
 * has the old file or the new one, each whole. A load reads the file, checks its checksum, and opens the store or the queue that it holds. Files are the
 * same from C and from Rust, on machines of any byte order.
 *
 * WHAT A SAVE REPLACES. Where the path is a symbolic link, the file that it leads to. The new file has the permission bits of the old one, and its owner and
 * group where the process may give them; where it may not give the group, the group's bits are those of others. Where there is no old file, the bits are
 * 0666 less the umask. A folder, a device, a pipe and a socket are refused and left. Access lists and extended attributes are not kept, and another hard
 * link to the old file keeps that.
 *
 * The new file is .githoppu.N.new in the same folder, with the least N from 0 on that is free, and is locked (flock) until it is renamed. A save that was
 * killed leaves it; the next save in this folder removes each that nobody locks.
 *
 * THE FILE: 64-bit words, each with its lowest byte first. Words 0 to 3 are the head: the name "githfile" in bytes, the format 1 of files, the number of
 * words of the image, and the CRC-32C of the first 24 bytes. Then the words of the image, and last the CRC-32C of all bytes before it. (CRC-32C is the
 * checksum of RFC 3720; its upper 32 bits are 0 here.) It finds each change of up to 32 bits in a row, and other changes but for one in 2^32; it is no
 * protection against who wants to deceive. A save writes an image of format 2, of one replica; a load takes an image of either format.
 *
 * What is tested: `bindings/c/file_tests.c`. Nothing in this header is proved.
 */
#ifndef GITHOPPU_FILE_H
#define GITHOPPU_FILE_H

#include "githoppu.h"

#include <errno.h>
#include <fcntl.h>
#include <stdio.h>
#include <stdlib.h>
#include <sys/file.h>
#include <sys/stat.h>
#include <unistd.h>

/* What the functions below answer stands in githoppu.h, from NOT_OPENED on, and githoppu_status_text says it in words. Where a call of the system failed, errno
 * says why. After a status of a save other than FOLDER_NOT_SYNCED the path has the file that it had before. */

/* ---- CRC-32C over bytes. ---- */

typedef struct githoppu_crc {
    uint32_t table[256];
    uint32_t state;
} githoppu_crc;

static inline void githoppu_crc_start(githoppu_crc *crc) {
    uint32_t i, k, value;
    for (i = 0; i < 256; i++) {
        value = i;
        for (k = 0; k < 8; k++)
            value = value & 1 ? (value >> 1) ^ UINT32_C(0x82F63B78) : value >> 1;
        crc->table[i] = value;
    }
    crc->state = UINT32_C(0xFFFFFFFF);
}

static inline void githoppu_crc_add(githoppu_crc *crc, const unsigned char *bytes, size_t length) {
    size_t i;
    for (i = 0; i < length; i++)
        crc->state = crc->table[(crc->state ^ bytes[i]) & 255] ^ (crc->state >> 8);
}

static inline uint64_t githoppu_crc_value(const githoppu_crc *crc) { return crc->state ^ UINT32_C(0xFFFFFFFF); }

static inline uint64_t githoppu_crc_of(const unsigned char *bytes, size_t length) {
    githoppu_crc crc;
    githoppu_crc_start(&crc);
    githoppu_crc_add(&crc, bytes, length);
    return githoppu_crc_value(&crc);
}

/* ---- The bytes of a file. ---- */

enum { GITHOPPU_FILE_HEAD = 32, GITHOPPU_FILE_ENDS = 40 };

#define GITHOPPU_FILE_NAME "githfile"

static inline void githoppu_put_word(unsigned char *bytes, uint64_t word) {
    int i;
    for (i = 0; i < 8; i++)
        bytes[i] = (unsigned char)(word >> (8 * i));
}

static inline uint64_t githoppu_word_at(const unsigned char *bytes) {
    uint64_t word = 0;
    int i;
    for (i = 7; i >= 0; i--)
        word = word << 8 | bytes[i];
    return word;
}

/* The bytes of the file of an image, 8 * count + GITHOPPU_FILE_ENDS of them, which the caller frees; null where there is no memory. */
static inline unsigned char *githoppu_file_bytes(const uint64_t *words, size_t count) {
    unsigned char *bytes;
    size_t i, length = GITHOPPU_FILE_HEAD + 8 * count;
    if (count > (SIZE_MAX - GITHOPPU_FILE_ENDS) / 8)
        return NULL;
    bytes = (unsigned char *)malloc(length + 8);
    if (bytes == NULL)
        return NULL;
    memcpy(bytes, GITHOPPU_FILE_NAME, 8);
    githoppu_put_word(bytes + 8, 1);
    githoppu_put_word(bytes + 16, count);
    githoppu_put_word(bytes + 24, githoppu_crc_of(bytes, 24));
    for (i = 0; i < count; i++)
        githoppu_put_word(bytes + GITHOPPU_FILE_HEAD + 8 * i, words[i]);
    githoppu_put_word(bytes + length, githoppu_crc_of(bytes, length));
    return bytes;
}

/* Whether the head's checksum is right where the name is put right first. */
static inline int githoppu_head_is(const unsigned char *bytes) {
    githoppu_crc crc;
    githoppu_crc_start(&crc);
    githoppu_crc_add(&crc, (const unsigned char *)GITHOPPU_FILE_NAME, 8);
    githoppu_crc_add(&crc, bytes + 8, 16);
    return githoppu_crc_value(&crc) == githoppu_word_at(bytes + 24);
}

/* What is wrong with the bytes of a file: DONE where they are those that a save wrote, and the image's words begin at GITHOPPU_FILE_HEAD; else FILE_EMPTY,
 * FILE_FOREIGN, FILE_LENGTH, FILE_CHANGED or FILE_FORMAT. A file whose name alone was changed is FILE_CHANGED and not FILE_FOREIGN, since the head's checksum
 * is right. */
static inline int githoppu_file_fault(const unsigned char *bytes, size_t length) {
    int named = memcmp(bytes, GITHOPPU_FILE_NAME, length < 8 ? length : 8) == 0;
    if (length == 0)
        return GITHOPPU_FILE_EMPTY;
    if (length < GITHOPPU_FILE_ENDS)
        return named ? GITHOPPU_FILE_LENGTH : GITHOPPU_FILE_FOREIGN;
    if (!githoppu_head_is(bytes))
        return named ? GITHOPPU_FILE_CHANGED : GITHOPPU_FILE_FOREIGN;
    if (!named)
        return GITHOPPU_FILE_CHANGED;
    if (githoppu_word_at(bytes + 8) != 1)
        return GITHOPPU_FILE_FORMAT;
    if (length % 8 != 0 || (length - GITHOPPU_FILE_ENDS) / 8 != githoppu_word_at(bytes + 16))
        return GITHOPPU_FILE_LENGTH;
    if (githoppu_crc_of(bytes, length - 8) != githoppu_word_at(bytes + length - 8))
        return GITHOPPU_FILE_CHANGED;
    return GITHOPPU_DONE;
}

/* ---- Saving. ---- */

/* Where a save goes to: a folder, which is open, and a name in it; the file that is replaced, where there is one; and the name of the new file. */
typedef struct githoppu_target {
    char *path;
    const char *name;
    int folder, replaces;
    struct stat old;
    char made[32];
} githoppu_target;

/* The most symbolic links that a save follows, the names that are looked at for what ended processes left, and the most new files of one folder at once. */
enum { GITHOPPU_LINKS = 40, GITHOPPU_LEFT = 64, GITHOPPU_NEW_FILES = 1000 };

/* The path that a symbolic link leads to, which the caller frees; null with errno, which is EINVAL of what is no link and ENOENT of what is not there. */
static inline char *githoppu_link_target(const char *path) {
    const char *slash = strrchr(path, '/');
    size_t before = slash == NULL ? 0 : (size_t)(slash - path) + 1, room = 4096;
    char *target = (char *)malloc(before + room + 1);
    ssize_t length;
    int why;
    if (target == NULL) {
        errno = ENOMEM;
        return NULL;
    }
    length = readlink(path, target + before, room);
    if (length < 0 || (size_t)length == room) {
        why = length < 0 ? errno : ENAMETOOLONG;
        free(target);
        errno = why;
        return NULL;
    }
    target[before + (size_t)length] = 0;
    if (target[before] == '/')
        memmove(target, target + before, (size_t)length + 1);
    else
        memcpy(target, path, before);
    return target;
}

/* The path behind all symbolic links at a path, which the caller frees; null with errno. */
static inline char *githoppu_behind_links(const char *path) {
    size_t length = strlen(path) + 1;
    char *here = (char *)malloc(length), *next;
    int links, why;
    if (here == NULL) {
        errno = ENOMEM;
        return NULL;
    }
    memcpy(here, path, length);
    for (links = 0; (next = githoppu_link_target(here)) != NULL && links < GITHOPPU_LINKS; links++) {
        free(here);
        here = next;
    }
    why = next == NULL ? errno : ELOOP;
    if (why == EINVAL || why == ENOENT)
        return here;
    free(next);
    free(here);
    errno = why;
    return NULL;
}

static inline void githoppu_leave(githoppu_target *target) {
    int why = errno;
    if (target->folder >= 0)
        close(target->folder);
    free(target->path);
    errno = why;
}

/* Opens the folder of a path, and looks at what the path has. DONE; NO_MEMORY, NOT_MADE or NOT_REGULAR (errno). githoppu_leave ends it in any case. */
static inline int githoppu_find_target(const char *path, githoppu_target *target) {
    char *slash;
    target->folder = -1;
    target->replaces = 0;
    target->path = githoppu_behind_links(path);
    if (target->path == NULL)
        return errno == ENOMEM ? GITHOPPU_NO_MEMORY : GITHOPPU_NOT_MADE;
    slash = strrchr(target->path, '/');
    target->name = slash == NULL ? target->path : slash + 1;
    if (*target->name == 0) {
        errno = slash == NULL ? ENOENT : EISDIR;
        return slash == NULL ? GITHOPPU_NOT_MADE : GITHOPPU_NOT_REGULAR;
    }
    if (slash != NULL)
        *slash = 0;
    target->folder = open(slash == NULL ? "." : slash == target->path ? "/" : target->path, O_RDONLY | O_DIRECTORY | O_CLOEXEC);
    if (target->folder < 0)
        return GITHOPPU_NOT_MADE;
    if (fstatat(target->folder, target->name, &target->old, AT_SYMLINK_NOFOLLOW) != 0)
        return errno == ENOENT ? GITHOPPU_DONE : GITHOPPU_NOT_MADE;
    target->replaces = 1;
    if (S_ISREG(target->old.st_mode))
        return GITHOPPU_DONE;
    errno = S_ISDIR(target->old.st_mode) ? EISDIR : EINVAL;
    return GITHOPPU_NOT_REGULAR;
}

static inline int githoppu_write_bytes(int file, const unsigned char *bytes, size_t length) {
    while (length > 0) {
        ssize_t written = write(file, bytes, length < (size_t)1 << 30 ? length : (size_t)1 << 30);
        if (written < 0 && errno == EINTR)
            continue;
        if (written <= 0)
            return -1;
        bytes += written;
        length -= (size_t)written;
    }
    return 0;
}

/* Whether the new file of a target is this one, a regular one. */
static inline int githoppu_is_made(const githoppu_target *target, int file) {
    struct stat about, named;
    return fstat(file, &about) == 0 && S_ISREG(about.st_mode) && fstatat(target->folder, target->made, &named, AT_SYMLINK_NOFOLLOW) == 0 &&
           about.st_dev == named.st_dev && about.st_ino == named.st_ino;
}

/* Removes the new file of this name, where an ended process left it: nobody locks it. Who removes or renames a new file has it locked, so no other one can take
 * its name in between. */
static inline void githoppu_remove_left(const githoppu_target *target) {
    int flags = O_NOFOLLOW | O_NONBLOCK | O_CLOEXEC, file = openat(target->folder, target->made, O_RDWR | flags);
    if (file < 0 && errno == EACCES)
        file = openat(target->folder, target->made, O_RDONLY | flags);
    if (file < 0)
        return;
    if (flock(file, LOCK_EX | LOCK_NB) == 0 && githoppu_is_made(target, file))
        unlinkat(target->folder, target->made, 0);
    close(file);
}

/* Makes a new file, and locks it. The file, or -1 with errno. */
static inline int githoppu_new_file(githoppu_target *target) {
    int at, file, is_ours;
    for (at = 0; at < GITHOPPU_LEFT; at++) {
        sprintf(target->made, ".githoppu.%d.new", at);
        githoppu_remove_left(target);
    }
    for (at = 0; at < GITHOPPU_NEW_FILES; at++) {
        sprintf(target->made, ".githoppu.%d.new", at);
        file = openat(target->folder, target->made, O_WRONLY | O_CREAT | O_EXCL | O_CLOEXEC, target->replaces ? 0600 : 0666);
        if (file < 0 && errno == EEXIST)
            continue;
        if (file < 0)
            return -1;
        /* another save can take it for one that was left, until it is locked; where the system locks no files, none is removed */
        is_ours = (flock(file, LOCK_EX | LOCK_NB) == 0 || errno != EWOULDBLOCK) && githoppu_is_made(target, file);
        if (is_ours)
            return file;
        close(file);
    }
    errno = EEXIST;
    return -1;
}

/* Gives the new file the rights of the one that it replaces. 0, or -1 with errno. */
static inline int githoppu_keep_rights(int file, const struct stat *old) {
    mode_t mode = old->st_mode & 0777;
    struct stat now;
    if (fstat(file, &now) != 0)
        return -1;
    if ((now.st_uid != old->st_uid || now.st_gid != old->st_gid) && fchown(file, old->st_uid, old->st_gid) != 0 && now.st_gid != old->st_gid &&
        fchown(file, (uid_t)-1, old->st_gid) != 0)
        mode = (mode & 0707) | (mode & 07) << 3;
    return (now.st_mode & 0777) == mode ? 0 : fchmod(file, mode);
}

/* After a fault: closes and removes the new file, with errno as the fault left it. */
static inline int githoppu_not_saved(const githoppu_target *target, int file, int status) {
    int why = errno;
    unlinkat(target->folder, target->made, 0);
    close(file);
    errno = why;
    return status;
}

static inline int githoppu_save_bytes(githoppu_target *target, const unsigned char *bytes, size_t length) {
    int file = githoppu_new_file(target);
    if (file < 0)
        return GITHOPPU_NOT_MADE;
    if (githoppu_write_bytes(file, bytes, length) != 0 || (target->replaces && githoppu_keep_rights(file, &target->old) != 0))
        return githoppu_not_saved(target, file, GITHOPPU_NOT_WRITTEN);
    if (fsync(file) != 0)
        return githoppu_not_saved(target, file, GITHOPPU_NOT_SYNCED);
    if (renameat(target->folder, target->made, target->folder, target->name) != 0)
        return githoppu_not_saved(target, file, GITHOPPU_NOT_RENAMED);
    /* its bytes are synced: what a close says of them is no news. It stays open up to here for its lock */
    close(file);
    return fsync(target->folder) != 0 ? GITHOPPU_FOLDER_NOT_SYNCED : GITHOPPU_DONE;
}

/* Saves the words of an image. DONE, NO_MEMORY, NOT_REGULAR, or one of NOT_MADE to FOLDER_NOT_SYNCED. */
static inline int githoppu_save_words(const char *path, const uint64_t *words, size_t count) {
    githoppu_target target;
    unsigned char *bytes;
    int why, status = githoppu_find_target(path, &target);
    if (status == GITHOPPU_DONE) {
        bytes = githoppu_file_bytes(words, count);
        status = bytes == NULL ? GITHOPPU_NO_MEMORY : githoppu_save_bytes(&target, bytes, 8 * count + GITHOPPU_FILE_ENDS);
        why = errno;
        free(bytes);
        errno = why;
    }
    githoppu_leave(&target);
    return status;
}

/* Room for this number of words, which the caller frees; null where there is no memory. */
static inline uint64_t *githoppu_room(uint64_t count) { return count > SIZE_MAX / 8 ? NULL : (uint64_t *)malloc((size_t)(8 * count)); }

/* Saves the words that a call wrote at this status, and frees them. */
static inline int githoppu_save_taken(const char *path, uint64_t *words, uint64_t count, int status) {
    int why;
    if (status == GITHOPPU_DONE)
        status = githoppu_save_words(path, words, (size_t)count);
    why = errno;
    free(words);
    errno = why;
    return status;
}

/* Saves a running store, queue or object, while its other sessions go on, in an image of format 2: what githoppu_checkpoint takes by this session. DONE,
 * NO_SESSION, OUT_OF_TURN while an operation of the session is pending, AGAIN as of githoppu_checkpoint_into, NO_MEMORY, NOT_REGULAR, or one of NOT_MADE to
 * FOLDER_NOT_SYNCED. */
static inline int githoppu_save(const char *path, githoppu_session **session) {
    uint64_t count = 0, *words;
    int status = githoppu_checkpoint_size(session, &count);
    if (status != GITHOPPU_DONE)
        return status;
    words = githoppu_room(count);
    return words == NULL ? GITHOPPU_NO_MEMORY : githoppu_save_taken(path, words, count, githoppu_checkpoint_into(session, words, (size_t)count));
}

/* Leaves of the words of an image, which githoppu_image wrote, the replica that the root names, which is the one that recovery reads: an image of format 2.
 * How many words it has. */
static inline size_t githoppu_one_replica(uint64_t *words, size_t count) {
    size_t replicas = (size_t)(2 * words[3]), region = (count - 8) / replicas;
    memmove(words + 8, words + 8 + region * (size_t)(words[5] % replicas), 8 * region);
    words[1] = 2;
    return 8 + region;
}

/* Saves a closed store or queue, which stays, in an image of format 2: what its image by choice 0 has, what is durable of it. DONE, NO_SESSION, NO_MEMORY,
 * NOT_REGULAR, or one of NOT_MADE to FOLDER_NOT_SYNCED. */
static inline int githoppu_save_closed(const char *path, githoppu_closed **closed) {
    uint64_t count = 0, *words;
    int status = githoppu_image_size(closed, &count);
    if (status != GITHOPPU_DONE)
        return status;
    words = githoppu_room(count);
    if (words == NULL)
        return GITHOPPU_NO_MEMORY;
    status = githoppu_image_into(closed, 0, words, (size_t)count);
    if (status == GITHOPPU_DONE)
        count = githoppu_one_replica(words, (size_t)count);
    return githoppu_save_taken(path, words, count, status);
}

/* ---- Loading. ---- */

/* Closes a file after a fault, with errno as the fault left it. */
static inline int githoppu_not_loaded(int file, int status) {
    int why = errno;
    close(file);
    errno = why;
    return status;
}

/* Reads a whole file. DONE, and *bytes, which the caller frees, has *length bytes of room or more; NOT_OPENED, NOT_READ or NO_MEMORY. */
static inline int githoppu_read_bytes(const char *path, unsigned char **bytes, size_t *length) {
    struct stat about;
    size_t room, have = 0;
    ssize_t some = 1;
    /* a pipe without a writer would hold up the opening */
    int file = open(path, O_RDONLY | O_NONBLOCK | O_NOCTTY | O_CLOEXEC);
    if (file < 0)
        return GITHOPPU_NOT_OPENED;
    if (fstat(file, &about) != 0)
        return githoppu_not_loaded(file, GITHOPPU_NOT_OPENED);
    if (!S_ISREG(about.st_mode)) {
        errno = S_ISDIR(about.st_mode) ? EISDIR : EINVAL;
        return githoppu_not_loaded(file, GITHOPPU_NOT_OPENED);
    }
    if ((uint64_t)about.st_size > SIZE_MAX - 1) {
        errno = EFBIG;
        return githoppu_not_loaded(file, GITHOPPU_NO_MEMORY);
    }
    room = (size_t)about.st_size + 1;
    *bytes = (unsigned char *)malloc(room);
    if (*bytes == NULL)
        return githoppu_not_loaded(file, GITHOPPU_NO_MEMORY);
    while (some != 0 && have < room) {
        some = read(file, *bytes + have, room - have < (size_t)1 << 30 ? room - have : (size_t)1 << 30);
        if (some < 0 && errno == EINTR)
            continue;
        if (some < 0) {
            int status = githoppu_not_loaded(file, GITHOPPU_NOT_READ);
            free(*bytes);
            return status;
        }
        have += (size_t)some;
    }
    close(file);
    *length = have;
    return GITHOPPU_DONE;
}

/* Loads the words of an image, which the caller frees: DONE; NO_MEMORY, FILE_EMPTY, or one of NOT_OPENED to FILE_FORMAT, and then *words is null. */
static inline int githoppu_load_words(const char *path, uint64_t **words, size_t *count) {
    unsigned char *bytes = NULL;
    size_t i, length = 0;
    int status = githoppu_read_bytes(path, &bytes, &length);
    *words = NULL;
    *count = 0;
    if (status != GITHOPPU_DONE)
        return status;
    status = githoppu_file_fault(bytes, length);
    if (status == GITHOPPU_DONE) {
        *count = (length - GITHOPPU_FILE_ENDS) / 8;
        *words = (uint64_t *)malloc(8 * *count + 8);
        if (*words == NULL)
            status = GITHOPPU_NO_MEMORY;
        else
            for (i = 0; i < *count; i++)
                (*words)[i] = githoppu_word_at(bytes + GITHOPPU_FILE_HEAD + 8 * i);
    }
    free(bytes);
    return status;
}

static inline int githoppu_load_by(int32_t (*recover)(const uint64_t *, size_t, githoppu_session **, size_t), const char *path,
                                   githoppu_session **sessions, size_t count) {
    uint64_t *words;
    size_t length;
    int status = githoppu_load_words(path, &words, &length);
    if (status != GITHOPPU_DONE)
        return status;
    status = recover(words, length, sessions, count);
    free(words);
    return status;
}

/* Opens the store, or the queue, that a file holds, with count sessions, which it puts into the slots: DONE; FILE_EMPTY, one of NOT_OPENED to FILE_FORMAT,
 * or what githoppu_recover answers, and then no slot is written. */
static inline int githoppu_load(const char *path, githoppu_session **sessions, size_t count) {
    return githoppu_load_by(githoppu_recover, path, sessions, count);
}

static inline int githoppu_load_queue(const char *path, githoppu_session **sessions, size_t count) {
    return githoppu_load_by(githoppu_recover_queue, path, sessions, count);
}

/* Opens the object of a program that a file holds, in the same way; what githoppu_recover_object answers beside the statuses of files. */
static inline int githoppu_load_object(const char *path, const githoppu_program *program, const githoppu_program *before, githoppu_session **sessions,
                                       size_t count) {
    uint64_t *words;
    size_t length;
    int status = githoppu_load_words(path, &words, &length);
    if (status != GITHOPPU_DONE)
        return status;
    status = githoppu_recover_object(program, before, words, length, sessions, count);
    free(words);
    return status;
}

#endif
