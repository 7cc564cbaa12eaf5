/* lossy_disk.h says what it is. */
#define _GNU_SOURCE
#include "lossy_disk.h"
#include <dirent.h>
#include <dlfcn.h>
#include <errno.h>
#include <fcntl.h>
#include <pthread.h>
#include <stdarg.h>
#include <stdio.h>
#include <stdlib.h>
#include <string.h>
#include <sys/stat.h>
#include <unistd.h>

enum { FILES = 4096, NAMES = 256, NAME = 128, SECTOR = 512 };

/* A write since the last sync, or a cut of the file to a length. */
struct change {
    struct change *next;
    int cuts;
    size_t at, length;
    unsigned char *bytes;
};

/* A file: what is synced, and the changes since. */
struct file {
    unsigned char *bytes;
    size_t length, longest, room; /* longest: with all changes */
    struct change *first, **last;
    struct file *before; /* all files stay to the end */
};

struct name {
    char text[NAME];
    struct file *file;
};

/* A name made, or removed where there is no file. */
struct name_change {
    struct name_change *next;
    struct name name;
};

struct names {
    struct name of[NAMES];
    int count;
};

static int (*real_open)(const char *, int, ...), (*real_close)(int), (*real_fsync)(int), (*real_fdatasync)(int), (*real_unlink)(const char *),
    (*real_link)(const char *, const char *), (*real_ftruncate)(int, off_t);
static ssize_t (*real_write)(int, const void *, size_t), (*real_pwrite)(int, const void *, size_t, off_t);

static pthread_mutex_t lock = PTHREAD_MUTEX_INITIALIZER;
static int follows;
static char folder[1024], left_in[1024];
static struct names synced, live;
static struct name_change *made, **made_last = &made;
static struct file *file_of[FILES], *all_files;
static int is_folder[FILES];
static uint64_t state;
static long calls_left = -1, room_left = -1;
static int sync_fails, write_fails, write_error;

static void die(const char *what) {
    fprintf(stderr, "lossy_disk: %s: %s\n", what, strerror(errno));
    _exit(9);
}

static void *room(size_t size) {
    void *made_room = calloc(1, size + 1);
    if (made_room == NULL)
        die("no memory");
    return made_room;
}

static uint64_t any(uint64_t below) {
    state ^= state << 13;
    state ^= state >> 7;
    state ^= state << 17;
    return (state >> 11) % below;
}

/* A symbol of libc, as the next library has it. */
static void find(const char *symbol, void *into) {
    void *at = dlsym(RTLD_NEXT, symbol);
    if (at == NULL)
        die(symbol);
    memcpy(into, &at, sizeof at);
}

__attribute__((constructor)) static void find_all(void) {
    find("open", &real_open);
    find("close", &real_close);
    find("fsync", &real_fsync);
    find("fdatasync", &real_fdatasync);
    find("unlink", &real_unlink);
    find("link", &real_link);
    find("ftruncate", &real_ftruncate);
    find("write", &real_write);
    find("pwrite", &real_pwrite);
}

/* ---- Names. ---- */

static int name_at(const struct names *names, const char *text) {
    int i;
    for (i = 0; i < names->count; i++)
        if (strcmp(names->of[i].text, text) == 0)
            return i;
    return -1;
}

static void change_name(struct names *names, const struct name *name) {
    int at = name_at(names, name->text);
    if (at >= 0)
        names->of[at] = names->of[--names->count];
    if (name->file == NULL)
        return;
    if (names->count == NAMES)
        die("too many names");
    names->of[names->count++] = *name;
}

static void remember_name(const char *text, struct file *file) {
    struct name_change *change = (struct name_change *)room(sizeof *change);
    snprintf(change->name.text, NAME, "%s", text);
    change->name.file = file;
    *made_last = change;
    made_last = &change->next;
    change_name(&live, &change->name);
}

/* The name of a path right in the folder, or null. */
static const char *followed(const char *path) {
    size_t length = strlen(folder);
    const char *name = follows && strncmp(path, folder, length) == 0 && path[length] == '/' ? path + length + 1 : NULL;
    return name == NULL || strchr(name, '/') != NULL || strcmp(name, ".") == 0 ? NULL : name;
}

/* ---- Bytes. ---- */

static struct file *new_file(void) {
    struct file *file = (struct file *)room(sizeof *file);
    file->bytes = (unsigned char *)room(0);
    file->last = &file->first;
    file->before = all_files;
    all_files = file;
    return file;
}

static void remember(struct file *file, int cuts, size_t at, const void *bytes, size_t length) {
    struct change *change = (struct change *)room(sizeof *change);
    change->cuts = cuts;
    change->at = at;
    change->length = length;
    change->bytes = (unsigned char *)room(length);
    if (length > 0)
        memcpy(change->bytes, bytes, length);
    *file->last = change;
    file->last = &change->next;
    if (at + length > file->longest)
        file->longest = at + length;
}

static void resize(struct file *file, size_t length) {
    if (length > file->room) {
        file->room = 2 * length;
        file->bytes = (unsigned char *)realloc(file->bytes, file->room);
        if (file->bytes == NULL)
            die("no memory");
    }
    if (length > file->length)
        memset(file->bytes + file->length, 0, length - file->length);
    file->length = length;
}

/* A sync: the changes are on the disk. Where it fails they are forgotten. */
static void settle(struct file *file, int fails) {
    struct change *change = file->first, *next;
    for (; change != NULL; change = next) {
        next = change->next;
        if (!fails && (change->cuts || change->at + change->length > file->length))
            resize(file, change->at + change->length);
        if (!fails)
            memcpy(file->bytes + change->at, change->bytes, change->length);
        free(change->bytes);
        free(change);
    }
    file->first = NULL;
    file->last = &file->first;
    file->longest = file->length;
}

/* ---- The power fails. ---- */

/* Puts the parts of a write into what is left, each or not. */
static void leave_some(unsigned char *left, const struct change *change, uint64_t way) {
    size_t at = change->at, end;
    for (; at < change->at + change->length; at = end) {
        end = (at / SECTOR + 1) * SECTOR;
        if (end > change->at + change->length)
            end = change->at + change->length;
        if (way == 0 || (way > 1 && any(2) == 0))
            continue;
        memcpy(left + at, change->bytes + (at - change->at), any(20) == 0 ? (end - at) / 2 : end - at);
    }
}

static void leave_file(const struct name *name) {
    const struct file *file = name->file;
    const struct change *change;
    size_t most = file->longest > file->length ? file->longest : file->length, length = file->length, old = length;
    unsigned char *left = (unsigned char *)room(most);
    uint64_t way = any(10); /* 0: none of the changes, 1: all, else some */
    char path[2048];
    int to;
    memcpy(left, file->bytes, file->length);
    for (change = file->first; change != NULL; change = change->next) {
        if (!change->cuts)
            leave_some(left, change, way);
        else if (way == 1 || (way > 1 && any(2) == 0)) {
            if (change->at < most)
                memset(left + change->at, 0, most - change->at);
            old = change->at < old ? change->at : old;
        }
    }
    length = most > old ? (way == 0 || any(3) == 0 ? old : any(2) == 0 ? most : old + any(most - old + 1)) : most;
    snprintf(path, sizeof path, "%s/%s", left_in, name->text);
    to = real_open(path, O_WRONLY | O_CREAT | O_TRUNC, 0666);
    if (to < 0 || real_write(to, left, length) != (ssize_t)length)
        die(path);
    real_close(to);
    free(left);
}

static void power_fails(void) {
    struct name_change *change;
    int i, count = 0, first = any(10) < 8, keep;
    for (change = made; change != NULL; change = change->next)
        count++;
    keep = (int)any((uint64_t)count + 1);
    for (change = made; change != NULL; change = change->next)
        if (first ? keep-- > 0 : any(2) == 0)
            change_name(&synced, &change->name);
    if (mkdir(left_in, 0777) != 0)
        die(left_in);
    for (i = 0; i < synced.count; i++)
        leave_file(&synced.of[i]);
    _exit(LOST_POWER);
}

/* One call that changes something; with the lock. */
static void tick(void) {
    if (calls_left >= 0 && calls_left-- == 0)
        power_fails();
}

/* ---- The calls of the system. ---- */

static int is_followed(int file) { return follows && file >= 0 && file < FILES && file_of[file] != NULL; }

static int open_it(const char *path, int flags, int mode) {
    const char *name = followed(path);
    int file;
    pthread_mutex_lock(&lock);
    if (name != NULL && (flags & (O_CREAT | O_TRUNC)))
        tick();
    file = real_open(path, flags, mode);
    if (file >= FILES)
        die("too many files");
    if (file >= 0) {
        file_of[file] = NULL;
        is_folder[file] = follows && (strcmp(path, folder) == 0 || (strncmp(path, folder, strlen(folder)) == 0 && strcmp(path + strlen(folder), "/.") == 0));
        if (name != NULL) {
            if (name_at(&live, name) < 0)
                remember_name(name, new_file());
            file_of[file] = live.of[name_at(&live, name)].file;
            if (flags & O_TRUNC)
                remember(file_of[file], 1, 0, NULL, 0);
        }
    }
    pthread_mutex_unlock(&lock);
    return file;
}

int open(const char *path, int flags, ...) {
    va_list more;
    int mode;
    va_start(more, flags);
    mode = flags & O_CREAT ? va_arg(more, int) : 0;
    va_end(more);
    return open_it(path, flags, mode);
}

int open64(const char *path, int flags, ...) {
    va_list more;
    int mode;
    va_start(more, flags);
    mode = flags & O_CREAT ? va_arg(more, int) : 0;
    va_end(more);
    return open_it(path, flags, mode);
}

int close(int file) {
    if (file >= 0 && file < FILES) {
        file_of[file] = NULL;
        is_folder[file] = 0;
    }
    return real_close(file);
}

static ssize_t pwrite_it(int file, const void *bytes, size_t length, off_t at) {
    ssize_t written = -1;
    pthread_mutex_lock(&lock);
    if (is_followed(file) && room_left >= 0 && (long)length > room_left)
        length = (size_t)room_left;
    if (is_followed(file) && length == 0 && room_left == 0)
        errno = ENOSPC;
    else if (is_followed(file) && write_fails > 0 && --write_fails == 0)
        errno = write_error;
    else
        written = real_pwrite(file, bytes, length, at);
    if (is_followed(file) && written > 0) {
        room_left -= room_left >= 0 ? (long)written : 0;
        remember(file_of[file], 0, (size_t)at, bytes, (size_t)written);
        tick();
    }
    pthread_mutex_unlock(&lock);
    return written;
}

ssize_t pwrite(int file, const void *bytes, size_t length, off_t at) { return pwrite_it(file, bytes, length, at); }
ssize_t pwrite64(int file, const void *bytes, size_t length, off_t at) { return pwrite_it(file, bytes, length, at); }

/* SQLite and the store write followed files by pwrite alone. */
ssize_t write(int file, const void *bytes, size_t length) {
    if (is_followed(file))
        die("a write without a place");
    return real_write(file, bytes, length);
}

static int ftruncate_it(int file, off_t length) {
    int failed;
    pthread_mutex_lock(&lock);
    failed = real_ftruncate(file, length);
    if (is_followed(file) && failed == 0) {
        remember(file_of[file], 1, (size_t)length, NULL, 0);
        tick();
    }
    pthread_mutex_unlock(&lock);
    return failed;
}

int ftruncate(int file, off_t length) { return ftruncate_it(file, length); }
int ftruncate64(int file, off_t length) { return ftruncate_it(file, length); }

static int sync_it(int file) {
    struct name_change *change, *next;
    int failed = 0;
    pthread_mutex_lock(&lock);
    tick();
    if (is_followed(file)) {
        failed = sync_fails > 0 && --sync_fails == 0;
        settle(file_of[file], failed);
    } else if (is_folder[file]) {
        for (change = made; change != NULL; change = next) {
            next = change->next;
            change_name(&synced, &change->name);
            free(change);
        }
        made = NULL;
        made_last = &made;
    }
    pthread_mutex_unlock(&lock);
    if (failed)
        errno = EIO;
    return failed ? -1 : 0;
}

int fsync(int file) { return is_followed(file) || (follows && is_folder[file]) ? sync_it(file) : real_fsync(file); }
int fdatasync(int file) { return is_followed(file) || (follows && is_folder[file]) ? sync_it(file) : real_fdatasync(file); }

int unlink(const char *path) {
    const char *name = followed(path);
    int failed;
    pthread_mutex_lock(&lock);
    failed = real_unlink(path);
    if (name != NULL && failed == 0) {
        remember_name(name, NULL);
        tick();
    }
    pthread_mutex_unlock(&lock);
    return failed;
}

int link(const char *old, const char *path) {
    const char *name = followed(path), *of = followed(old);
    int failed;
    pthread_mutex_lock(&lock);
    failed = real_link(old, path);
    if (name != NULL && of != NULL && failed == 0) {
        remember_name(name, live.of[name_at(&live, of)].file);
        tick();
    }
    pthread_mutex_unlock(&lock);
    return failed;
}

/* ---- What the tests call. ---- */

static void take_file(const char *text) {
    struct name name;
    struct stat about;
    char path[2048];
    int from;
    snprintf(path, sizeof path, "%s/%s", folder, text);
    if (stat(path, &about) != 0 || !S_ISREG(about.st_mode))
        return;
    snprintf(name.text, NAME, "%s", text);
    name.file = new_file();
    resize(name.file, (size_t)about.st_size);
    name.file->longest = name.file->length;
    from = real_open(path, O_RDONLY);
    if (from < 0 || read(from, name.file->bytes, name.file->length) != (ssize_t)name.file->length)
        die(path);
    real_close(from);
    change_name(&synced, &name);
    change_name(&live, &name);
}

void lossy_begin(const char *of, uint64_t seed) {
    DIR *all = opendir(of);
    struct dirent *one;
    int i;
    if (all == NULL || of[0] != '/')
        die(of);
    snprintf(folder, sizeof folder, "%s", of);
    state = seed * UINT64_C(2654435761) + UINT64_C(88172645463325252);
    for (i = 0; i < 9; i++)
        any(2);
    while ((one = readdir(all)) != NULL)
        take_file(one->d_name);
    closedir(all);
    follows = 1;
}

void lossy_power_fails_after(long calls, const char *into) {
    pthread_mutex_lock(&lock);
    snprintf(left_in, sizeof left_in, "%s", into);
    calls_left = calls;
    pthread_mutex_unlock(&lock);
}

void lossy_power_fails(const char *into) {
    pthread_mutex_lock(&lock);
    snprintf(left_in, sizeof left_in, "%s", into);
    power_fails();
}

void lossy_full_after(long bytes) {
    pthread_mutex_lock(&lock);
    room_left = bytes;
    pthread_mutex_unlock(&lock);
}

void lossy_fail_write(int nth, int error) {
    pthread_mutex_lock(&lock);
    write_fails = nth;
    write_error = error;
    pthread_mutex_unlock(&lock);
}

void lossy_fail_sync(int nth) {
    pthread_mutex_lock(&lock);
    sync_fails = nth;
    pthread_mutex_unlock(&lock);
}

int lossy_syncs_to_failure(void) {
    int left;
    pthread_mutex_lock(&lock);
    left = sync_fails;
    pthread_mutex_unlock(&lock);
    return left;
}
