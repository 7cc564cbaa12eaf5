/* What the tests of a store on a disk share: a check, and folders of plain files. */
#ifndef TEST_FOLDERS_H
#define TEST_FOLDERS_H

#include <dirent.h>
#include <stdio.h>
#include <stdlib.h>
#include <string.h>
#include <sys/stat.h>
#include <unistd.h>

#define CHECK(test)                                                    \
    do {                                                               \
        if (!(test)) {                                                 \
            fprintf(stderr, "%s:%d: %s\n", __FILE__, __LINE__, #test); \
            exit(1);                                                   \
        }                                                              \
    } while (0)

static inline void copy_file(const char *from, const char *to) {
    static char bytes[1 << 16];
    FILE *in = fopen(from, "rb"), *out;
    size_t some;
    unlink(to);
    out = fopen(to, "wb");
    CHECK(in != NULL && out != NULL);
    while ((some = fread(bytes, 1, sizeof bytes, in)) > 0)
        CHECK(fwrite(bytes, 1, some, out) == some);
    CHECK(!ferror(in) && fclose(in) == 0 && fclose(out) == 0);
}

/* Does something with each file of a folder: removes it, or copies it to another folder. */
static inline void each_file(const char *folder, const char *to) {
    DIR *all = opendir(folder);
    struct dirent *one;
    char from[4096], into[4096];
    if (all == NULL)
        return;
    while ((one = readdir(all)) != NULL) {
        if (strcmp(one->d_name, ".") == 0 || strcmp(one->d_name, "..") == 0)
            continue;
        snprintf(from, sizeof from, "%s/%s", folder, one->d_name);
        snprintf(into, sizeof into, "%s/%s", to == NULL ? folder : to, one->d_name);
        if (to == NULL)
            CHECK(unlink(from) == 0);
        else
            copy_file(from, into);
    }
    closedir(all);
}

static inline void remove_folder(const char *folder) {
    each_file(folder, NULL);
    rmdir(folder);
}

static inline void new_folder(const char *folder) {
    remove_folder(folder);
    CHECK(mkdir(folder, 0777) == 0);
}

static inline void copy_folder(const char *from, const char *to) {
    new_folder(to);
    each_file(from, to);
}

#endif
