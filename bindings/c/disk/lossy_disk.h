/* A disk that loses what was not synced, below SQLite and the store, for their tests. The calls of the system that write are this program's own: the dynamic
 * linker gives them to libsqlite3 too. Files right in one folder are followed; without lossy_begin all goes on as without this layer.
 *
 * A write is done at once, as the page cache does it, and remembered until its file is synced. When the power fails, a folder is written that holds what a
 * disk may then have, and the process ends with the status LOST_POWER: of each file each 512 bytes of each write since its last sync are there, or not, or
 * now and then by half; its length is the old or the new one or one between; and of the names made and removed since the folder's last sync the first ones
 * are there, or now and then any. No real sync is made. */
#ifndef LOSSY_DISK_H
#define LOSSY_DISK_H

#include <stdint.h>

enum { LOST_POWER = 42 };

/* Follows the files of a folder, whose path is absolute and without links, as SQLite passes it on; they are taken as synced. */
void lossy_begin(const char *folder, uint64_t seed);

/* The power fails at the given number of writes, syncs and changes of names from now on; what is left is written into a new folder. */
void lossy_power_fails_after(long calls, const char *into);

/* The power fails now. */
void lossy_power_fails(const char *into);

/* The bytes after which the disk is full; -1: never. */
void lossy_full_after(long bytes);

/* A write of a file fails with this error: the nth from now on, 0 for none. */
void lossy_fail_write(int nth, int error);

/* A sync of a file fails with EIO: the nth from now on, 0 for none. What it should have synced is lost to every later sync, as in Linux, which marks the
 * pages as clean. How many syncs are still to come before it, 0 where it was. */
void lossy_fail_sync(int nth);
int lossy_syncs_to_failure(void);

#endif
