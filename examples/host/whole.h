/* Files read and written as a whole: what the system did only in part is gone on with, what it could not do just now
 * is tried again. Each gives 0, or what it says, or -1 and errno. */
#ifndef WHOLE_H
#define WHOLE_H

#include <stddef.h>
#include <sys/types.h>

/* Whether a system call that has failed may go well when it is made again; `tries` is 0 at first. One that was
 * interrupted is made again at once, one that found the machine short of something a few times, after a pause. */
int whole_again(int *tries);

/* As openat; a file that is made is the user's own. */
int whole_open(int directory, const char *path, int flags);

/* Closes, and leaves errno as it was: for ways out. */
void whole_leave(int file);

/* How many bytes there are from `at` on, up to `length`. */
ssize_t whole_read(int file, void *bytes, size_t length, off_t at);

int whole_write(int file, const void *bytes, size_t length, off_t at);

int whole_cut(int file, off_t size);

/* Takes room on the disk for bytes that a file has by its size alone, so that a write of them does not lack it. Where
 * the file system knows no such thing, nothing is done. */
int whole_reserve(int file, off_t at, off_t length);

/* As renameat, but what is there already is not replaced: EEXIST. On a file system that cannot do both in one step, the
 * new name is looked at first, which is enough where nobody else writes. */
int whole_move(int directory, const char *name, int new_directory, const char *new_name);

/* Waits until a file, or the names in a directory, are on the disk. */
int whole_sync(int file);
int whole_sync_names(const char *directory);

/* The bytes of a file that is there, up to `length`. */
ssize_t whole_get(const char *path, void *bytes, size_t length);

/* Writes a file anew, in place, and waits until it is on the disk: its bytes, not its name. */
int whole_put(const char *path, const void *bytes, size_t length);

/* Puts a file in the place of the old one in one step: whenever power is lost, one of the two is there, whole, and
 * after it the new one. Where it fails, what was written of the new one takes no room. */
int whole_replace(const char *path, const void *bytes, size_t length);

#endif
