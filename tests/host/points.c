#define _GNU_SOURCE
#include "points.h"

#include <dirent.h>
#include <errno.h>
#include <fcntl.h>
#include <signal.h>
#include <stdarg.h>
#include <stdio.h>
#include <stdlib.h>
#include <string.h>
#include <sys/mman.h>
#include <sys/stat.h>
#include <unistd.h>

#include "durable.h"

unsigned long points_left;
unsigned faults_every;
struct full_disk full_disk;
static unsigned calls;

static void point(void)
{
    if (points_left > 0 && --points_left == 0)
        kill(getpid(), SIGKILL);
}

/* Whether this call fails now, and why: in turns, it is interrupted or the machine lacks memory. */
static int fault(void)
{
    if (faults_every == 0 || ++calls % faults_every)
        return 0;
    errno = calls / faults_every % 2 ? EINTR : ENOMEM;
    return 1;
}

/* Whether this call never goes well: the environment's FAILS names it. */
static int fails(const char *call)
{
    const char *name = getenv("FAILS");
    errno = EIO;
    return name && !strcmp(name, call);
}

/* Whether this call, which may need room, finds none. */
static int full(void)
{
    if (full_disk.calls == 0 || (full_disk.from > 1 && full_disk.from--))
        return 0;
    full_disk.calls--;
    errno = full_disk.error;
    return 1;
}

/* As much as one call moves: where faults come, every third one stops short. */
static size_t part(size_t length) { return faults_every && length > 1 && ++calls % 3 == 0 ? length / 2 : length; }

/* The linker's --wrap puts these in the place of the C library's. */
int __real_openat(int directory, const char *path, int flags, ...);
int __real_mkdirat(int directory, const char *path, mode_t mode);
int __real_unlinkat(int directory, const char *path, int flags);
int __real_ftruncate(int file, off_t size);
int __real_fallocate(int file, int how, off_t at, off_t length);
int __real_rename(const char *from, const char *to);
int __real_renameat2(int from, const char *name, int to, const char *new_name, unsigned flags);
int __real_mkdir(const char *path, mode_t mode);
int __real_remove(const char *path);
int __real_fsync(int file);
int __real_syncfs(int file);
int __real_fstatat(int directory, const char *path, struct stat *s, int flags);
DIR *__real_fdopendir(int file);
void *__real_mmap(void *at, size_t length, int protection, int flags, int file, off_t from);
ssize_t __real_pread(int file, void *bytes, size_t length, off_t at);
ssize_t __real_pwrite(int file, const void *bytes, size_t length, off_t at);

#define BETWEEN_POINTS(call)                                                                        \
    do {                                                                                            \
        point();                                                                                    \
        int status = call;                                                                          \
        point();                                                                                    \
        return status;                                                                              \
    } while (0)

int __wrap_openat(int directory, const char *path, int flags, ...)
{
    va_list rest;
    va_start(rest, flags);
    mode_t mode = flags & O_CREAT ? va_arg(rest, mode_t) : 0;
    va_end(rest);
    if (fault())
        return -1;
    if (!(flags & O_CREAT)) /* changes nothing */
        return __real_openat(directory, path, flags);
    if (full())
        return -1;
    BETWEEN_POINTS(__real_openat(directory, path, flags, mode));
}

int __wrap_mkdirat(int at, const char *path, mode_t mode)
{
    if (full())
        return -1;
    BETWEEN_POINTS(__real_mkdirat(at, path, mode));
}

/* Some file systems need room even to remove. */
int __wrap_unlinkat(int at, const char *path, int flags)
{
    if (full())
        return -1;
    BETWEEN_POINTS(__real_unlinkat(at, path, flags));
}

int __wrap_rename(const char *from, const char *to)
{
    if (full())
        return -1;
    BETWEEN_POINTS(__real_rename(from, to));
}

/* Fails for good as on a file system that knows no rename without replacing. */
int __wrap_renameat2(int from, const char *name, int to, const char *new_name, unsigned flags)
{
    if (fails("renameat2")) {
        errno = EINVAL;
        return -1;
    }
    if (fault() || full())
        return -1;
    BETWEEN_POINTS(__real_renameat2(from, name, to, new_name, flags));
}

int __wrap_mkdir(const char *path, mode_t mode) { BETWEEN_POINTS(__real_mkdir(path, mode)); }
int __wrap_remove(const char *path) { BETWEEN_POINTS(__real_remove(path)); }

int __wrap_ftruncate(int file, off_t size)
{
    if (fault() || full())
        return -1;
    BETWEEN_POINTS(__real_ftruncate(file, size));
}

int __wrap_fallocate(int file, int how, off_t at, off_t length)
{
    if (fault())
        return -1;
    if (full()) {
        int kept = errno;
        __real_fallocate(file, how, at, length / 2); /* some of it was still to be had */
        errno = kept;
        return -1;
    }
    BETWEEN_POINTS(__real_fallocate(file, how, at, length));
}

int __wrap_fstatat(int directory, const char *path, struct stat *s, int flags)
{
    return fails("fstatat") ? -1 : __real_fstatat(directory, path, s, flags);
}

DIR *__wrap_fdopendir(int file) { return fails("fdopendir") || fault() ? NULL : __real_fdopendir(file); }

void *__wrap_mmap(void *at, size_t length, int protection, int flags, int file, off_t from)
{
    return fault() ? MAP_FAILED : __real_mmap(at, length, protection, flags, file, from);
}

/* What is synced is certain from then on. */
int __wrap_fsync(int file)
{
    if (fails("fsync") || fault() || full())
        return -1;
    point();
    int status = __real_fsync(file);
    durable_one(file);
    point();
    return status;
}

int __wrap_syncfs(int file)
{
    if (fault())
        return -1;
    point();
    int status = __real_syncfs(file);
    durable_all();
    point();
    return status;
}

ssize_t __wrap_pread(int file, void *bytes, size_t length, off_t at)
{
    return fault() ? -1 : __real_pread(file, bytes, part(length), at);
}

ssize_t __wrap_pwrite(int file, const void *bytes, size_t length, off_t at)
{
    if (fault())
        return -1;
    length = part(length);
    if (full()) {
        int kept = errno;
        __real_pwrite(file, bytes, length / 2, at); /* what there was room for is on the disk */
        errno = kept;
        return -1;
    }
    point();
    if (points_left == 1)
        __real_pwrite(file, bytes, length / 2, at); /* the next point is the last: half a page is on the disk */
    point();
    ssize_t n = __real_pwrite(file, bytes, length, at);
    point();
    return n;
}
