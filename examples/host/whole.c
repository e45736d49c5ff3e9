#define _GNU_SOURCE /* openat, nanosleep, fallocate, renameat2 */
#include "whole.h"

#include <errno.h>
#include <fcntl.h>
#include <stdio.h>
#include <string.h>
#include <sys/stat.h>
#include <time.h>
#include <unistd.h>

enum { TRIES = 6, PATH = 4096 };

int whole_again(int *tries)
{
    if (errno == EINTR)
        return 1;
    if ((errno != EAGAIN && errno != ENOMEM && errno != ENFILE && errno != EMFILE) || *tries == TRIES)
        return 0;
    struct timespec pause = {0, 1000000L << (*tries)++}; /* 1, 2, 4 .. ms */
    nanosleep(&pause, NULL);
    return 1;
}

int whole_open(int directory, const char *path, int flags)
{
    int file, tries = 0;
    do
        file = openat(directory, path, flags | O_CLOEXEC, 0600);
    while (file < 0 && whole_again(&tries));
    return file;
}

void whole_leave(int file)
{
    int kept = errno;
    if (file >= 0)
        close(file);
    errno = kept;
}

ssize_t whole_read(int file, void *bytes, size_t length, off_t at)
{
    size_t got = 0;
    for (int tries = 0; got < length;) {
        ssize_t n = pread(file, (char *)bytes + got, length - got, at + (off_t)got);
        if (n == 0)
            break;
        if (n < 0 && !whole_again(&tries))
            return -1;
        if (n > 0)
            got += (size_t)n, tries = 0;
    }
    return (ssize_t)got;
}

int whole_write(int file, const void *bytes, size_t length, off_t at)
{
    size_t put = 0;
    for (int tries = 0; put < length;) {
        ssize_t n = pwrite(file, (const char *)bytes + put, length - put, at + (off_t)put);
        if (n < 0 && !whole_again(&tries))
            return -1;
        if (n > 0)
            put += (size_t)n, tries = 0;
    }
    return 0;
}

int whole_cut(int file, off_t size)
{
    int status, tries = 0;
    do
        status = ftruncate(file, size);
    while (status && whole_again(&tries));
    return status;
}

int whole_reserve(int file, off_t at, off_t length)
{
    int status, tries = 0;
    do
        status = fallocate(file, 0, at, length);
    while (status && whole_again(&tries));
    return status && errno != EOPNOTSUPP && errno != ENOSYS ? -1 : 0;
}

static int move_after_look(int directory, const char *name, int new_directory, const char *new_name)
{
    struct stat s;
    if (!fstatat(new_directory, new_name, &s, AT_SYMLINK_NOFOLLOW))
        errno = EEXIST;
    return errno == ENOENT ? renameat(directory, name, new_directory, new_name) : -1;
}

int whole_move(int directory, const char *name, int new_directory, const char *new_name)
{
    int status, tries = 0;
    do
        status = renameat2(directory, name, new_directory, new_name, RENAME_NOREPLACE);
    while (status && whole_again(&tries));
    if (status && (errno == EINVAL || errno == ENOSYS))
        return move_after_look(directory, name, new_directory, new_name);
    return status;
}

int whole_sync(int file)
{
    int status, tries = 0;
    do
        status = fsync(file);
    while (status && whole_again(&tries));
    return status;
}

int whole_sync_names(const char *directory)
{
    int file = whole_open(AT_FDCWD, directory, O_RDONLY | O_DIRECTORY);
    int status = file < 0 ? -1 : whole_sync(file);
    whole_leave(file);
    return status;
}

ssize_t whole_get(const char *path, void *bytes, size_t length)
{
    int file = whole_open(AT_FDCWD, path, O_RDONLY);
    ssize_t n = file < 0 ? -1 : whole_read(file, bytes, length, 0);
    whole_leave(file);
    return n;
}

int whole_put(const char *path, const void *bytes, size_t length)
{
    int file = whole_open(AT_FDCWD, path, O_WRONLY | O_CREAT | O_TRUNC);
    int status = file < 0 || whole_write(file, bytes, length, 0) || whole_sync(file) ? -1 : 0;
    whole_leave(file);
    return status;
}

/* The directory that a path's last component stands in. */
static const char *directory_of(const char *path, char to[PATH])
{
    const char *slash = strrchr(path, '/');
    if (!slash)
        return ".";
    snprintf(to, PATH, "%.*s", slash == path ? 1 : (int)(slash - path), path);
    return to;
}

int whole_replace(const char *path, const void *bytes, size_t length)
{
    char fresh[PATH], directory[PATH];
    if ((size_t)snprintf(fresh, sizeof fresh, "%s.new", path) >= sizeof fresh) {
        errno = ENAMETOOLONG;
        return -1;
    }
    if (whole_put(fresh, bytes, length) || rename(fresh, path)) {
        int kept = errno;
        unlink(fresh);
        errno = kept;
        return -1;
    }
    return whole_sync_names(directory_of(path, directory));
}
