#define _XOPEN_SOURCE 700 /* nftw */
#include "snapshot.h"

#include <errno.h>
#include <fcntl.h>
#include <ftw.h>
#include <stdio.h>
#include <string.h>
#include <sys/stat.h>
#include <unistd.h>

#include "whole.h"

enum { PATH = 4096, OPEN_AT_ONCE = 16 };

/* What copy_one needs to know: nftw hands nothing on. */
static const char *copy_to;
static size_t from_length;

static int copy_bytes(int from, int to)
{
    char bytes[65536];
    ssize_t n;
    for (off_t at = 0; (n = whole_read(from, bytes, sizeof bytes, at)) > 0; at += n)
        if (whole_write(to, bytes, (size_t)n, at))
            return -1;
    return n < 0 ? -1 : 0;
}

static int copy_file(const char *path, const char *to)
{
    int in = whole_open(AT_FDCWD, path, O_RDONLY | O_NOFOLLOW);
    int out = in < 0 ? -1 : whole_open(AT_FDCWD, to, O_WRONLY | O_CREAT | O_EXCL);
    int status = out < 0 ? -1 : copy_bytes(in, out);
    whole_leave(in);
    whole_leave(out);
    return status;
}

static int copy_one(const char *path, const struct stat *s, int flag, struct FTW *where)
{
    char to[PATH];
    (void)s, (void)where;
    if ((size_t)snprintf(to, sizeof to, "%s%s", copy_to, path + from_length) >= sizeof to) {
        errno = ENAMETOOLONG;
        return -1;
    }
    errno = EINVAL; /* what is neither is none of the guard's */
    return flag == FTW_D ? mkdir(to, 0700) : flag == FTW_F ? copy_file(path, to) : -1;
}

int snapshot_copy(const char *from, const char *to)
{
    copy_to = to;
    from_length = strlen(from);
    return nftw(from, copy_one, OPEN_AT_ONCE, FTW_PHYS);
}

static int clear_one(const char *path, const struct stat *s, int flag, struct FTW *where)
{
    (void)s, (void)flag, (void)where;
    return remove(path);
}

int snapshot_clear(const char *directory)
{
    if (access(directory, F_OK) && errno == ENOENT)
        return 0;
    return nftw(directory, clear_one, OPEN_AT_ONCE, FTW_DEPTH | FTW_PHYS);
}
