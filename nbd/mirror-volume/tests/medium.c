/* A medium that can be watched and can fail, for tests of a program. It is loaded before the C library (LD_PRELOAD).
 *
 * The file that the variable RECORD names gets a line for each write and flush, in order: "W FILE OFFSET LENGTH" with the bytes behind it,
 * or "F FILE". A read of the byte that FAIL_READ names ("FILE OFFSET") fails, and so does the flush that FAIL_FLUSH names ("FILE COUNT",
 * the first of a file being 1).
 * SPDX-License-Identifier: Apache-2.0
 */
#define _GNU_SOURCE
#include <dlfcn.h>
#include <errno.h>
#include <fcntl.h>
#include <stdio.h>
#include <stdlib.h>
#include <string.h>
#include <unistd.h>

/* The last part of an open file's path. */
static const char *name_of(int file)
{
    static char path[4096];
    char link[64];
    snprintf(link, sizeof link, "/proc/self/fd/%d", file);
    const ssize_t end = readlink(link, path, sizeof path - 1);
    if (end < 0)
        abort();
    path[end] = 0;
    return strrchr(path, '/') + 1;
}

static void record(const char *line, const void *bytes, size_t length)
{
    const char *path = getenv("RECORD");
    if (path == NULL)
        return;
    const int log = open(path, O_WRONLY | O_CREAT | O_APPEND, 0600);
    const size_t begin = strlen(line);
    if (log < 0 || write(log, line, begin) != (ssize_t)begin || (length > 0 && write(log, bytes, length) != (ssize_t)length))
        abort();
    close(log);
}

/* Whether a variable names the file, and a number from first on, so many. */
static int fails(const char *variable, int file, long long first, long long count)
{
    char name[64];
    long long number;
    const char *value = getenv(variable);
    if (value == NULL || sscanf(value, "%63s %lld", name, &number) != 2 || strcmp(name, name_of(file)) != 0)
        return 0;
    return first <= number && number < first + count;
}

ssize_t pwrite64(int file, const void *bytes, size_t length, off64_t offset)
{
    ssize_t (*next)(int, const void *, size_t, off64_t) = (ssize_t(*)(int, const void *, size_t, off64_t))dlsym(RTLD_NEXT, "pwrite64");
    const ssize_t done = next(file, bytes, length, offset);
    if (done > 0) {
        char line[4200];
        snprintf(line, sizeof line, "W %s %lld %zd\n", name_of(file), (long long)offset, done);
        record(line, bytes, (size_t)done);
    }
    return done;
}

ssize_t pread64(int file, void *bytes, size_t length, off64_t offset)
{
    ssize_t (*next)(int, void *, size_t, off64_t) = (ssize_t(*)(int, void *, size_t, off64_t))dlsym(RTLD_NEXT, "pread64");
    if (fails("FAIL_READ", file, offset, (long long)length)) {
        errno = EIO;
        return -1;
    }
    return next(file, bytes, length, offset);
}

int fsync(int file)
{
    static long long count[1024];
    int (*next)(int) = (int (*)(int))dlsym(RTLD_NEXT, "fsync");
    char line[4200];
    snprintf(line, sizeof line, "F %s\n", name_of(file));
    record(line, NULL, 0);
    if (file < 1024 && fails("FAIL_FLUSH", file, ++count[file], 1)) {
        errno = EIO;
        return -1;
    }
    return next(file);
}
