/*
 * LD_PRELOAD for nbdkit: the medium under the three files of a disk, with its power cut at a chosen moment.
 * SPDX-License-Identifier: Apache-2.0
 *
 * Every pwrite goes to the file, and what was there before is kept until a sync of that file, begun after the write, has returned. At a
 * power cut each unit of each write that no sync has covered holds the new bytes, the old ones, some of both, or noise; then the process
 * ends. A unit has 512 bytes in the local and in the remote file. In the file of tags it has 16, and is old or new. Syncs are not made
 * really: the cut is played, and the files stay in the page cache.
 *
 *   CUT_DIR=folder    where the files local, tags and remote are
 *   CUT_AT=k          the power goes at the k-th pwrite or sync; 0: never, but the list of what is not synced is kept all the same
 *   CUT_SEED=k        picks what the cut leaves
 *   CUT_LOG=file      the list is kept there as well, written before the pwrite itself: so a server that is started after a kill takes it
 *                     over, as a machine does that stayed on, and what the killed one left in the page cache is still not synced
 *   CUT_SKIP=name     syncs of that file do nothing (a lie: the checks must find it)
 *   CUT_SKIP_FIRST=k  the first k syncs do nothing
 *   SYNC_US=k         a sync takes up to k microseconds, so that others write while it is under way
 *   FAIL_SYNC_AT=k    the k-th sync fails with EIO
 *   FAIL_WRITE_AT=k   the k-th pwrite fails with EIO, half of its bytes written, but no half of a tag
 *   FAIL_READ=name:k  the page of that file with byte k cannot be read: a pread ends before it, and one that begins in it fails with EIO
 *   FAIL_WHOLE=1      a pread that meets that page fails with EIO as a whole
 *
 * A write into a superblock ends the process, with status 97.
 */
#define _GNU_SOURCE
#include <dlfcn.h>
#include <errno.h>
#include <fcntl.h>
#include <pthread.h>
#include <stdarg.h>
#include <stdint.h>
#include <stdio.h>
#include <stdlib.h>
#include <string.h>
#include <sys/stat.h>
#include <sys/uio.h>
#include <unistd.h>

enum { LOCAL, TAGS, REMOTE, ROLES, NONE = -1 };
enum { SUPERBLOCK = 4096, MARK = 0x43555421 };
static const char *const names[ROLES] = { "local", "tags", "remote" };

/* A write that is not synced. In CUT_LOG it is the first five fields and the old bytes; a record of a sync has no bytes, and in `number`
 * the last write that it covers. */
struct record { uint32_t mark, is_sync, role, len; uint64_t at, number; };
struct entry { struct record r; struct entry *next; unsigned char old[]; };

static struct entry *newest;
static uint64_t writes; /* numbered from 1, over all processes that had the log */
static pthread_mutex_t mutex = PTHREAD_MUTEX_INITIALIZER;
static struct stat known[ROLES];
static char paths[ROLES][4096];
static int watching;
static long cut_at = -1, events, syncs, pwrites, sync_us, skip_first, fail_sync, fail_write, fail_at, fail_whole;
static int log_fd = -1, skipped = NONE, failing = NONE;
static ssize_t (*real_pwrite)(int, const void *, size_t, off_t);
static ssize_t (*real_pread)(int, void *, size_t, off_t);
static int (*real_fdatasync)(int), (*real_fsync)(int);

static void die(int status, const char *format, ...)
{
    va_list more;
    va_start(more, format);
    fprintf(stderr, "cut: ");
    vfprintf(stderr, format, more);
    fprintf(stderr, "\n");
    va_end(more);
    _exit(status);
}

static long number(const char *name, long otherwise) { return getenv(name) ? atol(getenv(name)) : otherwise; }

static int role_named(const char *name, size_t len)
{
    for (int role = 0; name && role < ROLES; role++)
        if (strlen(names[role]) == len && !strncmp(names[role], name, len)) return role;
    return NONE;
}

static int role_of(int fd)
{
    struct stat st;
    if (!watching || fstat(fd, &st) < 0) return NONE;
    for (int role = 0; role < ROLES; role++)
        if (st.st_dev == known[role].st_dev && st.st_ino == known[role].st_ino) return role;
    return NONE;
}

/* ---- the list of what is not synced */

static struct entry *keep(struct record r)
{
    struct entry *e = calloc(1, sizeof *e + r.len);
    if (!e) die(98, "no memory");
    e->r = r, e->next = newest, newest = e;
    return e;
}

static void covered(uint32_t role, uint64_t last)
{
    for (struct entry **at = &newest; *at;)
        if ((*at)->r.role == role && (*at)->r.number <= last) {
            struct entry *gone = *at;
            *at = gone->next;
            free(gone);
        } else
            at = &(*at)->next;
}

static void append(const struct record *r, const unsigned char *old)
{
    struct iovec parts[2] = { { (void *)r, sizeof *r }, { (void *)old, r->is_sync ? 0 : r->len } };
    if (log_fd >= 0 && writev(log_fd, parts, 2) != (ssize_t)(parts[0].iov_len + parts[1].iov_len)) die(98, "cannot write to CUT_LOG");
}

/* Takes over the list of the servers before. A kill may have left half a record at the end: the write that it announces was never made. */
static void take_over(void)
{
    struct record r;
    off_t good = 0;
    while (real_pread(log_fd, &r, sizeof r, good) == sizeof r && r.mark == MARK) {
        if (r.is_sync) {
            covered(r.role, r.number);
        } else {
            struct entry *e = keep(r);
            writes = r.number;
            if (real_pread(log_fd, e->old, r.len, good + (off_t)sizeof r) != (ssize_t)r.len) {
                newest = e->next;
                free(e);
                break;
            }
        }
        good += (off_t)(sizeof r + (r.is_sync ? 0 : r.len));
    }
    if (ftruncate(log_fd, good) < 0) die(98, "cannot shorten CUT_LOG");
}

__attribute__((constructor)) static void start(void)
{
    real_pwrite = (ssize_t (*)(int, const void *, size_t, off_t))dlsym(RTLD_NEXT, "pwrite");
    real_pread = (ssize_t (*)(int, void *, size_t, off_t))dlsym(RTLD_NEXT, "pread");
    real_fdatasync = (int (*)(int))dlsym(RTLD_NEXT, "fdatasync");
    real_fsync = (int (*)(int))dlsym(RTLD_NEXT, "fsync");
    if (!getenv("CUT_DIR")) return;
    for (int role = 0; role < ROLES; role++) {
        snprintf(paths[role], sizeof paths[role], "%s/%s", getenv("CUT_DIR"), names[role]);
        if (stat(paths[role], &known[role]) < 0) die(98, "no file %s", paths[role]);
    }
    watching = 1;
    cut_at = number("CUT_AT", -1), sync_us = number("SYNC_US", 0), skip_first = number("CUT_SKIP_FIRST", 0);
    fail_sync = number("FAIL_SYNC_AT", 0), fail_write = number("FAIL_WRITE_AT", 0), fail_whole = number("FAIL_WHOLE", 0);
    srandom((unsigned)number("CUT_SEED", 1));
    const char *skip = getenv("CUT_SKIP"), *fail = getenv("FAIL_READ"), *log = getenv("CUT_LOG");
    if (skip && (skipped = role_named(skip, strlen(skip))) == NONE) die(98, "CUT_SKIP=%s", skip);
    if (fail && (failing = role_named(fail, strcspn(fail, ":"))) == NONE) die(98, "FAIL_READ=%s", fail);
    if (fail) fail_at = atol(fail + strcspn(fail, ":") + 1);
    if (!log || cut_at < 0) return;
    if ((log_fd = open(log, O_RDWR | O_CREAT | O_APPEND | O_CLOEXEC, 0600)) < 0) die(98, "cannot open %s", log);
    take_over();
}

/* ---- the cut */

/* What a cut leaves of one unit whose write was not synced: counts it, and gives how many bytes of `old` are to be put back. */
static size_t leave(unsigned char *old, size_t len, unsigned what, long count[3])
{
    count[what > 2 ? 2 : what]++;
    if (what == 0) return 0;
    if (what == 2) return (size_t)random() % len; /* from some byte on it is the new */
    for (size_t i = 0; what == 3 && i < len; i++)
        old[i] = (unsigned char)random();
    return len;
}

static void power_goes(void)
{
    long count[3] = { 0, 0, 0 };
    int fd[ROLES];
    for (int role = 0; role < ROLES; role++)
        if ((fd[role] = open(paths[role], O_RDWR)) < 0) die(98, "cannot open %s", paths[role]);
    for (struct entry *e = newest; e; e = e->next) { /* newest first, so that the oldest bytes win where nothing landed */
        size_t unit = e->r.role == TAGS ? 16 : 512;
        unsigned all = (unsigned)random() % 4; /* one write in four landed whole, one not at all, and half of them in pieces */
        for (size_t i = 0; i < e->r.len; i += unit) {
            size_t len = e->r.len - i < unit ? e->r.len - i : unit;
            len = leave(e->old + i, len, all < 2 ? all : (unsigned)random() % (unit == 16 ? 2 : 4), count);
            if (len && real_pwrite(fd[e->r.role], e->old + i, len, (off_t)(e->r.at + i)) != (ssize_t)len) die(98, "cannot put back");
        }
    }
    die(99, "POWER CUT at event %ld: %ld units new, %ld old, %ld torn", events, count[0], count[1], count[2]);
}

/* ---- the calls of the server */

static ssize_t half_write(int fd, const void *buf, size_t len, off_t at)
{
    if (real_pwrite(fd, buf, len / 32 * 16, at) < 0) die(98, "cannot write half");
    errno = EIO;
    return -1;
}

ssize_t pwrite(int fd, const void *buf, size_t len, off_t at)
{
    int role = role_of(fd);
    if (role == NONE) return real_pwrite(fd, buf, len, at);
    if (at < SUPERBLOCK) die(97, "SUPERBLOCK WRITTEN: %s, %zu bytes at %ld", names[role], len, (long)at);
    pthread_mutex_lock(&mutex);
    if (cut_at >= 0) {
        struct entry *e = keep((struct record){ MARK, 0, (uint32_t)role, (uint32_t)len, (uint64_t)at, ++writes });
        if (real_pread(fd, e->old, len, at) < 0) die(98, "cannot read what was there");
        append(&e->r, e->old);
    }
    ssize_t done = ++pwrites == fail_write ? half_write(fd, buf, len, at) : real_pwrite(fd, buf, len, at);
    if (++events == cut_at) power_goes();
    pthread_mutex_unlock(&mutex);
    return done;
}
ssize_t pwrite64(int fd, const void *buf, size_t len, off_t at) { return pwrite(fd, buf, len, at); }

static int sync_of(int fd, int (*real)(int))
{
    int role = role_of(fd);
    if (role == NONE) return real(fd);
    pthread_mutex_lock(&mutex);
    uint64_t last = writes; /* what is written from here on this sync does not cover */
    long turn = ++syncs;
    if (++events == cut_at) power_goes();
    pthread_mutex_unlock(&mutex);
    if (sync_us) usleep((useconds_t)(random() % sync_us));
    if (turn == fail_sync) {
        errno = EIO;
        return -1;
    }
    if (cut_at < 0) return real(fd);
    if (role == skipped || turn <= skip_first) return 0;
    pthread_mutex_lock(&mutex);
    covered((uint32_t)role, last);
    append(&(struct record){ MARK, 1, (uint32_t)role, 0, 0, last }, NULL);
    pthread_mutex_unlock(&mutex);
    return 0;
}
int fdatasync(int fd) { return sync_of(fd, real_fdatasync); }
int fsync(int fd) { return sync_of(fd, real_fsync); }

ssize_t pread(int fd, void *buf, size_t len, off_t at)
{
    const off_t page = fail_at & ~4095L;
    if (failing != NONE && role_of(fd) == failing && at < page + 4096 && page < at + (off_t)len) {
        if (at < page && !fail_whole) return real_pread(fd, buf, (size_t)(page - at), at);
        errno = EIO;
        return -1;
    }
    return real_pread(fd, buf, len, at);
}
ssize_t pread64(int fd, void *buf, size_t len, off_t at) { return pread(fd, buf, len, at); }
