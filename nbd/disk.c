/* SPDX-License-Identifier: Apache-2.0 */
#define _GNU_SOURCE
#define NBDKIT_API_VERSION 2
#include "disk.h"

#include <errno.h>
#include <fcntl.h>
#include <inttypes.h>
#include <nbdkit-plugin.h>
#include <pthread.h>
#include <stdarg.h>
#include <stdatomic.h>
#include <stdio.h>
#include <string.h>
#include <sys/file.h>
#include <sys/stat.h>
#include <sys/sysmacros.h>
#include <syslog.h>
#include <unistd.h>

const char *const disk_parameters[PLACES] = {"local", "tags", "remote"};

/* The file of each place. */
static struct image {
    const char *path;
    int file;
    dev_t device;
    ino_t inode;
    uint8_t superblock[SUPERBLOCK_BYTES];
    struct superblock fields;
    /* Flushing: how often it was asked for, and up to which asking it is done. */
    pthread_mutex_t mutex;
    pthread_cond_t turn;
    uint64_t asked, landed;
    bool flushing;
} images[PLACES] = {
    {.file = -1, .mutex = PTHREAD_MUTEX_INITIALIZER, .turn = PTHREAD_COND_INITIALIZER},
    {.file = -1, .mutex = PTHREAD_MUTEX_INITIALIZER, .turn = PTHREAD_COND_INITIALIZER},
    {.file = -1, .mutex = PTHREAD_MUTEX_INITIALIZER, .turn = PTHREAD_COND_INITIALIZER},
};
static atomic_bool stopped;
/* Held by those who write tags, and alone by the one that flushes them. A page of tags that is on its way to the medium while a tag is
 * copied into it could take half of that tag along. */
static pthread_rwlock_t tags_lock = PTHREAD_RWLOCK_INITIALIZER;

void notice(const char *format, ...)
{
    struct stat err;
    va_list arguments;
    va_start(arguments, format);
    /* nbdkit in the background has standard error at /dev/null. */
    if (fstat(STDERR_FILENO, &err) < 0 || (S_ISCHR(err.st_mode) && err.st_rdev == makedev(1, 3))) {
        vsyslog(LOG_DAEMON | LOG_NOTICE, format, arguments);
    } else {
        char line[512];
        vsnprintf(line, sizeof line, format, arguments);
        fprintf(stderr, "mirror: %s\n", line);
    }
    va_end(arguments);
}

/* ---- opening */

static const char *parameter(const struct image *image)
{
    return disk_parameters[image - images];
}

static int wrong(const struct image *image, const char *what)
{
    nbdkit_error("%s=%s: %s", parameter(image), image->path, what);
    return -1;
}

static int cannot(const struct image *image, const char *be_done, const char *what_to_do)
{
    nbdkit_error("%s=%s: cannot be %s: %s: %s", parameter(image), image->path, be_done, strerror(errno), what_to_do);
    return -1;
}

static int read_key(uint8_t key[MIRROR_KEY_BYTES], const char *path)
{
    uint8_t bytes[MIRROR_KEY_BYTES + 1];
    struct stat about;
    const int file = open(path, O_RDONLY | O_CLOEXEC);
    const ssize_t length = file < 0 ? -1 : read(file, bytes, sizeof bytes);
    const bool others_may_read = file >= 0 && fstat(file, &about) == 0 && (about.st_mode & 077) != 0;
    if (file >= 0)
        close(file);
    if (length != MIRROR_KEY_BYTES) {
        nbdkit_error("key=%s: %s: name the file of exactly 32 bytes that the disk was made with", path,
                     length < 0 ? strerror(errno) : "does not have 32 bytes");
        return -1;
    }
    if (others_may_read)
        notice("key=%s: others than its owner may read it: chmod 600 it", path);
    memcpy(key, bytes, MIRROR_KEY_BYTES);
    return 0;
}

static int open_image(struct image *image)
{
    struct stat about;
    image->file = open(image->path, O_RDWR | O_CLOEXEC);
    if (image->file < 0)
        return cannot(image, "opened",
                      errno == ENOENT ? "see the name; if the file is lost, mirror-volume replace makes it anew"
                                      : "name a file of the disk that the server may read and write");
    if (fstat(image->file, &about) < 0 || !S_ISREG(about.st_mode))
        return wrong(image, "is no regular file: name a file of the disk");
    image->device = about.st_dev;
    image->inode = about.st_ino;
    for (const struct image *other = images; other != image; other++)
        if (other->device == image->device && other->inode == image->inode)
            return wrong(image, "is named twice: give each of the disk's three files once");
    if (flock(image->file, LOCK_EX | LOCK_NB) == 0)
        return 0;
    if (errno != EWOULDBLOCK)
        return cannot(image, "locked", "keep it on a file system with flock");
    return wrong(image, "is in use by another server or by mirror-volume: stop that one first");
}

static int read_superblock(struct image *image)
{
    const ssize_t length = pread(image->file, image->superblock, SUPERBLOCK_BYTES, 0);
    if (length < 0)
        return cannot(image, "read", "see to its medium, or copy what can be read to another file and give that");
    if (length < SUPERBLOCK_BYTES)
        memset(image->superblock, 0, SUPERBLOCK_BYTES);
    return 0;
}

/* Where none has a superblock the message is another one: a file beside a disk's two is never to be thrown away. */
static int check_there(void)
{
    for (int place = 0; place < PLACES; place++)
        if (superblock_is_there(images[place].superblock))
            return 0;
    nbdkit_error("none of the three files has a superblock: see the names; if making the disk was cut and they never held data, move them "
                 "away and make it again with mirror-volume create");
    return -1;
}

static int check_superblock(struct image *image)
{
    static const char *const swapped[PLACES] = {
        "is the local file of a disk: give it as local=", "is the tags file of a disk: give it as tags=",
        "is the remote file of a disk: give it as remote="};
    const char *what = superblock_decode(image->superblock, &image->fields);
    if (what)
        return wrong(image, what);
    return image->fields.role == image - images ? 0 : wrong(image, swapped[image->fields.role]);
}

/* Whether the three are of one disk; else the one that two others speak against is named. */
static int agree(void)
{
    const struct superblock *a = &images[LOCAL].fields, *b = &images[TAG].fields, *c = &images[REMOTE].fields;
    const bool ab = superblock_same_disk(a, b), ac = superblock_same_disk(a, c), bc = superblock_same_disk(b, c);
    if (ab && ac)
        return 0;
    const char *what = "is of another disk than the other two: give the files of one disk";
    if (!ab && !ac && !bc) {
        nbdkit_error("local=, tags= and remote= are of three different disks: give the files of one disk");
        return -1;
    }
    return wrong(&images[ab ? REMOTE : ac ? TAG : LOCAL], what);
}

static int check_length(const struct image *image)
{
    struct stat about;
    const uint64_t due = superblock_file_bytes(&image->fields, (int)image->fields.role);
    if (fstat(image->file, &about) < 0)
        return cannot(image, "looked at", "see to its medium");
    if ((uint64_t)about.st_size == due)
        return 0;
    nbdkit_error("%s=%s: has %lld bytes, and the disk's file has %" PRIu64 ": %s", parameter(image), image->path, (long long)about.st_size,
                 due,
                 (uint64_t)about.st_size < due
                     ? "it was cut short; lengthen it by truncate -s with that length, and mend the disk"
                     : "see that it is the disk's file; if a copy has padded it, shorten it by truncate -s with that length");
    return -1;
}

/* Where the check holds for another file the key is right, and this file's check is damaged. */
static int check_keys(const struct disk *disk)
{
    const struct image *unfit = NULL;
    uint32_t answer;
    int fit = 0;
    for (int place = 0; place < PLACES; place++)
        if (superblock_has_key(images[place].superblock, &images[place].fields, disk->key, &answer))
            fit++;
        else if (answer != MIRROR_DONE)
            return wrong(&images[place], mirror_text(answer));
        else
            unfit = &images[place];
    if (!unfit)
        return 0;
    return wrong(unfit, fit == 0 ? "the key is not that of this disk: give the key file that it was made with"
                                 : "has a damaged superblock, for the key is that of another of the three files: " SUPERBLOCK_ADVICE);
}

/* After a kill the kernel may hold what has not landed, and after a failed flush what never will. So what is there is flushed, and then
 * forgotten, as far as the kernel does that: what is read from now on is what the medium has. */
static int settle(const struct image *image)
{
    if (fsync(image->file) < 0)
        return cannot(image, "flushed", "see to its medium");
    (void)posix_fadvise(image->file, 0, 0, POSIX_FADV_DONTNEED);
    return 0;
}

int disk_open(struct disk *disk, char *const paths[PLACES], const char *key_path)
{
    for (int place = 0; place < PLACES; place++)
        images[place].path = paths[place];
    if (read_key(disk->key, key_path) < 0)
        return -1;
    for (int place = 0; place < PLACES; place++)
        if (open_image(&images[place]) < 0)
            return -1;
    for (int place = 0; place < PLACES; place++)
        if (read_superblock(&images[place]) < 0)
            return -1;
    if (check_there() < 0)
        return -1;
    for (int place = 0; place < PLACES; place++)
        if (check_superblock(&images[place]) < 0)
            return -1;
    if (agree() < 0)
        return -1;
    disk->shape = images[LOCAL].fields;
    for (int place = 0; place < PLACES; place++)
        if (check_length(&images[place]) < 0)
            return -1;
    if (check_keys(disk) < 0)
        return -1;
    for (int place = 0; place < PLACES; place++)
        if (settle(&images[place]) < 0)
            return -1;
    return 0;
}

/* ---- parts */

uint64_t disk_part_first(const struct disk *disk, uint64_t part)
{
    return part * disk->shape.part_sectors;
}

size_t disk_part_sectors(const struct disk *disk, uint64_t part)
{
    const uint64_t left = disk->shape.sectors - disk_part_first(disk, part);
    return left < disk->shape.part_sectors ? (size_t)left : disk->shape.part_sectors;
}

/* ---- reading and writing */

static off_t place_at(const struct disk *disk, int place, uint64_t sector)
{
    return (off_t)(SUPERBLOCK_BYTES + sector * superblock_unit(&disk->shape, place));
}

/* What cannot be read: a line for neighbours. */
static void log_unread(int place, uint64_t first, uint64_t last, const char *why)
{
    if (first == last)
        nbdkit_error("sector %" PRIu64 ": %s cannot be read: %s", first, disk_parameters[place], why);
    else
        nbdkit_error("sectors %" PRIu64 " to %" PRIu64 ": %s cannot be read: %s", first, last, disk_parameters[place], why);
}

/* The end of the page at `done`, and of the sector there: what is read alone where a read of more has failed, and given up where that fails
 * too. A medium that is asked again for the same page takes its time again, and a page has 256 tags. */
static size_t behind_page(off_t from, size_t done, size_t unit, size_t length)
{
    const size_t page = 4096 - (size_t)(from + (off_t)done) % 4096, end = (done + page + unit - 1) / unit * unit;
    return end < length ? end : length;
}

void disk_read(const struct disk *disk, int place, uint64_t first, size_t count, uint8_t *to)
{
    const size_t unit = superblock_unit(&disk->shape, place), length = count * unit;
    const off_t from = place_at(disk, place, first);
    size_t done = 0, end = length; /* what is read, and up to where is asked for */
    size_t unread = 0;             /* sectors just before `done` */
    const char *why = "";
    while (done < length) {
        if (done == end)
            end = length;
        const ssize_t got = pread(images[place].file, to + done, end - done, from + (off_t)done);
        const size_t alone = got == 0 ? length : behind_page(from, done, unit, length), start = done / unit * unit;
        if (got < 0 && (errno == EINTR || end > alone)) {
            end = errno == EINTR ? end : alone;
        } else if (got > 0) {
            if (unread)
                log_unread(place, first + done / unit - unread, first + done / unit - 1, why);
            unread = 0;
            done += (size_t)got;
        } else {
            why = got == 0 ? "the file ends before it" : strerror(errno);
            memset(to + start, 0, alone - start);
            unread += (alone - start) / unit;
            done = alone;
        }
    }
    if (unread)
        log_unread(place, first + count - unread, first + count - 1, why);
}

void disk_forget(const struct disk *disk, uint64_t first, size_t count)
{
    for (int place = 0; place < PLACES; place++)
        (void)posix_fadvise(images[place].file, place_at(disk, place, first), (off_t)(count * superblock_unit(&disk->shape, place)),
                            POSIX_FADV_DONTNEED);
}

static int write_places(const struct disk *disk, int place, uint64_t first, size_t count, const uint8_t *from)
{
    const size_t unit = superblock_unit(&disk->shape, place), length = count * unit;
    const off_t to = place_at(disk, place, first);
    if (stopped) {
        nbdkit_error("sector %" PRIu64 ": not written, since flushing has failed earlier", first);
        errno = EIO;
        return -1;
    }
    for (size_t done = 0; done < length;) {
        const ssize_t put = pwrite(images[place].file, from + done, length - done, to + (off_t)done);
        if (put > 0) {
            done += (size_t)put;
        } else if (put == 0 || errno != EINTR) {
            const int why = put == 0 ? EIO : errno;
            nbdkit_error("sector %" PRIu64 ": %s cannot be written: %s", first + done / unit, disk_parameters[place], strerror(why));
            errno = why;
            return -1;
        }
    }
    return 0;
}

int disk_write(const struct disk *disk, int place, uint64_t first, size_t count, const uint8_t *from)
{
    if (place != TAG)
        return write_places(disk, place, first, count, from);
    pthread_rwlock_rdlock(&tags_lock);
    const int result = write_places(disk, place, first, count, from);
    const int why = errno;
    pthread_rwlock_unlock(&tags_lock);
    errno = why;
    return result;
}

/* ---- flushing */

int disk_is_stopped(void)
{
    return stopped;
}

/* Flushes once for all that have asked so far. One thread at a time: the kernel tells of a failure once, and all have to know. */
static void flush(struct image *image)
{
    const uint64_t covers = image->asked;
    image->flushing = true;
    pthread_mutex_unlock(&image->mutex);
    if (image == &images[TAG])
        pthread_rwlock_wrlock(&tags_lock);
    const int failed = fdatasync(image->file) < 0 ? errno : 0;
    if (image == &images[TAG])
        pthread_rwlock_unlock(&tags_lock);
    pthread_mutex_lock(&image->mutex);
    image->flushing = false;
    if (failed) {
        stopped = true;
        nbdkit_error("%s: flushing has failed: %s: nothing more is written; stop the server, see to the medium, and start again",
                     parameter(image), strerror(failed));
    } else {
        image->landed = covers;
    }
    pthread_cond_broadcast(&image->turn);
}

int disk_land(int place)
{
    struct image *image = &images[place];
    pthread_mutex_lock(&image->mutex);
    const uint64_t mine = ++image->asked;
    while (image->landed < mine && !stopped) {
        if (image->flushing)
            pthread_cond_wait(&image->turn, &image->mutex);
        else
            flush(image);
    }
    const int result = image->landed < mine ? -1 : 0;
    pthread_mutex_unlock(&image->mutex);
    return result;
}
