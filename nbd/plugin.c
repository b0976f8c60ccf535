/* nbdkit-mirror-plugin: a disk of the double ciphertext mirror as a block device. docs/DISK.md says how it is used.
 * SPDX-License-Identifier: Apache-2.0 */
#define NBDKIT_API_VERSION 2
#define THREAD_MODEL NBDKIT_THREAD_MODEL_PARALLEL
#include "ranges.h"
#include "scrub.h"
#include "sectors.h"
#include "suspects.h"

#include <errno.h>
#include <inttypes.h>
#include <nbdkit-plugin.h>
#include <stdio.h>
#include <string.h>

static char *paths[PLACES], *key_path;
static int mend = 1, overwrite_lost, scrub;
static struct disk disk;

/* ---- parameters */

static int take_path(char **path, const char *name, const char *value)
{
    if (*path) {
        nbdkit_error("%s= is given twice: give each file once", name);
        return -1;
    }
    return (*path = nbdkit_absolute_path(value)) ? 0 : -1;
}

static int take_config(const char *name, const char *value)
{
    const struct {
        const char *name;
        int *flag;
    } flags[] = {{"mend", &mend}, {"overwrite-lost", &overwrite_lost}, {"scrub", &scrub}};
    for (int place = 0; place < PLACES; place++)
        if (strcmp(name, disk_parameters[place]) == 0)
            return take_path(&paths[place], name, value);
    if (strcmp(name, "key") == 0)
        return take_path(&key_path, name, value);
    for (size_t i = 0; i < sizeof flags / sizeof *flags; i++)
        if (strcmp(name, flags[i].name) == 0)
            return (*flags[i].flag = nbdkit_parse_bool(value)) < 0 ? -1 : 0;
    nbdkit_error("there is no parameter %s=: they are local=, tags=, remote=, key=, mend=, overwrite-lost= and scrub=", name);
    return -1;
}

static int check_config(void)
{
    for (int place = 0; place < PLACES; place++)
        if (!paths[place]) {
            nbdkit_error("%s= is missing: name the disk's three files and its key, local=FILE tags=FILE remote=FILE key=FILE",
                         disk_parameters[place]);
            return -1;
        }
    if (!key_path) {
        nbdkit_error("key= is missing: name the file of 32 bytes that the disk was made with");
        return -1;
    }
    return 0;
}

/* ---- start and stop */

static int get_ready(void)
{
    if (mirror_version() != MIRROR_VERSION) {
        nbdkit_error("the plugin was compiled with mirror.h of release " MIRROR_VERSION_TEXT
                     " and linked with the library of another: build it anew");
        return -1;
    }
    if (disk_open(&disk, paths, key_path) < 0)
        return -1;
    if (suspects_start(&disk) < 0 || run_start() < 0) {
        nbdkit_error("there is no memory for the map of suspect sectors");
        return -1;
    }
    return 0;
}

static int after_fork(void)
{
    const struct superblock *b = &disk.shape;
    notice("%" PRIu64 " sectors of %" PRIu32 " bytes, parts: %" PRIu32 ", volume numbers from %" PRIu64 " on; %" PRIu64
           " sectors are suspect until they are read",
           b->sectors, b->s, b->parts, b->first_number, suspects_count());
    if (overwrite_lost)
        notice("overwrite-lost=true: lost sectors are given up where they are written; take it away when that is done");
    if (scrub && scrub_start(&disk, mend) < 0) {
        nbdkit_error("the scrub cannot be started: there is no memory or no thread for it");
        return -1;
    }
    return 0;
}

static void cleanup(void)
{
    scrub_stop();
    notice("stopped: %" PRIu64 " of %" PRIu64 " sectors are suspect: not read since the start, or not found whole", suspects_count(),
           disk.shape.sectors);
}

/* ---- requests */

/* What a connection is known by: with nbdkit -r its reads mend nothing. */
static char readonly_connection, connection;

static struct range sectors_of(uint64_t offset, uint32_t count)
{
    const uint64_t s = disk.shape.s, first = offset / s;
    return (struct range){.first = first, .count = (offset + count + s - 1) / s - first};
}

/* The next run of a request, and how many of its bytes are in it. */
static int next_run(struct run *run, uint64_t offset, uint32_t count, size_t *length)
{
    const struct range range = sectors_of(offset, count);
    const size_t sectors = run_length(&disk, range.first, range.count), most = sectors * disk.shape.s - offset % disk.shape.s;
    *length = count < most ? count : most;
    return run_fetch(run, &disk, range.first, sectors);
}

static int answer_pread(void *handle, void *buffer, uint32_t count, uint64_t offset, uint32_t flags)
{
    struct range range = sectors_of(offset, count);
    struct run run;
    size_t length;
    int result = 0;
    bool mended;
    (void)flags;
    range_enter(&range);
    for (uint8_t *to = buffer; count && result == 0; to += length, offset += length, count -= (uint32_t)length) {
        result = next_run(&run, offset, count, &length);
        if (result == 0)
            result = sectors_read(&run, mend && handle != &readonly_connection, &mended);
        if (result == 0)
            memcpy(to, run.plain + offset % disk.shape.s, length);
    }
    range_leave(&range);
    return result;
}

static int answer_pwrite(void *handle, const void *buffer, uint32_t count, uint64_t offset, uint32_t flags)
{
    struct range range = sectors_of(offset, count);
    struct run run;
    size_t length;
    int result = 0;
    (void)handle, (void)flags; /* all that is acknowledged has landed, so FUA asks for no more */
    range_enter(&range);
    for (const uint8_t *from = buffer; count && result == 0; from += length, offset += length, count -= (uint32_t)length) {
        result = next_run(&run, offset, count, &length);
        if (result == 0)
            result = sectors_write(&run, offset % disk.shape.s, from, length, overwrite_lost);
    }
    range_leave(&range);
    return result;
}

/* All that is acknowledged has landed. */
static int answer_flush(void *handle, uint32_t flags)
{
    (void)handle, (void)flags;
    if (!disk_is_stopped())
        return 0;
    nbdkit_error("flushing has failed earlier: stop the server, see to the medium, and start again");
    nbdkit_set_error(EIO);
    return -1;
}

static void *open_connection(int readonly)
{
    return readonly ? &readonly_connection : &connection;
}

static int64_t get_size(void *handle)
{
    (void)handle;
    return (int64_t)(disk.shape.sectors * disk.shape.s);
}

static int yes(void *handle)
{
    (void)handle;
    return 1;
}

static int can_fua(void *handle)
{
    (void)handle;
    return NBDKIT_FUA_NATIVE;
}

static int block_size(void *handle, uint32_t *minimum, uint32_t *preferred, uint32_t *maximum)
{
    (void)handle;
    *minimum = 1;
    *preferred = 4096;
    *maximum = UINT32_MAX;
    return 0;
}

static void dump_plugin(void)
{
    printf("mirror_library=%s\n", MIRROR_VERSION_TEXT);
}

static struct nbdkit_plugin plugin = {
    .name = "mirror",
    .longname = "double ciphertext mirror",
    .version = "0.1.0",
    .description = "serves a disk of the double ciphertext mirror, made by mirror-volume create",
    .config = take_config,
    .config_complete = check_config,
    .config_help = "local=FILE tags=FILE remote=FILE   (required) the disk's three files\n"
                   "key=FILE                           (required) its key, 32 bytes\n"
                   "mend=false                         reads leave a doubtful sector as it is\n"
                   "overwrite-lost=true                a lost sector may be given up by writing all of it anew\n"
                   "scrub=true                         reads the whole disk in the background, and mends it",
    .dump_plugin = dump_plugin,
    .get_ready = get_ready,
    .after_fork = after_fork,
    .cleanup = cleanup,
    .open = open_connection,
    .get_size = get_size,
    .block_size = block_size,
    .can_flush = yes,
    .can_fua = can_fua,
    .can_multi_conn = yes, /* one state for all connections, and nothing acknowledged is held back */
    .pread = answer_pread,
    .pwrite = answer_pwrite,
    .flush = answer_flush,
};
NBDKIT_REGISTER_PLUGIN(plugin)
