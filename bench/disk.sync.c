/* For bench/disk, as LD_PRELOAD of a server that is measured: what a sync takes (fdatasync, by which nbdkit's file plugin and the mirror
 * flush), and how many there are. A server with another sync than the real one loses data in a power cut: it is there to be measured only.
 *
 *   DISK_SYNC    real: the sync of the system. A number: it takes so many microseconds and brings nothing to the medium; several at once
 *                do not wait for each other. 0: it returns at once.
 *   DISK_COUNT   a file of 8 bytes, in which the syncs are counted, as a 64-bit number of the machine's order
 */
#define _GNU_SOURCE
#include <dlfcn.h>
#include <fcntl.h>
#include <stdatomic.h>
#include <stdint.h>
#include <stdio.h>
#include <stdlib.h>
#include <string.h>
#include <sys/mman.h>
#include <unistd.h>

static int (*real_sync)(int);
static long microseconds = -1; /* below 0: the real one */
static _Atomic uint64_t *count;

static void need(int holds, const char *what)
{
    if (!holds) {
        fprintf(stderr, "disk.sync: %s\n", what);
        exit(1);
    }
}

__attribute__((constructor)) static void start(void)
{
    const char *sync = getenv("DISK_SYNC"), *path = getenv("DISK_COUNT");
    need(sync && path, "DISK_SYNC and DISK_COUNT have to be set");
    if (strcmp(sync, "real") != 0)
        microseconds = strtol(sync, NULL, 10);
    real_sync = (int (*)(int))dlsym(RTLD_NEXT, "fdatasync");
    need(real_sync != NULL, "there is no fdatasync");
    int file = open(path, O_RDWR | O_CLOEXEC);
    need(file >= 0, "the file of DISK_COUNT cannot be opened");
    count = mmap(NULL, sizeof *count, PROT_READ | PROT_WRITE, MAP_SHARED, file, 0);
    need(count != MAP_FAILED, "the file of DISK_COUNT cannot be mapped");
    close(file);
}

int fdatasync(int file)
{
    atomic_fetch_add(count, 1);
    if (microseconds < 0)
        return real_sync(file);
    if (microseconds > 0)
        usleep((useconds_t)microseconds);
    return 0;
}
