/* SPDX-License-Identifier: Apache-2.0 */
#define _GNU_SOURCE
#define NBDKIT_API_VERSION 2
#include "run.h"

#include "suspects.h"

#include <nbdkit-plugin.h>
#include <pthread.h>
#include <stdlib.h>
#include <sys/mman.h>

/* A window that holds more is emptied before the next run: its pages, with the plaintexts, go back to the kernel. */
enum { KEPT_BYTES = 1 << 20 };

enum { PLAIN = PLACES, FOUND, MAP, PIECES }; /* the pieces of a window behind the three images */

struct window {
    uint8_t *piece[PIECES];
    size_t length[PIECES];
    size_t held; /* bytes of the images that were filled since it was empty */
};

static pthread_key_t window_of_thread;

static void free_window(void *at)
{
    struct window *window = at;
    for (int i = 0; i < PIECES; i++)
        if (window->piece[i])
            munmap(window->piece[i], window->length[i]);
    free(window);
}

int run_start(void)
{
    return pthread_key_create(&window_of_thread, free_window) == 0 ? 0 : -1;
}

static size_t most_sectors(const struct disk *disk)
{
    const size_t by_bytes = RUN_BYTES / disk->shape.s;
    return by_bytes < disk->shape.part_sectors ? by_bytes : disk->shape.part_sectors;
}

static struct window *make_window(const struct disk *disk)
{
    const size_t n = disk_part_sectors(disk, 0), s = disk->shape.s, most = most_sectors(disk);
    const size_t lengths[PIECES] = {n * s, n * MIRROR_TAG_BYTES, n * s, most * s, most, MIRROR_MAP_WORDS(n) * sizeof(uint64_t)};
    struct window *window = calloc(1, sizeof *window);
    for (int i = 0; window && i < PIECES; i++) {
        void *at = mmap(NULL, lengths[i], PROT_READ | PROT_WRITE, MAP_PRIVATE | MAP_ANONYMOUS | MAP_NORESERVE, -1, 0);
        if (at == MAP_FAILED) {
            free_window(window);
            return NULL;
        }
        window->piece[i] = at;
        window->length[i] = lengths[i];
        /* A huge page for each sector at hand would be 2 MiB for 4 KiB. */
        (void)madvise(at, lengths[i], MADV_NOHUGEPAGE);
    }
    return window;
}

static struct window *own_window(const struct disk *disk)
{
    struct window *window = pthread_getspecific(window_of_thread);
    if (!window && (window = make_window(disk)) && pthread_setspecific(window_of_thread, window) != 0) {
        free_window(window);
        window = NULL;
    }
    if (!window) {
        nbdkit_error("there is no memory for a window: give the server more address space, or fewer threads (nbdkit -t)");
    } else if (window->held > KEPT_BYTES) {
        for (int i = 0; i < MAP; i++)
            (void)madvise(window->piece[i], window->length[i], MADV_DONTNEED);
        window->held = 0;
    }
    return window;
}

size_t run_length(const struct disk *disk, uint64_t first, uint64_t count)
{
    const uint64_t part = first / disk->shape.part_sectors;
    uint64_t most = disk_part_first(disk, part) + disk_part_sectors(disk, part) - first;
    most = most < most_sectors(disk) ? most : most_sectors(disk);
    return (size_t)(count < most ? count : most);
}

int run_fetch(struct run *run, const struct disk *disk, uint64_t first, size_t count)
{
    struct window *window = own_window(disk);
    if (!window)
        return -1;
    const uint64_t part = first / disk->shape.part_sectors;
    const size_t n = disk_part_sectors(disk, part), s = disk->shape.s;
    *run = (struct run){.disk = disk,
                        .part = part,
                        .first = (size_t)(first - disk_part_first(disk, part)),
                        .count = count,
                        .volume = {.key = disk->key,
                                   .key_len = sizeof disk->key,
                                   .volume = disk->shape.first_number + part,
                                   .s = s,
                                   .n = n,
                                   .local = window->piece[LOCAL],
                                   .local_len = n * s,
                                   .tags = window->piece[TAG],
                                   .tags_len = n * MIRROR_TAG_BYTES,
                                   .remote = window->piece[REMOTE],
                                   .remote_len = n * s,
                                   .map = (uint64_t *)(void *)window->piece[MAP],
                                   .map_len = MIRROR_MAP_WORDS(n)},
                        .plain = window->piece[PLAIN],
                        .found = window->piece[FOUND]};
    for (int place = 0; place < PLACES; place++)
        disk_read(disk, place, first, count, window->piece[place] + run->first * superblock_unit(&disk->shape, place));
    window->held += count * (2 * s + MIRROR_TAG_BYTES);
    suspects_bring(part, run->first, count, run->volume.map);
    return 0;
}

uint64_t run_sector(const struct run *run, size_t i)
{
    return disk_part_first(run->disk, run->part) + run->first + i;
}

int run_write(const struct run *run, int place, size_t i, size_t count)
{
    uint8_t *const image[PLACES] = {run->volume.local, run->volume.tags, run->volume.remote};
    const uint8_t *from = image[place] + (run->first + i) * superblock_unit(&run->disk->shape, place);
    return disk_write(run->disk, place, run_sector(run, i), count, from);
}
