/* SPDX-License-Identifier: Apache-2.0 */
#define _GNU_SOURCE
#include "scrub.h"

#include "ranges.h"
#include "sectors.h"
#include "suspects.h"

#include <inttypes.h>
#include <pthread.h>
#include <stdatomic.h>
#include <stdlib.h>
#include <time.h>

/* Sectors are read by blocks, at most so many bytes before the requests that wait get their turn. A block has whole pages of tags, so that
 * one that the medium does not give can be written anew: of a page that is written in part the kernel would have to read the rest. */
enum { BLOCK_BYTES = 1 << 20, PAGE_TAGS = 4096 / MIRROR_TAG_BYTES };

enum { SECONDS = 2 }; /* between two lines of progress */

static struct {
    const struct disk *disk;
    bool mend, runs;
    pthread_t thread;
    atomic_bool ends;
    uint64_t block;   /* the sectors of a block */
    uint8_t *is_read; /* for each block */
    uint64_t read, doubtful, mended, refused;
    double began, said;
} scrub;

static double now(void)
{
    struct timespec t;
    clock_gettime(CLOCK_MONOTONIC, &t);
    return (double)t.tv_sec + (double)t.tv_nsec / 1e9;
}

static void say_progress(void)
{
    const double passed = now() - scrub.began, rate = (double)scrub.read / (passed > 0 ? passed : 1);
    const uint64_t left = scrub.disk->shape.sectors - scrub.read;
    if (now() - scrub.said < SECONDS)
        return;
    scrub.said = now();
    notice("scrub: %" PRIu64 " of %" PRIu64 " sectors read, %" PRIu64 " suspect, %.0f sectors/s, %.0f s left", scrub.read,
           scrub.disk->shape.sectors, suspects_count(), rate, rate > 0 ? (double)left / rate : 0);
}

/* Counts what a run has shown. */
static void count(const struct run *run, bool mended)
{
    for (size_t i = 0; i < run->count; i++)
        if (mirror_is_refusal(run->found[i])) {
            scrub.refused++;
        } else if (run->found[i] != MIRROR_WHOLE) {
            scrub.doubtful++;
            scrub.mended += mended;
        }
    scrub.read += run->count;
}

/* Reads a block, with the requests on it kept away. */
static void read_block(uint64_t first, uint64_t end)
{
    struct range range = {.first = first, .count = end - first};
    range_enter(&range);
    while (first < end) {
        const size_t length = run_length(scrub.disk, first, end - first);
        struct run run;
        bool mended;
        disk_forget(scrub.disk, first, length);
        if (run_fetch(&run, scrub.disk, first, length) == 0) {
            (void)sectors_read(&run, scrub.mend, &mended);
            count(&run, mended);
        }
        first += length;
    }
    range_leave(&range);
}

/* Reads the blocks that are not read yet: all of them, or those with a suspect. */
static void pass(bool suspects_only)
{
    const uint64_t sectors = scrub.disk->shape.sectors;
    for (uint64_t first = 0; first < sectors && !scrub.ends; first += scrub.block) {
        const uint64_t end = sectors - first < scrub.block ? sectors : first + scrub.block;
        uint8_t *is_read = &scrub.is_read[first / scrub.block];
        if (*is_read || (suspects_only && !suspects_among(first, end)))
            continue;
        read_block(first, end);
        *is_read = 1;
        say_progress();
    }
}

static void *work(void *unused)
{
    (void)unused;
    scrub.began = scrub.said = now();
    pass(true);
    pass(false);
    notice("scrub: %s: %" PRIu64 " of %" PRIu64 " sectors read, %" PRIu64 " doubtful, %" PRIu64 " mended, %" PRIu64
           " lost or clashing, %" PRIu64 " suspect now",
           scrub.ends ? "stopped" : "done", scrub.read, scrub.disk->shape.sectors, scrub.doubtful, scrub.mended, scrub.refused,
           suspects_count());
    return NULL;
}

int scrub_start(const struct disk *disk, bool mend)
{
    const uint64_t pages = BLOCK_BYTES / disk->shape.s / PAGE_TAGS;
    scrub.disk = disk;
    scrub.mend = mend;
    scrub.block = (pages ? pages : 1) * PAGE_TAGS;
    scrub.is_read = calloc((disk->shape.sectors - 1) / scrub.block + 1, 1);
    scrub.runs = scrub.is_read && pthread_create(&scrub.thread, NULL, work, NULL) == 0;
    return scrub.runs ? 0 : -1;
}

void scrub_stop(void)
{
    scrub.ends = true;
    if (scrub.runs)
        (void)pthread_join(scrub.thread, NULL);
    scrub.runs = false;
}
