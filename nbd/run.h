/* A run: neighbouring sectors of one part that are worked on at once, in memory of the thread's own.
 *
 * The calls never see the files. They are lent a WINDOW, private memory as long as a part's images, of which only the run's sectors are
 * filled; the rest is address space on which nothing is spent. It is not a shared mapping of the files: a call may store a tag byte by
 * byte, and a kill between two bytes would leave a mixture in the file, which can lose the sector (tests/disk/steptag.c shows it). From the
 * window whole places are written out.
 * SPDX-License-Identifier: Apache-2.0 */
#ifndef RUN_H
#define RUN_H

#include "disk.h"

/* The most bytes of plaintext in one run. A request that has more, or that crosses from one part to the next, is several runs. */
enum { RUN_BYTES = 8 << 20 };

struct run {
    const struct disk *disk;
    uint64_t part;
    size_t first, count;         /* the sectors' numbers in the part */
    struct mirror_volume volume; /* the part, in the window */
    uint8_t *plain;              /* a plaintext for each sector of the run */
    uint8_t *found;              /* for each sector what a call answered */
};

/* Once, before the first run. -1 if it cannot be done. */
int run_start(void);

/* How many of count sectors, from the disk's sector `first` on, go into one run. */
size_t run_length(const struct disk *disk, uint64_t first, uint64_t count);

/* Makes a run of these sectors in the calling thread's window, with their places read from the files and their bits from the map. It is
 * good until the thread's next one. -1, and logged, if there is no memory. */
int run_fetch(struct run *run, const struct disk *disk, uint64_t first, size_t count);

/* The number on the disk of the run's i-th sector. */
uint64_t run_sector(const struct run *run, size_t i);

/* Writes one place of count sectors of the run, from the i-th on, out to its file. */
int run_write(const struct run *run, int place, size_t i, size_t count);

#endif
