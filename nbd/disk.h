/* A disk's three files: opened, checked and locked; read, written and flushed.
 * SPDX-License-Identifier: Apache-2.0 */
#ifndef DISK_H
#define DISK_H

#include "superblock.h"

struct disk {
    uint8_t key[MIRROR_KEY_BYTES];
    struct superblock shape; /* what the three superblocks agree in; role is unused */
};

/* The parameters that name the files, by role. */
extern const char *const disk_parameters[PLACES];

/* Opens the files (paths by role) with the key in a file, checks them in FORMAT.md's order, and flushes them. -1 where something is wrong;
 * it has been logged, and nothing has been written. */
int disk_open(struct disk *disk, char *const paths[PLACES], const char *key_path);

/* The disk's sector from which a part begins, and how many sectors the part has. */
uint64_t disk_part_first(const struct disk *disk, uint64_t part);
size_t disk_part_sectors(const struct disk *disk, uint64_t part);

/* Reads one place of count sectors, from sector `first` of the disk on. What cannot be read is logged and is zeros: a damaged place. */
void disk_read(const struct disk *disk, int place, uint64_t first, size_t count, uint8_t *to);

/* Drops what the kernel keeps of these sectors, so that the next read asks the medium. */
void disk_forget(const struct disk *disk, uint64_t first, size_t count);

/* Writes one place of count sectors: in one write where the kernel takes it so. -1 with errno, and logged, where it fails. */
int disk_write(const struct disk *disk, int place, uint64_t first, size_t count, const uint8_t *from);

/* Waits until all that was written to this place's file before the call is on the medium. -1, and logged, if the medium has failed, now or
 * earlier: from then on disk_is_stopped. */
int disk_land(int place);

/* Whether a flush has failed. What is on the medium is unknown from then on, so nothing more is written. */
int disk_is_stopped(void);

/* A line for the operator that is no error: on standard error, or in the system's log where that goes nowhere. */
void notice(const char *format, ...) __attribute__((format(printf, 1, 2)));

#endif
