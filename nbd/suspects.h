/* The map of suspect sectors, in memory, a map of the library's for each part. A thread lends the calls a map of its own, for a call may
 * write the one that it is lent: the bits of its sectors are brought there before, and taken back when what the calls wrote has landed.
 * SPDX-License-Identifier: Apache-2.0 */
#ifndef SUSPECTS_H
#define SUSPECTS_H

#include "disk.h"

/* Starts the map: all sectors are suspect. -1 if there is no memory. */
int suspects_start(const struct disk *disk);

/* What is on the medium is unknown: all sectors are suspect from now on. */
void suspects_give_up(void);

/* Brings the bits of sectors `first` and on of a part into a map of this part, takes them from it, and sets them. */
void suspects_bring(uint64_t part, size_t first, size_t count, uint64_t *map);
void suspects_take(uint64_t part, size_t first, size_t count, const uint64_t *map);
void suspects_set(uint64_t part, size_t first, size_t count);

/* Whether one of the disk's sectors from `first` to before `end` is suspect, and how many are in all. */
bool suspects_among(uint64_t first, uint64_t end);
uint64_t suspects_count(void);

#endif
