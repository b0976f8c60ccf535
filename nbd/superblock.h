/* The superblock of a disk's file, as FORMAT.md has it.
 * SPDX-License-Identifier: Apache-2.0 */
#ifndef SUPERBLOCK_H
#define SUPERBLOCK_H

#include <mirror.h>
#include <stdbool.h>
#include <stddef.h>
#include <stdint.h>

enum { LOCAL, TAG, REMOTE, PLACES }; /* the places of a sector, in the order in which the stages of a write write them; also the roles */
enum { SUPERBLOCK_BYTES = 4096, UUID_BYTES = 16 };

struct superblock {
    uint32_t role;
    uint8_t uuid[UUID_BYTES];
    uint32_t s;            /* the bytes of a sector */
    uint32_t part_sectors; /* the sectors of each part but the last */
    uint64_t sectors;      /* the sectors of the disk */
    uint32_t parts;
    uint64_t first_number; /* the volume's number of part 0 */
};

/* What to do about a damaged one. */
#define SUPERBLOCK_ADVICE                                                                                                                  \
    "move the file away, keep it, and go by mirror-volume replace, which makes a new one and says how the old one's places are put back; " \
    "where more than one is damaged go by docs/DISK.md"

/* Whether the bytes begin as a superblock does. */
bool superblock_is_there(const uint8_t bytes[SUPERBLOCK_BYTES]);

/* Takes the fields from their bytes. NULL, or what is wrong with the bytes. */
const char *superblock_decode(const uint8_t bytes[SUPERBLOCK_BYTES], struct superblock *to);

/* Whether the key check at the end of the bytes is that of the key. A refusal of the key, 14, is handed on in *answer. */
bool superblock_has_key(const uint8_t bytes[SUPERBLOCK_BYTES], const struct superblock *fields, const uint8_t key[MIRROR_KEY_BYTES],
                        uint32_t *answer);

/* Whether two files are of one disk: equal in all but the role. */
bool superblock_same_disk(const struct superblock *a, const struct superblock *b);

/* The bytes of one sector's place in a file of this role, and of the whole file. */
size_t superblock_unit(const struct superblock *fields, int role);
uint64_t superblock_file_bytes(const struct superblock *fields, int role);

#endif
