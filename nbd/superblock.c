/* SPDX-License-Identifier: Apache-2.0 */
#include "superblock.h"

#include <string.h>

enum { CRC_AT = 4076, CHECK_AT = 4080, VERSION = 1 };

static uint64_t little_endian(const uint8_t *at, int bytes)
{
    uint64_t number = 0;
    for (int i = bytes; i-- > 0;)
        number = number << 8 | at[i];
    return number;
}

static uint32_t crc32(const uint8_t *bytes, size_t length)
{
    uint32_t crc = UINT32_MAX;
    for (size_t i = 0; i < length; i++) {
        crc ^= bytes[i];
        for (int bit = 0; bit < 8; bit++)
            crc = crc >> 1 ^ (crc & 1 ? 0xedb88320u : 0);
    }
    return ~crc;
}

/* Whether the numbers can be those of a disk. The files' lengths have to fit a signed 64-bit number, as the kernel's do. */
static bool is_shape(const struct superblock *b)
{
    return b->s % 16 == 0 && b->s >= MIRROR_SECTOR_BYTES_MIN && b->s <= MIRROR_SECTOR_BYTES_MAX && b->part_sectors >= 1 &&
           b->part_sectors <= MIRROR_VOLUME_SECTORS_MAX && b->sectors >= 1 && b->sectors <= (INT64_MAX - SUPERBLOCK_BYTES) / b->s &&
           b->parts == (b->sectors - 1) / b->part_sectors + 1 && b->first_number <= UINT64_MAX - (b->parts - 1);
}

static bool is_zero(const uint8_t *from, const uint8_t *end)
{
    while (from < end)
        if (*from++ != 0)
            return false;
    return true;
}

bool superblock_is_there(const uint8_t bytes[SUPERBLOCK_BYTES])
{
    return memcmp(bytes, "DCMIRROR", 8) == 0;
}

const char *superblock_decode(const uint8_t bytes[SUPERBLOCK_BYTES], struct superblock *to)
{
    if (!superblock_is_there(bytes))
        return "has no superblock, and another of the three files has one: see the name; if it is the disk's file, " SUPERBLOCK_ADVICE;
    if (little_endian(bytes + CRC_AT, 4) != crc32(bytes, CRC_AT))
        return "has a damaged superblock: " SUPERBLOCK_ADVICE;
    if (little_endian(bytes + 8, 4) != VERSION)
        return "is of another version of the format: serve it with the release that made it";
    to->role = (uint32_t)little_endian(bytes + 12, 4);
    memcpy(to->uuid, bytes + 16, UUID_BYTES);
    to->s = (uint32_t)little_endian(bytes + 32, 4);
    to->part_sectors = (uint32_t)little_endian(bytes + 36, 4);
    to->sectors = little_endian(bytes + 40, 8);
    to->parts = (uint32_t)little_endian(bytes + 48, 4);
    to->first_number = little_endian(bytes + 56, 8);
    if (to->role >= PLACES || !is_shape(to) || !is_zero(bytes + 52, bytes + 56) || !is_zero(bytes + 64, bytes + CRC_AT))
        return "has a superblock with numbers that no disk has: it was not made by mirror-volume";
    return NULL;
}

bool superblock_has_key(const uint8_t bytes[SUPERBLOCK_BYTES], const struct superblock *fields, const uint8_t key[MIRROR_KEY_BYTES],
                        uint32_t *answer)
{
    uint8_t local[CHECK_AT], tag[MIRROR_TAG_BYTES], remote[CHECK_AT];
    *answer = mirror_seal(key, MIRROR_KEY_BYTES, fields->first_number, UINT64_MAX - fields->role, bytes, CHECK_AT, local, sizeof local, tag,
                          sizeof tag, remote, sizeof remote);
    return *answer == MIRROR_DONE && memcmp(tag, bytes + CHECK_AT, sizeof tag) == 0;
}

bool superblock_same_disk(const struct superblock *a, const struct superblock *b)
{
    return memcmp(a->uuid, b->uuid, UUID_BYTES) == 0 && a->s == b->s && a->part_sectors == b->part_sectors && a->sectors == b->sectors &&
           a->parts == b->parts && a->first_number == b->first_number;
}

size_t superblock_unit(const struct superblock *fields, int role)
{
    return role == TAG ? MIRROR_TAG_BYTES : fields->s;
}

uint64_t superblock_file_bytes(const struct superblock *fields, int role)
{
    return SUPERBLOCK_BYTES + fields->sectors * superblock_unit(fields, role);
}
