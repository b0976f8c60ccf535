/* For bench/disk, linked into the plugin in place of the library's calls on a sector (ld --wrap): they copy, and encrypt and judge nothing.
 * So this server is the mirror's plugin with all its reading, writing, flushing and waiting, and without the cipher. It is there to be
 * measured only: it keeps plaintext, and finds no damage. */
#include "mirror.h"

#include <string.h>

/* What every call on a sector takes: before the plaintext, or the images, and from there on. */
#define SECTOR const uint8_t *key, size_t key_len, uint64_t volume, size_t s, size_t n, size_t number
#define PLAIN const uint8_t *plain, size_t plain_len
#define IMAGES(kind) kind *local, size_t local_len, kind *tags, size_t tags_len, kind *remote, size_t remote_len, MAP
#define MAP uint64_t *map, size_t map_len
#define UNUSED (void)key, (void)key_len, (void)volume, (void)n, (void)local_len, (void)tags_len, (void)remote_len, (void)map_len

uint32_t __wrap_mirror_first_stage(SECTOR, PLAIN, IMAGES(uint8_t));
uint32_t __wrap_mirror_second_stage(SECTOR, PLAIN, IMAGES(uint8_t));
uint32_t __wrap_mirror_third_stage(SECTOR, PLAIN, IMAGES(uint8_t));
uint32_t __wrap_mirror_read(SECTOR, IMAGES(const uint8_t), uint8_t *out, size_t out_len);

uint32_t __wrap_mirror_first_stage(SECTOR, PLAIN, IMAGES(uint8_t))
{
    UNUSED, (void)plain_len, (void)tags, (void)remote;
    memcpy(local + number * s, plain, s);
    map[number / 64] |= (uint64_t)1 << number % 64;
    return MIRROR_DONE;
}

uint32_t __wrap_mirror_second_stage(SECTOR, PLAIN, IMAGES(uint8_t))
{
    UNUSED, (void)s, (void)plain_len, (void)local, (void)remote;
    memcpy(tags + number * MIRROR_TAG_BYTES, plain, MIRROR_TAG_BYTES);
    map[number / 64] |= (uint64_t)1 << number % 64;
    return MIRROR_DONE;
}

uint32_t __wrap_mirror_third_stage(SECTOR, PLAIN, IMAGES(uint8_t))
{
    UNUSED, (void)plain_len, (void)local, (void)tags;
    memcpy(remote + number * s, plain, s);
    map[number / 64] &= ~((uint64_t)1 << number % 64);
    return MIRROR_DONE;
}

uint32_t __wrap_mirror_read(SECTOR, IMAGES(const uint8_t), uint8_t *out, size_t out_len)
{
    UNUSED, (void)out_len, (void)tags, (void)remote;
    memcpy(out, local + number * s, s);
    map[number / 64] &= ~((uint64_t)1 << number % 64);
    return MIRROR_WHOLE;
}
