/* SPDX-License-Identifier: Apache-2.0 */
#include "suspects.h"

#include <pthread.h>
#include <stdlib.h>
#include <string.h>

static const struct disk *disk;
static pthread_mutex_t mutex = PTHREAD_MUTEX_INITIALIZER;
static uint64_t *maps; /* of all parts, one behind the other */
static bool given_up;  /* a flush has failed */

static uint64_t *map_of(uint64_t part)
{
    return maps + part * MIRROR_MAP_WORDS(disk->shape.part_sectors);
}

static void put_bit(uint64_t *map, size_t number, int bit)
{
    const uint64_t mask = UINT64_C(1) << number % 64;
    map[number / 64] = bit ? map[number / 64] | mask : map[number / 64] & ~mask;
}

static int start_all(void)
{
    for (uint64_t part = 0; part < disk->shape.parts; part++) {
        const size_t n = disk_part_sectors(disk, part);
        if (mirror_start_map(n, map_of(part), MIRROR_MAP_WORDS(n)) != MIRROR_DONE)
            return -1;
    }
    return 0;
}

int suspects_start(const struct disk *of)
{
    disk = of;
    maps = calloc(disk->shape.parts, MIRROR_MAP_WORDS(disk->shape.part_sectors) * sizeof *maps);
    return maps ? start_all() : -1;
}

void suspects_give_up(void)
{
    pthread_mutex_lock(&mutex);
    if (!given_up)
        (void)start_all(); /* the same numbers were accepted at the start */
    given_up = true;
    pthread_mutex_unlock(&mutex);
}

void suspects_bring(uint64_t part, size_t first, size_t count, uint64_t *map)
{
    pthread_mutex_lock(&mutex);
    for (size_t number = first; number < first + count; number++)
        put_bit(map, number, mirror_is_suspect(map_of(part), number));
    pthread_mutex_unlock(&mutex);
}

void suspects_take(uint64_t part, size_t first, size_t count, const uint64_t *map)
{
    pthread_mutex_lock(&mutex);
    for (size_t number = first; number < first + count && !given_up; number++)
        put_bit(map_of(part), number, mirror_is_suspect(map, number));
    pthread_mutex_unlock(&mutex);
}

void suspects_set(uint64_t part, size_t first, size_t count)
{
    pthread_mutex_lock(&mutex);
    for (size_t number = first; number < first + count; number++)
        put_bit(map_of(part), number, 1);
    pthread_mutex_unlock(&mutex);
}

bool suspects_among(uint64_t first, uint64_t end)
{
    bool found = false;
    pthread_mutex_lock(&mutex);
    for (uint64_t sector = first; sector < end && !found; sector++) {
        const uint64_t part = sector / disk->shape.part_sectors;
        found = mirror_is_suspect(map_of(part), (size_t)(sector - disk_part_first(disk, part)));
    }
    pthread_mutex_unlock(&mutex);
    return found;
}

uint64_t suspects_count(void)
{
    uint64_t all = 0, map[MIRROR_MAP_WORDS(MIRROR_VOLUME_SECTORS_MAX)];
    for (uint64_t part = 0; part < disk->shape.parts; part++) {
        const size_t n = disk_part_sectors(disk, part);
        uint64_t count = 0;
        pthread_mutex_lock(&mutex);
        memcpy(map, map_of(part), MIRROR_MAP_WORDS(n) * sizeof *map);
        pthread_mutex_unlock(&mutex);
        if (mirror_count_suspects(n, map, MIRROR_MAP_WORDS(n), &count) == MIRROR_DONE)
            all += count;
    }
    return all;
}
