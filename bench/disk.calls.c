/* For bench/disk: what the library's calls take alone, in memory, with no file and no server: those that the plugin makes for a write of
 * one whole sector (the three stages) and for a read of one (mirror_read), on sectors of 4,096 bytes in a scattered order.
 *
 *   disk.calls MILLISECONDS     measures a write and a read for about so long each, and prints "write NS" and "read NS", for one of each
 */
#define _POSIX_C_SOURCE 200809L
#include "mirror.h"

#include <stdio.h>
#include <stdlib.h>
#include <time.h>

enum { SIZE = 4096, COUNT = 1024 };

static uint8_t key[MIRROR_KEY_BYTES] = "an example key: h, and then K..", plain[SIZE], out[SIZE];
static uint8_t local[COUNT * SIZE], tags[COUNT * MIRROR_TAG_BYTES], remote[COUNT * SIZE];
static uint64_t map[MIRROR_MAP_WORDS(COUNT)];
static const struct mirror_volume volume = {.key = key,
                                            .key_len = sizeof key,
                                            .volume = 1,
                                            .s = SIZE,
                                            .n = COUNT,
                                            .local = local,
                                            .local_len = sizeof local,
                                            .tags = tags,
                                            .tags_len = sizeof tags,
                                            .remote = remote,
                                            .remote_len = sizeof remote,
                                            .map = map,
                                            .map_len = MIRROR_MAP_WORDS(COUNT)};

static void need(int holds, const char *what)
{
    if (!holds) {
        fprintf(stderr, "disk.calls: %s\n", what);
        exit(1);
    }
}

static double now(void)
{
    struct timespec t;
    clock_gettime(CLOCK_MONOTONIC, &t);
    return (double)t.tv_sec * 1e9 + (double)t.tv_nsec;
}

static void write_one(size_t number)
{
    plain[0]++;
    need(mirror_volume_first_stage(&volume, number, plain, SIZE) == MIRROR_DONE &&
             mirror_volume_second_stage(&volume, number, plain, SIZE) == MIRROR_DONE &&
             mirror_volume_third_stage(&volume, number, plain, SIZE) == MIRROR_DONE,
         "a stage refused");
}

static void read_one(size_t number)
{
    need(mirror_volume_read(&volume, number, out, SIZE) == MIRROR_WHOLE, "a sector is not whole");
}

/* Nanoseconds of one, over all that are made in so many milliseconds. */
static double each(void (*one)(size_t number), double milliseconds)
{
    const double from = now();
    double taken = 0;
    size_t done = 0;
    for (; taken < milliseconds * 1e6; taken = now() - from)
        for (size_t i = 0; i < 16; i++)
            one(done++ * 389 % COUNT);
    return taken / (double)done;
}

int main(int argc, char **argv)
{
    const double milliseconds = argc == 2 ? atof(argv[1]) : 0;
    need(milliseconds > 0, "usage: disk.calls MILLISECONDS");
    need(mirror_version() == MIRROR_VERSION, "the library is of another release than the header");
    need(mirror_volume_start_map(&volume) == MIRROR_DONE, "the map cannot be started");
    for (size_t i = 0; i < COUNT; i++)
        need(mirror_volume_blank(&volume, i) == MIRROR_DONE, "a sector cannot be blanked");
    printf("write %.0f\n", each(write_one, milliseconds));
    printf("read %.0f\n", each(read_one, milliseconds));
    return 0;
}
