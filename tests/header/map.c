/*
 * The map of suspect sectors, at counts of sectors around the bounds of a word: which bit is a sector's, the map's length, the bits past
 * the count, starting and counting. What each answer of a call does to the bit is in volume.c. Each buffer is on the heap with its exact
 * length.
 */
#include "checks.h"

#include <stdio.h>
#include <stdlib.h>
#include <string.h>

enum { VOLUME = 9, SIZE = 16 };

/* ---- how many words, and which bit */

#if MIRROR_MAP_WORDS(63 + 1) != 1 || MIRROR_MAP_WORDS(65) != 2
#error "MIRROR_MAP_WORDS is no constant that #if can compare, or another one"
#endif
static const uint64_t TWO_WORDS[MIRROR_MAP_WORDS(65)] = {0x8000000000000001, 2}; /* sectors 0, 63 and 65 */

static void words(void)
{
    static const size_t DUE[][2] = {{0, 0},   {1, 1},   {63, 1},       {64, 1},       {65, 2},
                                    {128, 2}, {129, 3}, {65536, 1024}, {65537, 1025}, {SIZE_MAX, SIZE_MAX / 64 + 1}};
    size_t i;
    for (i = 0; i < sizeof DUE / sizeof DUE[0]; i++) {
        check(MIRROR_MAP_WORDS(DUE[i][0]) == DUE[i][1], __LINE__, "MIRROR_MAP_WORDS", "gives another number of words");
    }
    check(sizeof TWO_WORDS == 16, __LINE__, "MIRROR_MAP_WORDS", "is no constant for the length of an array");
}

static void is_suspect(void)
{
    size_t i;
    for (i = 0; i < 128; i++) {
        const int due = i == 0 || i == 63 || i == 65;
        check(mirror_is_suspect(TWO_WORDS, i) == due, __LINE__, "mirror_is_suspect", "tests another bit");
    }
}

/* The bits of some sectors, written out, the numbers rising. */
static const struct {
    size_t number, word;
    uint64_t mask;
} BITS[] = {{0, 0, 1},
            {1, 0, 2},
            {62, 0, 0x4000000000000000},
            {63, 0, 0x8000000000000000},
            {64, 1, 1},
            {65534, 1023, 0x4000000000000000},
            {65535, 1023, 0x8000000000000000}};
enum { BIT_COUNT = sizeof BITS / sizeof BITS[0] };

/* ---- a map of n sectors, what it is due to be, and one of a word more */

static size_t n, length;
static uint64_t *map, *due, *longer;

static uint64_t *word_heap(size_t count) { return (uint64_t *)(void *)heap(count * sizeof(uint64_t)); }

static void take(size_t count)
{
    n = count;
    length = (count + 63) / 64;
    map = word_heap(length);
    due = word_heap(length);
    longer = word_heap(length + 1);
}

static void give_back(void)
{
    free(map);
    free(due);
    free(longer);
}

/* From here on the map is due as it is now. */
static void keep(void) { memcpy(due, map, length * sizeof *map); }

static void fill(int byte)
{
    memset(map, byte, length * sizeof *map);
    keep();
}

/* The map is due with each bit below n as `below`, and each past n as `past`. */
static void due_bits(int below, int past)
{
    size_t i;
    for (i = 0; i < length * 64; i++) {
        const uint64_t mask = (uint64_t)1 << (i % 64);
        due[i / 64] = (i < n ? below : past) ? due[i / 64] | mask : due[i / 64] & ~mask;
    }
}

static void as_due(int line, const char *call)
{
    check(memcmp(map, due, length * sizeof *map) == 0, line, call, "leaves another map than is due");
}

/* ---- starting and counting */

static void starts(int byte)
{
    fill(byte);
    answers(MIRROR_DONE, mirror_start_map(n, map, length), __LINE__, "mirror_start_map");
    due_bits(1, 0);
    as_due(__LINE__, "mirror_start_map");
}

/* The suspects of the map as it is due. */
static void counts(uint64_t suspects)
{
    uint64_t *const count = word_heap(1);
    memcpy(map, due, length * sizeof *map);
    answers(MIRROR_DONE, mirror_count_suspects(n, map, length, count), __LINE__, "mirror_count_suspects");
    check(*count == suspects, __LINE__, "mirror_count_suspects", "counts other bits");
    as_due(__LINE__, "mirror_count_suspects");
    free(count);
}

static void counts_all(void)
{
    size_t i;
    int past;
    for (past = 0; past < 2; past++) {
        due_bits(1, past);
        counts(n);
        due_bits(0, past);
        counts(0);
        for (i = 0; i < BIT_COUNT && BITS[i].number < n; i++) {
            due_bits(0, past);
            due[BITS[i].word] |= BITS[i].mask;
            counts(1);
            due_bits(1, past);
            due[BITS[i].word] &= ~BITS[i].mask;
            counts(n - 1);
        }
    }
}

/* Both calls refuse this count with a map of this length, and leave map and count as they were. */
static void refuse(uint32_t refusal, size_t count, uint64_t *at, size_t at_length)
{
    uint64_t *const before = word_heap(length + 1), *const suspects = word_heap(1);
    const uint64_t kept = *suspects;
    memset(at, 0xa5, at_length * sizeof *at);
    memcpy(before, at, at_length * sizeof *at);
    answers(refusal, mirror_start_map(count, at, at_length), __LINE__, "mirror_start_map");
    answers(refusal, mirror_count_suspects(count, at, at_length, suspects), __LINE__, "mirror_count_suspects");
    check(memcmp(at, before, at_length * sizeof *at) == 0, __LINE__, "a refusal of 8 or 13", "changes the map");
    check(*suspects == kept, __LINE__, "a refused mirror_count_suspects", "changes the count");
    free(before);
    free(suspects);
}

/* A count out of range is 8 before the length is looked at, also where its lowest bits, or the sum of it and 63, would be in range. */
static void refuses(void)
{
    static const size_t OUT_OF_RANGE[] = {0, 65537, 131072, (size_t)1 << 32, ((size_t)1 << 32) + 1, SIZE_MAX - 62, SIZE_MAX};
    size_t i;
    refuse(MIRROR_REFUSED_MAP_LENGTH, n, map, 0);
    refuse(MIRROR_REFUSED_MAP_LENGTH, n, map, length - 1);
    refuse(MIRROR_REFUSED_MAP_LENGTH, n, longer, length + 1);
    for (i = 0; i < sizeof OUT_OF_RANGE / sizeof OUT_OF_RANGE[0]; i++) {
        refuse(MIRROR_REFUSED_VOLUME_SHAPE, OUT_OF_RANGE[i], map, 0);
        refuse(MIRROR_REFUSED_VOLUME_SHAPE, OUT_OF_RANGE[i], map, length);
        refuse(MIRROR_REFUSED_VOLUME_SHAPE, OUT_OF_RANGE[i], longer, length + 1);
    }
    answers(MIRROR_REFUSED_MAP_LENGTH, mirror_start_map(n, NULL, 0), __LINE__, "mirror_start_map");
}

/* ---- the bit of a call on a sector */

static uint8_t *key, *plain, *local, *tags, *remote, *out;

#define NAMED key, MIRROR_KEY_BYTES, VOLUME, SIZE, n
#define IMAGES local, n *SIZE, tags, n *MIRROR_TAG_BYTES, remote, n *SIZE
#define MAP map, length
#define PLAIN plain, SIZE
#define OUT out, SIZE

static void take_volume(void)
{
    key = heap(MIRROR_KEY_BYTES);
    plain = heap(SIZE);
    out = heap(SIZE);
    local = heap(n * SIZE);
    tags = heap(n * MIRROR_TAG_BYTES);
    remote = heap(n * SIZE);
}

static void give_back_volume(void)
{
    free(key);
    free(plain);
    free(out);
    free(local);
    free(tags);
    free(remote);
}

/* A call sets just this bit where none was set, past n neither; and clears just this bit where all were set, past n too. */
#define SETS(i, answer, call) (fill(0), answers(answer, call, __LINE__, #call), due[BITS[i].word] = BITS[i].mask, as_due(__LINE__, #call))
#define CLEARS(i, answer, call) \
    (fill(0xff), answers(answer, call, __LINE__, #call), due[BITS[i].word] = ~BITS[i].mask, as_due(__LINE__, #call))

static void marks(size_t i)
{
    const size_t number = BITS[i].number;
    CLEARS(i, MIRROR_DONE, mirror_blank(NAMED, number, IMAGES, MAP));
    SETS(i, MIRROR_DONE, mirror_first_stage(NAMED, number, PLAIN, IMAGES, MAP));
    SETS(i, MIRROR_DONE, mirror_second_stage(NAMED, number, PLAIN, IMAGES, MAP));
    CLEARS(i, MIRROR_DONE, mirror_third_stage(NAMED, number, PLAIN, IMAGES, MAP));
    CLEARS(i, MIRROR_WHOLE, mirror_read(NAMED, number, IMAGES, MAP, OUT));
    tags[number * MIRROR_TAG_BYTES] ^= 1;
    SETS(i, MIRROR_DOUBTFUL_TAG, mirror_read(NAMED, number, IMAGES, MAP, OUT));
    CLEARS(i, MIRROR_DOUBTFUL_TAG, mirror_mend(NAMED, number, IMAGES, MAP));
    CLEARS(i, MIRROR_WHOLE, mirror_write(NAMED, number, PLAIN, IMAGES, MAP));
    tags[number * MIRROR_TAG_BYTES] ^= 1;
    CLEARS(i, MIRROR_DOUBTFUL_TAG, mirror_write(NAMED, number, PLAIN, IMAGES, MAP));
    local[number * SIZE] ^= 1;
    remote[number * SIZE] ^= 2;
    SETS(i, MIRROR_REFUSED_LOST, mirror_read(NAMED, number, IMAGES, MAP, OUT));
    SETS(i, MIRROR_REFUSED_LOST, mirror_mend(NAMED, number, IMAGES, MAP));
    SETS(i, MIRROR_REFUSED_LOST, mirror_write(NAMED, number, PLAIN, IMAGES, MAP));
}

/* The length is exact in a volume's call too, and one that is refused leaves the map. */
static void lengths(void)
{
    fill(0x5a);
    memset(longer, 0x5a, (length + 1) * sizeof *longer);
    answers(MIRROR_REFUSED_MAP_LENGTH, mirror_blank(NAMED, 0, IMAGES, map, length - 1), __LINE__, "mirror_blank");
    answers(MIRROR_REFUSED_MAP_LENGTH, mirror_blank(NAMED, 0, IMAGES, longer, length + 1), __LINE__, "mirror_blank");
    answers(MIRROR_REFUSED_SECTOR_NUMBER, mirror_blank(NAMED, n, IMAGES, MAP), __LINE__, "mirror_blank");
    as_due(__LINE__, "a refused mirror_blank");
    check(memcmp(longer, map, length * sizeof *map) == 0 && longer[length] == map[0], __LINE__, "a refused mirror_blank",
          "changes a map that is too long");
}

/* From a started map on, each sector that is blanked is one suspect less. */
static void counts_down(void)
{
    size_t i;
    answers(MIRROR_DONE, mirror_start_map(n, MAP), __LINE__, "mirror_start_map");
    for (i = 0; i < BIT_COUNT && BITS[i].number < n; i++) {
        check(mirror_is_suspect(map, BITS[i].number) == 1, __LINE__, "mirror_is_suspect", "misses a sector of a started map");
        answers(MIRROR_DONE, mirror_blank(NAMED, BITS[i].number, IMAGES, MAP), __LINE__, "mirror_blank");
        check(mirror_is_suspect(map, BITS[i].number) == 0, __LINE__, "mirror_is_suspect", "takes a blank sector for a suspect");
        keep();
        counts(n - 1 - i);
    }
}

static void map_of(size_t count)
{
    size_t i;
    take(count);
    starts(0);
    starts(0xff);
    starts(0x5a);
    counts_all();
    refuses();
    take_volume();
    for (i = 0; i < BIT_COUNT && BITS[i].number < n; i++) {
        marks(i);
    }
    lengths();
    counts_down();
    give_back_volume();
    give_back();
}

void maps(void)
{
    words();
    is_suspect();
    map_of(1);
    map_of(63);
    map_of(64);
    map_of(65);
    map_of(MIRROR_VOLUME_SECTORS_MAX);
    puts("calls: mirror_start_map, mirror_count_suspects, mirror_is_suspect, the map of 1, 63, 64, 65 and 65,536 sectors");
}
