/*
 * Every call of mirror.h, every answer, and every byte that is lent: what a call writes must be what is due, and the rest as it was.
 * Compiles as C99 and as C++11. Each buffer is on the heap with its exact length, so that valgrind sees a step beside it.
 */
#include "checks.h"

#include <stdio.h>
#include <stdlib.h>
#include <string.h>

#if MIRROR_VERSION < 1000
#error "MIRROR_VERSION is below that of the first release, 0.1.0"
#endif

enum { SIZE = 32, COUNT = 3, ENTRIES = COUNT + 1, WORDS = 1, BUFFERS = 13 };
static const uint64_t ADDRESS = 0x0102030405060708, VOLUME = 0xf1f2f3f4f5f6f7f8;

/* A sector as it is stored. */
typedef struct {
    uint8_t local[SIZE], tag[MIRROR_TAG_BYTES], remote[SIZE];
} Stored;

/* The sealing of the bytes 80 to 9f (hexadecimal) under the key 00 to 1f at ADDRESS, by the independent implementation: under VOLUME, and
 * under the number 0, as releases before 0.3.0 gave it. */
static const Stored STORED = {{0x28, 0x7e, 0xf9, 0x4d, 0x85, 0xbe, 0x9d, 0xbd, 0x05, 0xed, 0x7f, 0x2b, 0x6d, 0x52, 0x88, 0xe4,
                               0xa8, 0x41, 0xca, 0x26, 0x43, 0xb5, 0xc5, 0xce, 0xd9, 0xaf, 0xd4, 0xed, 0x77, 0x9a, 0x3c, 0xd8},
                              {0x96, 0x19, 0x4f, 0xf9, 0x2f, 0xf8, 0xfe, 0xcf, 0x3a, 0x41, 0x68, 0x75, 0x79, 0x08, 0x77, 0xb9},
                              {0xa8, 0xff, 0x7b, 0xce, 0x01, 0x3b, 0x1b, 0x3a, 0x8d, 0x64, 0xf5, 0xa0, 0xe1, 0xdf, 0x06, 0x6b,
                               0x38, 0xd0, 0x58, 0xb5, 0xd7, 0x20, 0x53, 0x59, 0x41, 0x36, 0x4e, 0x76, 0xeb, 0x07, 0xa2, 0x47}};
static const Stored STORED_UNDER_0 = {{0x8f, 0xb4, 0x0d, 0xfc, 0x03, 0xdd, 0x5c, 0xe2, 0x3b, 0x20, 0xab, 0x42, 0x10, 0x44, 0x72, 0x01,
                                       0xf4, 0xbe, 0x61, 0x01, 0x7a, 0x96, 0xb5, 0xda, 0x7d, 0x3c, 0x4e, 0xf0, 0x26, 0x7e, 0x1d, 0x13},
                                      {0xdf, 0x77, 0x7e, 0xb3, 0xbd, 0xba, 0xf5, 0x31, 0xfd, 0x6e, 0x59, 0x59, 0xb4, 0x27, 0x3a, 0xac},
                                      {0x0f, 0x35, 0x8f, 0x7f, 0x87, 0x58, 0xda, 0x65, 0xb3, 0xa9, 0x21, 0xc9, 0x9c, 0xc9, 0xfc, 0x8e,
                                       0x64, 0x2f, 0xf3, 0x92, 0xee, 0x03, 0x23, 0x4d, 0xe5, 0xa5, 0xd4, 0x6b, 0xba, 0xe3, 0x83, 0x8c}};

/* ---- checks */

static unsigned checks;
static unsigned char met[256];

void check(int holds, int line, const char *text, const char *what)
{
    checks++;
    if (!holds) {
        fprintf(stderr, "calls: line %d: %s: %s\n", line, text, what);
        exit(1);
    }
}

void answers(uint32_t due, uint32_t answer, int line, const char *call)
{
    char what[64];
    sprintf(what, "answers %lx and not %lx (hexadecimal)", (unsigned long)answer, (unsigned long)due);
    check(answer == due, line, call, what);
    met[answer & 0xff] = 1;
}

/* ---- the buffers that are lent, and what must be in them */

typedef struct {
    const char *name;
    uint8_t *at, *due;
    size_t length;
} Lent;

static Lent lent[BUFFERS];
static size_t lents;

uint8_t *heap(size_t length)
{
    uint8_t *at = (uint8_t *)malloc(length);
    if (at == NULL) {
        fprintf(stderr, "calls: no memory\n");
        exit(1);
    }
    memset(at, 0x5a, length);
    return at;
}

static uint8_t *lend(const char *name, size_t length)
{
    Lent *l = &lent[lents++];
    l->name = name;
    l->at = heap(length);
    l->due = heap(length);
    l->length = length;
    return l->at;
}

static uint8_t *key, *plain, *local, *tag, *remote, *out, *locals, *tags, *remotes, *list_bytes, *count_bytes, *map_bytes;
static uint32_t *list;
static uint64_t *counts, *map, *longer_map;

/* From here on every buffer is due as it is now. The output has bytes that no call gives, so that a call that does not write it shows. */
static void keep(void)
{
    size_t i;
    memset(out, 0xee, SIZE);
    for (i = 0; i < lents; i++) {
        memcpy(lent[i].due, lent[i].at, lent[i].length);
    }
}

/* The bytes that a call was to write from `at` on, all in one buffer, are due as these. */
static void due(const uint8_t *at, const void *bytes, size_t length, int line)
{
    size_t i, found = 0;
    for (i = 0; i < lents; i++) {
        const uintptr_t place = (uintptr_t)at - (uintptr_t)lent[i].at;
        if (place < lent[i].length && length <= lent[i].length - place) {
            memcpy(lent[i].due + place, bytes, length);
            found++;
        }
    }
    check(found == 1, line, "bytes that are due", "are in no buffer that is lent");
}

static void as_due(int line, const char *call)
{
    size_t i;
    for (i = 0; i < lents; i++) {
        char what[64];
        sprintf(what, "leaves other bytes in %s than are due", lent[i].name);
        check(memcmp(lent[i].at, lent[i].due, lent[i].length) == 0, line, call, what);
    }
}

/* The map's one word as a call has to leave it. */
static uint64_t marked;

/* The bit of a sector is due set, or clear. It is made the other way round, so that a call that leaves it shows. */
static void mark(size_t number, int set)
{
    static const uint64_t BITS[COUNT] = {1, 2, 4};
    marked = set ? *map | BITS[number] : *map & ~BITS[number];
    *map = marked ^ BITS[number];
}

static void turn_map(void) { *map = ~*map; }

/* A call gives an answer; DUE then names what it writes, and NO_MORE says that every other byte is as before. SETS and CLEARS are of a call
 * that sets or clears the bit of this sector in the map. */
#define MAKES(answer, call, text) (keep(), answers(answer, call, __LINE__, text))
#define GIVES(answer, call) MAKES(answer, call, #call)
#define DUE(at, bytes, length) due(at, bytes, length, __LINE__)
#define DUE_MAP DUE(map_bytes, &marked, sizeof marked)
#define NO_MORE(call) as_due(__LINE__, call)
#define SETS(number, answer, call) (mark(number, 1), MAKES(answer, call, #call), DUE_MAP)
#define CLEARS(number, answer, call) (mark(number, 0), MAKES(answer, call, #call), DUE_MAP)

/* A refused call changes nothing; it is made with each bit of the map set, and clear. SUSPECTS is of 6 and 7 from a read, a mend or a
 * write: the call sets the bit of this sector, changes nothing else, and made again leaves it so. */
#define LEAVES(refusal, call, text) (MAKES(refusal, call, text), NO_MORE(text))
#define REFUSES(refusal, call) (LEAVES(refusal, call, #call), turn_map(), LEAVES(refusal, call, #call))
#define SUSPECTS(number, refusal, call) \
    (mark(number, 1), MAKES(refusal, call, #call), DUE_MAP, NO_MORE(#call), LEAVES(refusal, call, #call))

/* ---- the arguments */

#define NOTHING NULL, 0
#define KEY key, MIRROR_KEY_BYTES
#define KEYED KEY, VOLUME
#define NO_KEY NOTHING, VOLUME
#define PLAIN plain, SIZE
#define LOCAL local, SIZE
#define TAG tag, MIRROR_TAG_BYTES
#define REMOTE remote, SIZE
#define OUT out, SIZE
#define LOCALS locals, COUNT *SIZE
#define TAGS tags, COUNT *MIRROR_TAG_BYTES
#define REMOTES remotes, COUNT *SIZE
#define MAP map, WORDS
#define LONGER_MAP longer_map, WORDS + 1
#define LIST list, COUNT

static void lend_all(void)
{
    key = lend("the key", MIRROR_KEY_BYTES);
    plain = lend("the plaintext", SIZE);
    local = lend("the local sector", SIZE);
    tag = lend("the tag", MIRROR_TAG_BYTES);
    remote = lend("the remote sector", SIZE);
    out = lend("the output", SIZE);
    locals = lend("the local image", COUNT * SIZE);
    tags = lend("the tag image", COUNT * MIRROR_TAG_BYTES);
    remotes = lend("the remote image", COUNT * SIZE);
    list_bytes = lend("the list", ENTRIES * sizeof(uint32_t));
    count_bytes = lend("the counts", MIRROR_COUNTS_LENGTH * sizeof(uint64_t));
    map_bytes = lend("the map", WORDS * sizeof(uint64_t));
    longer_map = (uint64_t *)(void *)lend("the map that is too long", (WORDS + 1) * sizeof(uint64_t));
    list = (uint32_t *)(void *)list_bytes;
    counts = (uint64_t *)(void *)count_bytes;
    map = (uint64_t *)(void *)map_bytes;
}

static void fill(uint8_t *at, size_t length, unsigned first)
{
    size_t i;
    for (i = 0; i < length; i++) {
        at[i] = (uint8_t)(first + i);
    }
}

/* Puts the sealing of `plain` under VOLUME at this address into local, tag and remote. */
static void sealed(uint64_t address)
{
    answers(MIRROR_DONE, mirror_seal(KEYED, address, PLAIN, LOCAL, TAG, REMOTE), __LINE__, "sealing");
}

/* The plaintexts (h, 0) and (h, 1) have one tag: the local sector of the second with the remote sector of the first clash. */
static void clash(uint64_t address)
{
    uint8_t first[SIZE], first_tag[MIRROR_TAG_BYTES];
    memset(plain, 0, SIZE);
    memcpy(plain, key, MIRROR_TAG_BYTES);
    sealed(address);
    memcpy(first, remote, SIZE);
    memcpy(first_tag, tag, MIRROR_TAG_BYTES);
    plain[SIZE - 1] = 1;
    sealed(address);
    check(memcmp(first_tag, tag, MIRROR_TAG_BYTES) == 0, __LINE__, "row (h)", "the tags differ");
    memcpy(remote, first, SIZE);
}

/* ---- constants, version and texts */

/* The value of a constant, which a program may have stored. */
#define IS(constant, value) check((unsigned long)(constant) == (unsigned long)(value), __LINE__, #constant, "has another value")

static void constants(void)
{
    IS(MIRROR_KEY_BYTES, 32);
    IS(MIRROR_TAG_BYTES, 16);
    IS(MIRROR_SECTOR_BYTES_MIN, 16);
    IS(MIRROR_SECTOR_BYTES_MAX, 4096);
    IS(MIRROR_VOLUME_SECTORS_MAX, 65536);
    IS(MIRROR_STACK_BYTES, 49152);
    IS(MIRROR_SIDE_LOCAL, 0);
    IS(MIRROR_SIDE_REMOTE, 1);
    IS(MIRROR_DONE, 0);
    IS(MIRROR_WHOLE, 0);
    IS(MIRROR_DOUBTFUL_LOCAL, 0x81);
    IS(MIRROR_DOUBTFUL_TAG, 0x82);
    IS(MIRROR_DOUBTFUL_REMOTE, 0x83);
    IS(MIRROR_COUNT_WHOLE, 0);
    IS(MIRROR_COUNT_DOUBTFUL, 1);
    IS(MIRROR_COUNT_CLASHING, 2);
    IS(MIRROR_COUNT_LOST, 3);
    IS(MIRROR_COUNT_HEALTH, 4);
    IS(MIRROR_COUNTS_LENGTH, 5);
}

static void refusals(void)
{
    IS(MIRROR_REFUSED_KEY_LENGTH, 1);
    IS(MIRROR_REFUSED_SECTOR_SIZE, 2);
    IS(MIRROR_REFUSED_OTHER_LENGTH, 3);
    IS(MIRROR_REFUSED_UNKNOWN_SIDE, 4);
    IS(MIRROR_REFUSED_NONE_FITS, 5);
    IS(MIRROR_REFUSED_LOST, 6);
    IS(MIRROR_REFUSED_CLASHING, 7);
    IS(MIRROR_REFUSED_VOLUME_SHAPE, 8);
    IS(MIRROR_REFUSED_SECTOR_NUMBER, 9);
    IS(MIRROR_REFUSED_STAGE_ORDER, 10);
    IS(MIRROR_REFUSED_LIST_LENGTH, 11);
    IS(MIRROR_REFUSED_MAP_LENGTH, 13);
    IS(MIRROR_REFUSED_ZERO_HASH_KEY, 14);
}

/* Header and library are of one release, and the header's number and text are. */
static void version(void)
{
    const unsigned long number = MIRROR_VERSION;
    char text[64];
    check(mirror_version() == MIRROR_VERSION, __LINE__, "mirror_version", "the library is of another release than the header");
    sprintf(text, "%lu.%lu.%lu", number / 1000000, number / 1000 % 1000, number % 1000);
    check(strcmp(text, MIRROR_VERSION_TEXT) == 0, __LINE__, "MIRROR_VERSION_TEXT", "is of another release than MIRROR_VERSION");
    printf("calls: mirror_version, %s\n", text);
}

static int is_answer(uint32_t number)
{
    return number <= MIRROR_REFUSED_LIST_LENGTH || number == MIRROR_REFUSED_MAP_LENGTH || number == MIRROR_REFUSED_ZERO_HASH_KEY ||
           (number >= MIRROR_DOUBTFUL_LOCAL && number <= MIRROR_DOUBTFUL_REMOTE);
}

/* Answers have texts of their own (texts.c prints them), and all other numbers one text: all below 1000, and some beyond. All but 0 and the
 * three doubtful ones are refusals for mirror_is_refusal. */
static void texts(void)
{
    static const uint32_t BEYOND[] = {1000, 0x8000, 0x10000, 0x10001, 0x7fffffff, 0x80000000, 0x80000001, 0xffffff81, 0xffffffff};
    const char *const unknown = "no answer of this library: link the release that the header is of";
    uint32_t number, other;
    size_t i;
    for (number = 0; number < 1000; number++) {
        const int has_none = strcmp(mirror_text(number), unknown) == 0;
        const int refused = number != 0 && number != 0x81 && number != 0x82 && number != 0x83;
        check(mirror_is_refusal(number) == refused, __LINE__, "mirror_is_refusal", "takes another number for a refusal");
        check(has_none == !is_answer(number), __LINE__, "mirror_text", "takes another number for an answer");
        for (other = 0; other < number && !has_none; other++) {
            check(strcmp(mirror_text(number), mirror_text(other)) != 0, __LINE__, "mirror_text", "gives two answers one text");
        }
    }
    for (i = 0; i < sizeof BEYOND / sizeof BEYOND[0]; i++) {
        check(strcmp(mirror_text(BEYOND[i]), unknown) == 0, __LINE__, "mirror_text", "takes a number beyond for an answer");
        check(mirror_is_refusal(BEYOND[i]) == 1, __LINE__, "mirror_is_refusal", "takes a number beyond for no refusal");
    }
    puts("calls: mirror_text, mirror_is_refusal");
}

/* ---- one sector */

/* The three places are due as they are stored. */
static void due_stored(const Stored *stored)
{
    DUE(local, stored->local, SIZE);
    DUE(tag, stored->tag, MIRROR_TAG_BYTES);
    DUE(remote, stored->remote, SIZE);
}

static void seals(void)
{
    GIVES(MIRROR_DONE, mirror_seal(KEY, 0, ADDRESS, PLAIN, LOCAL, TAG, REMOTE));
    due_stored(&STORED_UNDER_0);
    NO_MORE("mirror_seal under the number 0");
    GIVES(MIRROR_DONE, mirror_seal(KEYED, ADDRESS, PLAIN, LOCAL, TAG, REMOTE));
    due_stored(&STORED);
    NO_MORE("mirror_seal");
    REFUSES(MIRROR_REFUSED_KEY_LENGTH, mirror_seal(NO_KEY, ADDRESS, NOTHING, NOTHING, NOTHING, NOTHING));
    REFUSES(MIRROR_REFUSED_KEY_LENGTH, mirror_seal(key, 31, VOLUME, ADDRESS, PLAIN, LOCAL, TAG, REMOTE));
    REFUSES(MIRROR_REFUSED_SECTOR_SIZE, mirror_seal(KEYED, ADDRESS, NOTHING, NOTHING, NOTHING, NOTHING));
    REFUSES(MIRROR_REFUSED_SECTOR_SIZE, mirror_seal(KEYED, ADDRESS, plain, 15, local, 15, TAG, remote, 15));
    REFUSES(MIRROR_REFUSED_OTHER_LENGTH, mirror_seal(KEYED, ADDRESS, PLAIN, NOTHING, TAG, REMOTE));
    REFUSES(MIRROR_REFUSED_OTHER_LENGTH, mirror_seal(KEYED, ADDRESS, PLAIN, LOCAL, TAG, remote, 16));
    REFUSES(MIRROR_REFUSED_OTHER_LENGTH, mirror_seal(KEYED, ADDRESS, PLAIN, LOCAL, tag, 15, REMOTE));
    puts("calls: mirror_seal");
}

/* Judges with one byte of a place changed. */
static void judges_damaged(uint8_t *place, uint32_t doubtful)
{
    place[3] ^= 0x10;
    GIVES(doubtful, mirror_judge(KEYED, ADDRESS, LOCAL, TAG, REMOTE, OUT));
    DUE(out, plain, SIZE);
    NO_MORE("mirror_judge");
    place[3] ^= 0x10;
}

static void judges(void)
{
    GIVES(MIRROR_WHOLE, mirror_judge(KEYED, ADDRESS, LOCAL, TAG, REMOTE, OUT));
    DUE(out, plain, SIZE);
    NO_MORE("mirror_judge");
    judges_damaged(local, MIRROR_DOUBTFUL_LOCAL);
    judges_damaged(tag, MIRROR_DOUBTFUL_TAG);
    judges_damaged(remote, MIRROR_DOUBTFUL_REMOTE);
    REFUSES(MIRROR_REFUSED_LOST, mirror_judge(KEYED, ADDRESS + 1, LOCAL, TAG, REMOTE, OUT));
    REFUSES(MIRROR_REFUSED_LOST, mirror_judge(KEY, VOLUME + 1, ADDRESS, LOCAL, TAG, REMOTE, OUT));
    REFUSES(MIRROR_REFUSED_LOST, mirror_judge(KEY, 0, ADDRESS, LOCAL, TAG, REMOTE, OUT));
    REFUSES(MIRROR_REFUSED_LOST, mirror_judge(KEY, ADDRESS, VOLUME, LOCAL, TAG, REMOTE, OUT));
    REFUSES(MIRROR_REFUSED_KEY_LENGTH, mirror_judge(NO_KEY, ADDRESS, NOTHING, NOTHING, NOTHING, NOTHING));
    REFUSES(MIRROR_REFUSED_SECTOR_SIZE, mirror_judge(KEYED, ADDRESS, NOTHING, TAG, REMOTE, OUT));
    REFUSES(MIRROR_REFUSED_OTHER_LENGTH, mirror_judge(KEYED, ADDRESS, LOCAL, NOTHING, REMOTE, OUT));
    REFUSES(MIRROR_REFUSED_OTHER_LENGTH, mirror_judge(KEYED, ADDRESS, LOCAL, TAG, NOTHING, OUT));
    REFUSES(MIRROR_REFUSED_OTHER_LENGTH, mirror_judge(KEYED, ADDRESS, LOCAL, TAG, REMOTE, NOTHING));
    puts("calls: mirror_judge");
}

static void opens(void)
{
    GIVES(MIRROR_DONE, mirror_open(KEYED, ADDRESS, MIRROR_SIDE_LOCAL, LOCAL, TAG, OUT));
    DUE(out, plain, SIZE);
    NO_MORE("mirror_open");
    GIVES(MIRROR_DONE, mirror_open(KEYED, ADDRESS, MIRROR_SIDE_REMOTE, REMOTE, TAG, OUT));
    DUE(out, plain, SIZE);
    NO_MORE("mirror_open");
    REFUSES(MIRROR_REFUSED_NONE_FITS, mirror_open(KEYED, ADDRESS, MIRROR_SIDE_REMOTE, LOCAL, TAG, OUT));
    REFUSES(MIRROR_REFUSED_NONE_FITS, mirror_open(KEY, 0, ADDRESS, MIRROR_SIDE_LOCAL, LOCAL, TAG, OUT));
    REFUSES(MIRROR_REFUSED_NONE_FITS, mirror_open(KEY, ADDRESS, VOLUME, MIRROR_SIDE_REMOTE, REMOTE, TAG, OUT));
    REFUSES(MIRROR_REFUSED_UNKNOWN_SIDE, mirror_open(KEYED, ADDRESS, 2, LOCAL, TAG, OUT));
    REFUSES(MIRROR_REFUSED_OTHER_LENGTH, mirror_open(KEYED, ADDRESS, 2, LOCAL, NOTHING, OUT));
    REFUSES(MIRROR_REFUSED_OTHER_LENGTH, mirror_open(KEYED, ADDRESS, 2, LOCAL, TAG, NOTHING));
    REFUSES(MIRROR_REFUSED_SECTOR_SIZE, mirror_open(KEYED, ADDRESS, 2, NOTHING, NOTHING, NOTHING));
    REFUSES(MIRROR_REFUSED_KEY_LENGTH, mirror_open(NO_KEY, ADDRESS, 2, NOTHING, NOTHING, NOTHING));
    puts("calls: mirror_open");
}

static void rebuilds(void)
{
    GIVES(MIRROR_DONE, mirror_rebuild(KEYED, ADDRESS, MIRROR_SIDE_LOCAL, LOCAL, TAG, OUT));
    DUE(out, STORED.remote, SIZE);
    NO_MORE("mirror_rebuild");
    GIVES(MIRROR_DONE, mirror_rebuild(KEYED, ADDRESS, MIRROR_SIDE_REMOTE, REMOTE, TAG, OUT));
    DUE(out, STORED.local, SIZE);
    NO_MORE("mirror_rebuild");
    REFUSES(MIRROR_REFUSED_NONE_FITS, mirror_rebuild(KEYED, ADDRESS, MIRROR_SIDE_LOCAL, REMOTE, TAG, OUT));
    REFUSES(MIRROR_REFUSED_NONE_FITS, mirror_rebuild(KEY, 0, ADDRESS, MIRROR_SIDE_LOCAL, LOCAL, TAG, OUT));
    REFUSES(MIRROR_REFUSED_NONE_FITS, mirror_rebuild(KEY, ADDRESS, VOLUME, MIRROR_SIDE_REMOTE, REMOTE, TAG, OUT));
    REFUSES(MIRROR_REFUSED_UNKNOWN_SIDE, mirror_rebuild(KEYED, ADDRESS, 0xffffffff, LOCAL, TAG, OUT));
    REFUSES(MIRROR_REFUSED_OTHER_LENGTH, mirror_rebuild(KEYED, ADDRESS, 2, LOCAL, TAG, out, 16));
    REFUSES(MIRROR_REFUSED_SECTOR_SIZE, mirror_rebuild(KEYED, ADDRESS, 2, NOTHING, TAG, OUT));
    REFUSES(MIRROR_REFUSED_KEY_LENGTH, mirror_rebuild(NO_KEY, ADDRESS, 2, NOTHING, TAG, OUT));
    puts("calls: mirror_rebuild");
}

static void combines(void)
{
    uint8_t zeros[SIZE];
    GIVES(MIRROR_DONE, mirror_combine(LOCAL, REMOTE, OUT));
    DUE(out, plain, SIZE);
    NO_MORE("mirror_combine");
    memset(zeros, 0, SIZE);
    GIVES(MIRROR_DONE, mirror_combine(LOCAL, LOCAL, OUT));
    DUE(out, zeros, SIZE);
    NO_MORE("mirror_combine of one buffer lent twice");
    REFUSES(MIRROR_REFUSED_SECTOR_SIZE, mirror_combine(NOTHING, NOTHING, NOTHING));
    REFUSES(MIRROR_REFUSED_OTHER_LENGTH, mirror_combine(LOCAL, NOTHING, OUT));
    REFUSES(MIRROR_REFUSED_OTHER_LENGTH, mirror_combine(LOCAL, REMOTE, NOTHING));
    puts("calls: mirror_combine");
}

static void clashes(void)
{
    clash(ADDRESS);
    REFUSES(MIRROR_REFUSED_CLASHING, mirror_judge(KEYED, ADDRESS, LOCAL, TAG, REMOTE, OUT));
    GIVES(MIRROR_DONE, mirror_open(KEYED, ADDRESS, MIRROR_SIDE_LOCAL, LOCAL, TAG, OUT));
    DUE(out, plain, SIZE);
    NO_MORE("mirror_open of a clashing sector");
    plain[SIZE - 1] = 0;
    GIVES(MIRROR_DONE, mirror_open(KEYED, ADDRESS, MIRROR_SIDE_REMOTE, REMOTE, TAG, OUT));
    DUE(out, plain, SIZE);
    NO_MORE("mirror_open of a clashing sector");
}

/* Seal, judge and combine at another size, with buffers of that length. */
static void at_size(size_t size)
{
    uint8_t *p = heap(size), *l = heap(size), *r = heap(size), *o = heap(size);
    fill(p, size, 9);
    answers(MIRROR_DONE, mirror_seal(KEYED, 0, p, size, l, size, TAG, r, size), __LINE__, "sealing another size");
    answers(MIRROR_WHOLE, mirror_judge(KEYED, 0, l, size, TAG, r, size, o, size), __LINE__, "judging another size");
    check(memcmp(o, p, size) == 0, __LINE__, "judging another size", "gives another plaintext");
    memset(o, 0, size);
    answers(MIRROR_DONE, mirror_combine(l, size, r, size, o, size), __LINE__, "combining another size");
    check(memcmp(o, p, size) == 0, __LINE__, "combining another size", "gives another plaintext");
    r[size - 1] ^= 1;
    answers(MIRROR_DOUBTFUL_REMOTE, mirror_judge(KEYED, 0, l, size, TAG, r, size, o, size), __LINE__, "judging another size");
    free(p);
    free(l);
    free(r);
    free(o);
}

/* ---- a volume */

#define SHAPED KEYED, SIZE, COUNT
#define IMAGES LOCALS, TAGS, REMOTES

/* The parts of a sector are due as local, tag and remote are. */
static void due_part(size_t number)
{
    DUE(locals + number * SIZE, local, SIZE);
    DUE(tags + number * MIRROR_TAG_BYTES, tag, MIRROR_TAG_BYTES);
    DUE(remotes + number * SIZE, remote, SIZE);
}

/* Puts local, tag and remote into the parts of a sector. */
static void put_part(size_t number)
{
    memcpy(locals + number * SIZE, local, SIZE);
    memcpy(tags + number * MIRROR_TAG_BYTES, tag, MIRROR_TAG_BYTES);
    memcpy(remotes + number * SIZE, remote, SIZE);
}

static void blanks(void)
{
    size_t number;
    memset(plain, 0, SIZE);
    for (number = 0; number < COUNT; number++) {
        sealed(number);
        CLEARS(number, MIRROR_DONE, mirror_blank(SHAPED, number, IMAGES, MAP));
        due_part(number);
        NO_MORE("mirror_blank");
    }
    REFUSES(MIRROR_REFUSED_SECTOR_NUMBER, mirror_blank(SHAPED, COUNT, IMAGES, MAP));
    REFUSES(MIRROR_REFUSED_MAP_LENGTH, mirror_blank(SHAPED, COUNT, IMAGES, NOTHING));
    REFUSES(MIRROR_REFUSED_MAP_LENGTH, mirror_blank(SHAPED, 0, IMAGES, LONGER_MAP));
    REFUSES(MIRROR_REFUSED_VOLUME_SHAPE, mirror_blank(KEYED, SIZE, 0, COUNT, NOTHING, NOTHING, NOTHING, NOTHING));
    REFUSES(MIRROR_REFUSED_VOLUME_SHAPE, mirror_blank(KEYED, SIZE, MIRROR_VOLUME_SECTORS_MAX + 1, 0, IMAGES, MAP));
    REFUSES(MIRROR_REFUSED_VOLUME_SHAPE, mirror_blank(SHAPED, COUNT, NOTHING, TAGS, REMOTES, NOTHING));
    REFUSES(MIRROR_REFUSED_VOLUME_SHAPE, mirror_blank(SHAPED, COUNT, LOCALS, NOTHING, REMOTES, LONGER_MAP));
    REFUSES(MIRROR_REFUSED_VOLUME_SHAPE, mirror_blank(SHAPED, COUNT, LOCALS, TAGS, remotes, SIZE, NOTHING));
    REFUSES(MIRROR_REFUSED_SECTOR_SIZE, mirror_blank(KEYED, 15, 0, COUNT, IMAGES, NOTHING));
    REFUSES(MIRROR_REFUSED_SECTOR_SIZE, mirror_blank(KEYED, 4112, 0, COUNT, IMAGES, MAP));
    REFUSES(MIRROR_REFUSED_KEY_LENGTH, mirror_blank(NO_KEY, 15, 0, COUNT, NOTHING, NOTHING, NOTHING, LONGER_MAP));
    puts("calls: mirror_blank");
}

/* A write to sector 1, with the reads between. */
static void stages(void)
{
    uint8_t zeros[SIZE];
    memset(zeros, 0, SIZE);
    fill(plain, SIZE, 0x40);
    sealed(1);
    REFUSES(MIRROR_REFUSED_STAGE_ORDER, mirror_second_stage(SHAPED, 1, PLAIN, IMAGES, MAP));
    REFUSES(MIRROR_REFUSED_STAGE_ORDER, mirror_third_stage(SHAPED, 1, PLAIN, IMAGES, MAP));
    SETS(1, MIRROR_DONE, mirror_first_stage(SHAPED, 1, PLAIN, IMAGES, MAP));
    DUE(locals + SIZE, local, SIZE);
    NO_MORE("mirror_first_stage");
    REFUSES(MIRROR_REFUSED_STAGE_ORDER, mirror_first_stage(SHAPED, 1, PLAIN, IMAGES, MAP));
    REFUSES(MIRROR_REFUSED_STAGE_ORDER, mirror_third_stage(SHAPED, 1, PLAIN, IMAGES, MAP));
    SETS(1, MIRROR_DOUBTFUL_LOCAL, mirror_read(SHAPED, 1, IMAGES, MAP, OUT));
    DUE(out, zeros, SIZE);
    NO_MORE("mirror_read after the first stage");
    SETS(1, MIRROR_DONE, mirror_second_stage(SHAPED, 1, PLAIN, IMAGES, MAP));
    DUE(tags + MIRROR_TAG_BYTES, tag, MIRROR_TAG_BYTES);
    NO_MORE("mirror_second_stage");
    SETS(1, MIRROR_DOUBTFUL_REMOTE, mirror_read(SHAPED, 1, IMAGES, MAP, OUT));
    DUE(out, plain, SIZE);
    NO_MORE("mirror_read after the second stage");
    CLEARS(1, MIRROR_DONE, mirror_third_stage(SHAPED, 1, PLAIN, IMAGES, MAP));
    DUE(remotes + SIZE, remote, SIZE);
    NO_MORE("mirror_third_stage");
}

/* Reads and mends of sector 1 and writes in one call refuse while its write stands at a clash, and a first stage is not due. */
static void clashes_between(void)
{
    SUSPECTS(1, MIRROR_REFUSED_CLASHING, mirror_read(SHAPED, 1, IMAGES, MAP, OUT));
    SUSPECTS(1, MIRROR_REFUSED_CLASHING, mirror_mend(SHAPED, 1, IMAGES, MAP));
    SUSPECTS(1, MIRROR_REFUSED_CLASHING, mirror_write(SHAPED, 1, PLAIN, IMAGES, MAP));
    REFUSES(MIRROR_REFUSED_STAGE_ORDER, mirror_first_stage(SHAPED, 1, PLAIN, IMAGES, MAP));
}

/* Sector 1 holds (h, 0), and (h, 1), which has the same tag, is to be written. */
static void before_equal_tags(void)
{
    clash(1);
    plain[SIZE - 1] = 0;
    sealed(1);
    put_part(1);
    plain[SIZE - 1] = 1;
    sealed(1);
}

/* Between the stages both fit two places. The next stage is due all the same. */
static void stages_of_equal_tags(void)
{
    before_equal_tags();
    SETS(1, MIRROR_DONE, mirror_first_stage(SHAPED, 1, PLAIN, IMAGES, MAP));
    DUE(locals + SIZE, local, SIZE);
    NO_MORE("mirror_first_stage into a clash");
    clashes_between();
    SETS(1, MIRROR_DONE, mirror_second_stage(SHAPED, 1, PLAIN, IMAGES, MAP));
    NO_MORE("mirror_second_stage of the same tag");
    clashes_between();
    CLEARS(1, MIRROR_DONE, mirror_third_stage(SHAPED, 1, PLAIN, IMAGES, MAP));
    DUE(remotes + SIZE, remote, SIZE);
    NO_MORE("mirror_third_stage out of a clash");
}

typedef uint32_t (*Stage)(size_t, size_t, size_t, size_t, const uint8_t *, size_t, uint64_t *, size_t);

static uint32_t first(size_t key_len, size_t s, size_t n, size_t number, const uint8_t *p, size_t length, uint64_t *m, size_t words)
{
    return mirror_first_stage(key, key_len, VOLUME, s, n, number, p, length, IMAGES, m, words);
}

static uint32_t second(size_t key_len, size_t s, size_t n, size_t number, const uint8_t *p, size_t length, uint64_t *m, size_t words)
{
    return mirror_second_stage(key, key_len, VOLUME, s, n, number, p, length, IMAGES, m, words);
}

static uint32_t third(size_t key_len, size_t s, size_t n, size_t number, const uint8_t *p, size_t length, uint64_t *m, size_t words)
{
    return mirror_third_stage(key, key_len, VOLUME, s, n, number, p, length, IMAGES, m, words);
}

static uint32_t at_once(size_t key_len, size_t s, size_t n, size_t number, const uint8_t *p, size_t length, uint64_t *m, size_t words)
{
    return mirror_write(key, key_len, VOLUME, s, n, number, p, length, IMAGES, m, words);
}

static void stage_refuses(Stage stage, const char *name)
{
    REFUSES(MIRROR_REFUSED_OTHER_LENGTH, stage(MIRROR_KEY_BYTES, SIZE, COUNT, 1, NOTHING, MAP));
    REFUSES(MIRROR_REFUSED_OTHER_LENGTH, stage(MIRROR_KEY_BYTES, SIZE, COUNT, 1, plain, 16, MAP));
    REFUSES(MIRROR_REFUSED_SECTOR_NUMBER, stage(MIRROR_KEY_BYTES, SIZE, COUNT, COUNT, NOTHING, MAP));
    REFUSES(MIRROR_REFUSED_MAP_LENGTH, stage(MIRROR_KEY_BYTES, SIZE, COUNT, COUNT, NOTHING, NOTHING));
    REFUSES(MIRROR_REFUSED_MAP_LENGTH, stage(MIRROR_KEY_BYTES, SIZE, COUNT, 1, NOTHING, LONGER_MAP));
    REFUSES(MIRROR_REFUSED_VOLUME_SHAPE, stage(MIRROR_KEY_BYTES, SIZE, COUNT + 1, COUNT + 1, NOTHING, NOTHING));
    REFUSES(MIRROR_REFUSED_SECTOR_SIZE, stage(MIRROR_KEY_BYTES, 0, COUNT + 1, COUNT + 1, NOTHING, NOTHING));
    REFUSES(MIRROR_REFUSED_KEY_LENGTH, stage(0, 0, COUNT + 1, COUNT + 1, NOTHING, NOTHING));
    printf("calls: %s\n", name);
}

static void reads(void)
{
    CLEARS(1, MIRROR_WHOLE, mirror_read(SHAPED, 1, IMAGES, MAP, OUT));
    DUE(out, plain, SIZE);
    NO_MORE("mirror_read");
    REFUSES(MIRROR_REFUSED_OTHER_LENGTH, mirror_read(SHAPED, 1, IMAGES, MAP, NOTHING));
    REFUSES(MIRROR_REFUSED_SECTOR_NUMBER, mirror_read(SHAPED, COUNT, IMAGES, MAP, NOTHING));
    REFUSES(MIRROR_REFUSED_MAP_LENGTH, mirror_read(SHAPED, COUNT, IMAGES, NOTHING, NOTHING));
    REFUSES(MIRROR_REFUSED_MAP_LENGTH, mirror_read(SHAPED, 1, IMAGES, LONGER_MAP, NOTHING));
    REFUSES(MIRROR_REFUSED_VOLUME_SHAPE, mirror_read(SHAPED, COUNT, NOTHING, NOTHING, NOTHING, NOTHING, NOTHING));
    REFUSES(MIRROR_REFUSED_SECTOR_SIZE, mirror_read(KEYED, 24, COUNT, COUNT, IMAGES, NOTHING, NOTHING));
    REFUSES(MIRROR_REFUSED_KEY_LENGTH, mirror_read(NO_KEY, 24, COUNT, COUNT, IMAGES, NOTHING, NOTHING));
    puts("calls: mirror_read");
}

/* Sector 1, which holds `plain`, and the whole volume under another number than they were sealed under. */
static void under_another_number(uint64_t number)
{
    const uint64_t all_lost[MIRROR_COUNTS_LENGTH] = {0, 0, 0, 3, 0};
    const uint32_t all_three[COUNT] = {0, 1, 2};
    SUSPECTS(1, MIRROR_REFUSED_LOST, mirror_read(KEY, number, SIZE, COUNT, 1, IMAGES, MAP, OUT));
    SUSPECTS(1, MIRROR_REFUSED_LOST, mirror_mend(KEY, number, SIZE, COUNT, 1, IMAGES, MAP));
    SUSPECTS(1, MIRROR_REFUSED_LOST, mirror_write(KEY, number, SIZE, COUNT, 1, PLAIN, IMAGES, MAP));
    REFUSES(MIRROR_REFUSED_STAGE_ORDER, mirror_first_stage(KEY, number, SIZE, COUNT, 1, PLAIN, IMAGES, MAP));
    REFUSES(MIRROR_REFUSED_STAGE_ORDER, mirror_second_stage(KEY, number, SIZE, COUNT, 1, PLAIN, IMAGES, MAP));
    REFUSES(MIRROR_REFUSED_STAGE_ORDER, mirror_third_stage(KEY, number, SIZE, COUNT, 1, PLAIN, IMAGES, MAP));
    GIVES(MIRROR_DONE, mirror_survey(KEY, number, SIZE, COUNT, IMAGES, MAP, LIST, counts));
    DUE(count_bytes, all_lost, sizeof all_lost);
    DUE(list_bytes, all_three, sizeof all_three);
    NO_MORE("mirror_survey under another number");
}

/* Damages one place of sector 1, whose parts local, tag and remote have, and mends it. */
static void mends_damaged(uint8_t *place, uint32_t doubtful)
{
    place[5] ^= 0x80;
    CLEARS(1, doubtful, mirror_mend(SHAPED, 1, IMAGES, MAP));
    due_part(1);
    NO_MORE("mirror_mend");
    CLEARS(1, MIRROR_WHOLE, mirror_mend(SHAPED, 1, IMAGES, MAP));
    NO_MORE("mirror_mend of a whole sector");
}

static void mends(void)
{
    mends_damaged(locals + SIZE, MIRROR_DOUBTFUL_LOCAL);
    mends_damaged(tags + MIRROR_TAG_BYTES, MIRROR_DOUBTFUL_TAG);
    mends_damaged(remotes + SIZE, MIRROR_DOUBTFUL_REMOTE);
    REFUSES(MIRROR_REFUSED_SECTOR_NUMBER, mirror_mend(SHAPED, COUNT, IMAGES, MAP));
    REFUSES(MIRROR_REFUSED_MAP_LENGTH, mirror_mend(SHAPED, COUNT, IMAGES, NOTHING));
    REFUSES(MIRROR_REFUSED_MAP_LENGTH, mirror_mend(SHAPED, 1, IMAGES, LONGER_MAP));
    REFUSES(MIRROR_REFUSED_VOLUME_SHAPE, mirror_mend(SHAPED, COUNT, NOTHING, NOTHING, NOTHING, NOTHING));
    REFUSES(MIRROR_REFUSED_SECTOR_SIZE, mirror_mend(KEYED, 8, COUNT, COUNT, IMAGES, NOTHING));
    REFUSES(MIRROR_REFUSED_KEY_LENGTH, mirror_mend(key, 16, VOLUME, 8, COUNT, COUNT, IMAGES, NOTHING));
    puts("calls: mirror_mend");
}

/* Writes `plain`, whose sealing local, tag and remote have, to sector 1 in one call, which finds this there. */
static void writes_over(uint32_t found)
{
    CLEARS(1, found, mirror_write(SHAPED, 1, PLAIN, IMAGES, MAP));
    due_part(1);
    NO_MORE("mirror_write");
}

/* The same with another plaintext, over damage to one place. */
static void writes_over_damage(uint8_t *place, uint32_t found, unsigned first_byte)
{
    place[7] ^= 0x40;
    fill(plain, SIZE, first_byte);
    sealed(1);
    writes_over(found);
}

/* What the map says of the sector before has no say; CLEARS has it suspect, and here it is not. */
static void writes_with_a_clear_bit(void)
{
    tags[MIRROR_TAG_BYTES] ^= 1;
    *map = 0;
    GIVES(MIRROR_DOUBTFUL_TAG, mirror_write(SHAPED, 1, PLAIN, IMAGES, MAP));
    due_part(1);
    NO_MORE("mirror_write with a clear bit");
}

static void writes(void)
{
    fill(plain, SIZE, 0x11);
    sealed(1);
    writes_over(MIRROR_WHOLE);
    writes_over(MIRROR_WHOLE); /* what is there already */
    writes_over_damage(locals + SIZE, MIRROR_DOUBTFUL_LOCAL, 0x22);
    writes_over_damage(tags + MIRROR_TAG_BYTES, MIRROR_DOUBTFUL_TAG, 0x33);
    writes_over_damage(remotes + SIZE, MIRROR_DOUBTFUL_REMOTE, 0x44);
    writes_with_a_clear_bit();
    before_equal_tags();
    writes_over(MIRROR_WHOLE);
    before_equal_tags();
    tags[MIRROR_TAG_BYTES] ^= 1;
    writes_over(MIRROR_DOUBTFUL_TAG);
    stage_refuses(at_once, "mirror_write");
}

/* Sector 0 clashing, 1 doubtful, 2 lost. */
static void damage_all(void)
{
    clash(0);
    put_part(0);
    tags[MIRROR_TAG_BYTES] ^= 1;
    locals[2 * SIZE] ^= 1;
    remotes[3 * SIZE - 1] ^= 1;
    SUSPECTS(0, MIRROR_REFUSED_CLASHING, mirror_read(SHAPED, 0, IMAGES, MAP, OUT));
    SUSPECTS(0, MIRROR_REFUSED_CLASHING, mirror_mend(SHAPED, 0, IMAGES, MAP));
    SUSPECTS(2, MIRROR_REFUSED_LOST, mirror_read(SHAPED, 2, IMAGES, MAP, OUT));
    SUSPECTS(2, MIRROR_REFUSED_LOST, mirror_mend(SHAPED, 2, IMAGES, MAP));
    SUSPECTS(0, MIRROR_REFUSED_CLASHING, mirror_write(SHAPED, 0, PLAIN, IMAGES, MAP));
    SUSPECTS(2, MIRROR_REFUSED_LOST, mirror_write(SHAPED, 2, PLAIN, IMAGES, MAP));
    REFUSES(MIRROR_REFUSED_OTHER_LENGTH, mirror_write(SHAPED, 0, plain, SIZE - 16, IMAGES, MAP));
    REFUSES(MIRROR_REFUSED_OTHER_LENGTH, mirror_write(SHAPED, 2, plain, SIZE - 16, IMAGES, MAP));
}

/* So many entries of the list, from `at` on, are sectors of which a read answers this. Gives the entry behind them. */
static size_t listed(size_t at, uint64_t count, uint32_t answer, int line)
{
    for (; count > 0; count--, at++) {
        answers(answer, mirror_read(SHAPED, list[at], IMAGES, MAP, OUT), line, "reading a listed sector");
    }
    return at;
}

/* The counts tell which entries of the list are of which kind. The doubtful one of damage_all is so at its tag. */
static void kinds_by_counts(void)
{
    size_t at = listed(0, counts[MIRROR_COUNT_LOST], MIRROR_REFUSED_LOST, __LINE__);
    at = listed(at, counts[MIRROR_COUNT_CLASHING], MIRROR_REFUSED_CLASHING, __LINE__);
    at = listed(at, counts[MIRROR_COUNT_DOUBTFUL], MIRROR_DOUBTFUL_TAG, __LINE__);
    check(at == COUNT - counts[MIRROR_COUNT_WHOLE], __LINE__, "mirror_survey", "lists more or fewer than are not whole");
}

static void surveys(void)
{
    const uint64_t all_whole[MIRROR_COUNTS_LENGTH] = {3, 0, 0, 0, 1000}, one_whole[MIRROR_COUNTS_LENGTH] = {1, 0, 1, 1, 333};
    const uint64_t none_whole[MIRROR_COUNTS_LENGTH] = {0, 1, 1, 1, 0};
    const uint32_t all_three[COUNT] = {2, 0, 1}, two[2] = {2, 0}; /* lost, clashing, doubtful */
    GIVES(MIRROR_DONE, mirror_survey(SHAPED, IMAGES, MAP, LIST, counts));
    DUE(count_bytes, all_whole, sizeof all_whole);
    NO_MORE("mirror_survey of whole sectors");
    damage_all();
    GIVES(MIRROR_DONE, mirror_survey(SHAPED, IMAGES, MAP, list, ENTRIES, counts));
    DUE(count_bytes, none_whole, sizeof none_whole);
    DUE(list_bytes, all_three, sizeof all_three);
    NO_MORE("mirror_survey of damaged sectors");
    kinds_by_counts();
    answers(MIRROR_DOUBTFUL_TAG, mirror_mend(SHAPED, 1, IMAGES, MAP), __LINE__, "mending sector 1");
    memset(list, 0x5a, ENTRIES * sizeof(uint32_t));
    GIVES(MIRROR_DONE, mirror_survey(SHAPED, IMAGES, MAP, LIST, counts));
    DUE(count_bytes, one_whole, sizeof one_whole);
    DUE(list_bytes, two, sizeof two);
    NO_MORE("mirror_survey after a mend");
    kinds_by_counts();
    check(counts[MIRROR_COUNT_WHOLE] == 1 && counts[MIRROR_COUNT_DOUBTFUL] == 0 && counts[MIRROR_COUNT_CLASHING] == 1 &&
              counts[MIRROR_COUNT_LOST] == 1 && counts[MIRROR_COUNT_HEALTH] == 333,
          __LINE__, "mirror_survey", "the counts stand at other places");
    REFUSES(MIRROR_REFUSED_LIST_LENGTH, mirror_survey(SHAPED, IMAGES, MAP, NOTHING, counts));
    REFUSES(MIRROR_REFUSED_LIST_LENGTH, mirror_survey(SHAPED, IMAGES, MAP, list, COUNT - 1, counts));
    REFUSES(MIRROR_REFUSED_MAP_LENGTH, mirror_survey(SHAPED, IMAGES, NOTHING, NOTHING, counts));
    REFUSES(MIRROR_REFUSED_MAP_LENGTH, mirror_survey(SHAPED, IMAGES, LONGER_MAP, LIST, counts));
    REFUSES(MIRROR_REFUSED_VOLUME_SHAPE, mirror_survey(SHAPED, NOTHING, NOTHING, NOTHING, NOTHING, NOTHING, counts));
    REFUSES(MIRROR_REFUSED_SECTOR_SIZE, mirror_survey(KEYED, 33, COUNT, IMAGES, NOTHING, NOTHING, counts));
    REFUSES(MIRROR_REFUSED_KEY_LENGTH, mirror_survey(NO_KEY, 33, COUNT, IMAGES, NOTHING, NOTHING, counts));
    puts("calls: mirror_survey");
}

/* ---- all of it */

static void every_answer(void)
{
    static const uint8_t ANSWERS[] = {0, 1, 2, 3, 4, 5, 6, 7, 8, 9, 10, 11, 13, 14, 0x81, 0x82, 0x83};
    size_t i;
    for (i = 0; i < sizeof ANSWERS; i++) {
        char what[32];
        sprintf(what, "never came: %x", ANSWERS[i]);
        check(met[ANSWERS[i]], __LINE__, "an answer", what);
    }
}

static void free_all(void)
{
    while (lents > 0) {
        lents--;
        free(lent[lents].at);
        free(lent[lents].due);
    }
}

int main(void)
{
    lend_all();
    fill(key, MIRROR_KEY_BYTES, 0);
    fill(plain, SIZE, 0x80);
    constants();
    refusals();
    version();
    texts();
    seals();
    judges();
    opens();
    rebuilds();
    combines();
    clashes();
    at_size(MIRROR_SECTOR_BYTES_MIN);
    at_size(496);
    at_size(MIRROR_SECTOR_BYTES_MAX);
    blanks();
    stages();
    stages_of_equal_tags();
    stage_refuses(first, "mirror_first_stage");
    stage_refuses(second, "mirror_second_stage");
    stage_refuses(third, "mirror_third_stage");
    reads();
    under_another_number(0);
    under_another_number(VOLUME + 1);
    puts("calls: under another number");
    mends();
    writes();
    surveys();
    zero_hash_keys();
    every_answer();
    maps();
    volumes();
    free_all();
    printf("calls: %u checks hold, and each of the 17 answers came\n", checks);
    return 0;
}
