/*
 * Keys whose hash key h, the first 16 bytes, is zero: each call with a key refuses them by 14, directly behind 1 and before all else that
 * is wrong, and changes nothing that it was lent, nor the map. Each call is made with every choice of faults and in each state of its
 * sector, with such a key and with a right one: so what would be refused otherwise is seen too. Any other key is accepted, also one with a
 * single bit of h set, or with an AES key of zeros.
 */
#include "checks.h"

#include <stdio.h>
#include <stdlib.h>
#include <string.h>

enum { VOLUME = 3, SIZE = 32, COUNT = 3, NUMBER = 1, TAG = MIRROR_TAG_BYTES, H = 16 };

/* ---- the buffers, and what is in them before a call */

enum { KEY, LOCAL, TAGS, REMOTE, MAP, PLAIN, OUT, LIST, COUNTS, BUFFERS };
static const size_t LENGTHS[BUFFERS] = {MIRROR_KEY_BYTES + 1, /* the longest key that is lent, and below the longest map */
                                        COUNT * SIZE,
                                        COUNT * TAG,
                                        COUNT * SIZE,
                                        2 * sizeof(uint64_t),
                                        SIZE,
                                        SIZE,
                                        COUNT * sizeof(uint32_t),
                                        MIRROR_COUNTS_LENGTH * sizeof(uint64_t)};
static uint8_t *at[BUFFERS], *before[BUFFERS];

static uint64_t *words(int which) { return (uint64_t *)(void *)at[which]; }

static void take(void)
{
    size_t i;
    for (i = 0; i < BUFFERS; i++) {
        at[i] = heap(LENGTHS[i]);
        before[i] = heap(LENGTHS[i]);
    }
}

static void give_back(void)
{
    size_t i;
    for (i = 0; i < BUFFERS; i++) {
        free(at[i]);
        free(before[i]);
    }
}

static void keep(void)
{
    size_t i;
    for (i = 0; i < BUFFERS; i++) {
        memcpy(before[i], at[i], LENGTHS[i]);
    }
}

static void put_back(void)
{
    size_t i;
    for (i = 0; i < BUFFERS; i++) {
        memcpy(at[i], before[i], LENGTHS[i]);
    }
}

static void as_before(int line, const char *call)
{
    size_t i;
    for (i = 0; i < BUFFERS; i++) {
        check(memcmp(at[i], before[i], LENGTHS[i]) == 0, line, call, "refuses the key and changes a byte that it was lent");
    }
}

/* ---- the calls with a key, each with any of its arguments wrong */

enum { SEAL, JUDGE, OPEN, REBUILD, BLANK, FIRST, SECOND, THIRD, READ, MEND, WRITE, SURVEY, CALLS };
static const char *const NAMES[CALLS] = {"mirror_seal",  "mirror_judge",       "mirror_open",         "mirror_rebuild",
                                         "mirror_blank", "mirror_first_stage", "mirror_second_stage", "mirror_third_stage",
                                         "mirror_read",  "mirror_mend",        "mirror_write",        "mirror_survey"};

/* What can be wrong, each a bit, beside the key's h. A call takes the faults of its list alone. */
enum { KEY_LEN = 1, SECTOR_SIZE = 2, SHAPE = 4, MAP_LEN = 8, SECTOR_NUMBER = 16, OTHER_LEN = 32, SIDE = 64, LIST_LEN = 128, FAULTS = 256 };

/* The refusals of a call on its arguments, in the order in which it checks them, and the fault behind each. */
static const struct {
    uint32_t refusal;
    unsigned fault;
} ORDER[] = {{MIRROR_REFUSED_KEY_LENGTH, KEY_LEN},
             {MIRROR_REFUSED_SECTOR_SIZE, SECTOR_SIZE},
             {MIRROR_REFUSED_VOLUME_SHAPE, SHAPE},
             {MIRROR_REFUSED_MAP_LENGTH, MAP_LEN},
             {MIRROR_REFUSED_SECTOR_NUMBER, SECTOR_NUMBER},
             {MIRROR_REFUSED_OTHER_LENGTH, OTHER_LEN},
             {MIRROR_REFUSED_UNKNOWN_SIDE, SIDE},
             {MIRROR_REFUSED_LIST_LENGTH, LIST_LEN}};
enum { ON_A_SECTOR = KEY_LEN | SECTOR_SIZE | SHAPE | MAP_LEN | SECTOR_NUMBER };
static const unsigned TAKES[CALLS] = {KEY_LEN | SECTOR_SIZE | OTHER_LEN,
                                      KEY_LEN | SECTOR_SIZE | OTHER_LEN,
                                      KEY_LEN | SECTOR_SIZE | OTHER_LEN | SIDE,
                                      KEY_LEN | SECTOR_SIZE | OTHER_LEN | SIDE,
                                      ON_A_SECTOR,
                                      ON_A_SECTOR | OTHER_LEN,
                                      ON_A_SECTOR | OTHER_LEN,
                                      ON_A_SECTOR | OTHER_LEN,
                                      ON_A_SECTOR | OTHER_LEN,
                                      ON_A_SECTOR,
                                      ON_A_SECTOR | OTHER_LEN,
                                      KEY_LEN | SECTOR_SIZE | SHAPE | MAP_LEN | LIST_LEN};

#define NAMED at[KEY], key_len, VOLUME
#define SHAPED NAMED, s, COUNT
#define IMAGES at[LOCAL], COUNT *SIZE, at[TAGS], tags_len, at[REMOTE], COUNT *SIZE, words(MAP), map_len
#define SIDE_LOCAL at[LOCAL] + NUMBER * SIZE, s
#define ONE_TAG at[TAGS] + NUMBER * TAG, tag_len
#define SIDE_REMOTE at[REMOTE] + NUMBER * SIZE, s
#define PLAINTEXT at[PLAIN], length
#define OUTPUT at[OUT], length

/* The call with these faults, and a key of so many bytes. The sector that is sealed, judged and opened is NUMBER, at that address. */
static uint32_t make_call(int which, unsigned faults, size_t key_len)
{
    const size_t s = faults & SECTOR_SIZE ? SIZE - 1 : SIZE, tags_len = faults & SHAPE ? TAG : COUNT * TAG;
    const size_t map_len = faults & MAP_LEN ? 2 : 1, number = faults & SECTOR_NUMBER ? COUNT : NUMBER;
    const size_t length = faults & OTHER_LEN ? SIZE - 16 : SIZE, tag_len = faults & OTHER_LEN ? TAG - 1 : TAG;
    const uint32_t side = faults & SIDE ? 2 : MIRROR_SIDE_LOCAL;
    switch (which) {
    case SEAL:
        return mirror_seal(NAMED, NUMBER, at[PLAIN], s, SIDE_LOCAL, ONE_TAG, SIDE_REMOTE);
    case JUDGE:
        return mirror_judge(NAMED, NUMBER, SIDE_LOCAL, ONE_TAG, SIDE_REMOTE, at[OUT], s);
    case OPEN:
        return mirror_open(NAMED, NUMBER, side, SIDE_LOCAL, ONE_TAG, at[OUT], s);
    case REBUILD:
        return mirror_rebuild(NAMED, NUMBER, side, SIDE_LOCAL, ONE_TAG, at[OUT], s);
    case BLANK:
        return mirror_blank(SHAPED, number, IMAGES);
    case FIRST:
        return mirror_first_stage(SHAPED, number, PLAINTEXT, IMAGES);
    case SECOND:
        return mirror_second_stage(SHAPED, number, PLAINTEXT, IMAGES);
    case THIRD:
        return mirror_third_stage(SHAPED, number, PLAINTEXT, IMAGES);
    case READ:
        return mirror_read(SHAPED, number, IMAGES, OUTPUT);
    case MEND:
        return mirror_mend(SHAPED, number, IMAGES);
    case WRITE:
        return mirror_write(SHAPED, number, PLAINTEXT, IMAGES);
    default:
        return mirror_survey(SHAPED, IMAGES, (uint32_t *)(void *)at[LIST], faults & LIST_LEN ? COUNT - 1 : COUNT, words(COUNTS));
    }
}

/* The call with nothing but a key. */
static uint32_t make_bare(int which, size_t key_len)
{
#define NOTHING NULL, 0
#define NO_VOLUME NAMED, 0, 0
    switch (which) {
    case SEAL:
        return mirror_seal(NAMED, 0, NOTHING, NOTHING, NOTHING, NOTHING);
    case JUDGE:
        return mirror_judge(NAMED, 0, NOTHING, NOTHING, NOTHING, NOTHING);
    case OPEN:
        return mirror_open(NAMED, 0, 2, NOTHING, NOTHING, NOTHING);
    case REBUILD:
        return mirror_rebuild(NAMED, 0, 2, NOTHING, NOTHING, NOTHING);
    case BLANK:
        return mirror_blank(NO_VOLUME, 0, NOTHING, NOTHING, NOTHING, NOTHING);
    case FIRST:
        return mirror_first_stage(NO_VOLUME, 0, NOTHING, NOTHING, NOTHING, NOTHING, NOTHING);
    case SECOND:
        return mirror_second_stage(NO_VOLUME, 0, NOTHING, NOTHING, NOTHING, NOTHING, NOTHING);
    case THIRD:
        return mirror_third_stage(NO_VOLUME, 0, NOTHING, NOTHING, NOTHING, NOTHING, NOTHING);
    case READ:
        return mirror_read(NO_VOLUME, 0, NOTHING, NOTHING, NOTHING, NOTHING, NOTHING);
    case MEND:
        return mirror_mend(NO_VOLUME, 0, NOTHING, NOTHING, NOTHING, NOTHING);
    case WRITE:
        return mirror_write(NO_VOLUME, 0, NOTHING, NOTHING, NOTHING, NOTHING, NOTHING);
    default:
        return mirror_survey(NO_VOLUME, NOTHING, NOTHING, NOTHING, NOTHING, NOTHING, words(COUNTS));
    }
}

/* ---- the states of sector NUMBER under a right key, and what each call answers there if no argument is wrong */

enum { WHOLE, AT_LOCAL, AT_TAG, AT_REMOTE, LOST, CLASHING, FIRST_DONE, SECOND_DONE, STATES };
static const uint8_t DUE[STATES][CALLS] = {{0, 0, 0, 0, 0, 0, 10, 10, 0, 0, 0, 0},
                                           {0, 0x81, 5, 5, 0, 10, 10, 10, 0x81, 0x81, 0x81, 0},
                                           {0, 0x82, 5, 5, 0, 10, 10, 10, 0x82, 0x82, 0x82, 0},
                                           {0, 0x83, 0, 0, 0, 10, 10, 10, 0x83, 0x83, 0x83, 0},
                                           {0, 6, 5, 5, 0, 10, 10, 10, 6, 6, 6, 0},
                                           {0, 7, 0, 0, 0, 10, 0, 0, 7, 7, 7, 0},
                                           {0, 0x81, 5, 5, 0, 10, 0, 10, 0x81, 0x81, 0x81, 0},
                                           {0, 0x83, 0, 0, 0, 10, 0, 0, 0x83, 0x83, 0x83, 0}};

static void made(int which)
{
    check(make_call(which, 0, MIRROR_KEY_BYTES) == MIRROR_DONE, __LINE__, NAMES[which], "the call that makes a state is refused");
}

static void fill(int which, unsigned first)
{
    size_t i;
    for (i = 0; i < LENGTHS[which]; i++) {
        at[which][i] = (uint8_t)(first + i);
    }
}

/* The plaintext that a call is given is not the one that the sector holds, but for the clash and after the first and second stage. */
static void make(int state)
{
    fill(PLAIN, 0x40);
    memcpy(at[PLAIN], at[KEY], H);
    made(SEAL);
    if (state == CLASHING) {
        at[PLAIN][H] ^= 1; /* two plaintexts that begin with h and differ in block 2 only have one tag */
    } else {
        fill(PLAIN, 0x90);
    }
    if (state == FIRST_DONE || state == SECOND_DONE || state == CLASHING) {
        made(FIRST);
    }
    if (state == SECOND_DONE) {
        made(SECOND);
    }
    at[LOCAL][NUMBER * SIZE] ^= state == AT_LOCAL || state == LOST;
    at[TAGS][NUMBER * TAG] ^= state == AT_TAG;
    at[REMOTE][NUMBER * SIZE] ^= (state == AT_REMOTE || state == LOST) << 1;
}

/* ---- 14, and its place in the order */

/* What a call with these faults answers under a right key: the first of them in the order, else what is due in the state. */
static uint32_t answer_due(int which, unsigned faults, int state)
{
    size_t i;
    for (i = 0; i < sizeof ORDER / sizeof ORDER[0]; i++) {
        if (faults & ORDER[i].fault) {
            return ORDER[i].refusal;
        }
    }
    return DUE[state][which];
}

/* With these faults, in a state that is kept in `before`: under the right key, then with its h zero, then with all of it zero. */
static void refuses(int which, unsigned faults, int state)
{
    const size_t key_len = faults & KEY_LEN ? MIRROR_KEY_BYTES - 1 : MIRROR_KEY_BYTES;
    const uint32_t due = faults & KEY_LEN ? MIRROR_REFUSED_KEY_LENGTH : MIRROR_REFUSED_ZERO_HASH_KEY;
    uint8_t key[MIRROR_KEY_BYTES];
    answers(answer_due(which, faults, state), make_call(which, faults, key_len), __LINE__, NAMES[which]);
    put_back();
    memcpy(key, before[KEY], sizeof key);
    memset(before[KEY], 0, H);
    put_back();
    answers(due, make_call(which, faults, key_len), __LINE__, NAMES[which]);
    as_before(__LINE__, NAMES[which]);
    memset(before[KEY], 0, MIRROR_KEY_BYTES);
    put_back();
    answers(due, make_call(which, faults, key_len), __LINE__, NAMES[which]);
    as_before(__LINE__, NAMES[which]);
    memcpy(before[KEY], key, sizeof key);
    put_back();
}

/* Each bit of the map set, and clear. */
static void refuses_all(int state)
{
    int which, set;
    unsigned faults;
    make(state);
    for (set = 0; set < 2; set++) {
        memset(at[MAP], set ? 0xff : 0, LENGTHS[MAP]);
        keep();
        for (which = 0; which < CALLS; which++) {
            for (faults = 0; faults < FAULTS; faults++) {
                if ((faults & ~TAKES[which]) == 0) {
                    refuses(which, faults, state);
                }
            }
        }
    }
}

/* 14 is of a key of 32 bytes alone: of all zeros any other length is 1. And nothing else has to be right, or to be lent. */
static void refuses_bare(void)
{
    static const size_t OTHER_LENGTHS[] = {0, 1, 15, 16, 17, 31, 33};
    size_t i;
    int which;
    memset(at[KEY], 0, LENGTHS[KEY]);
    keep();
    for (which = 0; which < CALLS; which++) {
        for (i = 0; i < sizeof OTHER_LENGTHS / sizeof OTHER_LENGTHS[0]; i++) {
            answers(MIRROR_REFUSED_KEY_LENGTH, make_call(which, 0, OTHER_LENGTHS[i]), __LINE__, NAMES[which]);
            answers(MIRROR_REFUSED_KEY_LENGTH, make_bare(which, OTHER_LENGTHS[i]), __LINE__, NAMES[which]);
        }
        answers(MIRROR_REFUSED_ZERO_HASH_KEY, make_bare(which, MIRROR_KEY_BYTES), __LINE__, NAMES[which]);
        as_before(__LINE__, NAMES[which]);
    }
}

/* ---- keys that are accepted */

/* Every call, each in a state where it is accepted: a whole sector, or after the first stage and the second. */
static void accepts_key(void)
{
    static const int ACCEPTED[CALLS] = {WHOLE, WHOLE, WHOLE, WHOLE, WHOLE, WHOLE, FIRST_DONE, SECOND_DONE, WHOLE, WHOLE, WHOLE, WHOLE};
    int which;
    for (which = 0; which < CALLS; which++) {
        make(ACCEPTED[which]);
        answers(MIRROR_DONE, make_call(which, 0, MIRROR_KEY_BYTES), __LINE__, NAMES[which]);
    }
}

/* Each single bit of h; K is zeros, and then it is not. */
static void accepts(void)
{
    size_t i;
    int bit, k;
    for (i = 0; i < H; i++) {
        for (bit = 0; bit < 8; bit++) {
            for (k = 0; k < 2; k++) {
                memset(at[KEY], 0, H);
                memset(at[KEY] + H, k ? 0xc3 : 0, MIRROR_KEY_BYTES - H);
                at[KEY][i] = (uint8_t)(1 << bit);
                accepts_key();
            }
        }
    }
    fill(KEY, 1);
    memset(at[KEY] + H, 0, MIRROR_KEY_BYTES - H);
    accepts_key();
}

/* ---- the calls without a key do not look at one */

static void without_a_key(void)
{
    static uint8_t zeros[MIRROR_KEY_BYTES];
    uint64_t map[MIRROR_MAP_WORDS(COUNT)], count;
    const struct mirror_volume v = {zeros,    sizeof zeros, VOLUME,     SIZE,         COUNT, at[LOCAL],              COUNT * SIZE,
                                    at[TAGS], COUNT * TAG,  at[REMOTE], COUNT * SIZE, map,   MIRROR_MAP_WORDS(COUNT)};
    answers(MIRROR_DONE, mirror_volume_start_map(&v), __LINE__, "mirror_start_map");
    answers(MIRROR_DONE, mirror_volume_count_suspects(&v, &count), __LINE__, "mirror_count_suspects");
    check(count == COUNT, __LINE__, "mirror_count_suspects", "counts otherwise with a zero key in the struct");
    answers(MIRROR_REFUSED_ZERO_HASH_KEY, mirror_volume_blank(&v, NUMBER), __LINE__, "mirror_blank");
    check(*map == 7, __LINE__, "mirror_blank", "refuses the key and changes the map");
    answers(MIRROR_DONE, mirror_combine(at[LOCAL], SIZE, at[REMOTE], SIZE, at[OUT], SIZE), __LINE__, "mirror_combine");
}

void zero_hash_keys(void)
{
    int state;
    take();
    fill(KEY, 0x70);
    for (state = 0; state < STATES; state++) {
        refuses_all(state);
    }
    accepts();
    refuses_bare();
    without_a_key();
    give_back();
    puts("calls: a hash key of zeros is refused, and no other");
}
