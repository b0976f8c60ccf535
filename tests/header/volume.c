/*
 * Each function over struct mirror_volume gives what the call of its name gives: the answer and every lent byte. The two are made on equal
 * buffers, for every state of a sector, with each field of the struct and each further argument right and wrong. Of each of these calls the
 * map is looked at too, by the header's table, and that a refusal changes nothing else. What else the calls themselves are to give is in
 * calls.c. Each buffer is on the heap with its exact length.
 */
#include "checks.h"

#include <stdio.h>
#include <stdlib.h>
#include <string.h>

enum { VOLUME = 5, SIZE = 32, COUNT = 3, NUMBER = 1, FEWER = 16 };

/* ---- the buffers: as they are before, as the call leaves them, and as the function over the struct does */

enum { KEY, ZERO_KEY, LOCAL, TAGS, REMOTE, MAP, PLAIN, OUT, LIST, COUNTS, SUSPECTS, BUFFERS };
static const size_t LENGTHS[BUFFERS] = {MIRROR_KEY_BYTES,
                                        MIRROR_KEY_BYTES, /* with a hash key of zeros */
                                        COUNT * SIZE,
                                        COUNT * MIRROR_TAG_BYTES,
                                        COUNT * SIZE,
                                        sizeof(uint64_t),
                                        SIZE,
                                        SIZE,
                                        COUNT * sizeof(uint32_t),
                                        MIRROR_COUNTS_LENGTH * sizeof(uint64_t),
                                        sizeof(uint64_t)};
typedef struct {
    uint8_t *at[BUFFERS];
} Buffers;

static void take(Buffers *b)
{
    size_t i;
    for (i = 0; i < BUFFERS; i++) {
        b->at[i] = heap(LENGTHS[i]);
    }
    memset(b->at[ZERO_KEY], 0, MIRROR_KEY_BYTES / 2);
}

static void give_back(Buffers *b)
{
    size_t i;
    for (i = 0; i < BUFFERS; i++) {
        free(b->at[i]);
    }
}

static void copy(const Buffers *from, const Buffers *to)
{
    size_t i;
    for (i = 0; i < BUFFERS; i++) {
        memcpy(to->at[i], from->at[i], LENGTHS[i]);
    }
}

static uint32_t *list_in(const Buffers *b) { return (uint32_t *)(void *)b->at[LIST]; }
static uint64_t *words_in(const Buffers *b, int which) { return (uint64_t *)(void *)b->at[which]; }

static struct mirror_volume volume_in(const Buffers *b)
{
    struct mirror_volume v = {b->at[KEY],      MIRROR_KEY_BYTES, VOLUME,      SIZE,          COUNT,
                              b->at[LOCAL],    LENGTHS[LOCAL],   b->at[TAGS], LENGTHS[TAGS], b->at[REMOTE],
                              LENGTHS[REMOTE], words_in(b, MAP), 1};
    return v;
}

/* ---- what is called */

/* Those before KEYED take the key and the volume's number. */
enum { BLANK, FIRST, SECOND, THIRD, READ, MEND, WRITE, SURVEY, KEYED, START = KEYED, COUNT_SUSPECTS, CALLS };
static const char *const NAMES[CALLS] = {"mirror_volume_blank",         "mirror_volume_first_stage", "mirror_volume_second_stage",
                                         "mirror_volume_third_stage",   "mirror_volume_read",        "mirror_volume_mend",
                                         "mirror_volume_write",         "mirror_volume_survey",      "mirror_volume_start_map",
                                         "mirror_volume_count_suspects"};

/* The arguments beside the volume. One of them may be wrong. */
typedef struct {
    size_t number, plain_len, out_len, list_len;
} Others;

#define NAMED v.key, v.key_len, v.volume, v.s, v.n
#define IMAGES v.local, v.local_len, v.tags, v.tags_len, v.remote, v.remote_len, v.map, v.map_len
#define PLAINTEXT b->at[PLAIN], o->plain_len
#define OUTPUT b->at[OUT], o->out_len
#define ENTRIES list_in(b), o->list_len, words_in(b, COUNTS)

static uint32_t by_call(int which, struct mirror_volume v, const Others *o, const Buffers *b)
{
    switch (which) {
    case BLANK:
        return mirror_blank(NAMED, o->number, IMAGES);
    case FIRST:
        return mirror_first_stage(NAMED, o->number, PLAINTEXT, IMAGES);
    case SECOND:
        return mirror_second_stage(NAMED, o->number, PLAINTEXT, IMAGES);
    case THIRD:
        return mirror_third_stage(NAMED, o->number, PLAINTEXT, IMAGES);
    case READ:
        return mirror_read(NAMED, o->number, IMAGES, OUTPUT);
    case MEND:
        return mirror_mend(NAMED, o->number, IMAGES);
    case WRITE:
        return mirror_write(NAMED, o->number, PLAINTEXT, IMAGES);
    case SURVEY:
        return mirror_survey(NAMED, IMAGES, ENTRIES);
    case START:
        return mirror_start_map(v.n, v.map, v.map_len);
    default:
        return mirror_count_suspects(v.n, v.map, v.map_len, words_in(b, SUSPECTS));
    }
}

static uint32_t by_struct(int which, const struct mirror_volume *v, const Others *o, const Buffers *b)
{
    switch (which) {
    case BLANK:
        return mirror_volume_blank(v, o->number);
    case FIRST:
        return mirror_volume_first_stage(v, o->number, PLAINTEXT);
    case SECOND:
        return mirror_volume_second_stage(v, o->number, PLAINTEXT);
    case THIRD:
        return mirror_volume_third_stage(v, o->number, PLAINTEXT);
    case READ:
        return mirror_volume_read(v, o->number, OUTPUT);
    case MEND:
        return mirror_volume_mend(v, o->number);
    case WRITE:
        return mirror_volume_write(v, o->number, PLAINTEXT);
    case SURVEY:
        return mirror_volume_survey(v, ENTRIES);
    case START:
        return mirror_volume_start_map(v);
    default:
        return mirror_volume_count_suspects(v, words_in(b, SUSPECTS));
    }
}

/* ---- what is wrong: nothing, a field of the struct, or another argument */

enum { NOTHING, KEY_LEN, NO_HASH_KEY, NO_NUMBER, S, NO_SECTORS, MORE_SECTORS, LOCAL_LEN, TAGS_LEN, REMOTE_LEN, NO_MAP, FIELDS };
enum { OTHER_NUMBER = 1, PLAIN_LEN, OUT_LEN, LIST_LEN, OTHERS };

static void spoil(struct mirror_volume *v, int field, const Buffers *b)
{
    switch (field) {
    case KEY_LEN:
        v->key_len = FEWER;
        break;
    case NO_HASH_KEY:
        v->key = b->at[ZERO_KEY];
        break;
    case NO_NUMBER: /* as where a program does not name the field */
        v->volume = 0;
        break;
    case S:
        v->s = SIZE - 1;
        break;
    case NO_SECTORS:
        v->n = 0;
        break;
    case MORE_SECTORS:
        v->n = COUNT + 1;
        break;
    case LOCAL_LEN:
        v->local_len = SIZE;
        break;
    case TAGS_LEN:
        v->tags_len = MIRROR_TAG_BYTES;
        break;
    case REMOTE_LEN:
        v->remote_len = SIZE;
        break;
    case NO_MAP: /* as where a program does not name the fields */
        v->map = NULL;
        v->map_len = 0;
        break;
    default:
        break;
    }
}

static Others others(int wrong)
{
    Others o;
    o.number = wrong == OTHER_NUMBER ? COUNT : NUMBER;
    o.plain_len = wrong == PLAIN_LEN ? FEWER : SIZE;
    o.out_len = wrong == OUT_LEN ? FEWER : SIZE;
    o.list_len = wrong == LIST_LEN ? COUNT - 1 : COUNT;
    return o;
}

/* ---- the states that sector NUMBER is in */

enum { WHOLE, HURT_LOCAL, HURT_TAG, HURT_REMOTE, LOST, FIRST_DONE, SECOND_DONE, THIRD_DONE, CLASHING, STATES };

static void made(const Buffers *b, int which)
{
    const Others right = others(NOTHING);
    check(by_call(which, volume_in(b), &right, b) == MIRROR_DONE, __LINE__, NAMES[which], "the call that makes a state is refused");
}

/* The stages of a write, up to this one. */
static void written(const Buffers *b, int last)
{
    int stage;
    for (stage = FIRST; stage <= last; stage++) {
        made(b, stage);
    }
}

/* (h, 0) is written, and of (h, 1), which has the same tag, the first stage. */
static void clash(const Buffers *b)
{
    memset(b->at[PLAIN], 0, SIZE);
    memcpy(b->at[PLAIN], b->at[KEY], MIRROR_TAG_BYTES);
    written(b, THIRD);
    b->at[PLAIN][SIZE - 1] = 1;
    made(b, FIRST);
}

static void hurt(const Buffers *b, int state)
{
    if (state == HURT_LOCAL || state == LOST) {
        b->at[LOCAL][NUMBER * SIZE] ^= 1;
    }
    if (state == HURT_TAG) {
        b->at[TAGS][NUMBER * MIRROR_TAG_BYTES] ^= 1;
    }
    if (state == HURT_REMOTE || state == LOST) {
        b->at[REMOTE][NUMBER * SIZE] ^= 1;
    }
}

static void make(const Buffers *b, int state)
{
    const struct mirror_volume v = volume_in(b);
    size_t i;
    for (i = 0; i < COUNT; i++) {
        check(mirror_blank(NAMED, i, IMAGES) == MIRROR_DONE, __LINE__, "mirror_blank", "is refused");
    }
    for (i = 0; i < SIZE; i++) {
        b->at[PLAIN][i] = (uint8_t)(0x60 + i);
    }
    if (state >= FIRST_DONE && state <= THIRD_DONE) {
        written(b, FIRST + state - FIRST_DONE);
    }
    if (state == CLASHING) {
        clash(b);
    }
    hurt(b, state);
}

/* ---- what a call does to the map */

enum { LEAVES, CLEARS, SETS };

/* To the bit of its sector, by its answer: the header's table. */
static int mark(int which, uint32_t answer)
{
    const int doubtful = answer >= MIRROR_DOUBTFUL_LOCAL && answer <= MIRROR_DOUBTFUL_REMOTE;
    const int unreadable = answer == MIRROR_REFUSED_LOST || answer == MIRROR_REFUSED_CLASHING;
    switch (which) {
    case BLANK:
    case THIRD:
        return answer == MIRROR_DONE ? CLEARS : LEAVES;
    case MEND:
    case WRITE:
        return answer == MIRROR_WHOLE || doubtful ? CLEARS : unreadable ? SETS : LEAVES;
    case FIRST:
    case SECOND:
        return answer == MIRROR_DONE ? SETS : LEAVES;
    case READ:
        return answer == MIRROR_WHOLE ? CLEARS : doubtful || unreadable ? SETS : LEAVES;
    default:
        return LEAVES;
    }
}

/* The one word of a map as the call has to leave it. */
static uint64_t marked(int which, uint32_t answer, size_t n, uint64_t word)
{
    const uint64_t bit = (uint64_t)1 << NUMBER;
    const int does = mark(which, answer);
    if (which == START && answer == MIRROR_DONE) {
        return ((uint64_t)1 << n) - 1;
    }
    return does == SETS ? word | bit : does == CLEARS ? word & ~bit : word;
}

/* ---- all of it */

static Buffers before, called, structured;
static unsigned char met[CALLS][256];

/* What the call has left, against what was there before: the map by the table, and after a refusal all else as it was. */
static void left(int which, uint32_t answer, size_t n)
{
    const int refused = mirror_is_refusal(answer);
    size_t i;
    check(*words_in(&called, MAP) == marked(which, answer, n, *words_in(&before, MAP)), __LINE__, NAMES[which],
          "the call leaves another map than the table says");
    for (i = 0; i < BUFFERS; i++) {
        check(!refused || i == MAP || memcmp(called.at[i], before.at[i], LENGTHS[i]) == 0, __LINE__, NAMES[which],
              "the call is refused and changes more than the map");
    }
}

static void compare(int which, int field, int wrong)
{
    const Others o = others(wrong);
    struct mirror_volume v = volume_in(&called), w = volume_in(&structured), kept;
    uint32_t answer;
    size_t i;
    copy(&before, &called);
    copy(&before, &structured);
    spoil(&v, field, &called);
    spoil(&w, field, &structured);
    kept = w;
    answer = by_call(which, v, &o, &called);
    met[which][answer & 0xff] = 1;
    left(which, answer, v.n);
    check(by_struct(which, &w, &o, &structured) == answer, __LINE__, NAMES[which], "answers another number than the call");
    for (i = 0; i < BUFFERS; i++) {
        check(memcmp(called.at[i], structured.at[i], LENGTHS[i]) == 0, __LINE__, NAMES[which], "leaves other bytes than the call");
    }
    check(memcmp(&w, &kept, sizeof w) == 0, __LINE__, NAMES[which], "changes the struct");
}

/* A call in one state of the sector, with each field and each further argument right and wrong, each bit of the map set and clear. */
static void compare_all(int which)
{
    int field, wrong;
    for (field = 0; field < FIELDS; field++) {
        for (wrong = 0; wrong < OTHERS; wrong++) {
            *words_in(&before, MAP) = 0;
            compare(which, field, wrong);
            *words_in(&before, MAP) = UINT64_MAX;
            compare(which, field, wrong);
        }
    }
}

/* A state in which the call under VOLUME is accepted, and what it answers there under 0. */
static const struct {
    int state;
    uint32_t under_0;
} ACCEPTED[KEYED] = {{WHOLE, MIRROR_DONE},
                     {WHOLE, MIRROR_REFUSED_STAGE_ORDER},
                     {FIRST_DONE, MIRROR_REFUSED_STAGE_ORDER},
                     {SECOND_DONE, MIRROR_REFUSED_STAGE_ORDER},
                     {WHOLE, MIRROR_REFUSED_LOST},
                     {WHOLE, MIRROR_REFUSED_LOST},
                     {WHOLE, MIRROR_REFUSED_LOST},
                     {WHOLE, MIRROR_DONE}};

/* A function that handed on 0 in place of the struct's number would do what the call does under 0. That is something else. */
static void hands_on(int which)
{
    const Others o = others(NOTHING);
    struct mirror_volume v = volume_in(&called), w = volume_in(&structured);
    uint32_t answer;
    int differs;
    size_t i;
    make(&before, ACCEPTED[which].state);
    copy(&before, &called);
    copy(&before, &structured);
    v.volume = 0;
    check(by_call(which, v, &o, &called) == ACCEPTED[which].under_0, __LINE__, NAMES[which], "the call answers another number under 0");
    answer = by_struct(which, &w, &o, &structured);
    check(answer == MIRROR_DONE, __LINE__, NAMES[which], "is refused under the volume's number");
    differs = answer != ACCEPTED[which].under_0;
    for (i = 0; i < BUFFERS; i++) {
        differs = differs || memcmp(called.at[i], structured.at[i], LENGTHS[i]) != 0;
    }
    check(differs, __LINE__, NAMES[which], "does what the call does under 0");
}

/* Each function has met all that its call can answer. The lists end with zeros: done, or whole. */
static void each_answer(void)
{
    static const uint8_t ANSWERS[CALLS][13] = {{1, 14, 2, 8, 13, 9},
                                               {1, 14, 2, 8, 13, 9, 3, 10},
                                               {1, 14, 2, 8, 13, 9, 3, 10},
                                               {1, 14, 2, 8, 13, 9, 3, 10},
                                               {1, 14, 2, 8, 13, 9, 3, 6, 7, 0x81, 0x82, 0x83},
                                               {1, 14, 2, 8, 13, 9, 6, 7, 0x81, 0x82, 0x83},
                                               {1, 14, 2, 8, 13, 9, 3, 6, 7, 0x81, 0x82, 0x83},
                                               {1, 14, 2, 8, 13, 11},
                                               {8, 13},
                                               {8, 13}};
    size_t which, i;
    for (which = 0; which < CALLS; which++) {
        for (i = 0; i < sizeof ANSWERS[which]; i++) {
            check(met[which][ANSWERS[which][i]], __LINE__, NAMES[which], "has not met each answer of its call");
        }
    }
}

void volumes(void)
{
    int state, which;
    take(&before);
    take(&called);
    take(&structured);
    for (state = 0; state < STATES; state++) {
        make(&before, state);
        for (which = 0; which < CALLS; which++) {
            compare_all(which);
        }
    }
    each_answer();
    for (which = 0; which < KEYED; which++) {
        hands_on(which);
    }
    give_back(&before);
    give_back(&called);
    give_back(&structured);
    puts("calls: struct mirror_volume");
}
