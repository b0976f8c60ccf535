/*
 * A program for tests/check_work, which counts by callgrind how often each call here expands a key and encrypts a block: makes the calls of
 * the library, at four sizes and in eight states of a sector, and prints a line for each. What a call needs is made before it, and the call
 * alone is made within `measured`: so what is counted from entering that function to leaving it is the call's.
 */
#include "mirror.h"

#include <stdio.h>
#include <stdlib.h>
#include <string.h>

enum { VOLUME = 1, SECTORS = 16, DAMAGED = 4, AT = 3, MOST = MIRROR_SECTOR_BYTES_MAX, TAG = MIRROR_TAG_BYTES };

/*
 * No answers of the library. AS_JUDGED: due is the state's verdict. NOT_DUE: a survey has counted otherwise than the volume was made, or
 * the library is of another release than the header.
 */
enum { AS_JUDGED = 0x100, NOT_DUE = 0x101 };

/* The state that a call finds: of sector AT, and from ALONE on of the whole volume. Their order lets a row name several. */
enum state { WHOLE, AT_LOCAL, AT_REMOTE, AT_TAG, LOST, CLASHING, FIRST_DONE, SECOND_DONE, ALONE, ALL_WHOLE, SOME_DAMAGED, STATES };

static const char *const names[STATES] = {"whole",
                                          "doubtful at local",
                                          "doubtful at remote",
                                          "doubtful at the tag",
                                          "lost",
                                          "clashing",
                                          "after the first stage",
                                          "after the second stage",
                                          "one sector",
                                          "16 sectors",
                                          "16 sectors, 4 damaged"};
static const uint32_t verdicts[] = {MIRROR_WHOLE,        MIRROR_DOUBTFUL_LOCAL,   MIRROR_DOUBTFUL_REMOTE, MIRROR_DOUBTFUL_TAG,
                                    MIRROR_REFUSED_LOST, MIRROR_REFUSED_CLASHING, MIRROR_DOUBTFUL_LOCAL,  MIRROR_DOUBTFUL_REMOTE};

static uint8_t key[MIRROR_KEY_BYTES], old[MOST], plain[MOST], out[MOST], local[SECTORS * MOST], tags[SECTORS * TAG], remote[SECTORS * MOST];
static uint32_t list[SECTORS];
static uint64_t counts[MIRROR_COUNTS_LENGTH], count, map[MIRROR_MAP_WORDS(SECTORS)];
static struct mirror_volume v;
static enum state now;
static size_t less; /* 1 if the last argument that the call checks is to be wrong, else 0 */

static void need(uint32_t answer, uint32_t due, const char *row, const char *detail)
{
    if (answer != due) {
        fprintf(stderr, "keyed: %s (%s), s = %lu: the answer is %x, and %x is due (hexadecimal)\n", row, detail, (unsigned long)v.s,
                (unsigned)answer, (unsigned)due);
        exit(1);
    }
}

/* ---- the state that a call finds */

static void shape(size_t s, size_t n)
{
    v = (struct mirror_volume){.key = key,
                               .key_len = sizeof key,
                               .volume = VOLUME,
                               .s = s,
                               .n = n,
                               .local = local,
                               .local_len = n * s,
                               .tags = tags,
                               .tags_len = n * TAG,
                               .remote = remote,
                               .remote_len = n * s,
                               .map = map,
                               .map_len = MIRROR_MAP_WORDS(n)};
}

static uint32_t seal_at(size_t i, const uint8_t *text)
{
    return mirror_seal(key, v.key_len, VOLUME, i, text, v.s, local + i * v.s, v.s, tags + i * TAG, TAG - less, remote + i * v.s, v.s);
}

static void seal_old(size_t i) { need(seal_at(i, old), MIRROR_DONE, "sealing", "before a call"); }

/* Two plaintexts that begin with h and differ in block 2 only have one tag. */
static void clash(void)
{
    memcpy(old, key, TAG);
    seal_old(AT);
    memcpy(out, remote + AT * v.s, v.s);
    old[TAG] ^= 1;
    seal_old(AT);
    memcpy(remote + AT * v.s, out, v.s);
}

static void damage(size_t i, enum state state)
{
    if (state == AT_LOCAL || state == LOST) {
        local[i * v.s] ^= 1;
    }
    if (state == AT_REMOTE || state == LOST) {
        remote[i * v.s + v.s - 1] ^= 2;
    }
    if (state == AT_TAG) {
        tags[i * TAG] ^= 1;
    }
}

/* The whole volume is sealed only where the state is the volume's, which saves time: the other calls look at one sector. No two plaintexts
 * of one block have one tag, so where the other states have a block the clashing sector has two. */
static void make(size_t s, enum state state)
{
    const size_t begin = state < ALONE ? AT : 0, end = state < ALONE ? AT + 1 : SECTORS;
    size_t i;
    s += state == CLASHING && s == TAG ? TAG : 0;
    now = state;
    less = 0;
    shape(s, state == ALONE ? 1 : SECTORS);
    memset(key, 0x31, sizeof key);
    memset(old, 0x52, s);
    memset(plain, 0x77, s);
    for (i = begin; i < end; i++) {
        seal_old(i);
    }
    if (state == CLASHING) {
        clash();
    } else if (state == SOME_DAMAGED) {
        for (i = 0; i < DAMAGED; i++) {
            damage(i * SECTORS / DAMAGED, (enum state)(AT_LOCAL + i));
        }
    } else {
        damage(AT, state);
    }
    if (state == FIRST_DONE || state == SECOND_DONE) {
        need(mirror_volume_first_stage(&v, AT, plain, s), MIRROR_DONE, "first stage", "before a call");
    }
    if (state == SECOND_DONE) {
        need(mirror_volume_second_stage(&v, AT, plain, s), MIRROR_DONE, "second stage", "before a call");
    }
}

/* ---- the calls */

static uint32_t nothing(void) { return MIRROR_DONE; }
static uint32_t seal(void) { return seal_at(AT, plain); }
static uint32_t two_seals(void) { return seal() | seal(); }

static uint32_t judge(void)
{
    return mirror_judge(key, v.key_len, VOLUME, AT, local + AT * v.s, v.s, tags + AT * TAG, TAG - less, remote + AT * v.s, v.s, out, v.s);
}

/* The remote side is opened where the local sector or the tag is damaged, else the local side: so each is opened, and each is refused. */
static uint32_t open_or_rebuild(int rebuilds)
{
    const int at_remote = now == AT_LOCAL || now == AT_TAG;
    const uint32_t side = less ? 2 : at_remote ? MIRROR_SIDE_REMOTE : MIRROR_SIDE_LOCAL;
    const uint8_t *const sector = (at_remote ? remote : local) + AT * v.s;
    return (rebuilds ? mirror_rebuild : mirror_open)(key, v.key_len, VOLUME, AT, side, sector, v.s, tags + AT * TAG, TAG, out, v.s);
}

static uint32_t open_side(void) { return open_or_rebuild(0); }
static uint32_t rebuild(void) { return open_or_rebuild(1); }
static uint32_t combine(void) { return mirror_combine(local + AT * v.s, v.s, remote + AT * v.s, v.s, out, v.s); }
static uint32_t version(void) { return mirror_version() == MIRROR_VERSION ? MIRROR_DONE : NOT_DUE; }
static uint32_t start_map(void) { return mirror_volume_start_map(&v); }
static uint32_t count_suspects(void) { return mirror_volume_count_suspects(&v, &count); }
static uint32_t blank(void) { return mirror_volume_blank(&v, AT + less * SECTORS); }
static uint32_t first_stage(void) { return mirror_volume_first_stage(&v, AT, plain, v.s - less); }
static uint32_t second_stage(void) { return mirror_volume_second_stage(&v, AT, plain, v.s - less); }
static uint32_t third_stage(void) { return mirror_volume_third_stage(&v, AT, plain, v.s - less); }
static uint32_t read_sector(void) { return mirror_volume_read(&v, AT, out, v.s - less); }
static uint32_t mend(void) { return mirror_volume_mend(&v, AT + less * SECTORS); }
static uint32_t write_sector(void) { return mirror_volume_write(&v, AT, plain, v.s - less); }

static uint32_t survey(void)
{
    const uint32_t answer = mirror_volume_survey(&v, list, v.n - less, counts);
    const uint64_t damaged = now == SOME_DAMAGED ? DAMAGED : 0;
    return answer == MIRROR_DONE && counts[MIRROR_COUNT_WHOLE] + damaged != v.n ? NOT_DUE : answer;
}

/* ---- the rows. A name is that of a row in tests/check_work, whose figures are due in each of the states from first to last. */

static const struct {
    const char *name;
    uint32_t (*call)(void);
    enum state first, last;
    uint32_t due;
} rows[] = {
    {"nothing", nothing, WHOLE, WHOLE, MIRROR_DONE},
    {"two seals", two_seals, WHOLE, WHOLE, MIRROR_DONE},
    {"seal", seal, WHOLE, WHOLE, MIRROR_DONE},
    {"judge, whole", judge, WHOLE, WHOLE, AS_JUDGED},
    {"judge, doubtful, lost or clashing", judge, AT_LOCAL, SECOND_DONE, AS_JUDGED},
    {"open, done or refused 5", open_side, WHOLE, AT_REMOTE, MIRROR_DONE},
    {"open, done or refused 5", open_side, AT_TAG, LOST, MIRROR_REFUSED_NONE_FITS},
    {"open, done or refused 5", open_side, CLASHING, CLASHING, MIRROR_DONE},
    {"open, done or refused 5", open_side, FIRST_DONE, FIRST_DONE, MIRROR_REFUSED_NONE_FITS},
    {"open, done or refused 5", open_side, SECOND_DONE, SECOND_DONE, MIRROR_DONE},
    {"rebuild", rebuild, WHOLE, AT_REMOTE, MIRROR_DONE},
    {"rebuild", rebuild, CLASHING, CLASHING, MIRROR_DONE},
    {"rebuild", rebuild, SECOND_DONE, SECOND_DONE, MIRROR_DONE},
    {"rebuild, refused 5", rebuild, AT_TAG, LOST, MIRROR_REFUSED_NONE_FITS},
    {"rebuild, refused 5", rebuild, FIRST_DONE, FIRST_DONE, MIRROR_REFUSED_NONE_FITS},
    {"combine", combine, WHOLE, WHOLE, MIRROR_DONE},
    {"start map", start_map, WHOLE, WHOLE, MIRROR_DONE},
    {"count suspects", count_suspects, WHOLE, WHOLE, MIRROR_DONE},
    {"version", version, WHOLE, WHOLE, MIRROR_DONE},
    {"blank", blank, WHOLE, SECOND_DONE, MIRROR_DONE},
    {"first stage", first_stage, WHOLE, WHOLE, MIRROR_DONE},
    {"first stage, refused 10", first_stage, AT_LOCAL, SECOND_DONE, MIRROR_REFUSED_STAGE_ORDER},
    {"second stage, done or refused 10", second_stage, FIRST_DONE, SECOND_DONE, MIRROR_DONE},
    {"second stage, done or refused 10", second_stage, WHOLE, CLASHING, MIRROR_REFUSED_STAGE_ORDER},
    {"third stage", third_stage, SECOND_DONE, SECOND_DONE, MIRROR_DONE},
    {"third stage, refused 10", third_stage, WHOLE, FIRST_DONE, MIRROR_REFUSED_STAGE_ORDER},
    {"read, whole", read_sector, WHOLE, WHOLE, AS_JUDGED},
    {"read, doubtful, lost or clashing", read_sector, AT_LOCAL, SECOND_DONE, AS_JUDGED},
    {"mend, whole", mend, WHOLE, WHOLE, AS_JUDGED},
    {"mend, doubtful at a side", mend, AT_LOCAL, AT_REMOTE, AS_JUDGED},
    {"mend, doubtful at a side", mend, FIRST_DONE, SECOND_DONE, AS_JUDGED},
    {"mend, doubtful at the tag", mend, AT_TAG, AT_TAG, AS_JUDGED},
    {"mend, lost or clashing", mend, LOST, CLASHING, AS_JUDGED},
    {"write in one call, whole", write_sector, WHOLE, WHOLE, AS_JUDGED},
    {"write in one call, doubtful at a side", write_sector, AT_LOCAL, AT_REMOTE, AS_JUDGED},
    {"write in one call, doubtful at a side", write_sector, FIRST_DONE, SECOND_DONE, AS_JUDGED},
    {"write in one call, doubtful at the tag", write_sector, AT_TAG, AT_TAG, AS_JUDGED},
    {"write in one call, lost or clashing", write_sector, LOST, CLASHING, AS_JUDGED},
    {"survey of 1 whole sector", survey, ALONE, ALONE, MIRROR_DONE},
    {"survey of 16 whole sectors", survey, ALL_WHOLE, ALL_WHOLE, MIRROR_DONE},
    {"survey of 16 sectors, 4 damaged", survey, SOME_DAMAGED, SOME_DAMAGED, MIRROR_DONE},
};

/* The calls with a key, and what they refuse where the last argument that they check is wrong. Each is refused for its key too: by its
 * length, and where h is zero. */
static const struct {
    const char *name;
    uint32_t (*call)(void);
    uint32_t due;
} keyed[] = {
    {"seal", seal, MIRROR_REFUSED_OTHER_LENGTH},
    {"judge", judge, MIRROR_REFUSED_OTHER_LENGTH},
    {"open", open_side, MIRROR_REFUSED_UNKNOWN_SIDE},
    {"rebuild", rebuild, MIRROR_REFUSED_UNKNOWN_SIDE},
    {"blank", blank, MIRROR_REFUSED_SECTOR_NUMBER},
    {"first stage", first_stage, MIRROR_REFUSED_OTHER_LENGTH},
    {"second stage", second_stage, MIRROR_REFUSED_OTHER_LENGTH},
    {"third stage", third_stage, MIRROR_REFUSED_OTHER_LENGTH},
    {"read", read_sector, MIRROR_REFUSED_OTHER_LENGTH},
    {"mend", mend, MIRROR_REFUSED_SECTOR_NUMBER},
    {"write in one call", write_sector, MIRROR_REFUSED_OTHER_LENGTH},
    {"survey", survey, MIRROR_REFUSED_LIST_LENGTH},
};

/* ---- what is counted */

/* callgrind is told this name, so it must not be compiled into its caller, nor end in a jump to the call: the answer is kept for that. */
__attribute__((noinline)) static uint32_t measured(uint32_t (*call)(void))
{
    static volatile uint32_t answer;
    answer = call();
    return answer;
}

static void run(const char *row, const char *detail, uint32_t (*call)(void), uint32_t due)
{
    need(measured(call), due, row, detail);
    printf("%lu|%s|%s", (unsigned long)v.s, row, detail);
    printf(due < MIRROR_DOUBTFUL_LOCAL ? ", answer %u\n" : ", answer 0x%x\n", (unsigned)due);
}

static void run_rows(size_t s)
{
    size_t i;
    for (i = 0; i < sizeof rows / sizeof rows[0]; i++) {
        enum state state;
        for (state = rows[i].first; state <= rows[i].last; state++) {
            make(s, state);
            run(rows[i].name, names[state], rows[i].call, rows[i].due == AS_JUDGED ? verdicts[state] : rows[i].due);
        }
    }
}

static void run_refused(size_t s)
{
    static const char *const row = "any call with a key, refused for its arguments";
    size_t i;
    for (i = 0; i < sizeof keyed / sizeof keyed[0]; i++) {
        make(s, WHOLE);
        v.key_len--;
        run(row, keyed[i].name, keyed[i].call, MIRROR_REFUSED_KEY_LENGTH);
        make(s, WHOLE);
        memset(key, 0, TAG);
        run(row, keyed[i].name, keyed[i].call, MIRROR_REFUSED_ZERO_HASH_KEY);
        make(s, WHOLE);
        less = 1;
        run(row, keyed[i].name, keyed[i].call, keyed[i].due);
    }
}

int main(void)
{
    static const size_t sizes[] = {16, 48, 512, 4096};
    size_t i;
    for (i = 0; i < sizeof sizes / sizeof sizes[0]; i++) {
        run_rows(sizes[i]);
        run_refused(sizes[i]);
    }
    return 0;
}
