/*
 * A program for tests/check_work, which counts what the library executes here: makes a volume of 64 sectors of 64 bytes, all of one kind or
 * the kinds by turns, and surveys it, or reads or mends each sector, so many times. The volume is sealed and then damaged, so that these
 * calls alone judge.
 */
#include "mirror.h"

#include <stdio.h>
#include <stdlib.h>
#include <string.h>

enum { VOLUME = 1, SIZE = 64, COUNT = 64, TAG = MIRROR_TAG_BYTES, KINDS = 4 };

static const char *const kinds[KINDS + 1] = {"whole", "lost", "clashing", "doubtful", "mixed"};
static const size_t places[KINDS] = {MIRROR_COUNT_WHOLE, MIRROR_COUNT_LOST, MIRROR_COUNT_CLASHING, MIRROR_COUNT_DOUBTFUL};

static uint8_t key[MIRROR_KEY_BYTES], plain[SIZE], local[COUNT * SIZE], tags[COUNT * TAG], remote[COUNT * SIZE];
static uint32_t list[COUNT];
static uint64_t counts[MIRROR_COUNTS_LENGTH], due[MIRROR_COUNTS_LENGTH], map[MIRROR_MAP_WORDS(COUNT)];

static void seal(size_t i)
{
    const uint32_t answer =
        mirror_seal(key, sizeof key, VOLUME, i, plain, SIZE, local + i * SIZE, SIZE, tags + i * TAG, TAG, remote + i * SIZE, SIZE);
    if (answer != MIRROR_DONE) {
        fprintf(stderr, "work: sector %lu cannot be sealed: %s\n", (unsigned long)i, mirror_text(answer));
        exit(1);
    }
}

/* Two plaintexts that begin with h and differ in block 2 only have one tag. */
static void clash(size_t i)
{
    uint8_t other[SIZE];
    memcpy(plain, key, TAG);
    seal(i);
    memcpy(other, remote + i * SIZE, SIZE);
    plain[TAG] ^= 1;
    seal(i);
    memcpy(remote + i * SIZE, other, SIZE);
}

/* A doubtful sector is so at the local sector, the tag and the remote sector by turns. */
static void make(size_t i, const char *kind)
{
    const size_t turn = i / KINDS % 3;
    memset(plain, (int)i, SIZE);
    seal(i);
    if (strcmp(kind, "clashing") == 0) {
        clash(i);
    } else if (strcmp(kind, "lost") == 0) {
        local[i * SIZE] ^= 1;
        remote[i * SIZE + SIZE - 1] ^= 2;
    } else if (strcmp(kind, "doubtful") == 0) {
        *(turn == 0 ? local + i * SIZE : turn == 1 ? tags + i * TAG : remote + i * SIZE) ^= 1;
    }
}

static const struct mirror_volume volume = {.key = key,
                                            .key_len = sizeof key,
                                            .volume = VOLUME,
                                            .s = SIZE,
                                            .n = COUNT,
                                            .local = local,
                                            .local_len = sizeof local,
                                            .tags = tags,
                                            .tags_len = sizeof tags,
                                            .remote = remote,
                                            .remote_len = sizeof remote,
                                            .map = map,
                                            .map_len = MIRROR_MAP_WORDS(COUNT)};

static void survey(void)
{
    const uint32_t answer = mirror_volume_survey(&volume, list, COUNT, counts);
    if (answer != MIRROR_DONE || memcmp(counts, due, sizeof due) != 0) {
        fprintf(stderr, "work: the survey answers %x (hexadecimal), or gives other counts than the volume was made with\n",
                (unsigned)answer);
        exit(1);
    }
}

/* Each sector, from a started map on. Suspect afterwards are those that a read does not find whole, or that a mend cannot mend. */
static void read_or_mend(int mends)
{
    const uint64_t unreadable = due[MIRROR_COUNT_LOST] + due[MIRROR_COUNT_CLASHING];
    const uint64_t left = mends ? unreadable : unreadable + due[MIRROR_COUNT_DOUBTFUL];
    uint64_t whole = 0, suspects = 0;
    int done = mirror_volume_start_map(&volume) == MIRROR_DONE;
    size_t i;
    for (i = 0; i < COUNT; i++) {
        const uint32_t answer = mends ? mirror_volume_mend(&volume, i) : mirror_volume_read(&volume, i, plain, SIZE);
        whole += answer == MIRROR_WHOLE;
    }
    done = done && mirror_volume_count_suspects(&volume, &suspects) == MIRROR_DONE;
    if (!done || whole != due[MIRROR_COUNT_WHOLE] || suspects != left) {
        fprintf(stderr, "work: %lu sectors are found whole, and %lu are suspect then: the volume was made otherwise\n",
                (unsigned long)whole, (unsigned long)suspects);
        exit(1);
    }
}

static void read_all(void) { read_or_mend(0); }
static void mend_all(void) { read_or_mend(1); }

static const struct {
    const char *name;
    void (*run)(void);
} calls[] = {{"survey", survey}, {"read", read_all}, {"mend", mend_all}};
enum { CALLS = sizeof calls / sizeof calls[0] };

static void make_volume(size_t kind)
{
    size_t i;
    memset(key, 0x31, sizeof key);
    for (i = 0; i < COUNT; i++) {
        const size_t own = kind == KINDS ? i % KINDS : kind;
        make(i, kinds[own]);
        due[places[own]]++;
    }
    due[MIRROR_COUNT_HEALTH] = due[MIRROR_COUNT_WHOLE] * 1000 / COUNT;
}

/* work KIND CALL TIMES */
int main(int argc, char **argv)
{
    size_t kind = 0, call = 0;
    unsigned long times;
    while (argc == 4 && kind <= KINDS && strcmp(argv[1], kinds[kind]) != 0) {
        kind++;
    }
    while (argc == 4 && call < CALLS && strcmp(argv[2], calls[call].name) != 0) {
        call++;
    }
    if (argc != 4 || kind > KINDS || call == CALLS) {
        fprintf(stderr, "usage: work KIND CALL TIMES; KIND is whole, lost, clashing, doubtful or mixed, CALL is survey, read or mend\n");
        return 2;
    }
    make_volume(kind);
    for (times = strtoul(argv[3], NULL, 10); times > 0; times--) {
        calls[call].run();
    }
    return 0;
}
