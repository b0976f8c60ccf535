/*
 * How much stack a call uses. Each call runs on a painted stack of its own, at every sector size and verdict; what it has painted over is
 * what it used. Linked with `-z now`, so that no symbol is resolved on that stack.
 */
#define _XOPEN_SOURCE 700
#include "mirror.h"

#include <stdio.h>
#include <stdlib.h>
#include <string.h>
#include <ucontext.h>

/*
 * WRITES and OTHERS are what the header says of mirror_write and of every call but it and the survey. ARRAYS is what the survey needs at
 * least: three arrays of a sector's bytes to judge in, and three maps with a bit for each sector. If it seems to use less, this program
 * does not measure.
 */
enum { WRITES = 24576, OTHERS = 20480, ARRAYS = 3 * MIRROR_SECTOR_BYTES_MAX + 3 * (MIRROR_VOLUME_SECTORS_MAX / 8) };
enum { ROOM = 131072, PAINT = 0xa5, TAG = MIRROR_TAG_BYTES };

static uint8_t key[MIRROR_KEY_BYTES];
static uint8_t plain[MIRROR_SECTOR_BYTES_MAX], local[MIRROR_SECTOR_BYTES_MAX], remote[MIRROR_SECTOR_BYTES_MAX], tag[TAG];
static uint8_t out[MIRROR_SECTOR_BYTES_MAX];
static size_t size;
static uint32_t list[1], side, answer;
static uint64_t counts[MIRROR_COUNTS_LENGTH], map[MIRROR_MAP_WORDS(MIRROR_VOLUME_SECTORS_MAX)], suspects;

/* With the volume's number. */
#define KEYED key, sizeof key, UINT64_MAX
/* The map of the one sector that the calls work on, and with its count the largest. */
#define MAP map, 1
#define LARGEST_MAP MIRROR_VOLUME_SECTORS_MAX, map, sizeof map / sizeof *map

static void seal(void) { answer = mirror_seal(KEYED, 0, plain, size, local, size, tag, TAG, remote, size); }
static void judge(void) { answer = mirror_judge(KEYED, 0, local, size, tag, TAG, remote, size, out, size); }
static void open(void) { answer = mirror_open(KEYED, 0, side, side ? remote : local, size, tag, TAG, out, size); }
static void rebuild(void) { answer = mirror_rebuild(KEYED, 0, side, side ? remote : local, size, tag, TAG, out, size); }
static void combine(void) { answer = mirror_combine(local, size, remote, size, out, size); }
static void blank(void) { answer = mirror_blank(KEYED, size, 1, 0, local, size, tag, TAG, remote, size, MAP); }
static void first(void) { answer = mirror_first_stage(KEYED, size, 1, 0, plain, size, local, size, tag, TAG, remote, size, MAP); }
static void second(void) { answer = mirror_second_stage(KEYED, size, 1, 0, plain, size, local, size, tag, TAG, remote, size, MAP); }
static void third(void) { answer = mirror_third_stage(KEYED, size, 1, 0, plain, size, local, size, tag, TAG, remote, size, MAP); }
static void read(void) { answer = mirror_read(KEYED, size, 1, 0, local, size, tag, TAG, remote, size, MAP, out, size); }
static void mend(void) { answer = mirror_mend(KEYED, size, 1, 0, local, size, tag, TAG, remote, size, MAP); }
static void write(void) { answer = mirror_write(KEYED, size, 1, 0, plain, size, local, size, tag, TAG, remote, size, MAP); }
static void survey(void) { answer = mirror_survey(KEYED, size, 1, local, size, tag, TAG, remote, size, MAP, list, 1, counts); }
static void start(void) { answer = mirror_start_map(LARGEST_MAP); }
static void count(void) { answer = mirror_count_suspects(LARGEST_MAP, &suspects); }

typedef struct {
    const char *name;
    void (*run)(void);
    size_t most;
} Call;

static Call calls[] = {{"seal", seal, 0},         {"judge", judge, 0},         {"open", open, 0},         {"rebuild", rebuild, 0},
                       {"combine", combine, 0},   {"blank", blank, 0},         {"first_stage", first, 0}, {"second_stage", second, 0},
                       {"third_stage", third, 0}, {"read", read, 0},           {"mend", mend, 0},         {"write", write, 0},
                       {"survey", survey, 0},     {"start_map", start, 0},     {"count_suspects", count, 0}};
enum { CALLS = sizeof calls / sizeof calls[0] };

static uint8_t *stack;

/* Runs a call on the painted stack and notes how far down it wrote. */
static void measure(Call *call)
{
    ucontext_t here, there;
    size_t clean = 0;
    memset(stack, PAINT, ROOM);
    if (getcontext(&there) != 0) {
        exit(1);
    }
    there.uc_stack.ss_sp = stack;
    there.uc_stack.ss_size = ROOM;
    there.uc_link = &here;
    makecontext(&there, call->run, 0);
    if (swapcontext(&here, &there) != 0) {
        exit(1);
    }
    while (clean < ROOM && stack[clean] == PAINT) {
        clean++;
    }
    if (ROOM - clean > call->most) {
        call->most = ROOM - clean;
    }
}

/* Two plaintexts that begin with h and differ in block 2 only have one tag. */
static void clash(void)
{
    static uint8_t other[MIRROR_SECTOR_BYTES_MAX];
    memcpy(plain, key, TAG);
    seal();
    memcpy(other, remote, size);
    plain[TAG] ^= 1;
    seal();
    memcpy(remote, other, size);
}

/* Seals a sector and damages it so that judging gives this answer. */
static void prepare(uint32_t verdict)
{
    memset(plain, 7, size);
    seal();
    if (verdict == MIRROR_DOUBTFUL_LOCAL || verdict == MIRROR_REFUSED_LOST) {
        local[0] ^= 1;
    }
    if (verdict == MIRROR_DOUBTFUL_TAG) {
        tag[0] ^= 1;
    }
    if (verdict == MIRROR_DOUBTFUL_REMOTE || verdict == MIRROR_REFUSED_LOST) {
        remote[size - 1] ^= 2;
    }
    if (verdict == MIRROR_REFUSED_CLASHING) {
        clash();
    }
    judge();
    if (answer != verdict) {
        fprintf(stderr, "stack: judging answers %x and not %x (hexadecimal)\n", (unsigned)answer, (unsigned)verdict);
        exit(1);
    }
}

/* Every call on a sector of this size for which judging gives this answer. No call refuses a whole one, so each goes to its end there. */
static void measure_all(uint32_t verdict)
{
    size_t i;
    for (i = 0; i < CALLS; i++) {
        prepare(verdict);
        measure(&calls[i]);
        if (verdict == MIRROR_WHOLE && answer != MIRROR_DONE) {
            fprintf(stderr, "stack: mirror_%s answers %x (hexadecimal) on a whole sector\n", calls[i].name, (unsigned)answer);
            exit(1);
        }
    }
}

static void measure_sizes(uint32_t verdict, size_t least)
{
    for (size = least; size <= MIRROR_SECTOR_BYTES_MAX; size += 16) {
        side = (uint32_t)(size / 16 % 2);
        measure_all(verdict);
    }
}

int main(void)
{
    size_t i;
    stack = (uint8_t *)malloc(ROOM);
    if (stack == NULL) {
        return 1;
    }
    memset(key, 0x31, sizeof key);
    measure_sizes(MIRROR_WHOLE, MIRROR_SECTOR_BYTES_MIN);
    measure_sizes(MIRROR_DOUBTFUL_LOCAL, MIRROR_SECTOR_BYTES_MIN);
    measure_sizes(MIRROR_DOUBTFUL_TAG, MIRROR_SECTOR_BYTES_MIN);
    measure_sizes(MIRROR_DOUBTFUL_REMOTE, MIRROR_SECTOR_BYTES_MIN);
    measure_sizes(MIRROR_REFUSED_LOST, MIRROR_SECTOR_BYTES_MIN);
    measure_sizes(MIRROR_REFUSED_CLASHING, 32);
    free(stack);
    for (i = 0; i < CALLS; i++) {
        const int surveys = calls[i].run == survey;
        const unsigned long most = (unsigned long)calls[i].most;
        const unsigned long bound = surveys ? MIRROR_STACK_BYTES : calls[i].run == write ? WRITES : OTHERS;
        printf("stack: mirror_%s uses at most %lu bytes\n", calls[i].name, most);
        if (most >= bound) {
            fprintf(stderr, "stack: mirror_%s uses %lu bytes, and the header says less than %lu\n", calls[i].name, most, bound);
            return 1;
        }
        if (surveys && most < ARRAYS) {
            fprintf(stderr, "stack: mirror_survey uses %lu bytes, and its arrays need %d: this is no measurement\n", most, ARRAYS);
            return 1;
        }
    }
    return 0;
}
