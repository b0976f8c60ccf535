// Times the library of now against that of an earlier commit and against portable C (plain.c). All names of the earlier header and library
// begin with before_ or BEFORE_ here: bench/against makes before.h of the header. First the three make a row's call and must give the same.
// Then they run by turns, and the best turn of each counts.
#include "before.h"
#include "mirror.h"
#include "plain.h"

#include <stdarg.h>
#include <stdio.h>
#include <stdlib.h>
#include <string.h>
#include <time.h>

enum { BEFORE, NOW, PLAIN, SIDES };
static const char *const sides[SIDES] = {"before", "now", "C"};

// What a call is lent: a volume; for a seal a plaintext, and for a product the words of two blocks.
static uint8_t key[MIRROR_KEY_BYTES], plain[MIRROR_SECTOR_BYTES_MAX];
static struct mirror_volume v;
static uint64_t factors[4];
static uint64_t due[MIRROR_COUNTS_LENGTH]; // the counts that belong to the volume as it was made

// What a call gives.
typedef struct {
    uint64_t counts[MIRROR_COUNTS_LENGTH], product;
    uint32_t list[MIRROR_VOLUME_SECTORS_MAX], answer;
    uint8_t local[MIRROR_SECTOR_BYTES_MAX], tag[16], remote[MIRROR_SECTOR_BYTES_MAX], out[MIRROR_SECTOR_BYTES_MAX];
} result;

// ---- The calls, each made so many times. Another one is three functions and a line in the table; where the releases take other arguments,
// the first two differ.

// A release before 0.3.0 takes no volume's number. What it seals and judges has the number 0, and so has every volume here.
#if BEFORE_MIRROR_VERSION >= 3000
#define BEFORE_KEYED v.key, v.key_len, v.volume
#else
#define BEFORE_KEYED v.key, v.key_len
#endif
#define KEYED v.key, v.key_len, v.volume
#define PLAIN_KEYED ((slice){v.key, v.key_len}), v.volume

// A release before 0.5.0 takes no map of suspect sectors behind the images, nor does the C.
#define BYTES v.local, v.local_len, v.tags, v.tags_len, v.remote, v.remote_len
#define IMAGES BYTES, v.map, v.map_len
#if BEFORE_MIRROR_VERSION >= 5000
#define BEFORE_IMAGES IMAGES
#else
#define BEFORE_IMAGES BYTES
#endif
#define PLAIN_IMAGES (slice){v.local, v.local_len}, (slice){v.tags, v.tags_len}, (slice){v.remote, v.remote_len}

// A chain of products, of which each takes the result of the last (crates/bench).
uint64_t before_bench_mul(uint64_t ahi, uint64_t alo, uint64_t bhi, uint64_t blo, uint64_t n);
uint64_t bench_mul(uint64_t ahi, uint64_t alo, uint64_t bhi, uint64_t blo, uint64_t n);

#define FACTORS factors[0], factors[1], factors[2], factors[3]
static void product_before(result *r, unsigned long times) { r->answer = 0, r->product = before_bench_mul(FACTORS, times); }
static void product_now(result *r, unsigned long times) { r->answer = 0, r->product = bench_mul(FACTORS, times); }
static void product_plain(result *r, unsigned long times) { r->answer = 0, r->product = plain_mul_chain(FACTORS, times); }

// The plaintext, at the address 0.
#define SEALED plain, v.s, r->local, v.s, r->tag, sizeof r->tag, r->remote, v.s
static void seal_before(result *r, unsigned long times) {
    while (times--) r->answer = before_mirror_seal(BEFORE_KEYED, 0, SEALED);
}
static void seal_now(result *r, unsigned long times) {
    while (times--) r->answer = mirror_seal(KEYED, 0, SEALED);
}
static void seal_plain(result *r, unsigned long times) {
    slice from = {plain, v.s};
    slice_mut local = {r->local, v.s}, tag = {r->tag, sizeof r->tag}, remote = {r->remote, v.s};
    while (times--) r->answer = plain_seal(PLAIN_KEYED, 0, from, local, remote, tag);
}

// The volume's first sector.
#define JUDGED v.local, v.s, v.tags, 16, v.remote, v.s, r->out, v.s
static void judge_before(result *r, unsigned long times) {
    while (times--) r->answer = before_mirror_judge(BEFORE_KEYED, 0, JUDGED);
}
static void judge_now(result *r, unsigned long times) {
    while (times--) r->answer = mirror_judge(KEYED, 0, JUDGED);
}
static void judge_plain(result *r, unsigned long times) {
    slice local = {v.local, v.s}, tag = {v.tags, 16}, remote = {v.remote, v.s};
    while (times--) r->answer = plain_judge(PLAIN_KEYED, 0, local, tag, remote, (slice_mut){r->out, v.s});
}

// The volume's first sector.
static void read_before(result *r, unsigned long times) {
    while (times--) r->answer = before_mirror_read(BEFORE_KEYED, v.s, v.n, 0, BEFORE_IMAGES, r->out, v.s);
}
static void read_now(result *r, unsigned long times) {
    while (times--) r->answer = mirror_read(KEYED, v.s, v.n, 0, IMAGES, r->out, v.s);
}
static void read_plain(result *r, unsigned long times) {
    while (times--) r->answer = plain_read(PLAIN_KEYED, v.s, v.n, 0, PLAIN_IMAGES, (slice_mut){r->out, v.s});
}

static void survey_before(result *r, unsigned long times) {
    while (times--) r->answer = before_mirror_survey(BEFORE_KEYED, v.s, v.n, BEFORE_IMAGES, r->list, v.n, r->counts);
}
static void survey_now(result *r, unsigned long times) {
    while (times--) r->answer = mirror_survey(KEYED, v.s, v.n, IMAGES, r->list, v.n, r->counts);
}
static void survey_plain(result *r, unsigned long times) {
    while (times--) r->answer = plain_survey(PLAIN_KEYED, v.s, v.n, PLAIN_IMAGES, r->list, v.n, r->counts);
}

typedef void side(result *r, unsigned long times);
typedef struct {
    const char *name;
    side *by[SIDES];
    int counts; // whether it gives the counts of the volume
} call;
static const call calls[] = {
    {"product", {product_before, product_now, product_plain}, 0},
    {"seal", {seal_before, seal_now, seal_plain}, 0},
    {"judge", {judge_before, judge_now, judge_plain}, 0},
    {"read", {read_before, read_now, read_plain}, 0},
    {"survey", {survey_before, survey_now, survey_plain}, 1},
};
enum { CALLS = sizeof calls / sizeof calls[0] };

__attribute__((format(printf, 3, 4))) static void must(int holds, int status, const char *format, ...) {
    va_list words;
    if (holds) return;
    va_start(words, format);
    fputs("against: ", stderr), vfprintf(stderr, format, words), fputs("\n", stderr);
    exit(status);
}

static void *room(size_t bytes) {
    void *p = malloc(bytes);
    must(p != NULL, 2, "there is no memory for %zu bytes", bytes);
    return p;
}

static void fill(void *to, size_t n) {
    static uint64_t x = 88172645463325252;
    uint8_t *bytes = to;
    for (size_t i = 0; i < n; i++) {
        if (i % 8 == 0) x ^= x << 13, x ^= x >> 7, x ^= x << 17;
        bytes[i] = x >> 8 * (i % 8);
    }
}

// ---- A row is CALL:DAMAGE:SIZE:COUNT, such as survey:third:512:1024. DAMAGE is whole or, for a survey, third. A product looks at no
// volume, and a seal, a judgement or a read is of one sector.

static void seal(size_t i, const uint8_t *p) {
    size_t at = i * v.s;
    must(!mirror_seal(key, sizeof key, v.volume, i, p, v.s, v.local + at, v.s, v.tags + i * 16, 16, v.remote + at, v.s), 1, "cannot seal");
}

// Every third sector is damaged, and the kinds of damage take turns: random bytes at local, tag, remote, or both sides (lost); and two
// plaintexts that clash, as they begin with h and differ in block 2 only and so have one tag. That takes two blocks.
static void make_sector(size_t i, int damaged) {
    uint8_t p[MIRROR_SECTOR_BYTES_MAX], other[MIRROR_SECTOR_BYTES_MAX], *remote = v.remote + i * v.s;
    size_t kind = damaged && i % 3 == 0 ? i / 3 % (v.s < 32 ? 4 : 5) : 5;
    fill(p, v.s);
    if (kind == 4) memcpy(p, key, 16);
    seal(i, p);
    if (kind == 0 || kind == 3) fill(v.local + i * v.s, v.s);
    if (kind == 1) fill(v.tags + i * 16, 16);
    if (kind == 2 || kind == 3) fill(remote, v.s);
    if (kind == 4) memcpy(other, remote, v.s), p[16] ^= 1, seal(i, p), memcpy(remote, other, v.s);
    due[kind == 5 ? MIRROR_COUNT_WHOLE : kind == 4 ? MIRROR_COUNT_CLASHING : kind == 3 ? MIRROR_COUNT_LOST : MIRROR_COUNT_DOUBTFUL]++;
}

static void make_volume(size_t s, size_t n, int damaged) {
    size_t words = MIRROR_MAP_WORDS(n);
    free(v.local), free(v.tags), free(v.remote), free(v.map);
    v = (struct mirror_volume){.key = key, .key_len = sizeof key, .s = s, .n = n, .local = room(n * s), .local_len = n * s,
                               .tags = room(n * 16), .tags_len = n * 16, .remote = room(n * s), .remote_len = n * s,
                               .map = room(words * sizeof(uint64_t)), .map_len = words};
    must(!mirror_volume_start_map(&v), 1, "cannot start a map");
    memset(due, 0, sizeof due);
    for (size_t i = 0; i < n; i++) make_sector(i, damaged);
    due[MIRROR_COUNT_HEALTH] = due[MIRROR_COUNT_WHOLE] * 1000 / n;
}

// Makes the row's volume in place of the last one. The answer is the row's call.
static const call *make_row(const char *row) {
    char name[16], damage[8];
    size_t s, n, c = 0;
    int end = 0;
    must(sscanf(row, "%15[^:]:%7[^:]:%zu:%zu%n", name, damage, &s, &n, &end) == 4 && !row[end] && s % 16 == 0 && s >= 16 &&
             s <= MIRROR_SECTOR_BYTES_MAX && n >= 1 && n <= MIRROR_VOLUME_SECTORS_MAX &&
             (!strcmp(damage, "whole") || !strcmp(damage, "third")),
         2, "'%s' is no row: it is CALL:DAMAGE:SIZE:COUNT, such as survey:third:512:1024, and DAMAGE is whole or third", row);
    while (c < CALLS && strcmp(name, calls[c].name)) c++;
    must(c < CALLS, 2, "'%s' has a call that is not in the table", row);
    must(calls[c].counts || *damage == 'w', 2, "'%s': only a survey has damaged sectors", row);
    make_volume(s, n, *damage == 't');
    return &calls[c];
}

static int by_number(const void *a, const void *b) {
    uint32_t x = *(const uint32_t *)a, y = *(const uint32_t *)b;
    return (x > y) - (x < y);
}

// One side gives the counts that are due, and nothing is refused. What it does not write stays 255.
static void check_side(const char *row, const call *c, int k, result *of) {
    memset(of, 255, sizeof *of);
    c->by[k](of, v.n == 1 ? 100 : 1);
    must(of->answer == MIRROR_DONE, 1, "%s: %s answers %u", row, sides[k], (unsigned)of->answer);
    for (int i = 0; c->counts && i < MIRROR_COUNTS_LENGTH; i++)
        must(of->counts[i] == due[i], 1, "%s: count %d of %s is %llu, and %llu is due", row, i, sides[k], (unsigned long long)of->counts[i],
             (unsigned long long)due[i]);
}

// All sides give the same answer, product, bytes, counts and sectors in the list; the order of a list may differ between releases.
static void check(const char *row, const call *c) {
    static result of[SIDES];
    for (int k = 0; k < SIDES; k++) {
        check_side(row, c, k, &of[k]);
        if (c->counts) qsort(of[k].list, v.n - due[MIRROR_COUNT_WHOLE], sizeof(uint32_t), by_number);
        must(!memcmp(&of[k], &of[0], sizeof(result)), 1, "%s: %s and %s do not give the same", row, sides[0], sides[k]);
    }
}

// The nanoseconds of so many calls. It is the processor's time, which leaves out when other processes had the processor.
static double turn(side *run, unsigned long times, result *to) {
    struct timespec a, b;
    clock_gettime(CLOCK_THREAD_CPUTIME_ID, &a);
    run(to, times);
    clock_gettime(CLOCK_THREAD_CPUTIME_ID, &b);
    return (b.tv_sec - a.tv_sec) * 1e9 + (b.tv_nsec - a.tv_nsec);
}

// So many calls that a turn of each side takes 2 ms or more.
static unsigned long calls_of_turn(const call *c, result *to) {
    unsigned long times = 1;
    for (int k = 0; k < SIDES; k++)
        while (turn(c->by[k], times, to) < 2e6) times *= 2;
    return times;
}

// One run: the best time of a call by each side. Each has 5 turns or more, of 500 ms or more together. Which side is first changes from
// round to round, and all write to the same memory, so that none has an advantage.
static void run_once(const call *c, result *to, double least[SIDES]) {
    unsigned long times = calls_of_turn(c, to);
    double sum[SIDES] = {0}, shortest = 0;
    for (int k = 0; k < SIDES; k++) least[k] = 1e18;
    for (int round = 0; round < 5 || shortest < 500e6; round++) {
        for (int i = 0; i < SIDES; i++) {
            int k = (round + i) % SIDES;
            double ns = turn(c->by[k], times, to);
            sum[k] += ns;
            if (ns / times < least[k]) least[k] = ns / times;
        }
        shortest = sum[0];
        for (int k = 1; k < SIDES; k++) shortest = sum[k] < shortest ? sum[k] : shortest;
    }
}

typedef struct {
    double least, greatest;
} range;

static void widen(range *r, double x) {
    if (x < r->least) r->least = x;
    if (x > r->greatest) r->greatest = x;
}

// A line of the table: the best times of all runs, and what the ratios of the runs range over. One unit serves the line.
static void time_row(const char *row, int runs) {
    static result to;
    static const range none = {1e18, 0};
    double best[SIDES] = {1e18, 1e18, 1e18};
    range ratio[2] = {none, none};
    const call *c = make_row(row);
    check(row, c);
    for (int j = 0; j < runs; j++) {
        double ns[SIDES];
        run_once(c, &to, ns);
        for (int k = 0; k < SIDES; k++) best[k] = ns[k] < best[k] ? ns[k] : best[k];
        widen(&ratio[0], ns[NOW] / ns[BEFORE]), widen(&ratio[1], ns[NOW] / ns[PLAIN]);
    }
    double ns = best[NOW], unit = ns < 1e3 ? 1 : ns < 1e6 ? 1e3 : 1e6;
    printf("| %s |", row);
    for (int k = 0; k < SIDES; k++) printf(" %.2f %s |", best[k] / unit, unit == 1 ? "ns" : unit == 1e3 ? "µs" : "ms");
    for (int k = 0; k < 2; k++) printf(" %.2f–%.2f |", ratio[k].least, ratio[k].greatest);
    printf("\n"), fflush(stdout);
}

// against RUNS ROW...: a line of the table for each row. against ROW SIDE TIMES: one side alone, for whoever counts its instructions.
int main(int argc, char **argv) {
    int runs = argc > 2 ? atoi(argv[1]) : 0;
    static result of;
    plain_start();
    fill(key, sizeof key), fill(plain, sizeof plain), fill(factors, sizeof factors);
    for (int k = 0; k < SIDES; k++)
        if (argc == 4 && !strcmp(argv[2], sides[k])) return make_row(argv[1])->by[k](&of, strtoul(argv[3], NULL, 10)), 0;
    must(runs > 0, 2, "usage: against RUNS ROW... or against ROW SIDE TIMES, where SIDE is before, now or C");
    for (int i = 2; i < argc; i++) time_row(argv[i], runs);
    return 0;
}
