// Times the proved Rattle code (crates/bench) against plain C of the same functions.
// First both sides run on many random inputs and must agree. Then they run by turns, and the best time of each counts.
#include "leaves.h"

#include <stdint.h>
#include <stdio.h>
#include <stdlib.h>
#include <string.h>
#include <time.h>

// Rattle's side. A byte slice is a pointer and a length.
uint64_t bench_encrypt(const uint8_t *key, size_t key_len, uint64_t hi, uint64_t lo, uint64_t n);
uint64_t bench_mul(uint64_t ahi, uint64_t alo, uint64_t bhi, uint64_t blo, uint64_t n);
uint64_t bench_brw(uint64_t hhi, uint64_t hlo, const uint8_t *x, size_t x_len, uint64_t n);

static uint64_t fold(block b) { return b.hi ^ b.lo; }

// ---- AES-128 with four tables, the other way in which it is often written

// tables[j] is the table rotated for row j.
static uint32_t tables[4][256];

static void make_tables(void) {
    make_table();
    for (int j = 0; j < 4; j++)
        for (int b = 0; b < 256; b++) tables[j][b] = j == 0 ? table[b] : rotate(table[b], 8 * j);
}

static uint32_t column_4(uint32_t a, uint32_t b, uint32_t c, uint32_t d) {
    return tables[0][row(a, 0)] ^ tables[1][row(b, 1)] ^ tables[2][row(c, 2)] ^ tables[3][row(d, 3)];
}
ENCRYPT(encrypt_4, column_4)

// ---- Both sides on the same inputs: n operations, each on the result of the last

static uint8_t key[16], bytes[4096];
static size_t length; // of the bytes that are hashed
static block first, factor;

static uint64_t rattle_encrypt(uint64_t n) { return bench_encrypt(key, sizeof key, first.hi, first.lo, n); }

static uint64_t rattle_mul(uint64_t n) { return bench_mul(first.hi, first.lo, factor.hi, factor.lo, n); }

static uint64_t rattle_brw(uint64_t n) { return bench_brw(factor.hi, factor.lo, bytes, length, n); }

static uint64_t plain_encrypt_1(uint64_t n) {
    uint32_t w[44];
    block b = first;
    expand(key, w);
    while (n--) b = encrypt_1(w, b);
    return fold(b);
}

static uint64_t plain_encrypt_4(uint64_t n) {
    uint32_t w[44];
    block b = first;
    expand(key, w);
    while (n--) b = encrypt_4(w, b);
    return fold(b);
}

static uint64_t plain_mul(uint64_t n) {
    block b = first;
    while (n--) b = mul(b, factor);
    return fold(b);
}

static uint64_t plain_brw(uint64_t n) {
    block power[9] = {factor}, b = {0, 0};
    if (length < 16) return 0;
    for (int i = 1; i < 9; i++) power[i] = mul(power[i - 1], power[i - 1]);
    size_t before = length / 16 - 1;
    block last = load(bytes + 16 * before);
    while (n--) b = brw(power, bytes, before, xor(last, b));
    return fold(b);
}

typedef uint64_t chain(uint64_t n);

static const struct {
    const char *name;
    chain *rattle, *plain;
    uint64_t n; // operations in a timed run
} rows[] = {
    {"AES-128 of a block, C with one table", rattle_encrypt, plain_encrypt_1, 5000},
    {"AES-128 of a block, C with four tables", rattle_encrypt, plain_encrypt_4, 5000},
    {"product of two blocks", rattle_mul, plain_mul, 1500},
    {"BRW of 4,096 bytes", rattle_brw, plain_brw, 15},
};
enum { ROWS = sizeof rows / sizeof rows[0], CHECKS = 2000, TURNS = 1000 };

static uint64_t next_random(void) {
    static uint64_t s = 88172645463325252;
    s ^= s << 13;
    s ^= s >> 7;
    return s ^= s << 17;
}

static void new_inputs(void) {
    for (size_t i = 0; i < sizeof key; i++) key[i] = next_random() >> 32;
    for (size_t i = 0; i < sizeof bytes; i++) bytes[i] = next_random() >> 32;
    first = (block){next_random(), next_random()};
    factor = (block){next_random(), next_random()};
    length = sizeof bytes;
}

static void expect_same(int r, uint64_t a, uint64_t b) {
    if (a == b) return;
    fprintf(stderr, "the two sides differ: %s\n", rows[r].name);
    exit(1);
}

static double now(void) {
    struct timespec t;
    clock_gettime(CLOCK_MONOTONIC, &t);
    return t.tv_sec * 1e9 + t.tv_nsec;
}

// The result of n operations; *best is lowered to the nanoseconds of one. As the count and the result are volatile, the
// compiler keeps the work between the two readings of the clock.
static uint64_t timed(chain *run, uint64_t n, double *best) {
    volatile uint64_t count = n, result;
    double start = now();
    result = run(count);
    double each = (now() - start) / n;
    if (each < *best) *best = each;
    return result;
}

// One run: each side by turns, the best time of each. The ratios widen the ranges.
static void run_once(double least[ROWS], double greatest[ROWS]) {
    double rattle[ROWS], plain[ROWS];
    for (int r = 0; r < ROWS; r++) rattle[r] = plain[r] = 1e18;
    for (int i = 0; i < TURNS; i++) {
        new_inputs();
        for (int r = 0; r < ROWS; r++) {
            uint64_t result = timed(rows[r].rattle, rows[r].n, &rattle[r]);
            expect_same(r, result, timed(rows[r].plain, rows[r].n, &plain[r]));
        }
    }
    for (int r = 0; r < ROWS; r++) {
        double ratio = rattle[r] / plain[r];
        if (ratio < least[r]) least[r] = ratio;
        if (ratio > greatest[r]) greatest[r] = ratio;
        fprintf(stderr, "bench: %s: %.1f ns, C %.1f ns\n", rows[r].name, rattle[r], plain[r]);
    }
}

static void print_ratios(int runs, const double least[ROWS], const double greatest[ROWS]) {
    printf("### Time of an inner operation, the library's to that of C (");
    if (runs == 1) printf("one run)\n\n");
    else printf("least and greatest of %d runs)\n\n", runs);
    printf("| operation | ratio |\n|---|---:|\n");
    for (int r = 0; r < ROWS; r++) {
        char low[16], high[16];
        snprintf(low, sizeof low, "%.2f", least[r]);
        snprintf(high, sizeof high, "–%.2f", greatest[r]);
        printf("| %s | %s%s |\n", rows[r].name, low, strcmp(low, high + strlen("–")) ? high : "");
    }
    printf("\n");
}

static void check(void) {
    for (int i = 0; i < CHECKS; i++) {
        new_inputs();
        length = next_random() % (sizeof bytes + 1);
        for (int r = 0; r < ROWS; r++) {
            uint64_t n = next_random() % 4;
            expect_same(r, rows[r].rattle(n), rows[r].plain(n));
        }
    }
    fprintf(stderr, "bench: both sides agree on %d random inputs to each operation\n", CHECKS);
}

// bench [RUNS]: the table of ratios. bench ROW SIDE N: only one chain, for whoever counts its instructions.
int main(int argc, char **argv) {
    double least[ROWS], greatest[ROWS];
    make_tables();
    new_inputs();
    if (argc == 4) {
        int r = atoi(argv[1]) % ROWS;
        uint64_t result = (atoi(argv[2]) ? rows[r].plain : rows[r].rattle)(strtoull(argv[3], NULL, 10));
        printf("%s: %016llx\n", rows[r].name, (unsigned long long)result);
        return 0;
    }
    int runs = argc == 2 ? atoi(argv[1]) : 1;
    check();
    for (int r = 0; r < ROWS; r++) least[r] = 1e18, greatest[r] = 0;
    for (int i = 0; i < runs; i++) run_once(least, greatest);
    print_ratios(runs, least, greatest);
    return 0;
}
