// The leaves in portable C: blocks, AES-128 with one table, the product in GF(2^128) by four bits at a time, and the hash BRW by its
// recursion. Both C sides of the benchmark use them: bench.c times them alone, plain.c builds the calls on them.
#ifndef LEAVES_H
#define LEAVES_H

#include <stddef.h>
#include <stdint.h>

// A block: its first 8 bytes and its last, each with the first byte the most significant.
typedef struct {
    uint64_t hi, lo;
} block;

static inline block xor(block a, block b) { return (block){a.hi ^ b.hi, a.lo ^ b.lo}; }

static inline uint64_t load_word(const uint8_t *x) {
    uint64_t w = 0;
    for (int i = 0; i < 8; i++) w = w << 8 | x[i];
    return w;
}

static inline block load(const uint8_t *x) { return (block){load_word(x), load_word(x + 8)}; }

// ---- AES-128

// table[b]: what the byte b of row 0, substituted, adds to its mixed column. For row j it is rotated by j bytes.
static uint32_t table[256];

static inline uint32_t rotate(uint32_t x, int bits) { return x >> bits | x << (32 - bits); }

static inline uint8_t xtime(uint8_t b) { return b << 1 ^ (b >> 7) * 0x1b; }

// p goes through the powers of 3 and q through their inverses, from which the S-box is made.
static inline void make_table(void) {
    uint8_t sbox[256] = {0x63}, p = 1, q = 1;
    do {
        p ^= xtime(p);
        q ^= q << 1;
        q ^= q << 2;
        q ^= q << 4;
        q ^= (q >> 7) * 0x09;
        uint32_t qq = q * 0x0101u;
        sbox[p] = q ^ qq >> 7 ^ qq >> 6 ^ qq >> 5 ^ qq >> 4 ^ 0x63;
    } while (p != 1);
    for (int b = 0; b < 256; b++) {
        uint32_t s = sbox[b], d = xtime(s);
        table[b] = d << 24 | s << 16 | s << 8 | (s ^ d);
    }
}

// Row j of a column.
static inline uint8_t row(uint32_t x, int j) { return x >> (24 - 8 * j); }

// The same, substituted.
static inline uint32_t sub(uint32_t x, int j) { return table[row(x, j)] >> 8 & 0xff; }

// A column of the last round, and of any other.
static inline uint32_t last_column(uint32_t a, uint32_t b, uint32_t c, uint32_t d) {
    return sub(a, 0) << 24 | sub(b, 1) << 16 | sub(c, 2) << 8 | sub(d, 3);
}

static inline uint32_t column_1(uint32_t a, uint32_t b, uint32_t c, uint32_t d) {
    return table[row(a, 0)] ^ rotate(table[row(b, 1)], 8) ^ rotate(table[row(c, 2)], 16) ^ rotate(table[row(d, 3)], 24);
}

// Defines the encryption whose inner rounds go by this function of a column.
#define ENCRYPT(name, column)                                         \
    static inline block name(const uint32_t w[44], block in) {        \
        uint32_t a = in.hi >> 32 ^ w[0], b = (uint32_t)in.hi ^ w[1];  \
        uint32_t c = in.lo >> 32 ^ w[2], d = (uint32_t)in.lo ^ w[3];  \
        uint32_t e, f, g, h;                                          \
        for (int n = 1; n < 10; n++) {                                \
            e = column(a, b, c, d) ^ w[4 * n];                        \
            f = column(b, c, d, a) ^ w[4 * n + 1];                    \
            g = column(c, d, a, b) ^ w[4 * n + 2];                    \
            h = column(d, a, b, c) ^ w[4 * n + 3];                    \
            a = e, b = f, c = g, d = h;                               \
        }                                                             \
        e = last_column(a, b, c, d) ^ w[40];                          \
        f = last_column(b, c, d, a) ^ w[41];                          \
        g = last_column(c, d, a, b) ^ w[42];                          \
        h = last_column(d, a, b, c) ^ w[43];                          \
        return (block){(uint64_t)e << 32 | f, (uint64_t)g << 32 | h}; \
    }
ENCRYPT(encrypt_1, column_1)

static inline void expand(const uint8_t key[16], uint32_t w[44]) {
    uint8_t rcon = 1;
    for (int i = 0; i < 4; i++)
        w[i] = (uint32_t)key[4 * i] << 24 | key[4 * i + 1] << 16 | key[4 * i + 2] << 8 | key[4 * i + 3];
    for (int i = 4; i < 44; i++) {
        uint32_t x = w[i - 1];
        if (i % 4 == 0) {
            x = rotate(x, 24);
            x = last_column(x, x, x, x) ^ (uint32_t)rcon << 24;
            rcon = xtime(rcon);
        }
        w[i] = w[i - 4] ^ x;
    }
}

// ---- GF(2^128), and the hash BRW

static inline block twice(block a) { return (block){a.hi << 1 | a.lo >> 63, a.lo << 1 ^ (a.hi >> 63) * 0x87}; }

// The products of b by the sixteen polynomials below x^4: their high words and their low ones.
static inline void multiples(block b, uint64_t hi[16], uint64_t lo[16]) {
    hi[0] = lo[0] = 0, hi[1] = b.hi, lo[1] = b.lo;
    for (int i = 1; i < 8; i++) {
        block even = twice((block){hi[i], lo[i]});
        hi[2 * i] = even.hi, hi[2 * i + 1] = even.hi ^ b.hi;
        lo[2 * i] = even.lo, lo[2 * i + 1] = even.lo ^ b.lo;
    }
}

// A word above a block, folded into it: x^128 is x^7 + x^2 + x + 1.
static inline block reduce(uint64_t above, uint64_t hi, uint64_t lo) {
    hi ^= above >> 63 ^ above >> 62 ^ above >> 57;
    lo ^= above ^ above << 1 ^ above << 2 ^ above << 7;
    return (block){hi, lo};
}

// Four bits of each word of a at a time, the highest first, over the multiples of b. The sum is four words long and is reduced at the end.
// Of the other forms tried none was faster by more than 1 % on the machine measured (AMD Zen 3, gcc 12, -O3), alone or in BRW. These were:
// bit by bit; one chain through both words of a; a chain for each word, reduced at every step by a table; the odd groups of four bits apart
// from the even ones; each multiple shifted to its place; the multiples as an array of blocks; the loop not unrolled. The pragma is a hint
// alone: a compiler that does not know it passes over it.
static block mul(block a, block b) {
    uint64_t hi[16], lo[16], w3 = 0, w2 = 0, w1 = 0, w0 = 0;
    multiples(b, hi, lo);
#pragma GCC unroll 16
    for (int k = 60; k >= 0; k -= 4) {
        int i = a.hi >> k & 15, j = a.lo >> k & 15;
        w3 = w3 << 4 | w2 >> 60;
        w2 = (w2 << 4 | w1 >> 60) ^ hi[i];
        w1 = (w1 << 4 | w0 >> 60) ^ lo[i] ^ hi[j];
        w0 = w0 << 4 ^ lo[j];
    }
    block upper = reduce(w3, w2, w1);
    return reduce(upper.hi, upper.lo, w0);
}

// The hash of n blocks at x and then one more. power[i] is h^(2^i), as far as 2^i is not above n + 1.
static block brw(const block power[9], const uint8_t *x, size_t n, block last) {
    if (n == 0) return last;
    if (n == 1) return xor(mul(load(x), power[0]), last);
    if (n == 2) return xor(mul(xor(power[0], load(x)), xor(power[1], load(x + 16))), last);
    size_t t = 4, i = 2;
    while (2 * t <= n + 1) t *= 2, i++;
    block before = brw(power, x, t - 2, load(x + 16 * (t - 2)));
    if (t == n + 1) return mul(before, xor(power[i], last));
    block after = brw(power, x + 16 * t, n - t, last);
    return xor(mul(before, xor(power[i], load(x + 16 * (t - 1)))), after);
}

#endif
