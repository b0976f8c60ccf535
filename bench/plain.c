// Document 01 written down in C99 in its own order, with nothing done to make it fast beyond the leaves: the verdict tries the three
// plaintexts that can fit two places and seals each, and a side is opened by a product with the inverse that the document gives.
#include "plain.h"

#include <stdbool.h>
#include <string.h>

#include "leaves.h"

enum { BLOCK = 16, KEY = 32, LARGEST = 4096, SECTORS = 65536 };

// The refusals that these calls have, by their numbers.
enum {
    KEY_LENGTH = 1,
    SECTOR_SIZE = 2,
    OTHER_LENGTH = 3,
    LOST = 6,
    CLASHING = 7,
    VOLUME_SHAPE = 8,
    SECTOR_NUMBER = 9,
    LIST_LENGTH = 11,
    ZERO_HASH_KEY = 14,
};

enum { WHOLE = 0, DOUBTFUL_LOCAL = 0x81, DOUBTFUL_TAG = 0x82, DOUBTFUL_REMOTE = 0x83 };

// The inverses of 1⊕x and of x.
static const block over_one_plus_x = {0xffffffffffffffff, 0xffffffffffffff82};
static const block over_x = {0x8000000000000000, 0x43};

void plain_start(void) { make_table(); }

uint64_t plain_mul_chain(uint64_t ahi, uint64_t alo, uint64_t bhi, uint64_t blo, uint64_t n) {
    block a = {ahi, alo}, b = {bhi, blo};
    while (n--) a = mul(a, b);
    return a.hi ^ a.lo;
}

static void store_word(uint8_t *x, uint64_t w) {
    for (int i = 7; i >= 0; i--, w >>= 8) x[i] = (uint8_t)w;
}

static void store(uint8_t *x, block b) {
    store_word(x, b.hi);
    store_word(x + 8, b.lo);
}

// ---- Sealing

// A key made ready for sectors of some size.
typedef struct {
    uint32_t words[44];
    block power[9]; // power[i] is h^(2^i), as far as the hash of such a sector needs them
    block alpha, beta;
} prepared;

// m is the number of a sector's blocks. With the tweak m + 1 are hashed.
static prepared prepare(const uint8_t *key, size_t m) {
    prepared k;
    expand(key + BLOCK, k.words);
    k.power[0] = load(key);
    for (int i = 1; i < 9 && (size_t)1 << i <= m + 1; i++) k.power[i] = mul(k.power[i - 1], k.power[i - 1]);
    k.alpha = encrypt_1(k.words, (block){0, 0});
    k.beta = encrypt_1(k.words, (block){0, 1});
    return k;
}

// The volume's number, then the address.
static block tweak(uint64_t volume, uint64_t address) { return (block){volume, address}; }

// The three places as the plaintext p of m blocks seals under the tweak w.
static void seal(const prepared *k, block w, const uint8_t *p, size_t m, uint8_t *local, uint8_t *remote, uint8_t *tag) {
    block mask = k->beta;
    block g = encrypt_1(k->words, xor(mul(k->power[0], brw(k->power, p, m, w)), k->alpha));
    for (size_t j = 0; j < m; j++) {
        mask = twice(mask);
        block pad = encrypt_1(k->words, xor(g, mask)), v = load(p + BLOCK * j);
        store(local + BLOCK * j, xor(pad, xor(v, twice(v))));
        store(remote + BLOCK * j, xor(pad, twice(v)));
    }
    store(tag, g);
}

// ---- The verdict

// The only plaintext that can fit this side and this tag. The inverse is that of the side's multiplier.
static void open_side(const prepared *k, block inverse, const uint8_t *side, const uint8_t *tag, size_t m, uint8_t *p) {
    block g = load(tag), mask = k->beta;
    for (size_t j = 0; j < m; j++) {
        mask = twice(mask);
        block pad = encrypt_1(k->words, xor(g, mask));
        store(p + BLOCK * j, mul(inverse, xor(pad, load(side + BLOCK * j))));
    }
}

// What two places each allow: local and remote, local and tag, remote and tag.
static void candidates(const prepared *k, const uint8_t *local, const uint8_t *tag, const uint8_t *remote, size_t m,
                       uint8_t p[3][LARGEST]) {
    for (size_t i = 0; i < BLOCK * m; i++) p[0][i] = local[i] ^ remote[i];
    open_side(k, over_one_plus_x, local, tag, m, p[1]);
    open_side(k, over_x, remote, tag, m, p[2]);
}

static bool same(const uint8_t *a, const uint8_t *b, size_t length) { return memcmp(a, b, length) == 0; }

// The verdict if p is the only plaintext that fits two places, or LOST if it does not fit two.
static uint32_t fit(const prepared *k, block w, const uint8_t *p, const uint8_t *local, const uint8_t *tag, const uint8_t *remote,
                    size_t m) {
    uint8_t sealed_local[LARGEST], sealed_remote[LARGEST], sealed_tag[BLOCK];
    seal(k, w, p, m, sealed_local, sealed_remote, sealed_tag);
    bool at_local = same(sealed_local, local, BLOCK * m);
    bool at_tag = same(sealed_tag, tag, BLOCK);
    bool at_remote = same(sealed_remote, remote, BLOCK * m);
    if (at_local + at_tag + at_remote < 2) return LOST;
    return !at_local ? DOUBTFUL_LOCAL : !at_tag ? DOUBTFUL_TAG : !at_remote ? DOUBTFUL_REMOTE : WHOLE;
}

// Judges m blocks. The plaintext goes to `out` unless the sector is lost or clashing.
static uint32_t judge(const prepared *k, block w, const uint8_t *local, const uint8_t *tag, const uint8_t *remote, size_t m,
                      uint8_t *out) {
    uint8_t p[3][LARGEST];
    uint32_t verdict = LOST;
    const uint8_t *found = NULL;
    size_t s = BLOCK * m;
    candidates(k, local, tag, remote, m, p);
    for (int i = 0; i < 3; i++) {
        bool seen = (i > 0 && same(p[i], p[0], s)) || (i > 1 && same(p[i], p[1], s));
        uint32_t fits = seen ? LOST : fit(k, w, p[i], local, tag, remote, m);
        if (fits == LOST) continue;
        if (found != NULL) return CLASHING;
        verdict = fits;
        found = p[i];
    }
    if (found != NULL) memcpy(out, found, s);
    return verdict;
}

// ---- The calls on a sector

static bool is_size(size_t s) { return s >= BLOCK && s <= LARGEST && s % BLOCK == 0; }

// The first refusal of a key and a size, or 0.
static uint32_t check_key_and_size(slice key, size_t s) {
    static const uint8_t zero[BLOCK];
    if (key.length != KEY) return KEY_LENGTH;
    if (same(key.at, zero, BLOCK)) return ZERO_HASH_KEY;
    return is_size(s) ? 0 : SECTOR_SIZE;
}

uint32_t plain_seal(slice key, uint64_t volume, uint64_t address, slice plain, slice_mut local, slice_mut remote, slice_mut tag) {
    size_t s = plain.length;
    uint32_t refusal = check_key_and_size(key, s);
    if (refusal) return refusal;
    if (local.length != s || remote.length != s || tag.length != BLOCK) return OTHER_LENGTH;
    prepared k = prepare(key.at, s / BLOCK);
    seal(&k, tweak(volume, address), plain.at, s / BLOCK, local.at, remote.at, tag.at);
    return 0;
}

uint32_t plain_judge(slice key, uint64_t volume, uint64_t address, slice local, slice tag, slice remote, slice_mut out) {
    size_t s = local.length;
    uint32_t refusal = check_key_and_size(key, s);
    if (refusal) return refusal;
    if (remote.length != s || out.length != s || tag.length != BLOCK) return OTHER_LENGTH;
    prepared k = prepare(key.at, s / BLOCK);
    return judge(&k, tweak(volume, address), local.at, tag.at, remote.at, s / BLOCK, out.at);
}

// ---- The calls on a volume

// The first refusal of a call that takes s and n, or 0.
static uint32_t check(slice key, size_t s, size_t n, size_t local, size_t tags, size_t remote) {
    uint32_t refusal = check_key_and_size(key, s);
    if (refusal) return refusal;
    if (n < 1 || n > SECTORS || local != n * s || tags != n * BLOCK || remote != n * s) return VOLUME_SHAPE;
    return 0;
}

uint32_t plain_read(slice key, uint64_t volume, size_t s, size_t n, size_t number, slice local, slice tags, slice remote,
                    slice_mut out) {
    uint32_t refusal = check(key, s, n, local.length, tags.length, remote.length);
    if (refusal) return refusal;
    if (number >= n) return SECTOR_NUMBER;
    if (out.length != s) return OTHER_LENGTH;
    prepared k = prepare(key.at, s / BLOCK);
    const uint8_t *l = local.at + number * s, *t = tags.at + number * BLOCK, *r = remote.at + number * s;
    return judge(&k, tweak(volume, number), l, t, r, s / BLOCK, out.at);
}

uint32_t plain_mend(slice key, uint64_t volume, size_t s, size_t n, size_t number, slice_mut local, slice_mut tags,
                    slice_mut remote) {
    uint8_t p[LARGEST], sealed_local[LARGEST], sealed_remote[LARGEST], sealed_tag[BLOCK];
    uint32_t refusal = check(key, s, n, local.length, tags.length, remote.length);
    if (refusal) return refusal;
    if (number >= n) return SECTOR_NUMBER;
    uint8_t *l = local.at + number * s, *t = tags.at + number * BLOCK, *r = remote.at + number * s;
    prepared k = prepare(key.at, s / BLOCK);
    uint32_t verdict = judge(&k, tweak(volume, number), l, t, r, s / BLOCK, p);
    if (verdict == WHOLE || verdict == LOST || verdict == CLASHING) return verdict;
    seal(&k, tweak(volume, number), p, s / BLOCK, sealed_local, sealed_remote, sealed_tag);
    if (verdict == DOUBTFUL_LOCAL) memcpy(l, sealed_local, s);
    if (verdict == DOUBTFUL_TAG) memcpy(t, sealed_tag, BLOCK);
    if (verdict == DOUBTFUL_REMOTE) memcpy(r, sealed_remote, s);
    return verdict;
}

// Lists the sectors whose verdicts are from first to last, rising, and gives the entry behind.
static uint32_t *list_kind(uint32_t *list, const uint8_t *verdicts, size_t n, uint8_t first, uint8_t last) {
    for (size_t i = 0; i < n; i++) {
        if (verdicts[i] >= first && verdicts[i] <= last) *list++ = (uint32_t)i;
    }
    return list;
}

uint32_t plain_survey(slice key, uint64_t volume, size_t s, size_t n, slice local, slice tags, slice remote, uint32_t *list,
                      size_t list_length, uint64_t counts[5]) {
    uint8_t p[LARGEST], verdicts[SECTORS];
    uint32_t refusal = check(key, s, n, local.length, tags.length, remote.length);
    if (refusal) return refusal;
    if (list_length < n) return LIST_LENGTH;
    prepared k = prepare(key.at, s / BLOCK);
    for (size_t i = 0; i < n; i++) {
        const uint8_t *l = local.at + i * s, *t = tags.at + i * BLOCK, *r = remote.at + i * s;
        verdicts[i] = (uint8_t)judge(&k, tweak(volume, i), l, t, r, s / BLOCK, p);
    }
    uint32_t *clashing = list_kind(list, verdicts, n, LOST, LOST);
    uint32_t *doubtful = list_kind(clashing, verdicts, n, CLASHING, CLASHING);
    uint32_t *end = list_kind(doubtful, verdicts, n, DOUBTFUL_LOCAL, DOUBTFUL_REMOTE);
    uint64_t whole = n - (size_t)(end - list);
    counts[0] = whole, counts[1] = (uint64_t)(end - doubtful), counts[2] = (uint64_t)(doubtful - clashing);
    counts[3] = (uint64_t)(clashing - list), counts[4] = whole * 1000 / n;
    return 0;
}
