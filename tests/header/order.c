/*
 * A program for tests/check_order: in which order the compiled library stores. The contract of mirror_write says what it leaves when it has
 * finished, and a write that blanked the sector first, or stored the tag before the local sector, could leave the same: a power cut within
 * it would lose the sector. So the images lie in memory where every store is seen (stores.c), and what they hold before it. Writes that
 * store wrongly stand here too, and must be found.
 */
#include "mirror.h"
#include "stores.h"

#include <stdio.h>
#include <stdlib.h>
#include <string.h>

enum { VOLUME = 7, SECTORS = 3, MOST = MIRROR_SECTOR_BYTES_MAX, TAG_BYTES = MIRROR_TAG_BYTES };
enum { LOCAL, TAG, REMOTE, PLACES };
static const char letters[] = "ltr"; /* of the places, where an order is written */
/* Each place has a room: its image, and a page more on either side, so that a store beside the image is seen as well. */
enum { PAGE = 4096, ROOM = PAGE + SECTORS * MOST + PAGE };

/* What can be wrong with a call, each a bit. */
enum { BESIDE = 1, ORDER = 2, STAGE = 4, CUT = 8, END = 16, ANSWER = 32, FAULTS = 6 };
static const char *const faults[FAULTS] = {"it stores beside the sector's parts",
                                           "it stores to the places in another order than is due",
                                           "a stage begins before all that is due before it is stored",
                                           "a power cut between two of its stores would lose the plaintext",
                                           "it leaves other bytes than are due",
                                           "its answer is not the one due"};

/* A plaintext, and its local sector, tag and remote sector. */
struct sealed {
    uint8_t plain[MOST], at[PLACES][MOST];
};

/* What the call finds; what a read gives before the call; what is to be written; another plaintext; zeros. */
static struct sealed start, old, new, other, zeros;
static uint8_t key[MIRROR_KEY_BYTES], out[MOST], copies[PLACES][ROOM];
static uint64_t maps[2][MIRROR_MAP_WORDS(SECTORS)];
static struct mirror_volume v, copy; /* the images that are watched, and others to try on what a power cut would leave */
static uint8_t *parts[PLACES];       /* of the sector, in the images that are watched */
static size_t number, lengths[PLACES];

/*
 * The states: what a read gives; the order in which a write is to store, neighbours of one place joined; the places that are damaged; and
 * how many stages a write has made that was left there, of another plaintext or of the one that is written now.
 */
static const struct state {
    const char *name;
    uint32_t verdict;
    const char *order, *damaged;
    size_t stages;
    const struct sealed *left;
} states[] = {{"whole", MIRROR_WHOLE, "ltr", "", 0, &old},
              {"doubtful at local", MIRROR_DOUBTFUL_LOCAL, "ltr", "l", 0, &old}, /* the mend's l and the first stage's are joined */
              {"doubtful at the tag", MIRROR_DOUBTFUL_TAG, "tltr", "t", 0, &old},
              {"doubtful at remote", MIRROR_DOUBTFUL_REMOTE, "rltr", "r", 0, &old},
              {"after another write's first stage", MIRROR_DOUBTFUL_LOCAL, "ltr", "", 1, &other},
              {"after another write's second stage", MIRROR_DOUBTFUL_REMOTE, "rltr", "", 2, &other},
              {"after the same write's first stage", MIRROR_DOUBTFUL_LOCAL, "ltr", "", 1, &new},
              {"after the same write's second stage", MIRROR_DOUBTFUL_REMOTE, "rltr", "", 2, &new},
              {"lost", MIRROR_REFUSED_LOST, "", "lr", 0, &old},
              {"clashing", MIRROR_REFUSED_CLASHING, "", "", 0, &old}};
enum { WHOLE, AT_LOCAL, AT_TAG, AT_REMOTE, FIRST_OTHER, SECOND_OTHER, FIRST_SAME, SECOND_SAME, LOST, CLASHING, STATES };

static struct {
    const char *order;  /* what is due; NULL if any order will do, and then a cut may leave anything */
    size_t runs, since; /* how many of that order were met, and the stores since a cut was tried */
    size_t last;        /* the place that was last stored to, PLACES if there is none */
    int was_old;        /* whether all three places have been the old ones at once */
    unsigned wrong;
} watch;
static unsigned long calls, stores, cuts, halves;

/* ---- what is looked at before each store */

static int same(size_t place, const struct sealed *as) { return memcmp(parts[place], as->at[place], lengths[place]) == 0; }

static int hold(const struct sealed *local, const struct sealed *tag, const struct sealed *remote)
{
    return same(LOCAL, local) && same(TAG, tag) && same(REMOTE, remote);
}

/* Whether the copy reads as this, and not lost; nor clashing, as it might, but not by chance. */
static int reads(uint32_t *found, const uint8_t *plain)
{
    *found = mirror_volume_read(&copy, number, out, v.s);
    return (*found == MIRROR_WHOLE || *found >= MIRROR_DOUBTFUL_LOCAL) && memcmp(out, plain, v.s) == 0;
}

/* What a power cut here would leave, tried on a copy: until the tag is the new one the old plaintext, from then on the new one. */
static void try_cut(void)
{
    const uint8_t *const plain = same(TAG, &new) ? new.plain : old.plain;
    size_t place;
    uint32_t found, mended;
    for (place = 0; place < PLACES; place++) {
        memcpy(copies[place] + (parts[place] - rooms[place]), parts[place], lengths[place]);
    }
    if (!reads(&found, plain) || mirror_volume_mend(&copy, number) != found || !reads(&mended, plain) || mended != MIRROR_WHOLE) {
        watch.wrong |= CUT;
    }
    cuts++;
    watch.since = 0;
}

/*
 * The header asks that a tag lands whole. So between two stores of a tag no cut is tried where it is neither the one that was there nor the
 * one that is due, unless it is being mended: a cut mend needs no tag. Of the largest sectors, whose reading takes long, a cut is tried
 * wherever another place begins and at some of the stores between.
 */
static void between_stores(int another_place)
{
    const int half = !another_place && watch.last == TAG && !same(TAG, &start) && !same(TAG, &old) && !same(TAG, &new);
    watch.was_old |= hold(&old, &old, &old);
    watch.since++;
    if (watch.order == NULL || watch.order[0] == '\0') {
        return;
    }
    if (half && !same(LOCAL, &old)) {
        halves++;
    } else if (another_place || watch.since > v.s / MOST * 64) {
        try_cut();
    }
}

/* The second stage begins when the mend and the first stage have stored all, and the third when the second has too. */
static void begin_place(size_t place)
{
    const char *const rest = watch.order + watch.runs;
    if (*rest != letters[place]) {
        watch.wrong |= ORDER;
    } else if (watch.runs++ == 0) {
        return;
    } else if (strcmp(rest, "tr") == 0) {
        watch.wrong |= watch.was_old && hold(&new, &old, &old) ? 0 : STAGE;
    } else if (strcmp(rest, "r") == 0) {
        watch.wrong |= hold(&new, &new, &old) ? 0 : STAGE;
    }
}

/* A store to this byte of the place's room comes next. */
static void before_store(size_t place, size_t byte)
{
    const size_t begin = (size_t)(parts[place] - rooms[place]);
    if (byte < begin || byte >= begin + lengths[place]) {
        watch.wrong |= BESIDE;
    }
    between_stores(place != watch.last);
    if (place != watch.last && watch.order != NULL) {
        begin_place(place);
    }
    watch.last = place;
    stores++;
}

/* Makes the call, and notes what is wrong with it: its places in the order are to be as sealed in `to`, and every other byte as before. */
static void watched(uint32_t (*call)(void), const char *order, const struct sealed *to, uint32_t due)
{
    static uint8_t after[PLACES][ROOM];
    size_t place;
    uint32_t answer;
    memset(&watch, 0, sizeof watch);
    watch.order = order;
    watch.last = PLACES;
    for (place = 0; place < PLACES; place++) {
        memcpy(after[place], rooms[place], ROOM);
        if (order == NULL || strchr(order, letters[place]) != NULL) {
            memcpy(after[place] + (parts[place] - rooms[place]), to->at[place], lengths[place]);
        }
    }
    calls++;
    close_rooms();
    answer = call();
    open_rooms();
    between_stores(1);
    for (place = 0; place < PLACES; place++) {
        watch.wrong |= memcmp(after[place], rooms[place], ROOM) == 0 ? 0 : END;
    }
    watch.wrong |= order == NULL || order[watch.runs] == '\0' ? 0 : ORDER;
    watch.wrong |= answer == due ? 0 : ANSWER;
}

/* ---- the states */

static uint8_t any_byte(void)
{
    static uint64_t x = 88172645463325252u;
    x ^= x << 13, x ^= x >> 7, x ^= x << 17;
    return (uint8_t)(x >> 32);
}

static void scatter(uint8_t *bytes, size_t length)
{
    while (length > 0) {
        bytes[--length] = any_byte();
    }
}

static void seal(struct sealed *to)
{
    if (mirror_seal(key, sizeof key, VOLUME, number, to->plain, v.s, to->at[LOCAL], v.s, to->at[TAG], TAG_BYTES, to->at[REMOTE], v.s)) {
        die("sealing is refused");
    }
}

/* Two plaintexts that begin with h and differ in block 2 only have one tag. */
static void clash(void)
{
    memcpy(old.plain, key, TAG_BYTES);
    other = old;
    other.plain[TAG_BYTES] ^= 1;
    seal(&old), seal(&other);
    start = other;
    memcpy(start.at[LOCAL], old.at[LOCAL], v.s);
}

/* What the sector is to hold. From a write's second stage on a read gives that write's plaintext. */
static void make_start(const struct state *state)
{
    size_t place;
    start = old;
    memcpy(start.at, state->left->at, state->stages * sizeof start.at[0]);
    if (state->stages == 2) {
        old = *state->left;
    }
    for (place = 0; place < PLACES; place++) {
        if (strchr(state->damaged, letters[place]) != NULL) {
            start.at[place][any_byte() % lengths[place]] ^= (uint8_t)(any_byte() | 1);
        }
    }
    if (state->verdict == MIRROR_REFUSED_CLASHING) {
        clash();
    }
}

/* Random bytes everywhere, and the sector among them in its state. No two plaintexts of one block have one tag, so where the other states
 * have a block the clashing sector has two. */
static void make(size_t s, size_t sector, const struct state *state)
{
    size_t place;
    s += state->verdict == MIRROR_REFUSED_CLASHING && s == TAG_BYTES ? TAG_BYTES : 0;
    v = (struct mirror_volume){.key = key, .key_len = sizeof key, .volume = VOLUME, .s = s, .n = SECTORS,
                               .local = rooms[LOCAL] + PAGE, .local_len = SECTORS * s, .tags = rooms[TAG] + PAGE,
                               .tags_len = SECTORS * TAG_BYTES, .remote = rooms[REMOTE] + PAGE, .remote_len = SECTORS * s,
                               .map = maps[0], .map_len = MIRROR_MAP_WORDS(SECTORS)};
    copy = v;
    copy.local = copies[LOCAL] + PAGE, copy.tags = copies[TAG] + PAGE, copy.remote = copies[REMOTE] + PAGE, copy.map = maps[1];
    number = sector;
    parts[LOCAL] = v.local + sector * s, parts[TAG] = v.tags + sector * TAG_BYTES, parts[REMOTE] = v.remote + sector * s;
    lengths[LOCAL] = lengths[REMOTE] = s, lengths[TAG] = TAG_BYTES;
    scatter(key, sizeof key), scatter(old.plain, s), scatter(new.plain, s), scatter(other.plain, s);
    seal(&old), seal(&new), seal(&other), seal(&zeros);
    make_start(state);
    for (place = 0; place < PLACES; place++) {
        scatter(rooms[place], ROOM);
        memcpy(parts[place], start.at[place], lengths[place]);
    }
    if (mirror_volume_read(&v, number, out, s) != state->verdict || (state->order[0] != '\0' && memcmp(out, old.plain, s) != 0)) {
        die("a state does not read as it was made");
    }
}

/* ---- the calls */

static uint32_t write_sector(void) { return mirror_volume_write(&v, number, new.plain, v.s); }
static uint32_t write_short(void) { return mirror_volume_write(&v, number, new.plain, v.s - 1); }
static uint32_t read_sector(void) { return mirror_volume_read(&v, number, out, v.s); }
static uint32_t mend(void) { return mirror_volume_mend(&v, number); }
static uint32_t blank(void) { return mirror_volume_blank(&v, number); }
static uint32_t first_stage(void) { return mirror_volume_first_stage(&v, number, new.plain, v.s); }
static uint32_t second_stage(void) { return mirror_volume_second_stage(&v, number, new.plain, v.s); }
static uint32_t third_stage(void) { return mirror_volume_third_stage(&v, number, new.plain, v.s); }

/* Other writes. Only by_calls and by_copies are right; those that store in a wrong order leave the same bytes and give the same answer. */
static uint32_t stages_after(uint32_t found) { return (first_stage() | second_stage() | third_stage()) == MIRROR_DONE ? found : ~0u; }

static uint32_t copies_after(uint32_t found, size_t one, size_t two, size_t three)
{
    memcpy(parts[one], new.at[one], lengths[one]);
    memcpy(parts[two], new.at[two], lengths[two]);
    memcpy(parts[three], new.at[three], lengths[three]);
    return found;
}

static uint32_t by_calls(void) { return stages_after(mend()); }
static uint32_t by_copies(void) { return copies_after(mend(), LOCAL, TAG, REMOTE); }
static uint32_t blank_first(void) { return stages_after(blank()); }
static uint32_t blank_for_mend(void)
{
    const uint32_t found = read_sector();
    return blank() == MIRROR_DONE ? stages_after(found) : MIRROR_REFUSED_LOST;
}
static uint32_t tag_first(void) { return copies_after(mend(), TAG, LOCAL, REMOTE); }
static uint32_t without_mend(void) { return copies_after(read_sector(), LOCAL, TAG, REMOTE); }

static uint32_t other_answer(void) { return by_copies() == MIRROR_DOUBTFUL_LOCAL ? MIRROR_WHOLE : MIRROR_REFUSED_LOST; }

static uint32_t other_bytes(void)
{
    const uint32_t found = by_copies();
    parts[REMOTE][0] ^= 1;
    return found;
}

static uint32_t refused_stores(void)
{
    volatile uint8_t *const own = parts[TAG];
    *own = *own;
    return read_sector();
}

static uint32_t beside(void)
{
    volatile uint8_t *const neighbour = parts[LOCAL] - 1;
    *neighbour = *neighbour;
    return by_copies();
}

/* ---- what is tried */

/* A call in a state, the order in which it is to store, what it leaves in these places, and its answer. */
struct row {
    const char *name;
    uint32_t (*call)(void);
    size_t state;
    const char *order;
    const struct sealed *to;
    uint32_t due;
};

/* Ends the program unless exactly this was found wrong. */
static void need(unsigned wrong, const struct row *row)
{
    size_t i;
    if (watch.wrong == wrong) {
        return;
    }
    fprintf(stderr, "order: %s, %s, s = %lu: %s\n", row->name, states[row->state].name, (unsigned long)lengths[LOCAL],
            wrong == 0 ? "this is wrong:" : "only this is found, and other things are wrong with it:");
    for (i = 0; i < FAULTS; i++) {
        if (watch.wrong >> i & 1) {
            fprintf(stderr, "order: - %s\n", faults[i]);
        }
    }
    exit(1);
}

static void try_call(size_t s, size_t sector, const struct row *row, unsigned wrong)
{
    make(s, sector, &states[row->state]);
    watched(row->call, row->order, row->to, row->due);
    need(wrong, row);
}

static void try_write(size_t s)
{
    size_t sector, state;
    for (sector = s == MOST ? SECTORS - 1 : 0; sector < SECTORS; sector++) {
        for (state = 0; state < STATES; state++) {
            const struct row row = {"write", write_sector, state, states[state].order, &new, states[state].verdict};
            try_call(s, sector, &row, 0);
        }
    }
}

static void try_refused(size_t s)
{
    static const uint32_t due[] = {MIRROR_REFUSED_KEY_LENGTH, MIRROR_REFUSED_SECTOR_SIZE,   MIRROR_REFUSED_VOLUME_SHAPE,
                                   MIRROR_REFUSED_MAP_LENGTH, MIRROR_REFUSED_SECTOR_NUMBER, MIRROR_REFUSED_OTHER_LENGTH};
    size_t i;
    for (i = 0; i < sizeof due / sizeof due[0]; i++) {
        const struct row row = {"write with a wrong argument", i == 5 ? write_short : write_sector, WHOLE, "", &new, due[i]};
        make(s, 1, &states[WHOLE]);
        v.key_len -= i == 0, v.s -= i == 1, v.n -= i == 2, v.map_len += i == 3, number += i == 4 ? SECTORS : 0;
        watched(row.call, row.order, row.to, row.due);
        need(0, &row);
    }
}

/* Each call, under a key whose h is zero: in a state where it would be accepted, and all but the read would store. */
static void try_zero_hash_key(size_t s)
{
    static const struct row rows[] = {{"write, h zero", write_sector, WHOLE, "", &new, MIRROR_REFUSED_ZERO_HASH_KEY},
                                      {"write, h zero", write_sector, AT_REMOTE, "", &new, MIRROR_REFUSED_ZERO_HASH_KEY},
                                      {"blank, h zero", blank, WHOLE, "", &zeros, MIRROR_REFUSED_ZERO_HASH_KEY},
                                      {"first stage, h zero", first_stage, WHOLE, "", &new, MIRROR_REFUSED_ZERO_HASH_KEY},
                                      {"second stage, h zero", second_stage, FIRST_SAME, "", &new, MIRROR_REFUSED_ZERO_HASH_KEY},
                                      {"third stage, h zero", third_stage, SECOND_SAME, "", &new, MIRROR_REFUSED_ZERO_HASH_KEY},
                                      {"read, h zero", read_sector, WHOLE, "", &old, MIRROR_REFUSED_ZERO_HASH_KEY},
                                      {"mend, h zero", mend, AT_LOCAL, "", &old, MIRROR_REFUSED_ZERO_HASH_KEY}};
    size_t i;
    for (i = 0; i < sizeof rows / sizeof rows[0]; i++) {
        make(s, i % SECTORS, &states[rows[i].state]);
        memset(key, 0, TAG_BYTES);
        watched(rows[i].call, rows[i].order, rows[i].to, rows[i].due);
        need(0, &rows[i]);
    }
}

/* The other calls on a sector: each of them but blank, which may store in any order, stores to one place at most, and a read to none. */
static void try_others(size_t s)
{
    static const struct row rows[] = {{"blank", blank, AT_LOCAL, NULL, &zeros, MIRROR_DONE},
                                      {"first stage", first_stage, WHOLE, "l", &new, MIRROR_DONE},
                                      {"first stage", first_stage, AT_TAG, "", &new, MIRROR_REFUSED_STAGE_ORDER},
                                      {"second stage", second_stage, FIRST_SAME, "t", &new, MIRROR_DONE},
                                      {"second stage", second_stage, FIRST_OTHER, "", &new, MIRROR_REFUSED_STAGE_ORDER},
                                      {"third stage", third_stage, SECOND_SAME, "r", &new, MIRROR_DONE},
                                      {"third stage", third_stage, SECOND_OTHER, "", &new, MIRROR_REFUSED_STAGE_ORDER},
                                      {"read", read_sector, WHOLE, "", &old, MIRROR_WHOLE},
                                      {"read", read_sector, AT_LOCAL, "", &old, MIRROR_DOUBTFUL_LOCAL},
                                      {"mend", mend, WHOLE, "", &old, MIRROR_WHOLE},
                                      {"mend", mend, AT_LOCAL, "l", &old, MIRROR_DOUBTFUL_LOCAL},
                                      {"mend", mend, AT_TAG, "t", &old, MIRROR_DOUBTFUL_TAG},
                                      {"mend", mend, AT_REMOTE, "r", &old, MIRROR_DOUBTFUL_REMOTE},
                                      {"mend", mend, LOST, "", &old, MIRROR_REFUSED_LOST},
                                      {"mend", mend, CLASHING, "", &old, MIRROR_REFUSED_CLASHING}};
    size_t i;
    for (i = 0; i < sizeof rows / sizeof rows[0]; i++) {
        try_call(s, i % SECTORS, &rows[i], 0);
    }
}

/*
 * That the test can fail: what is wrong with a write must be found, and nothing in one that is right. With the largest sectors, which take
 * long, only the first is tried: there the C library may copy by `rep movs`.
 */
static void try_controls(size_t s)
{
    static const struct {
        struct row row;
        unsigned wrong;
    } controls[] = {{{"write by copies", by_copies, AT_LOCAL, "ltr", &new, MIRROR_DOUBTFUL_LOCAL}, 0},
                    {{"write by single calls", by_calls, AT_TAG, "tltr", &new, MIRROR_DOUBTFUL_TAG}, 0},
                    {{"write that blanks first", blank_first, WHOLE, "ltr", &new, MIRROR_WHOLE}, ORDER | STAGE | CUT},
                    {{"write that blanks in place of the mend", blank_for_mend, AT_LOCAL, "ltr", &new, MIRROR_DOUBTFUL_LOCAL}, ORDER | STAGE | CUT},
                    {{"write that blanks in place of the mend", blank_for_mend, AT_TAG, "tltr", &new, MIRROR_DOUBTFUL_TAG}, ORDER | STAGE | CUT},
                    {{"write that gives another answer", other_answer, AT_LOCAL, "ltr", &new, MIRROR_DOUBTFUL_LOCAL}, ANSWER},
                    {{"write that leaves another byte", other_bytes, WHOLE, "ltr", &new, MIRROR_WHOLE}, END},
                    {{"write that is refused and stores", refused_stores, LOST, "", &new, MIRROR_REFUSED_LOST}, ORDER},
                    {{"write that stores the tag first", tag_first, WHOLE, "ltr", &new, MIRROR_WHOLE}, ORDER | CUT},
                    {{"write without a mend", without_mend, AT_LOCAL, "ltr", &new, MIRROR_DOUBTFUL_LOCAL}, STAGE},
                    {{"write without a mend", without_mend, AT_REMOTE, "rltr", &new, MIRROR_DOUBTFUL_REMOTE}, ORDER | CUT},
                    {{"write that stores a neighbour's byte again", beside, WHOLE, "ltr", &new, MIRROR_WHOLE}, BESIDE}};
    size_t i;
    for (i = 0; i < (s == MOST ? 1 : sizeof controls / sizeof controls[0]); i++) {
        try_call(s, 1, &controls[i].row, controls[i].wrong);
    }
}

int main(void)
{
    static const size_t sizes[] = {16, 48, 512, 4096};
    size_t i;
    make_rooms(ROOM, before_store);
    for (i = 0; i < sizeof sizes / sizeof sizes[0]; i++) {
        try_controls(sizes[i]);
    }
    calls = stores = cuts = halves = 0;
    for (i = 0; i < sizeof sizes / sizeof sizes[0]; i++) {
        try_write(sizes[i]);
        try_refused(sizes[i]);
        try_zero_hash_key(sizes[i]);
        try_others(sizes[i]);
    }
    printf("check_order: %lu stores in %lu calls, all in the order that is due; %lu power cuts before, between and behind them lose nothing, "
           "and none is tried at %lu within a tag; wrong writes are found\n",
           stores, calls, cuts, halves);
    return 0;
}
