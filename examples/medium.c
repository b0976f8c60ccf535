/* A volume on a medium: three files in a folder. What a call wrote is written out and flushed before the next call, as mirror.h asks under
 * POWER CUTS. A write is left after its second stage, as by a power cut; then the images are loaded again, the map of suspect sectors is
 * started anew, and the sectors in it are mended.
 * Build and run it from the root of the source tree, PREFIX being a folder of your choice, as an absolute path:
 *
 *   scripts/install PREFIX
 *   export PKG_CONFIG_PATH=PREFIX/lib/pkgconfig
 *   cc examples/medium.c $(pkg-config --cflags --libs mirror) -o target/medium && target/medium "$(mktemp -d)"
 *
 * It relies on a medium that writes a unit of 512 bytes whole or not at all: 32 tags share one, and a sector here has one of its own.
 */
#define _POSIX_C_SOURCE 200809L
#include <mirror.h>

#include <errno.h>
#include <fcntl.h>
#include <stdio.h>
#include <stdlib.h>
#include <string.h>
#include <unistd.h>

enum { VOLUME = 1, SIZE = 512, COUNT = 8, NUMBER = 2 };
enum { LOCAL, TAG, REMOTE, PLACES };

/* A real key is 32 random bytes. VOLUME is the volume's number: each volume under a key has its own. Like key, SIZE and COUNT it is not
 * stored in the images: whoever opens the volume again has to give the same. */
static const uint8_t key[MIRROR_KEY_BYTES] = "an example key: h, and then K..";
static uint8_t local[COUNT * SIZE], tags[COUNT * MIRROR_TAG_BYTES], remote[COUNT * SIZE];
static uint64_t map[MIRROR_MAP_WORDS(COUNT)];
static const struct mirror_volume volume = {.key = key,
                                            .key_len = sizeof key,
                                            .volume = VOLUME,
                                            .s = SIZE,
                                            .n = COUNT,
                                            .local = local,
                                            .local_len = sizeof local,
                                            .tags = tags,
                                            .tags_len = sizeof tags,
                                            .remote = remote,
                                            .remote_len = sizeof remote,
                                            .map = map,
                                            .map_len = MIRROR_MAP_WORDS(COUNT)};

/* The file of each place: its image, and the bytes of one sector's part. */
static struct {
    const char *name;
    uint8_t *image;
    size_t length, part;
    int file;
} places[PLACES] = {{"local", local, sizeof local, SIZE, -1},
                    {"tags", tags, sizeof tags, MIRROR_TAG_BYTES, -1},
                    {"remote", remote, sizeof remote, SIZE, -1}};

static void need(int holds, const char *what)
{
    if (!holds) {
        fprintf(stderr, "medium: %s\n", what);
        exit(1);
    }
}

static void expect(const char *call, uint32_t answer, uint32_t due)
{
    if (answer != due) {
        fprintf(stderr, "medium: %s: answers %02x, %s; due is %02x, %s\n", call, (unsigned)answer, mirror_text(answer), (unsigned)due,
                mirror_text(due));
        exit(1);
    }
}

/* Writes out one sector's part of a place, in one write, and flushes it. Until then the call that wrote it is not finished. If this fails,
 * what memory and medium hold may differ: the program ends, and its next start would load the images again. */
static void finish(int place, size_t number)
{
    const size_t part = places[place].part, from = number * part;
    const ssize_t done = pwrite(places[place].file, places[place].image + from, part, (off_t)from);
    need(done == (ssize_t)part && fdatasync(places[place].file) == 0, "writing out has failed");
}

/* Opens the volume as it is on the medium. What a map said before says nothing of that: all sectors are suspect, until they are read or
 * mended. */
static void load(void)
{
    for (int i = 0; i < PLACES; i++) {
        const ssize_t done = pread(places[i].file, places[i].image, places[i].length, 0);
        need(done == (ssize_t)places[i].length, "a file is shorter than its image");
    }
    expect("start the map", mirror_volume_start_map(&volume), MIRROR_DONE);
}

/* New files, with each sector blanked, which clears its bit in the map. The folder is flushed too, for the names are in it. */
static void make(const char *path)
{
    const int folder = open(path, O_RDONLY | O_DIRECTORY);
    need(folder >= 0, "there is no such folder");
    for (int i = 0; i < PLACES; i++) {
        places[i].file = openat(folder, places[i].name, O_RDWR | O_CREAT | O_EXCL, 0600);
        need(places[i].file >= 0, strerror(errno)); /* EEXIST: the folder has a volume already */
    }
    expect("start the map", mirror_volume_start_map(&volume), MIRROR_DONE);
    for (size_t number = 0; number < COUNT; number++) {
        expect("blank", mirror_volume_blank(&volume, number), MIRROR_DONE);
        for (int i = 0; i < PLACES; i++)
            finish(i, number);
    }
    need(fsync(folder) == 0 && close(folder) == 0, "flushing the folder has failed");
}

/* A write: a stage begins only when what the one before wrote is on the medium. mirror_write leaves no time to flush between the stages, so
 * it is not for files. */
static void write_stages(size_t number, const uint8_t plain[SIZE], int stages)
{
    expect("first stage", mirror_volume_first_stage(&volume, number, plain, SIZE), MIRROR_DONE);
    finish(LOCAL, number);
    if (stages < 2)
        return;
    expect("second stage", mirror_volume_second_stage(&volume, number, plain, SIZE), MIRROR_DONE);
    finish(TAG, number);
    if (stages < 3)
        return;
    expect("third stage", mirror_volume_third_stage(&volume, number, plain, SIZE), MIRROR_DONE);
    finish(REMOTE, number);
}

static void read_sector(size_t number, uint32_t due, const uint8_t plain[SIZE])
{
    uint8_t out[SIZE];
    expect("read", mirror_volume_read(&volume, number, out, SIZE), due);
    need(memcmp(out, plain, SIZE) == 0, "a read gives another plaintext");
    printf("sector %lu: %s: %s\n", (unsigned long)number, mirror_text(due), (const char *)out);
}

/* Mends a sector and writes out the place that the answer names. */
static uint32_t mend_sector(size_t number)
{
    const uint32_t found = mirror_volume_mend(&volume, number);
    if (found == MIRROR_DOUBTFUL_LOCAL)
        finish(LOCAL, number);
    if (found == MIRROR_DOUBTFUL_TAG)
        finish(TAG, number);
    if (found == MIRROR_DOUBTFUL_REMOTE)
        finish(REMOTE, number);
    return found;
}

static void expect_suspects(uint64_t due)
{
    uint64_t suspects = 0;
    expect("count the suspects", mirror_volume_count_suspects(&volume, &suspects), MIRROR_DONE);
    need(suspects == due, "another number of sectors is suspect");
    printf("%lu of %d sectors are suspect\n", (unsigned long)suspects, COUNT);
}

/* Mends the suspect sectors, and gives how many were not whole. One that is lost or clashing stays suspect. */
static int mend_suspects(void)
{
    int found = 0;
    for (size_t number = 0; number < COUNT; number++)
        if (mirror_is_suspect(map, number))
            found += mend_sector(number) != MIRROR_WHOLE;
    return found;
}

int main(int count, char **arguments)
{
    static const uint8_t old_plain[SIZE] = "the old plaintext", new_plain[SIZE] = "the new plaintext";
    need(mirror_version() == MIRROR_VERSION, "the library is of another release than the header");
    need(count == 2, "give a folder, which gets the files local, tags and remote");
    make(arguments[1]);
    write_stages(NUMBER, old_plain, 3);
    read_sector(NUMBER, MIRROR_WHOLE, old_plain);
    expect_suspects(0);

    write_stages(NUMBER, new_plain, 2);
    expect_suspects(1);
    puts("a power cut before the third stage; the images are loaded again");
    load();
    expect_suspects(COUNT);
    read_sector(NUMBER, MIRROR_DOUBTFUL_REMOTE, new_plain);
    need(mend_suspects() == 1, "another number of sectors was not whole");
    expect_suspects(0);
    load();
    read_sector(NUMBER, MIRROR_WHOLE, new_plain);
    return 0;
}
