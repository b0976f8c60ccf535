/* A volume of four sectors: one is written, damaged, read, mended and written again in one call, and a map of the suspect sectors is kept
 * meanwhile. Build and run it from the root of the source tree, PREFIX being a folder of your choice, as an absolute path:
 *
 *   scripts/install PREFIX
 *   export PKG_CONFIG_PATH=PREFIX/lib/pkgconfig
 *   cc examples/mend.c $(pkg-config --cflags --libs mirror) -o target/mend && target/mend
 *
 * It ends with 0 if each answer is the one that is due, and otherwise with 1 at the first that is not.
 */
#include <mirror.h>

#include <stdio.h>
#include <stdlib.h>
#include <string.h>

enum { VOLUME = 1, SIZE = 512, COUNT = 4, NUMBER = 2 };

/* A real key is 32 random bytes. VOLUME is the volume's number: each volume under a key has its own. Like key, SIZE and COUNT it is not
 * stored in the images: whoever opens the volume again has to give the same. */
static const uint8_t key[MIRROR_KEY_BYTES] = "an example key: h, and then K..";
static uint8_t local[COUNT * SIZE], tags[COUNT * MIRROR_TAG_BYTES], remote[COUNT * SIZE];
static uint64_t map[MIRROR_MAP_WORDS(COUNT)];

static const struct mirror_volume volume = {.key = key,
                                            .key_len = sizeof key,
                                            .volume = VOLUME,
                                            .s = SIZE,
                                            .n = COUNT,
                                            .local = local,
                                            .local_len = sizeof local,
                                            .tags = tags,
                                            .tags_len = sizeof tags,
                                            .remote = remote,
                                            .remote_len = sizeof remote,
                                            .map = map,
                                            .map_len = MIRROR_MAP_WORDS(COUNT)};

static void expect(const char *call, uint32_t answer, uint32_t due)
{
    printf("%-22s %02x %s\n", call, (unsigned)answer, mirror_text(answer));
    if (answer != due) {
        fprintf(stderr, "%s: due is %02x, %s\n", call, (unsigned)due, mirror_text(due));
        exit(1);
    }
}

/* These images are in memory only. On a medium, what a stage wrote is written out and flushed before the next: mirror.h, POWER CUTS. */
static void write_sector(size_t number, const uint8_t plain[SIZE])
{
    expect("first stage", mirror_volume_first_stage(&volume, number, plain, SIZE), MIRROR_DONE);
    expect("second stage", mirror_volume_second_stage(&volume, number, plain, SIZE), MIRROR_DONE);
    expect("third stage", mirror_volume_third_stage(&volume, number, plain, SIZE), MIRROR_DONE);
}

static void read_sector(size_t number, uint32_t due, const uint8_t plain[SIZE])
{
    uint8_t out[SIZE];
    expect("read", mirror_volume_read(&volume, number, out, SIZE), due);
    if (memcmp(out, plain, SIZE) != 0) {
        fprintf(stderr, "read: gives another plaintext than was written\n");
        exit(1);
    }
}

static void expect_suspects(uint64_t due)
{
    uint64_t suspects = 0;
    expect("count the suspects", mirror_volume_count_suspects(&volume, &suspects), MIRROR_DONE);
    printf("%lu of %d sectors are suspect\n", (unsigned long)suspects, COUNT);
    if (suspects != due) {
        fprintf(stderr, "count the suspects: due is %lu\n", (unsigned long)due);
        exit(1);
    }
}

int main(void)
{
    static const uint8_t plain[SIZE] = "what the sector holds", next_plain[SIZE] = "what it holds next";
    if (mirror_version() != MIRROR_VERSION) {
        fprintf(stderr, "the library is of another release than the header, which is of " MIRROR_VERSION_TEXT "\n");
        return 1;
    }
    expect("start the map", mirror_volume_start_map(&volume), MIRROR_DONE);
    expect_suspects(COUNT);
    for (size_t i = 0; i < COUNT; i++)
        expect("blank", mirror_volume_blank(&volume, i), MIRROR_DONE);
    write_sector(NUMBER, plain);
    read_sector(NUMBER, MIRROR_WHOLE, plain);
    expect_suspects(0);

    memset(remote + NUMBER * SIZE, 0xff, 100);
    puts("100 bytes of the remote sector are damaged; no call has met that yet");
    expect_suspects(0);
    read_sector(NUMBER, MIRROR_DOUBTFUL_REMOTE, plain);
    expect_suspects(1);
    expect("mend, which has found", mirror_volume_mend(&volume, NUMBER), MIRROR_DOUBTFUL_REMOTE);
    read_sector(NUMBER, MIRROR_WHOLE, plain);
    expect_suspects(0);

    tags[NUMBER * MIRROR_TAG_BYTES] ^= 1;
    puts("a bit of the tag is damaged, and the sector is written in one call: it is mended on the way");
    /* In one call, since nothing is written out here. When it may be used is said at mirror_write in mirror.h. */
    expect("write, which has found", mirror_volume_write(&volume, NUMBER, next_plain, SIZE), MIRROR_DOUBTFUL_TAG);
    read_sector(NUMBER, MIRROR_WHOLE, next_plain);
    expect_suspects(0);
    return 0;
}
