/*
 * Why a server must not lend the calls a shared mapping of its files (mmap with MAP_SHARED; mirror.h, POWER CUTS): the second stage stores
 * a tag in several instructions, and a kill between two of them leaves a mixture of the old tag and the new one. A process makes a second
 * stage on shared memory, as a mapped file would be. This program executes it instruction by instruction (ptrace), and behind each one
 * reads the sector, as a server would that is started again after a kill there. It counts the instructions behind which the sector reads
 * lost. It belongs to the documents, and not to the gate: another compiler may store a tag at once. Build and run it from the root of the
 * source tree, after `scripts/library mirror`:
 *
 *   cc -O2 -Wall -Wextra -Werror -Iinclude tests/disk/steptag.c target/staticlib/libmirror.a -o target/steptag && target/steptag [SIZE]
 *
 * SIZE is the bytes of a sector, 512 if it is not given. It ends with 0 if it could look at every instruction, whatever it found.
 */
#define _GNU_SOURCE
#include "mirror.h"

#include <signal.h>
#include <stdio.h>
#include <stdlib.h>
#include <string.h>
#include <sys/mman.h>
#include <sys/ptrace.h>
#include <sys/wait.h>
#include <unistd.h>

enum { VOLUME = 1, MOST = MIRROR_SECTOR_BYTES_MAX, ANSWERS = 256 };

static const uint8_t key[MIRROR_KEY_BYTES] = "an example key: h, and then K..";
static uint8_t plain[MOST] = "the new plaintext";
static uint64_t map[MIRROR_MAP_WORDS(1)];

static void need(int holds, const char *what)
{
    if (!holds) {
        fprintf(stderr, "steptag: %s\n", what);
        exit(1);
    }
}

/* The process that is stepped through: it stops, makes the second stage, and ends with the call's answer. */
static void make_second_stage(const struct mirror_volume *v)
{
    if (ptrace(PTRACE_TRACEME, 0, NULL, NULL) != 0 || raise(SIGSTOP) != 0)
        _exit(ANSWERS - 1);
    _exit((int)mirror_volume_second_stage(v, 0, plain, v->s));
}

/* What a server would find that is started now. */
static uint32_t found(const struct mirror_volume *v)
{
    static uint8_t out[MOST];
    return mirror_volume_read(v, 0, out, v->s);
}

int main(int argc, char **argv)
{
    size_t size = argc > 1 ? strtoul(argv[1], NULL, 10) : 512;
    need(argc <= 2 && size >= 16 && size <= MOST && size % 16 == 0, "usage: steptag [SIZE], a multiple of 16 from 16 to 4096");
    need(mirror_version() == MIRROR_VERSION, "the library is of another release than the header");

    uint8_t *shared = mmap(NULL, 3 * MOST, PROT_READ | PROT_WRITE, MAP_SHARED | MAP_ANONYMOUS, -1, 0);
    need(shared != MAP_FAILED, "no shared memory");
    struct mirror_volume v = {.key = key, .key_len = sizeof key, .volume = VOLUME, .s = size, .n = 1};
    v.local = shared, v.local_len = size;
    v.tags = shared + MOST, v.tags_len = MIRROR_TAG_BYTES;
    v.remote = shared + 2 * MOST, v.remote_len = size;
    v.map = map, v.map_len = MIRROR_MAP_WORDS(1);
    need(mirror_volume_start_map(&v) == MIRROR_DONE && mirror_volume_blank(&v, 0) == MIRROR_DONE &&
             mirror_volume_first_stage(&v, 0, plain, size) == MIRROR_DONE,
         "blank or first stage refused");

    pid_t child = fork();
    need(child >= 0, "no process");
    if (child == 0)
        make_second_stage(&v);

    /* The sector is read when the tag has changed. Until the next change it would be read the same. */
    uint8_t tag[MIRROR_TAG_BYTES];
    uint32_t answer = found(&v);
    long tags[ANSWERS] = {0}, instructions[ANSWERS] = {0}, total = 0;
    int status;
    memcpy(tag, v.tags, sizeof tag);
    tags[answer]++;
    need(waitpid(child, &status, 0) == child && WIFSTOPPED(status), "the process cannot be stopped");
    for (;;) {
        need(ptrace(PTRACE_SINGLESTEP, child, NULL, NULL) == 0 && waitpid(child, &status, 0) == child, "the process cannot be stepped");
        if (!WIFSTOPPED(status))
            break;
        need(WSTOPSIG(status) == SIGTRAP, "the process was stopped by a signal");
        if (memcmp(tag, v.tags, sizeof tag) != 0) {
            memcpy(tag, v.tags, sizeof tag);
            answer = found(&v);
            need(answer < ANSWERS, "a read gave no answer of the library");
            tags[answer]++;
        }
        instructions[answer]++;
        total++;
    }
    need(WIFEXITED(status) && WEXITSTATUS(status) == MIRROR_DONE, "the second stage was not done");

    printf("a second stage on shared memory, of %zu bytes: %ld instructions of the process, until it ends\n", size, total);
    for (uint32_t i = 0; i < ANSWERS; i++) {
        const char *text = mirror_text(i);
        if (tags[i] != 0)
            printf("  a kill behind %ld of them, with %ld %s in the image, leaves a sector that reads 0x%02x: %.*s\n", instructions[i],
                   tags[i], tags[i] == 1 ? "tag" : "different tags", (unsigned)i, (int)strcspn(text, ":"), text);
    }
    return 0;
}
