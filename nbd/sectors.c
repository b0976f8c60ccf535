/* THE ORDER OF LANDING, all of it, is in this file. It is what the library's promise about power cuts asks of its caller (mirror.h, POWER
 * CUTS): a call is finished only when what it wrote is on the medium, and the next call on its sector comes after that.
 *
 *   a mend      the mended places of the run's sectors are written out and flushed. Nothing else is done on these sectors before that.
 *   a write     what is doubtful is mended, as above. Then for all sectors of the run: first stage, local written out, flushed; second
 *               stage, tags written out, flushed; third stage, remote written out, flushed. Only then is the write acknowledged.
 *   giving up   a lost sector that is to be overwritten is blanked and has the three stages in the window, and only then goes out, all
 *               three places, and is flushed. A cut in that leaves it lost, as it was, or with the new plaintext: the zeros of the blank
 *               are never there for a reader to take for data.
 *
 * Of a run each sector has at most one call that is not finished, unless it is given up. Where writing out fails, what did go out is
 * flushed all the same, so that what the kernel shows to the next reader is what the medium has: it is a cut in that call. If flushing
 * fails nothing more is written.
 * SPDX-License-Identifier: Apache-2.0 */
#define NBDKIT_API_VERSION 2
#include "sectors.h"

#include "suspects.h"

#include <errno.h>
#include <inttypes.h>
#include <nbdkit-plugin.h>
#include <string.h>

/* What a pass over the run has written out and not flushed yet. */
struct written {
    bool place[PLACES];
    bool failed;
    bool refused; /* nothing was written, since a sector cannot be: what the calls made in the window is dropped */
};

static bool is_doubtful(uint32_t answer)
{
    return answer >= MIRROR_DOUBTFUL_LOCAL && answer <= MIRROR_DOUBTFUL_REMOTE;
}

static bool is_lost(uint32_t answer)
{
    return answer == MIRROR_REFUSED_LOST;
}

static bool is_refusal(uint32_t answer)
{
    return mirror_is_refusal(answer);
}

#define WHAT_TO_DO "; docs/DISK.md says what to do"

static const char *text(uint32_t answer)
{
    return answer == MIRROR_REFUSED_LOST       ? "lost: no plaintext fits two places"
           : answer == MIRROR_REFUSED_CLASHING ? "clashing: more than one plaintext fits two places"
                                               : mirror_text(answer);
}

/* Logs one thing of the sectors i to last of the run. */
static void log_sectors(const struct run *run, size_t i, size_t last, const char *what, const char *then)
{
    if (i == last)
        nbdkit_error("sector %" PRIu64 ": %s%s", run_sector(run, i), what, then);
    else
        nbdkit_error("sectors %" PRIu64 " to %" PRIu64 ": %s%s", run_sector(run, i), run_sector(run, last), what, then);
}

/* Behind the last of the neighbours, from the i-th sector on, of which the same was found. */
static size_t same_until(const struct run *run, size_t i)
{
    size_t end = i + 1;
    while (end < run->count && run->found[end] == run->found[i])
        end++;
    return end;
}

/* Logs the sectors of which a call gave an answer of this kind: a line for neighbours with the same one. */
static void log_found(const struct run *run, bool (*kind)(uint32_t), const char *then)
{
    for (size_t i = 0, end; i < run->count; i = end) {
        end = same_until(run, i);
        if (kind(run->found[i]))
            log_sectors(run, i, end - 1, text(run->found[i]), then);
    }
}

static int refused(const struct run *run, size_t i, uint32_t answer)
{
    log_sectors(run, i, i, text(answer), WHAT_TO_DO);
    nbdkit_set_error(EIO);
    return -1;
}

static void write_out(const struct run *run, int place, size_t i, size_t count, struct written *written)
{
    written->place[place] = true;
    if (run_write(run, place, i, count) < 0)
        written->failed = true;
}

/* Flushes what was written out. */
static int land(struct written *written)
{
    for (int place = 0; place < PLACES; place++)
        if (written->place[place] && disk_land(place) < 0)
            written->failed = true;
    if (written->failed)
        nbdkit_set_error(EIO);
    return written->failed ? -1 : 0;
}

/* The map gets what the calls have put into the window's. Where that was dropped, only those are suspect that were not whole; where writing
 * out failed nothing is known of these sectors, and where flushing failed of none. */
static void settle_map(const struct run *run, const struct written *written)
{
    if (disk_is_stopped())
        suspects_give_up();
    else if (written->failed)
        suspects_set(run->part, run->first, run->count);
    else if (written->refused)
        for (size_t i = 0; i < run->count; i++)
            suspects_set(run->part, run->first + i, run->found[i] != MIRROR_DONE);
    else
        suspects_take(run->part, run->first, run->count, run->volume.map);
}

/* ---- reading and mending */

/* Writes out what was made whole in the window: of the doubtful sectors the place that was mended, and of the lost ones, where they were
 * given up, all places; neighbours in one write. Then flushes it. */
static int write_found(const struct run *run, bool given_up, struct written *written)
{
    for (size_t i = 0, end; i < run->count; i = end) {
        const uint32_t found = run->found[i];
        end = same_until(run, i);
        for (int place = 0; place < PLACES; place++)
            if (found == MIRROR_DOUBTFUL_LOCAL + (uint32_t)place || (found == MIRROR_REFUSED_LOST && given_up))
                write_out(run, place, i, end - i, written);
    }
    return land(written);
}

/* Mends the sectors that a read has found doubtful. */
static int mend_found(const struct run *run, struct written *written)
{
    for (size_t i = 0; i < run->count && !written->failed; i++)
        if (is_doubtful(run->found[i]))
            /* proved of the library: it answers as the read did */
            written->failed = mirror_volume_mend(&run->volume, run->first + i) != run->found[i];
    return written->failed ? -1 : write_found(run, false, written);
}

int sectors_read(const struct run *run, bool mend, bool *mended)
{
    struct written written = {.failed = false};
    const size_t s = run->volume.s;
    size_t doubtful = 0, refusals = 0;
    for (size_t i = 0; i < run->count; i++) {
        run->found[i] = (uint8_t)mirror_volume_read(&run->volume, run->first + i, run->plain + i * s, s);
        doubtful += is_doubtful(run->found[i]);
        refusals += is_refusal(run->found[i]);
    }
    const bool mends = doubtful && mend && !disk_is_stopped();
    *mended = mends && mend_found(run, &written) == 0;
    log_found(run, is_doubtful, *mended ? ", mended" : mends ? ", not mended" : ", left as it is");
    log_found(run, is_refusal, WHAT_TO_DO);
    settle_map(run, &written);
    if (refusals)
        nbdkit_set_error(EIO);
    return refusals ? -1 : 0;
}

/* ---- writing */

/* The stage of a write that writes this place, in the window. */
static uint32_t stage(const struct run *run, int place, size_t i)
{
    const size_t s = run->volume.s, number = run->first + i;
    const uint8_t *plain = run->plain + i * s;
    return place == LOCAL ? mirror_volume_first_stage(&run->volume, number, plain, s)
           : place == TAG ? mirror_volume_second_stage(&run->volume, number, plain, s)
                          : mirror_volume_third_stage(&run->volume, number, plain, s);
}

/* Blanks a lost sector and writes its new plaintext, all of it in the window. */
static uint32_t give_up(const struct run *run, size_t i)
{
    uint32_t answer = mirror_volume_blank(&run->volume, run->first + i);
    for (int place = LOCAL; place < PLACES && answer == MIRROR_DONE; place++)
        answer = stage(run, place, i);
    return answer;
}

/* Makes a sector whole in the window that the first stage has refused. Gives what is in its way, or DONE. */
static uint32_t make_whole(const struct run *run, size_t i, bool overwrite_lost)
{
    if (run->found[i] == MIRROR_REFUSED_STAGE_ORDER)
        run->found[i] = (uint8_t)mirror_volume_mend(&run->volume, run->first + i);
    if (is_doubtful(run->found[i]))
        return MIRROR_DONE;
    return run->found[i] == MIRROR_REFUSED_LOST && overwrite_lost ? give_up(run, i) : run->found[i];
}

/* Makes every sector whole on the medium that is not. Where one cannot be, nothing is written. */
static int make_all_whole(const struct run *run, bool overwrite_lost, struct written *written)
{
    int result = 0;
    for (size_t i = 0; i < run->count; i++) {
        const uint32_t answer = run->found[i] == MIRROR_DONE ? MIRROR_DONE : make_whole(run, i, overwrite_lost);
        if (answer != MIRROR_DONE)
            result = refused(run, i, answer);
    }
    written->refused = result < 0;
    if (result < 0 || write_found(run, overwrite_lost, written) < 0)
        return -1;
    log_found(run, is_doubtful, ", mended before it is written");
    log_found(run, is_lost, ", given up, since all of it is written anew");
    return 0;
}

/* The first stage of every sector, in the window. Those that refuse it are made whole on the medium before. */
static int begin(const struct run *run, bool overwrite_lost, struct written *written)
{
    size_t unready = 0;
    for (size_t i = 0; i < run->count; i++) {
        run->found[i] = (uint8_t)stage(run, LOCAL, i);
        unready += run->found[i] != MIRROR_DONE;
    }
    if (unready && make_all_whole(run, overwrite_lost, written) < 0)
        return -1;
    for (size_t i = 0; unready && i < run->count; i++) {
        const uint32_t answer = run->found[i] == MIRROR_DONE ? MIRROR_DONE : stage(run, LOCAL, i);
        if (answer != MIRROR_DONE)
            return refused(run, i, answer);
    }
    return 0;
}

/* The three stages, each of all sectors, written out and flushed before the next. */
static int write_stages(const struct run *run, bool overwrite_lost, struct written *written)
{
    if (begin(run, overwrite_lost, written) < 0)
        return -1;
    for (int place = LOCAL; place < PLACES; place++) {
        *written = (struct written){.failed = false};
        for (size_t i = 0; place != LOCAL && i < run->count; i++) {
            const uint32_t answer = stage(run, place, i);
            if (answer != MIRROR_DONE)
                return refused(run, i, answer);
        }
        write_out(run, place, 0, run->count, written);
        if (land(written) < 0)
            return -1;
    }
    return 0;
}

/* The plaintext of a sector that is covered in part. A doubtful one is mended when it is written. */
static int read_edge(const struct run *run, size_t i)
{
    const size_t s = run->volume.s;
    const uint32_t answer = mirror_volume_read(&run->volume, run->first + i, run->plain + i * s, s);
    return mirror_is_refusal(answer) ? refused(run, i, answer) : 0;
}

int sectors_write(const struct run *run, size_t skip, const uint8_t *bytes, size_t length, bool overwrite_lost)
{
    struct written written = {.failed = false};
    const size_t s = run->volume.s, last = run->count - 1;
    const bool first_is_partial = skip != 0 || length < s, last_is_partial = (skip + length) % s != 0;
    int result = first_is_partial ? read_edge(run, 0) : 0;
    if (result == 0 && last_is_partial && !(last == 0 && first_is_partial))
        result = read_edge(run, last);
    if (result == 0) {
        memcpy(run->plain + skip, bytes, length);
        result = write_stages(run, overwrite_lost, &written);
    }
    settle_map(run, &written);
    return result;
}
