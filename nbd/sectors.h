/* Reading, mending and writing the sectors of a run.
 * SPDX-License-Identifier: Apache-2.0 */
#ifndef SECTORS_H
#define SECTORS_H

#include "run.h"

/* Reads every sector of the run into its plaintexts. One that is doubtful is logged, and mended where `mend`, and *mended tells whether
 * that was done and has landed; one that is lost or clashing is logged, and the result is -1. */
int sectors_read(const struct run *run, bool mend, bool *mended);

/* Writes `length` bytes over the run's plaintexts, beginning `skip` bytes behind the first sector's start; the sectors at both ends may be
 * covered in part. On 0 all of it is on the medium. On -1, which has been logged, each sector holds the old plaintext or the new one; if a
 * sector was refused nothing of the run is written. A lost sector that is covered whole is given up where `overwrite_lost`: until 0 it is
 * lost or holds the new plaintext. */
int sectors_write(const struct run *run, size_t skip, const uint8_t *bytes, size_t length, bool overwrite_lost);

#endif
