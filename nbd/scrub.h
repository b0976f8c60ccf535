/* Reading the whole disk in the background, the suspect sectors first.
 * SPDX-License-Identifier: Apache-2.0 */
#ifndef SCRUB_H
#define SCRUB_H

#include "disk.h"

/* Starts the thread. It reads every sector once, from the medium, mends those that are doubtful where `mend`, and says on standard error
 * how far it is. -1 if it cannot be started. */
int scrub_start(const struct disk *disk, bool mend);

/* Ends the thread if it runs. */
void scrub_stop(void);

#endif
