/* Ranges of sectors that are in use: requests on one sector go one after the other, in the order in which they came, all others at once.
 * SPDX-License-Identifier: Apache-2.0 */
#ifndef RANGES_H
#define RANGES_H

#include <stdint.h>

struct range {
    uint64_t first, count;
    struct range *next; /* the one that came after */
};

/* Waits until no range that came before has a sector of this one. The range stays where it is until it is left. */
void range_enter(struct range *range);
void range_leave(struct range *range);

#endif
