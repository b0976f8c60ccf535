/* SPDX-License-Identifier: Apache-2.0 */
#include "ranges.h"

#include <pthread.h>
#include <stdbool.h>
#include <stddef.h>

static pthread_mutex_t mutex = PTHREAD_MUTEX_INITIALIZER;
static pthread_cond_t left = PTHREAD_COND_INITIALIZER;
static struct range *oldest; /* all that have entered or wait, in the order in which they came */

static bool meet(const struct range *a, const struct range *b)
{
    return a->first < b->first + b->count && b->first < a->first + a->count;
}

static bool must_wait(const struct range *range)
{
    for (const struct range *other = oldest; other != range; other = other->next)
        if (meet(other, range))
            return true;
    return false;
}

void range_enter(struct range *range)
{
    struct range **end = &oldest;
    pthread_mutex_lock(&mutex);
    while (*end)
        end = &(*end)->next;
    range->next = NULL;
    *end = range;
    while (must_wait(range))
        pthread_cond_wait(&left, &mutex);
    pthread_mutex_unlock(&mutex);
}

void range_leave(struct range *range)
{
    struct range **at = &oldest;
    pthread_mutex_lock(&mutex);
    while (*at != range)
        at = &(*at)->next;
    *at = range->next;
    pthread_cond_broadcast(&left);
    pthread_mutex_unlock(&mutex);
}
