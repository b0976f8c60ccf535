/* What the files of the test share. Each of them includes mirror.h, so its inline functions stand in several files that are linked. */
#ifndef CHECKS_H
#define CHECKS_H

#include "mirror.h"

/* Counts a check; if it does not hold, says what is wrong and ends the program with 1. (calls.c) */
void check(int holds, int line, const char *text, const char *what);

/* Checks that the answer of a call is the one due. (calls.c) */
void answers(uint32_t due, uint32_t answer, int line, const char *call);

/* So many bytes of the heap, none more. (calls.c) */
uint8_t *heap(size_t length);

/* The map at counts of sectors around the bounds of a word. (map.c) */
void maps(void);

/* Each call with a key, under a key whose first 16 bytes are zero. (zero.c) */
void zero_hash_keys(void);

/* Each function over struct mirror_volume against the call of its name. (volume.c) */
void volumes(void);

#endif
