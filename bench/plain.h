// Calls of document 01 in portable C, for the benchmark to time the library against. They check and answer as document 01 says, with the
// refusal 14 behind 1: 0 for done or whole, 0x81 to 0x83 for doubtful at a place, else the refusal's number. `volume` is the volume's
// number, which comes after the key.
#ifndef PLAIN_H
#define PLAIN_H

#include <stddef.h>
#include <stdint.h>

typedef struct {
    const uint8_t *at;
    size_t length;
} slice;

typedef struct {
    uint8_t *at;
    size_t length;
} slice_mut;

// Makes the table of AES. It has to come before any other call.
void plain_start(void);

// A chain of n products by b, the first of a: the ⊕ of the last one's two words, as bench_mul in crates/bench.
uint64_t plain_mul_chain(uint64_t ahi, uint64_t alo, uint64_t bhi, uint64_t blo, uint64_t n);

uint32_t plain_seal(slice key, uint64_t volume, uint64_t address, slice plain, slice_mut local, slice_mut remote, slice_mut tag);

uint32_t plain_judge(slice key, uint64_t volume, uint64_t address, slice local, slice tag, slice remote, slice_mut out);

uint32_t plain_read(slice key, uint64_t volume, size_t s, size_t n, size_t number, slice local, slice tags, slice remote,
                    slice_mut out);

uint32_t plain_mend(slice key, uint64_t volume, size_t s, size_t n, size_t number, slice_mut local, slice_mut tags,
                    slice_mut remote);

// The counts are whole, doubtful, clashing, lost and the health. The list has the lost, the clashing and the doubtful sectors, each rising.
uint32_t plain_survey(slice key, uint64_t volume, size_t s, size_t n, slice local, slice tags, slice remote, uint32_t *list,
                      size_t list_length, uint64_t counts[5]);

#endif
