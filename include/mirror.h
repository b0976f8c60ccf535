/*
 * mirror.h: the double ciphertext mirror. For C99 and C++11, and later ones; the library is libmirror.a, for x86-64 Linux on a processor of
 * level x86-64-v2 or above, as nearly all since about 2013 are. On a lesser one an illegal instruction ends the program.
 * SPDX-License-Identifier: Apache-2.0
 *
 * A SECTOR is kept in three places: a local sector, a tag and a remote sector. Sealing makes all three from a plaintext, under a key, a
 * volume's number and an address. Any two of them give the plaintext back, so damage to one place is found and can be mended, unless
 * another plaintext happens to fit two places as well (clashing). A plaintext FITS a place if sealing it gives the bytes that are there.
 *
 *   key        32 bytes: the hash key h (16 bytes, not all of them zero), then the AES-128 key K (16 bytes). Choosing both at random is the
 *              caller's part; see SECRETS.
 *   sector     s bytes, s a multiple of 16 from 16 to 4,096; the plaintext, the local and the remote sector all have s bytes
 *   tag        16 bytes
 *   address    any 64-bit number; a sector is judged at the address that it was sealed at
 *   volume     n sectors, n from 1 to 65,536, in three images: local (n*s bytes), tags (n*16 bytes), remote (n*s bytes).
 *              Sector number i, from 0, has address i: its parts begin at i*s, i*16 and i*s.
 *              A volume has a number too, `volume` in the calls: any 64-bit number, one for each volume under a key, and never used again
 *              for another volume under that key; 0 for volumes made by releases before 0.3.0. It is not secret. The library does not
 *              store it: keep it beside the volume, as s and n. A sector is judged under the number that it was sealed under; under
 *              another it is lost, unless its plaintext has one tag under both.
 *   map        which sectors of a volume are suspect: (n+63)/64 words of 64 bits, lent to every call on a volume beside its images; see MAP
 *
 * BUILD AND LINK. In the library's source tree `scripts/install PREFIX` puts mirror.h into PREFIX/include, libmirror.a into PREFIX/lib and
 * mirror.pc into PREFIX/lib/pkgconfig. A program is then built by
 *
 *   cc program.c $(pkg-config --cflags --libs mirror)
 *
 * If pkg-config does not find mirror, it does not search this prefix: export PKG_CONFIG_PATH=PREFIX/lib/pkgconfig. Without pkg-config it
 * is `cc -IPREFIX/include program.c PREFIX/lib/libmirror.a`.
 *
 * ANSWERS. Each call returns one number: 0 or MIRROR_DOUBTFUL_... when it is done, or a refusal, MIRROR_REFUSED_..., from 1 to 11, 13 or
 * 14 (12 is the program frames's own). The refusals of a call are checked in the order in which they stand at it below, and the first that
 * holds is the answer. A refused call has changed none of the bytes that it was lent, with one exception: a mirror_read, mirror_mend or
 * mirror_write that refuses 6 or 7 has set its sector's bit in the map, and changed nothing else. `out` is written when the answer is
 * certain, and all of it. Always look at the answer: after a refusal `out` is what it was before. mirror_text gives a text for each answer.
 * Judge, read, mend and write are done with MIRROR_DOUBTFUL_... too: of these `!= MIRROR_DONE` is no test of failure, mirror_is_refusal is.
 *
 * MAP. Every call on a volume is lent a map of its suspect sectors, to know what to look at without judging all of them. It has one bit a
 * sector: sector i is bit i mod 64, lowest first, of word i/64. A set bit means suspect; mirror_is_suspect tests one, and
 * mirror_count_suspects counts them. A map of n sectors has exactly (n+63)/64 words, MIRROR_MAP_WORDS(n), else the call refuses 13. It is
 * started by mirror_start_map: all n bits set, those past n clear. From then on a call on one sector changes that sector's bit at most:
 *
 *   call                       answer                  the sector's bit
 *   blank, third stage         0                       cleared
 *   mend, write                0, 0x81, 0x82, 0x83     cleared: the sector is whole now
 *   first stage, second stage  0                       set
 *   read                       0                       cleared
 *   read                       0x81, 0x82, 0x83        set
 *   read, mend, write          6 lost, 7 clashing      set, and no other byte that was lent is changed
 *   all of these               any other refusal       as it was, after 10 too, even if the sector is lost
 *   survey                     any                     the whole map as it was: only its length is looked at
 *
 *   - A set bit does not say that the sector is damaged. It has not been cleared since the start, or the last call that changed it was a
 *     first or second stage, or found the sector doubtful, lost or clashing.
 *   - A clear bit says that the sector is whole, but only if all calls since the start took this map and one key, number and s, and the n
 *     of the start, and nothing else has written the images or the map. No call checks this: a map started for another n may have as many
 *     words, and is accepted then.
 *   - Damage that no call has met yet shows nowhere in the map. A read of the sector meets it. A survey meets it too, but leaves the map
 *     alone: read the sectors that it lists, and the map has them.
 *   - A bit changes when the call answers, before the caller has written anything out. So after a power cut, or where writing out has
 *     failed, the map is worth nothing: start it anew.
 *   - The library does not store the map. Start one when the volume is opened: all sectors are suspect then, and reading or mending them
 *     clears the bits of those that are whole. No call can tell whether a map was started: one of zeros is accepted, and then none is
 *     suspect, whatever the sectors hold.
 *
 * POINTERS. Each buffer goes as a pointer and its length (size_t), in elements. A call has no way to check these, the caller sees to it:
 *   - a pointer is valid for its length, and the length in bytes is at most PTRDIFF_MAX;
 *   - it may be NULL only if its length is 0; `counts` and `count` have no length, are valid for MIRROR_COUNTS_LENGTH numbers and for one,
 *     and are never NULL;
 *   - `list` is aligned for uint32_t, and `map`, `counts` and `count` for uint64_t; bytes need no alignment;
 *   - a buffer that the call may write (one without const) overlaps no other buffer of the call, not even in part. What is proved of a
 *     call says nothing about overlaps. Buffers that are only read may overlap each other.
 * Any lengths and numbers are safe otherwise: wrong ones are refused. Every address and every volume's number is accepted.
 *
 * MEMORY AND THREADS. A call keeps no state between calls, allocates nothing and does no input or output. It needs memcpy and memset from
 * the C library and nothing else. mirror_survey uses less than 48 KiB of stack (MIRROR_STACK_BYTES), mirror_write less than 24 KiB, every
 * other call less than 20 KiB (measured, not proved). Calls may run at once in several threads if no buffer that one of them may write is
 * lent to another. A call on a volume is lent whole images, so on one volume only reads and surveys may run at once. Every call on one
 * sector is lent the map to write, reads too: a read may run beside another read or a survey only if no other call is lent its map; else
 * take a lock. Such a map says only what its own reads have met. Surveys and mirror_count_suspects only read the map: among themselves they
 * may share one. Whoever looks at a map that another thread's call is lent to write, also by mirror_is_suspect, needs the lock too.
 *
 * SECRETS. What an attacker can guess, forge or measure is no claim of this library; SECURITY.md in the source tree says more.
 *   - Local and remote sector together give the plaintext WITHOUT the key (mirror_combine): whoever may read both needs no key.
 *   - h must not be zero. All plaintexts would have one tag, a sector with a damaged side would clash, and whoever sees one side and knows
 *     one sector's plaintext could read the other sectors. Since 0.8.0 every call with a key refuses it, with 14. That is all that a call
 *     checks of a key's bytes: any other key is accepted, however weak, one with K zero or a single bit of h set, or one that somebody can
 *     guess. Choose all 32 bytes at random.
 *   - One key and number belong to one volume: give each volume under a key a number of its own, and never use it again for another
 *     volume under that key. Key, number, address and plaintext alone decide all bytes: two volumes under one key and one number have equal
 *     bytes for equal plaintexts at equal addresses, and a sector of one is accepted in the other, at the same address. Also in one volume
 *     a sector's old bytes, put back into all three places, are accepted. The number is not secret, and no key: see SECURITY.md.
 *   - Timing is not constant: AES and the field products look up tables by secret bits, comparisons end at the first difference, and a
 *     damaged sector takes longer than a whole one.
 *   - A call does not wipe its scratch memory on the stack: what it made from key and plaintext stays there.
 *
 * POWER CUTS. The calls on a volume work on images in memory; the caller writes out the part that a call changed, and flushes it. What is
 * promised of a volume after a power cut holds if the caller sees to all of this (examples/medium.c does, with three files):
 *   - A call is FINISHED only once what it wrote is on the medium. Until then a power cut, whenever it comes and whatever is being done on
 *     other sectors, is a cut in that call, and so is writing out that fails. After it, load the images from the medium again, and start
 *     the map anew.
 *   - So flush before the next call on the volume. If several calls are not finished when the power goes, it is a cut in each of them, and
 *     no two may be on one sector: that is outside the promise. A second stage over a first that is not on the medium can lose the sector.
 *   - Writing out one sector's part, cut or not, leaves every other sector as it was. A medium writes units, often of 512 bytes; 32 tags
 *     share such a unit, and so do sectors whose size is no multiple of it. If a cut can tear or lose a unit, the neighbours in it go too.
 *     So the medium writes a unit whole or not at all, or the caller gives each part units of its own, or keeps a journal.
 *   - A tag goes out in one write that the medium does whole: after a cut it is the old one or the new one, never a mixture. A local or
 *     remote sector whose write had begun may then hold anything.
 *   - The images are private memory. A call may store a tag byte by byte: in a shared mapping of the medium (mmap with MAP_SHARED) a kill
 *     or a power cut between two bytes leaves a mixture, and a second stage cut so loses the sector. The images may be the medium itself
 *     only where a tag lands whole all the same: see case 2 at mirror_write.
 *     It is enough to reserve memory as long as the images (mmap with MAP_PRIVATE, MAP_ANONYMOUS and MAP_NORESERVE) and to fill only the
 *     sectors at hand: a call on one sector goes by that sector's parts and writes no others. Whole parts are then written out from there,
 *     as nbd/run.c in the source tree does.
 *   - A write is the three stages, with a flush after each. mirror_write, which makes them in one call, leaves no time to flush in between.
 *     It is for three cases only, which stand there: power cannot go within the call; the images are themselves a medium that keeps the
 *     order in which the calls store, a tag landing whole; or all three images are saved between calls, in one step that is done whole or
 *     not at all.
 *
 * FROM 0.7.0. A key whose h is zero is refused: every call with a key answers 14 then, before every other refusal but 1. Under any other
 * key each answer and each stored byte is as before, and so are the calls without a key. A program that uses no key with h zero does not
 * have to be changed. Compile it again with this header: mirror_version() is compared with MIRROR_VERSION, and the library answers the new
 * number. A program whose key has h zero gets 14 from every call with a key. What is sealed under that key stays as it is, and needs a
 * release before 0.8.0: read it with such a one, and write it with this one to a new volume, under a new key. Both libraries have the same
 * function names, so that takes two programs; docs/OPERATORS.md in the source tree has the steps, under "Data under a zero hash key".
 *
 * FROM 0.6.0 AND 0.5.0. Besides that, mirror_write is new, and mirror_is_refusal; no other call changes.
 *
 * FROM 0.4.0, and from 0.3.0, which has the same calls. Besides that, every call on a volume takes the map: `map, map_len` behind
 * `remote_len`. No stored byte changes. A program has to do this:
 *   - Lend MIRROR_MAP_WORDS(n) words for each volume, and start the map once, when the volume is opened. All its sectors are suspect then,
 *     and reading or mending them clears.
 *   - Name the two new fields of struct mirror_volume, `map` and `map_len`. Left out of an initialiser with named fields they are 0: the
 *     program compiles as it is, and every call refuses 13.
 *   - Give reads that run at once a map each, or a lock, for a read writes the map. One that refuses 6 or 7 sets a bit, and so does a mend;
 *     before, every refusal left all that was lent as it was.
 *   - Compile everything again, and compare mirror_version() with MIRROR_VERSION: what declares the functions for itself (another language,
 *     a library opened by name) or was compiled with an older header is not warned.
 *
 * FROM 0.2.0. Besides that, every call with a key takes the volume's number behind it; give 0 for a volume of before, and its bytes stay as
 * they are. For struct mirror_volume see its comment.
 *
 * EXAMPLE. One sector, of volume 1, at address 7. For a volume see struct mirror_volume below, and examples/ in the source tree.
 *
 *   uint8_t key[MIRROR_KEY_BYTES], plain[512], local[512], tag[MIRROR_TAG_BYTES], remote[512], out[512];
 *   ...
 *   if (mirror_seal(key, sizeof key, 1, 7, plain, sizeof plain, local, sizeof local, tag, sizeof tag, remote, sizeof remote) !=
 *       MIRROR_DONE)
 *       return -1;
 *   switch (mirror_judge(key, sizeof key, 1, 7, local, sizeof local, tag, sizeof tag, remote, sizeof remote, out, sizeof out)) {
 *   case MIRROR_WHOLE:           return 0;
 *   case MIRROR_DOUBTFUL_LOCAL:
 *   case MIRROR_DOUBTFUL_TAG:
 *   case MIRROR_DOUBTFUL_REMOTE: return 1;  (out has the plaintext; one place is damaged: seal it again, as before)
 *   default:                     return -1; (refused: out is as it was)
 *   }
 */
#ifndef MIRROR_H
#define MIRROR_H

#include <stddef.h>
#include <stdint.h>

/* The release that this header is of: a number, major*1000000 + minor*1000 + patch, which #if can compare, and the same as a text. */
#define MIRROR_VERSION 8000
#define MIRROR_VERSION_TEXT "0.8.0"

/* Sizes in bytes, and the sectors of the largest volume. */
#define MIRROR_KEY_BYTES 32
#define MIRROR_TAG_BYTES 16
#define MIRROR_SECTOR_BYTES_MIN 16
#define MIRROR_SECTOR_BYTES_MAX 4096
#define MIRROR_VOLUME_SECTORS_MAX 65536
#define MIRROR_STACK_BYTES 49152

/* The 64-bit words of a map of n sectors: (n+63)/64, without overflow. A constant expression where n is one; n is evaluated twice. */
#define MIRROR_MAP_WORDS(n) ((n) / 64 + ((n) % 64 != 0))

/* Sides. */
#define MIRROR_SIDE_LOCAL 0u
#define MIRROR_SIDE_REMOTE 1u

/* Answers of a call that is done. Judge, read, mend and write answer one of the last four; a mend and a write what they found before. */
#define MIRROR_DONE 0u               /* any other call: it has written what is due */
#define MIRROR_WHOLE 0u              /* one plaintext fits all three places */
#define MIRROR_DOUBTFUL_LOCAL 0x81u  /* exactly one plaintext fits two places, and it does not fit the local sector */
#define MIRROR_DOUBTFUL_TAG 0x82u    /* the same, and it does not fit the tag */
#define MIRROR_DOUBTFUL_REMOTE 0x83u /* the same, and it does not fit the remote sector */

/* Refusals, with what to do. */
#define MIRROR_REFUSED_KEY_LENGTH 1u     /* the key does not have 32 bytes: give h and then K */
#define MIRROR_REFUSED_SECTOR_SIZE 2u    /* the size is not a multiple of 16 from 16 to 4,096: give the size that the sector or the
                                            volume was made with */
#define MIRROR_REFUSED_OTHER_LENGTH 3u   /* a plaintext, a sector, a tag or an output has another length than it must have: give s bytes,
                                            16 for a tag */
#define MIRROR_REFUSED_UNKNOWN_SIDE 4u   /* the side is neither MIRROR_SIDE_LOCAL nor MIRROR_SIDE_REMOTE: name one of them */
#define MIRROR_REFUSED_NONE_FITS 5u      /* no plaintext fits this side and this tag: see that key, volume's number and address
                                            are the sector's; then try the other side, or judge if both are there */
#define MIRROR_REFUSED_LOST 6u           /* no plaintext fits two places: check the key and the volume's number on other sectors; if they
                                            are right, blank, and write from a backup */
#define MIRROR_REFUSED_CLASHING 7u       /* more than one plaintext fits two places: if a write was under way, go on with its second and
                                            third stage (if the second refuses 10, see "After a cut in separate stages" or "After a cut
                                            in mirror_write" below); otherwise open each side, combine both, choose, blank, and write
                                            the choice */
#define MIRROR_REFUSED_VOLUME_SHAPE 8u   /* n is not 1 to 65,536, or an image has another length than s and n ask for: check s, n and the
                                            images */
#define MIRROR_REFUSED_SECTOR_NUMBER 9u  /* the sector's number is not below n: sectors count from 0 */
#define MIRROR_REFUSED_STAGE_ORDER 10u   /* this stage is not due: read the sector, mend it if doubtful, and begin with the first stage */
#define MIRROR_REFUSED_LIST_LENGTH 11u   /* the list is shorter than n: lend one entry for each sector */
#define MIRROR_REFUSED_MAP_LENGTH 13u    /* the map does not have exactly (n+63)/64 words: lend MIRROR_MAP_WORDS(n), and start it */
#define MIRROR_REFUSED_ZERO_HASH_KEY 14u /* the hash key h, the first 16 bytes, is all zero: see that the key was loaded, and give a new
                                            volume a key of 32 random bytes; what was sealed under this one needs a release before
                                            0.8.0, see FROM 0.7.0 */

/*
 * What a survey puts into counts[]: four counts that add up to n, and the health, which is whole * 1000 / n, rounded down. The list has the
 * kinds in another order: see mirror_survey.
 */
#define MIRROR_COUNT_WHOLE 0
#define MIRROR_COUNT_DOUBTFUL 1
#define MIRROR_COUNT_CLASHING 2
#define MIRROR_COUNT_LOST 3
#define MIRROR_COUNT_HEALTH 4
#define MIRROR_COUNTS_LENGTH 5

/* An answer that nobody looks at is a mistake, and the compiler says so where it can. */
#if defined(__GNUC__)
#define MIRROR_ANSWER __attribute__((warn_unused_result)) uint32_t
#else
#define MIRROR_ANSWER uint32_t
#endif

#ifdef __cplusplus
extern "C" {
#endif

/*
 * The MIRROR_VERSION of the library that is linked. A program that was compiled with the header of one release and linked with the library
 * of another may call functions with other arguments, or in another order, and nothing else tells it. So look once, before the first call:
 *   if (mirror_version() != MIRROR_VERSION) return -1;
 */
uint32_t mirror_version(void);

/* ---- one sector. Every call takes its places in the order local, tag, remote. The volume's number and the address together are what a
 * sector is sealed under. Both are 64-bit numbers: exchanging the two is not noticed where every call does it, and gives lost where one
 * call does (5 from mirror_open and mirror_rebuild). */

/*
 * Seals the plaintext under key, volume's number and address: writes local, tag and remote.
 *   1 key_len is not 32
 *   14 h, the first 16 bytes of key, is all zero
 *   2 plain_len is not a sector size
 *   3 local_len or remote_len is not plain_len, or tag_len is not 16
 *   MIRROR_DONE
 */
MIRROR_ANSWER mirror_seal(const uint8_t *key, size_t key_len, uint64_t volume, uint64_t address, const uint8_t *plain, size_t plain_len,
                          uint8_t *local, size_t local_len, uint8_t *tag, size_t tag_len, uint8_t *remote, size_t remote_len);

/*
 * Judges a sector and writes its plaintext to out. It mends nothing: after MIRROR_DOUBTFUL_... seal the plaintext again, under the same
 * number and address, and write the place that the answer names.
 *   1 key_len is not 32
 *   14 h, the first 16 bytes of key, is all zero
 *   2 local_len is not a sector size
 *   3 remote_len or out_len is not local_len, or tag_len is not 16
 *   6 lost
 *   7 clashing
 *   MIRROR_WHOLE, MIRROR_DOUBTFUL_LOCAL, MIRROR_DOUBTFUL_TAG, MIRROR_DOUBTFUL_REMOTE: out has the plaintext
 */
MIRROR_ANSWER mirror_judge(const uint8_t *key, size_t key_len, uint64_t volume, uint64_t address, const uint8_t *local, size_t local_len,
                           const uint8_t *tag, size_t tag_len, const uint8_t *remote, size_t remote_len, uint8_t *out, size_t out_len);

/*
 * Opens one side with the tag, where the other side is not at hand: writes to out the one plaintext that fits both.
 *   1 key_len is not 32
 *   14 h, the first 16 bytes of key, is all zero
 *   2 sector_len is not a sector size
 *   3 tag_len is not 16, or out_len is not sector_len
 *   4 side is neither MIRROR_SIDE_LOCAL nor MIRROR_SIDE_REMOTE
 *   5 no plaintext fits both
 *   MIRROR_DONE
 */
MIRROR_ANSWER mirror_open(const uint8_t *key, size_t key_len, uint64_t volume, uint64_t address, uint32_t side, const uint8_t *sector,
                          size_t sector_len, const uint8_t *tag, size_t tag_len, uint8_t *out, size_t out_len);

/*
 * Rebuilds the other side: `side` says which one `sector` is, and out is given the sector of the side that is missing. Refuses as
 * mirror_open does.
 *   1, 14, 2, 3, 4, 5 as mirror_open
 *   MIRROR_DONE
 */
MIRROR_ANSWER mirror_rebuild(const uint8_t *key, size_t key_len, uint64_t volume, uint64_t address, uint32_t side, const uint8_t *sector,
                             size_t sector_len, const uint8_t *tag, size_t tag_len, uint8_t *out, size_t out_len);

/*
 * Writes local ^ remote to out, without a key. It is the plaintext if both sides are as sealed; nothing is checked of that.
 *   2 local_len is not a sector size
 *   3 remote_len or out_len is not local_len
 *   MIRROR_DONE
 */
MIRROR_ANSWER mirror_combine(const uint8_t *local, size_t local_len, const uint8_t *remote, size_t remote_len, uint8_t *out,
                             size_t out_len);

/* ---- a volume. `volume` is its number, and `number` that of a sector. Both are integers, and the compiler does not tell them apart: where
 * they are exchanged and `volume` is below n, a blank is accepted and destroys the sector of that number. All images are lent to every
 * call, whole, and behind them the map (see MAP), whose length map_len counts 64-bit words; a call may write only what it takes without
 * const. struct mirror_volume below saves the repeated arguments, and the exchange with them. */

/*
 * Starts a map: sets the bits of all n sectors and clears those past n. Due when a volume is opened, and after a power cut.
 *   8 n is not 1 to 65,536
 *   13 map_len is not MIRROR_MAP_WORDS(n)
 *   MIRROR_DONE
 */
MIRROR_ANSWER mirror_start_map(size_t n, uint64_t *map, size_t map_len);

/*
 * Counts the suspects: writes to *count how many of the map's bits 0 to n-1 are set. Bits past n do not count.
 *   8, 13 as mirror_start_map: *count is as it was
 *   MIRROR_DONE
 */
MIRROR_ANSWER mirror_count_suspects(size_t n, const uint64_t *map, size_t map_len, uint64_t *count);

/*
 * Blanks one sector: seals a plaintext of s zeros into its part of all three images, whatever was there. Each sector of a new volume is
 * blanked before its first write. A cut leaves anything in the sector: blank it again.
 *   1 key_len is not 32
 *   14 h, the first 16 bytes of key, is all zero
 *   2 s is not a sector size
 *   8 n is not 1 to 65,536, local_len or remote_len is not n*s, or tags_len is not n*16
 *   13 map_len is not MIRROR_MAP_WORDS(n)
 *   9 number is not below n
 *   MIRROR_DONE: the sector's bit in the map is cleared
 */
MIRROR_ANSWER mirror_blank(const uint8_t *key, size_t key_len, uint64_t volume, size_t s, size_t n, size_t number, uint8_t *local,
                           size_t local_len, uint8_t *tags, size_t tags_len, uint8_t *remote, size_t remote_len, uint64_t *map,
                           size_t map_len);

/*
 * A write is three calls with the same plaintext, in this order, each finished (see POWER CUTS) before the next begins. Each writes only
 * the sector's part of the one image that it takes without const, and the sector's bit in the map. mirror_write below makes them in one
 * call, but is not for images that are written out to a disk part by part: it has a condition of its own.
 *
 * Between the stages and after a cut in one, a read gives the old plaintext until the tag is written and the new one from then on, or it
 * refuses 7: that only if another plaintext fits two places, as the old or the new one does where both have the same tag. Read and mend
 * then refuse 7 until the write goes on. The next stage with the same plaintext is accepted all the same, and the third ends the clash.
 *
 * After a cut in separate stages: read the sector. If it is doubtful, mend it, and see by the plaintext whether to write again. If it
 * clashes, make the second and the third stage with the same plaintext. If the second refuses 10, the first was cut, and the old plaintext
 * still fits tag and remote sector: mirror_rebuild from the remote side (under the volume's number; the address is the sector's number)
 * gives the local sector that belongs there. This last step is only for where it is known that a first stage had begun. Where a mend before
 * it may have been cut instead, go by "After a cut in mirror_write" below.
 *
 * First stage: writes the local sector. 10 if the sector is not whole: go by the answer that a read of it gives.
 * Second stage: writes the tag. 10 if the plaintext does not fit the local sector.
 * Third stage: writes the remote sector. 10 if the plaintext does not fit both local sector and tag.
 * After 10 from the second or third: read the sector, mend it if doubtful, and begin again with the first stage.
 *   1, 14, 2, 8, 13, 9 as mirror_blank
 *   3 plain_len is not s
 *   10 the stage is not due: the map is left alone, whatever the sector's state
 *   MIRROR_DONE: the sector's bit in the map is set by the first and the second stage, and cleared by the third
 */
MIRROR_ANSWER mirror_first_stage(const uint8_t *key, size_t key_len, uint64_t volume, size_t s, size_t n, size_t number,
                                 const uint8_t *plain, size_t plain_len, uint8_t *local, size_t local_len, const uint8_t *tags,
                                 size_t tags_len, const uint8_t *remote, size_t remote_len, uint64_t *map, size_t map_len);
MIRROR_ANSWER mirror_second_stage(const uint8_t *key, size_t key_len, uint64_t volume, size_t s, size_t n, size_t number,
                                  const uint8_t *plain, size_t plain_len, const uint8_t *local, size_t local_len, uint8_t *tags,
                                  size_t tags_len, const uint8_t *remote, size_t remote_len, uint64_t *map, size_t map_len);
MIRROR_ANSWER mirror_third_stage(const uint8_t *key, size_t key_len, uint64_t volume, size_t s, size_t n, size_t number,
                                 const uint8_t *plain, size_t plain_len, const uint8_t *local, size_t local_len, const uint8_t *tags,
                                 size_t tags_len, uint8_t *remote, size_t remote_len, uint64_t *map, size_t map_len);

/*
 * Reads one sector: judges it and writes its plaintext to out. It mends nothing: after MIRROR_DOUBTFUL_... call mirror_mend soon, for
 * damage to a second place can lose the sector.
 *   1, 14, 2, 8, 13, 9 as mirror_blank
 *   3 out_len is not s
 *   6 lost: the sector's bit in the map is set, and nothing else has changed
 *   7 clashing: the same
 *   MIRROR_WHOLE: out has the plaintext, and the bit is cleared
 *   MIRROR_DOUBTFUL_LOCAL, MIRROR_DOUBTFUL_TAG, MIRROR_DOUBTFUL_REMOTE: out has the plaintext, and the bit is set
 */
MIRROR_ANSWER mirror_read(const uint8_t *key, size_t key_len, uint64_t volume, size_t s, size_t n, size_t number, const uint8_t *local,
                          size_t local_len, const uint8_t *tags, size_t tags_len, const uint8_t *remote, size_t remote_len, uint64_t *map,
                          size_t map_len, uint8_t *out, size_t out_len);

/*
 * Mends one sector: writes the doubtful place anew, as the one plaintext seals, and nothing if the sector is whole. The answer is what it
 * found before; afterwards the sector is whole. Where it refuses 6 or 7 it has written nothing but the sector's bit in the map. Write out
 * the place that the answer names. After a cut: mend again.
 *   1, 14, 2, 8, 13, 9 as mirror_blank
 *   6 lost: the sector's bit in the map is set, and nothing else has changed
 *   7 clashing: the same
 *   MIRROR_WHOLE: no image is written, and the bit is cleared
 *   MIRROR_DOUBTFUL_LOCAL, MIRROR_DOUBTFUL_TAG, MIRROR_DOUBTFUL_REMOTE: that place is written, and the bit is cleared
 */
MIRROR_ANSWER mirror_mend(const uint8_t *key, size_t key_len, uint64_t volume, size_t s, size_t n, size_t number, uint8_t *local,
                          size_t local_len, uint8_t *tags, size_t tags_len, uint8_t *remote, size_t remote_len, uint64_t *map,
                          size_t map_len);

/*
 * Writes one sector in one call: reads it, mends it if it is doubtful, and makes the three stages with the plaintext. The answer is what it
 * found before, and MIRROR_DOUBTFUL_... is no failure: the plaintext is written then too. Afterwards the sector is whole, sealed as the
 * plaintext in all three places. It refuses as a read does, and no stage in it refuses, so 10 never comes. It has failed
 *   if (mirror_is_refusal(answer)) ... (and not if answer != MIRROR_DONE, which is so of a write over a doubtful sector too)
 *
 * When it may be used. A power cut in it is a cut in one of the calls that it makes, or between two. A sector that held a plaintext and did
 * not clash then holds the old one or the new one, on the same premise as with separate calls: what each of them wrote has landed before
 * the next writes, and a tag lands whole. But here the caller cannot flush in between. So it is for these three cases only:
 *   1. Power cannot go within the call: a battery lasts until it has answered and what it stored is safe.
 *   2. The images are themselves the medium, as in persistent memory, and there what each of these calls stores lands before what the next
 *      one stores, and the 16 bytes of a tag at once. The library does nothing for that: its stores are ordinary ones, without flush or
 *      fence, the compiler may reorder them within mirror_write, and a tag may be stored byte by byte. Unless all this is known to be right
 *      on a platform, take the other cases alone. A shared mapping of files on a disk (mmap) is no such medium: its pages reach the disk in
 *      any order.
 *   3. The images are in memory and are saved between calls, all three in one step that is done whole or not at all. Power may go within
 *      the call then: a cut leaves the volume of the last save. Of a sector that was written several times since, that may be neither the
 *      old nor the new plaintext of the last write, but what it held at the save.
 * Whoever brings the images to a disk by writing out parts and flushing needs the three stages, with a flush after each. After mirror_write
 * all three places differ from the disk at once: a cut while they are written out can leave a sector of which nothing fits two places, and
 * no order of writing them out is right for every answer.
 *
 * After a cut in mirror_write. In case 3 load the last save and start the map anew: no sector shows the cut. In case 2, the only one where
 * it shows in the images, start the map anew, and read the sector. Whole or doubtful: the plaintext is the old one or the new one; mend.
 * 7: the one that is kept, old or new, fits the tag and one of the sides, but nobody knows which of the calls was cut, and so which side.
 * Rebuild neither side yet.
 *   - If the new plaintext is at hand and wanted, make the second stage with it. If that is accepted, make the third: the new one is kept,
 *     whole.
 *   - If the second refuses 10, the new one had not reached the local sector, and the old one is kept. If the first stage was cut, the
 *     remote side and the tag have it; if it was the mend, perhaps the local side and the tag. Rebuilding from the wrong side destroys it.
 *     To have the new one all the same, blank the sector and write again. The blank destroys the old one: keep the new one until both are
 *     done.
 *   - To have what is kept: mirror_open of each side with the tag gives it. If one side refuses 5, it is what the other gives. If both give
 *     a plaintext, only somebody who knows the data can tell which it is; if nobody does, take a backup. Then mirror_rebuild from the side
 *     that gave it: with the other side so made the sector is whole.
 *   1, 14, 2, 8, 13, 9 as mirror_blank
 *   3 plain_len is not s
 *   6 lost, as is a sector that was never blanked: the sector's bit in the map is set, and nothing else has changed
 *   7 clashing: the same
 *   MIRROR_WHOLE: the plaintext is written, and the bit is cleared
 *   MIRROR_DOUBTFUL_LOCAL, MIRROR_DOUBTFUL_TAG, MIRROR_DOUBTFUL_REMOTE: the same; that place had been damaged, or a write was left there
 */
MIRROR_ANSWER mirror_write(const uint8_t *key, size_t key_len, uint64_t volume, size_t s, size_t n, size_t number, const uint8_t *plain,
                           size_t plain_len, uint8_t *local, size_t local_len, uint8_t *tags, size_t tags_len, uint8_t *remote,
                           size_t remote_len, uint64_t *map, size_t map_len);

/*
 * Surveys a volume: judges every sector and writes the five counts. The number of each sector that is not whole stands once at the front
 * of list: n - counts[MIRROR_COUNT_WHOLE] entries. Those behind are untouched. list_len counts entries, not bytes. The map is left as it
 * is, whatever is found: mirror_count_suspects and counts[] may differ.
 *
 * The list is in repair order: the first counts[MIRROR_COUNT_LOST] entries are the lost sectors, the next counts[MIRROR_COUNT_CLASHING] the
 * clashing ones, the next counts[MIRROR_COUNT_DOUBTFUL] the doubtful ones; within a kind the numbers rise. So no read is needed to tell the
 * kinds, and the list is one value for a key, a volume's number and three images. The clashing ones begin at
 * list + counts[MIRROR_COUNT_LOST], the doubtful ones counts[MIRROR_COUNT_CLASHING] entries behind that.
 *   1, 14, 2, 8, 13 as mirror_blank
 *   11 list_len is below n
 *   MIRROR_DONE: go by MIRROR_REFUSED_LOST and MIRROR_REFUSED_CLASHING above for the lost and the clashing sectors, and mend the doubtful.
 *       If counts[MIRROR_COUNT_WHOLE] is 0 the key or the volume's number may be wrong: look for the right ones before anything is
 *       blanked.
 */
MIRROR_ANSWER mirror_survey(const uint8_t *key, size_t key_len, uint64_t volume, size_t s, size_t n, const uint8_t *local, size_t local_len,
                            const uint8_t *tags, size_t tags_len, const uint8_t *remote, size_t remote_len, const uint64_t *map,
                            size_t map_len, uint32_t *list, size_t list_len, uint64_t counts[MIRROR_COUNTS_LENGTH]);

/* ---- written in this header, over the calls above */

/*
 * A text for an answer; for a refusal it says what is wrong, and behind a colon what to do. The size in it is s, and the count is n. Any
 * number has a text, also one that no call answers; it is never NULL, and nothing is to be freed. "doubtful at ..." says what the call has
 * found: after a mend and a write that is what was there before, and the sector is whole now.
 */
static inline const char *mirror_text(uint32_t answer)
{
    switch (answer) {
    case MIRROR_DONE: /* and MIRROR_WHOLE */
        return "done, or whole";
    case MIRROR_REFUSED_KEY_LENGTH:
        return "the key does not have 32 bytes: give the hash key and then the AES key, 16 bytes each";
    case MIRROR_REFUSED_SECTOR_SIZE:
        return "the size is not a multiple of 16 from 16 to 4,096: give the size that the sector or the volume was made with";
    case MIRROR_REFUSED_OTHER_LENGTH:
        return "a plaintext, a sector, a tag or an output has another length than it must have: "
               "give as many bytes as the sector's size, and 16 for a tag";
    case MIRROR_REFUSED_UNKNOWN_SIDE:
        return "the side is neither 0 (local) nor 1 (remote): name one of the two";
    case MIRROR_REFUSED_NONE_FITS:
        return "no plaintext fits this side and this tag: "
               "see that the key, the volume's number and the address are the sector's; "
               "then try the other side, or judge the sector if both are there";
    case MIRROR_REFUSED_LOST:
        return "lost, no plaintext fits two places: "
               "see by other sectors whether the key and the volume's number are right; "
               "if they are, blank the sector and write it from a backup";
    case MIRROR_REFUSED_CLASHING:
        return "clashing, more than one plaintext fits two places: "
               "if a write was under way, go on with its second and third stage "
               "(if the second refuses and it is known that a separate first stage was cut, "
               "rebuild the local sector from the remote side); "
               "otherwise open each side and combine both, choose, blank the sector and write the choice";
    case MIRROR_REFUSED_VOLUME_SHAPE:
        return "the count is not 1 to 65,536, or an image has another length than size and count ask for: "
               "check the size, the count and the three images";
    case MIRROR_REFUSED_SECTOR_NUMBER:
        return "the sector's number is not below the count: sectors count from 0, so give a number below the count";
    case MIRROR_REFUSED_STAGE_ORDER:
        return "this stage is not due: read the sector, mend it if it is doubtful, and begin again with the first stage";
    case MIRROR_REFUSED_LIST_LENGTH:
        return "the list is shorter than the count: lend one entry for each sector";
    case MIRROR_REFUSED_MAP_LENGTH:
        return "the map does not have exactly as many 64-bit words as the count needs: "
               "lend one word for each 64 sectors begun, and start it";
    case MIRROR_REFUSED_ZERO_HASH_KEY:
        return "the hash key, the first 16 bytes of the key, is all zero: "
               "see that the key was loaded, and give a new volume a key of 32 random bytes; "
               "what was sealed under this key needs a release before 0.8.0";
    case MIRROR_DOUBTFUL_LOCAL:
        return "doubtful at the local sector";
    case MIRROR_DOUBTFUL_TAG:
        return "doubtful at the tag";
    case MIRROR_DOUBTFUL_REMOTE:
        return "doubtful at the remote sector";
    default:
        return "no answer of this library: link the release that the header is of";
    }
}

/* Whether an answer is a refusal: 0 if it is MIRROR_DONE, MIRROR_WHOLE or MIRROR_DOUBTFUL_..., else 1, also for what is no answer. */
static inline int mirror_is_refusal(uint32_t answer)
{
    return answer != MIRROR_DONE && (answer < MIRROR_DOUBTFUL_LOCAL || answer > MIRROR_DOUBTFUL_REMOTE);
}

/* Whether a sector is suspect: 1 if its bit in the map is set, else 0. It checks nothing: number is below the n of the map. */
static inline int mirror_is_suspect(const uint64_t *map, size_t number)
{
    return (map[number / 64] >> (number % 64) & 1) != 0;
}

/*
 * A volume: what every call on it is given, named once, in the order of the calls' arguments. Each function below is the call of its name,
 * with the same answers, and the same is asked of the caller. Nothing is checked when the struct is filled: each call checks it whole.
 * It has the pointers alone, so key, images and map stay where they are as long as it is used. Lengths are in bytes, the map's in words.
 *
 *   C99:    uint64_t map[MIRROR_MAP_WORDS(4)];
 *           struct mirror_volume v = {.key = key, .key_len = sizeof key, .volume = 1, .s = 512, .n = 4,
 *                                     .local = local, .local_len = sizeof local, .tags = tags, .tags_len = sizeof tags,
 *                                     .remote = remote, .remote_len = sizeof remote, .map = map, .map_len = MIRROR_MAP_WORDS(4)};
 *   C++11:  mirror_volume v = {}; v.key = key; v.key_len = sizeof key; v.volume = 1; ...
 *   both:   uint32_t answer = mirror_volume_start_map(&v); (once, when the volume is opened)
 *           if (answer == MIRROR_DONE) answer = mirror_volume_blank(&v, 2);
 *           if (answer != MIRROR_DONE) fprintf(stderr, "sector 2: %s\n", mirror_text(answer));
 *           answer = mirror_volume_mend(&v, 2); (or a read or a write, which may answer MIRROR_DOUBTFUL_... too)
 *           if (mirror_is_refusal(answer)) fprintf(stderr, "sector 2: %s\n", mirror_text(answer));
 *
 * Initialise it with named fields, as here, since a later release may have more of them, in other places. A field that is left out of such
 * an initialiser is 0: a length, s or n of 0 is refused, and a `volume` of 0 is the number 0, which volumes of before release 0.3.0 have.
 * So a program that did so for release 0.4.0 compiles as it is, and every call refuses 13 until it names `map` and `map_len`. One that
 * assigns the fields one by one, to a struct that it has not initialised or to memory from malloc, must set `volume`, `map` and `map_len`
 * too: else they are what happened to be there, and the compiler may not say so. One that initialises by position adds `volume` behind
 * key_len, and the map at the end: compilers may only warn. A new volume under a key that another volume has needs a number of its own.
 *
 * Images and map are without const, since most calls write. For images that may only be read call mirror_read and mirror_survey themselves,
 * mirror_read with a map that may be written.
 */
struct mirror_volume {
    const uint8_t *key;
    size_t key_len;
    uint64_t volume; /* the volume's number */
    size_t s;        /* the bytes of a sector */
    size_t n;        /* the sectors */
    uint8_t *local;
    size_t local_len;
    uint8_t *tags;
    size_t tags_len;
    uint8_t *remote;
    size_t remote_len;
    uint64_t *map;
    size_t map_len; /* in words of 64 bits: MIRROR_MAP_WORDS(n) */
};

/* mirror_start_map: when the volume is opened, and after a power cut. */
static inline MIRROR_ANSWER mirror_volume_start_map(const struct mirror_volume *v)
{
    return mirror_start_map(v->n, v->map, v->map_len);
}

/* mirror_count_suspects: the count goes to *count. */
static inline MIRROR_ANSWER mirror_volume_count_suspects(const struct mirror_volume *v, uint64_t *count)
{
    return mirror_count_suspects(v->n, v->map, v->map_len, count);
}

/* mirror_blank: a new sector of zeros. */
static inline MIRROR_ANSWER mirror_volume_blank(const struct mirror_volume *v, size_t number)
{
    return mirror_blank(v->key, v->key_len, v->volume, v->s, v->n, number, v->local, v->local_len, v->tags, v->tags_len, v->remote,
                        v->remote_len, v->map, v->map_len);
}

/* mirror_first_stage: writes the local sector. Write it out and flush it before the second stage. */
static inline MIRROR_ANSWER mirror_volume_first_stage(const struct mirror_volume *v, size_t number, const uint8_t *plain, size_t plain_len)
{
    return mirror_first_stage(v->key, v->key_len, v->volume, v->s, v->n, number, plain, plain_len, v->local, v->local_len, v->tags,
                              v->tags_len, v->remote, v->remote_len, v->map, v->map_len);
}

/* mirror_second_stage: writes the tag. Write it out and flush it before the third stage. */
static inline MIRROR_ANSWER mirror_volume_second_stage(const struct mirror_volume *v, size_t number, const uint8_t *plain, size_t plain_len)
{
    return mirror_second_stage(v->key, v->key_len, v->volume, v->s, v->n, number, plain, plain_len, v->local, v->local_len, v->tags,
                               v->tags_len, v->remote, v->remote_len, v->map, v->map_len);
}

/* mirror_third_stage: writes the remote sector. Write it out and flush it before the next call. */
static inline MIRROR_ANSWER mirror_volume_third_stage(const struct mirror_volume *v, size_t number, const uint8_t *plain, size_t plain_len)
{
    return mirror_third_stage(v->key, v->key_len, v->volume, v->s, v->n, number, plain, plain_len, v->local, v->local_len, v->tags,
                              v->tags_len, v->remote, v->remote_len, v->map, v->map_len);
}

/* mirror_read: the plaintext goes to out, which overlaps no image and not the map. */
static inline MIRROR_ANSWER mirror_volume_read(const struct mirror_volume *v, size_t number, uint8_t *out, size_t out_len)
{
    return mirror_read(v->key, v->key_len, v->volume, v->s, v->n, number, v->local, v->local_len, v->tags, v->tags_len, v->remote,
                       v->remote_len, v->map, v->map_len, out, out_len);
}

/* mirror_mend: writes the place that the answer names. Write it out and flush it. */
static inline MIRROR_ANSWER mirror_volume_mend(const struct mirror_volume *v, size_t number)
{
    return mirror_mend(v->key, v->key_len, v->volume, v->s, v->n, number, v->local, v->local_len, v->tags, v->tags_len, v->remote,
                       v->remote_len, v->map, v->map_len);
}

/* mirror_write: all three stages, and a mend before if one is due. Only where power cannot go within the call, or the images are a medium
 * that keeps the order of the stores, or all three are saved between calls in one step: see the three cases at mirror_write. */
static inline MIRROR_ANSWER mirror_volume_write(const struct mirror_volume *v, size_t number, const uint8_t *plain, size_t plain_len)
{
    return mirror_write(v->key, v->key_len, v->volume, v->s, v->n, number, plain, plain_len, v->local, v->local_len, v->tags, v->tags_len,
                        v->remote, v->remote_len, v->map, v->map_len);
}

/* mirror_survey: the numbers of the lost, then the clashing, then the doubtful sectors go to list, which has n entries or more. */
static inline MIRROR_ANSWER mirror_volume_survey(const struct mirror_volume *v, uint32_t *list, size_t list_len,
                                                 uint64_t counts[MIRROR_COUNTS_LENGTH])
{
    return mirror_survey(v->key, v->key_len, v->volume, v->s, v->n, v->local, v->local_len, v->tags, v->tags_len, v->remote,
                         v->remote_len, v->map, v->map_len, list, list_len, counts);
}

#ifdef __cplusplus
}
#endif

#endif
