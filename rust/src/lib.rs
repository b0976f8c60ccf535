//! The double ciphertext mirror: safe calls of a verified library.
//!
//! A **sector** is kept in three places: a local sector, a tag and a remote
//! sector. Sealing makes all three from a plaintext, under a key, a volume's
//! number and an address. Any two of them give the plaintext back, so damage to
//! one place is found and can be mended, unless another plaintext happens to fit
//! two places as well ([`Clashing`](Refusal::Clashing)). A **volume** is one or
//! more sectors in three images; sector `i`, from 0, has address `i`. The
//! **volume's number** is any `u64`, one for each volume under a key; see
//! [`Volume`]. Beside the images comes a [map of suspects](#the-map-of-suspects).
//!
//! | what | how many bytes |
//! |---|---|
//! | key | 32, at random: the hash key h, 16 bytes (not all zero, which is [refused](Refusal::ZeroHashKey)), then the AES-128 key |
//! | plaintext, local sector, remote sector | the size, a multiple of 16 from 16 to 4,096 |
//! | tag | 16 |
//! | images of a volume of n sectors, n from 1 to 65,536 | local and remote n times the size, tags n times 16 |
//! | map of a volume of n sectors | 8 for each 64 sectors begun: [`map_words`]`(n)` words of type `u64` |
//!
//! Lengths and numbers are not asked of the caller: every value is safe, and a
//! wrong one is refused. Every volume's number and every address is accepted.
//! Each call lists its refusals in the order in which it checks them. **A refused
//! call has changed no byte that it was lent**, but for one bit: where a read, a
//! mend or a write in one call answers [`Lost`](Refusal::Lost) or
//! [`Clashing`](Refusal::Clashing), it has set the sector's bit of the map. What
//! the calls answer is proved of the library (`libmirror.a`, for x86-64 Linux);
//! this crate only hands slices over and names the answers, and is tested, not
//! proved.
//!
//! # One sector
//!
//! ```
//! use mirror::{judge, open, seal, Place, Refusal, Side, Verdict};
//!
//! let key = [7; mirror::KEY_BYTES];
//! let (volume, address, plaintext) = (1, 5, [42; 512]);
//! let (mut local, mut tag, mut remote) = ([0; 512], [0; 16], [0; 512]);
//! seal(&key, volume, address, &plaintext, &mut local, &mut tag, &mut remote)?;
//!
//! local[100] ^= 1;
//! let mut output = [0; 512];
//! let verdict = judge(&key, volume, address, &local, &tag, &remote, &mut output)?;
//! assert_eq!(verdict, Verdict::Doubtful(Place::Local));
//! assert_eq!(output, plaintext);
//!
//! let opened = open(&key, volume, address, Side::Local, &local, &tag, &mut output);
//! assert_eq!(opened, Err(Refusal::NoneFits));
//! # Ok::<(), Refusal>(())
//! ```
//!
//! # A volume
//!
//! A write is three stages with one plaintext, and what each wrote is on the
//! medium before the next begins ([Power cuts](#power-cuts)); in three cases, where
//! nobody has to flush in between, it may be [one call](#a-write-in-one-call).
//! Images and map of a [`Volume`] are lent or owned. Here `write_out` stands for
//! what writes a part to the medium and flushes it.
//!
//! ```
//! use mirror::{map_words, Place, Refusal, Verdict, Volume, KEY_BYTES, TAG_BYTES};
//!
//! let (key, volume, size, count) = ([7; KEY_BYTES], 1, 512, 4);
//! let local = vec![0; count * size];
//! let (tags, remote) = (vec![0; count * TAG_BYTES], local.clone());
//! let map = vec![0; map_words(count)];
//! let mut volume = Volume::new(&key, volume, size, count, local, tags, remote, map);
//! volume.start_map()?;
//! # let write_out = |part: Option<&[u8]>| assert!(part.is_some());
//! for i in 0..count {
//!     volume.blank(i)?;
//!     write_out(volume.local_part(i));
//!     write_out(volume.tag_part(i));
//!     write_out(volume.remote_part(i));
//! }
//!
//! let plaintext = [42; 512];
//! volume.first_stage(2, &plaintext)?;
//! write_out(volume.local_part(2)); // go on only if that succeeded
//! volume.second_stage(2, &plaintext)?;
//! write_out(volume.tag_part(2)); // in one write that the medium does whole
//! volume.third_stage(2, &plaintext)?;
//! write_out(volume.remote_part(2));
//!
//! volume.remote_mut()[2 * size] ^= 1;
//! assert_eq!(volume.mend(2)?, Verdict::Doubtful(Place::Remote));
//! write_out(volume.remote_part(2));
//!
//! let mut output = [0; 512];
//! assert_eq!(volume.read(2, &mut output)?, Verdict::Whole);
//! assert_eq!(output, plaintext);
//!
//! let mut list = [0; 4];
//! let (survey, listed) = volume.survey(&mut list)?;
//! assert_eq!((survey.whole, survey.health), (4, 1000));
//! assert!(listed.is_empty());
//! # Ok::<(), Refusal>(())
//! ```
//!
//! # The map of suspects
//!
//! The map says which sectors to look at, without judging all of them: it has one
//! bit a sector, and a set bit means suspect. Sector `i` is bit `i` mod 64, lowest
//! first, of word `i` / 64. [`Volume::start_map`] sets the bits of all sectors.
//! From then on a call on one sector writes that sector's bit, by its answer:
//!
//! | call | answer | the sector's bit |
//! |---|---|---|
//! | blank, third stage | done | cleared |
//! | mend, write in one call | any verdict | cleared |
//! | first stage, second stage | done | set |
//! | read | whole | cleared |
//! | read | doubtful | set |
//! | read, mend, write in one call | refused: [`Lost`](Refusal::Lost), [`Clashing`](Refusal::Clashing) | set |
//! | any of these | another refusal, also [`StageOrder`](Refusal::StageOrder) on a lost sector | as it was |
//!
//! No other bit changes. A survey checks the map's length and leaves the map
//! alone. [`Volume::count_suspects`] counts the suspects, [`Volume::is_suspect`]
//! tells of one sector, and neither judges.
//!
//! ```
//! use mirror::{Refusal, Verdict, Volume, KEY_BYTES};
//!
//! let key = [7; KEY_BYTES];
//! let mut volume = Volume::new(&key, 1, 16, 4, [0; 64], [0; 64], [0; 64], [0]);
//! volume.start_map()?;
//! for number in 0..4 {
//!     volume.blank(number)?;
//! }
//! assert_eq!(volume.count_suspects()?, 0);
//!
//! volume.remote_mut()[3 * 16] ^= 1; // no call has met this damage yet
//! assert_eq!(volume.is_suspect(3), Some(false));
//! assert_ne!(volume.read(3, &mut [0; 16])?, Verdict::Whole);
//! assert_eq!((volume.is_suspect(3), volume.map()), (Some(true), &[0b1000][..]));
//! volume.mend(3)?;
//! assert_eq!(volume.count_suspects()?, 0);
//! # Ok::<(), Refusal>(())
//! ```
//!
//! **A map says what the calls that it was lent to have met, and nothing else:**
//!
//! - A set bit does not say that a sector is damaged. No call has written the bit
//!   since the start, or a write has not had its third stage there, or the sector
//!   was not whole when it was last read, or could not be mended. A read tells, and
//!   clears the bit of a whole sector.
//! - A clear bit says that a sector was whole after the call that last wrote the
//!   bit. It is whole still where all calls with this map took one key, one
//!   volume's number, one size and the count of the start, and nothing else wrote
//!   the images or the map.
//! - Damage that no call has met shows nowhere. A survey finds it, and sets no bit.
//! - A bit changes when the call answers, before the caller has written anything
//!   out. So after a power cut, or where writing out has failed, start the map anew.
//!
//! # Power cuts
//!
//! The calls work on images in memory; the caller writes out the part that a
//! call changed, and flushes it. What is promised of a volume after a power cut
//! holds if the caller sees to all of this:
//!
//! - **A call is finished only once what it wrote is on the medium.** Until then
//!   a power cut, whenever it comes and whatever is being done on other sectors,
//!   is a cut in that call, and so is writing out that fails. After it, load the
//!   images from the medium again, and start the map anew.
//! - **Flush before the next call on the volume.** If several calls are not
//!   finished when the power goes, it is a cut in each of them, and no two may be
//!   on one sector: that is outside the promise. A second stage over a first that
//!   is not on the medium can lose the sector.
//! - **Writing out one sector's part leaves every other sector as it was**, cut or
//!   not. A medium writes units, often of 512 bytes; 32 tags share such a unit,
//!   and so do sectors whose size is no multiple of it. If a cut can tear or lose
//!   a unit, the neighbours in it go too. So the medium writes a unit whole or not
//!   at all, or the caller gives each part units of its own, or keeps a journal.
//! - **A tag goes out in one write that the medium does whole**: after a cut it is
//!   the old one or the new one, never a mixture. A local or remote sector whose
//!   write had begun may then hold anything.
//! - **The images are private memory.** A call may store a tag byte by byte: in
//!   a shared mapping of the medium a kill or a power cut between two bytes
//!   leaves a mixture, and a second stage cut so loses the sector. It is enough
//!   to reserve the images (`vec![0; count * size]`) and to fill only the
//!   sectors at hand: a call on one sector goes by that sector's parts and
//!   writes no others. The images may be the medium itself only where a tag
//!   lands whole all the same: see case 2 of [a write in one
//!   call](#a-write-in-one-call).
//! - **A write is the three stages, with a flush after each.** [`Volume::write`]
//!   leaves no time to flush in between, and is for [three
//!   cases](#a-write-in-one-call) only.
//!
//! Between the stages of a write and after a cut in one, a read gives the old
//! plaintext until the tag is written and the new one from then on, or it refuses
//! [`Clashing`](Refusal::Clashing): that only if another plaintext fits two
//! places, as the old or the new one does where both have the same tag. Read and
//! mend then refuse until the write goes on. The next stage with the same
//! plaintext is accepted all the same, and the third ends the clash.
//!
//! After a cut in separate stages, read the sector. If it is doubtful, mend it, and
//! see by the plaintext whether to write again. If it clashes, make the second and
//! the third stage with the same plaintext. If the second is refused
//! ([`StageOrder`](Refusal::StageOrder)), the first was cut, and the old plaintext
//! still fits tag and remote sector: [`rebuild`] from the remote side (under the
//! volume's number; the address is the sector's number) gives the local sector
//! that belongs there. This last step is only for where it is known that a first
//! stage had begun. Where a mend before it may have been cut instead, go by what is
//! said of [a write in one call](#a-write-in-one-call).
//!
//! # A write in one call
//!
//! [`Volume::write`] reads a sector, mends it if it is doubtful, and makes the
//! three stages. A power cut in it is a cut in one of these calls, or between two: a
//! sector that held a plaintext and did not clash then holds the old one or the new
//! one, on the same premise as above. What each of these calls wrote has landed
//! before the next writes, and a tag lands whole; but the caller cannot flush in
//! between. So it is for these three cases only:
//!
//! 1. **Power cannot go within the call**: a battery lasts until it has answered and
//!    what it stored is safe.
//! 2. **The images are themselves the medium**, as in persistent memory, and there
//!    what each of these calls stores lands before what the next one stores, and a
//!    tag at once. The library does nothing for that: its stores are ordinary ones,
//!    without flush or fence, the compiler may reorder them within the call, and a
//!    tag may be stored byte by byte. Unless all this is known to be right on a
//!    platform, take the other cases alone. A shared mapping of files on a disk is
//!    no such medium: its pages reach the disk in any order.
//! 3. **The images are in memory and are saved between calls**, all three in one
//!    step that is done whole or not at all. Power may go within the call then: a
//!    cut leaves the volume of the last save. Of a sector that was written several
//!    times since, that may be neither the old nor the new plaintext of the last
//!    write, but what it held at the save.
//!
//! Whoever brings the images to a disk by writing out parts and flushing needs the
//! three stages, with a flush after each. After a write in one call all three places
//! differ from the disk at once: a cut while they are written out can lose the
//! sector, and no order of writing them out is right for every verdict.
//!
//! **After a cut in it.** In case 3 load the last save and start the map anew: no sector
//! shows the cut. In case 2, the only one where it shows, start the map anew, and read the
//! sector. Whole or doubtful: the plaintext is the old one or the new one; mend.
//! [`Clashing`](Refusal::Clashing): the one that is kept, old or new, fits the tag
//! and one of the sides, but nobody knows which of the calls was cut, and so which
//! side. Rebuild neither side yet.
//!
//! - If the new plaintext is at hand and wanted, make the second stage with it. If
//!   that is accepted, make the third: the new one is kept, whole.
//! - If the second is refused ([`StageOrder`](Refusal::StageOrder)), the new one had
//!   not reached the local sector, and the old one is kept. If the first stage was
//!   cut, the remote side and the tag have it; if it was the mend, perhaps the local
//!   side and the tag. Rebuilding from the wrong side destroys it. To have the new
//!   one all the same, blank the sector and write again. The blank destroys the old
//!   one: keep the new one until both are done.
//! - To have what is kept: [`open`] of each side with the tag gives it. If one side
//!   is refused ([`NoneFits`](Refusal::NoneFits)), it is what the other gives. If
//!   both give a plaintext, only somebody who knows the data can tell which it is;
//!   if nobody does, take a backup. Then [`rebuild`] from the side that gave it:
//!   with the other side so made the sector is whole.
//!
//! # Secrets
//!
//! Local and remote sector together give the plaintext **without** the key
//! ([`combine`]). One key and number belong to one volume: key, number, address and
//! plaintext alone decide all bytes, so under one key and one number equal sectors
//! at equal addresses look equal, and a sector of one volume is accepted in the
//! other. The number is not secret, and no key. A call does not wipe what it leaves
//! on the stack, and its time depends on secret bits. What an attacker can guess or
//! forge is no claim of the library.
//!
//! The hash key, the first 16 bytes of a key, must not be zero: all plaintexts would
//! have one tag, a sector with a damaged side would clash, and whoever sees one side
//! and knows one sector's plaintext could read the other sectors. Since release 0.8.0
//! every call with a key answers [`ZeroHashKey`](Refusal::ZeroHashKey) then. That is
//! all that is checked of a key's bytes: any other key is accepted, however weak.
//! What was sealed under such a key needs crate and library of a release before
//! 0.8.0: read it with these, and write it with this release to a new volume under a
//! new key, in another program. `docs/OPERATORS.md` in the repository has the steps.
//!
//! # Memory and threads
//!
//! A call keeps no state and allocates nothing. [`Volume::survey`] uses less than
//! 48 KiB of stack, [`Volume::write`] less than 24 KiB, every other call less than
//! 20 KiB (measured, not proved). A call may be made from any thread. A call on
//! one sector borrows the whole volume by `&mut`, and so does a read, since it
//! writes the map: on one volume only surveys and looks at the map run at once. To
//! read in several threads, make a volume for each over the same images, lent as
//! `&[u8]`, with a map of its own. Such a map says what its own reads have met;
//! start it anew when the images have been written.
//!
//! # The library
//!
//! `libmirror.a` is linked from the folder that the variable `MIRROR_LIB_DIR`
//! names. If that is not set, it is taken from `target/staticlib` of the
//! repository, or from where `pkg-config` finds `mirror`. It has to be of the same
//! release as this crate: compare [`version`], which the library answers, with
//! [`VERSION`].

#![no_std]
#![deny(missing_docs)]
#![deny(clippy::undocumented_unsafe_blocks)]

mod answer;
pub mod ffi;
mod map;
mod sector;
mod version;
mod volume;

pub use answer::{Place, Refusal, Side, Verdict};
pub use map::{count_suspects, map_words, start_map};
pub use sector::{combine, judge, open, rebuild, seal};
pub use version::{version, VERSION};
pub use volume::{ByKind, Survey, Volume};

/// The bytes of a key.
pub const KEY_BYTES: usize = 32;

/// The bytes of a tag.
pub const TAG_BYTES: usize = 16;

/// The bytes of the smallest sector.
pub const SECTOR_BYTES_MIN: usize = 16;

/// The bytes of the largest sector.
pub const SECTOR_BYTES_MAX: usize = 4096;

/// The sectors of the largest volume.
pub const VOLUME_SECTORS_MAX: usize = 65_536;

/// The README's example, as a test.
#[cfg(doctest)]
#[doc = include_str!("../README.md")]
pub struct Readme;
