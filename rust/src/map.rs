//! The map of suspects, and the calls on it alone.

use crate::answer::done;
use crate::{ffi, Refusal};

/// The sectors that a word of a map stands for.
const WORD_SECTORS: usize = u64::BITS as usize;

/// The 64-bit words that a map of `count` sectors has: one for each 64 sectors
/// begun.
///
/// ```
/// let map = [0; mirror::map_words(130)];
/// assert_eq!(map.len(), 3);
/// ```
pub const fn map_words(count: usize) -> usize {
    count.div_ceil(WORD_SECTORS)
}

/// Starts a map of `count` sectors: sets the bits of all of them, and clears those
/// past them. [`Volume::start_map`](crate::Volume::start_map) does this to a
/// volume's own map.
///
/// Every map is started before the first call that it is lent to, and
/// [anew after a power cut](crate#the-map-of-suspects). No call can tell whether it
/// was: a map of zeros is accepted, and then no sector is suspect.
///
/// ```
/// let mut map = [0; mirror::map_words(70)];
/// mirror::start_map(70, &mut map)?;
/// assert_eq!(map, [u64::MAX, 0b11_1111]);
/// # Ok::<(), mirror::Refusal>(())
/// ```
///
/// # Errors
///
/// In this order: [`VolumeShape`](Refusal::VolumeShape) of the count;
/// [`MapLength`](Refusal::MapLength).
pub fn start_map(count: usize, map: &mut [u64]) -> Result<(), Refusal> {
    // SAFETY: pointer and length are those of one slice, which is borrowed alone
    // and lives through the call.
    done(unsafe { ffi::mirror_start_map(count, map.as_mut_ptr(), map.len()) })
}

/// How many of `count` sectors are suspect: counts the set bits of sectors below
/// `count`, and none past them. [`Volume::count_suspects`] does this with a
/// volume's own map.
///
/// No sector is judged: [what a bit says](crate#the-map-of-suspects) is what the
/// calls that were lent the map have met.
///
/// [`Volume::count_suspects`]: crate::Volume::count_suspects
///
/// ```
/// // Sectors 0 and 64 are suspect. Bit 65 is past the count.
/// assert_eq!(mirror::count_suspects(65, &[1, 0b11])?, 2);
/// # Ok::<(), mirror::Refusal>(())
/// ```
///
/// # Errors
///
/// As [`start_map`].
pub fn count_suspects(count: usize, map: &[u64]) -> Result<u64, Refusal> {
    let mut suspects = 0;
    // SAFETY: pointer and length are those of one slice; it and the number, which
    // is borrowed alone, live through the call.
    done(unsafe { ffi::mirror_count_suspects(count, map.as_ptr(), map.len(), &mut suspects) })?;
    Ok(suspects)
}

/// A sector's bit, or none where the map is too short for it.
pub(crate) fn bit(map: &[u64], number: usize) -> Option<bool> {
    let word = map.get(number / WORD_SECTORS)?;
    Some(word >> (number % WORD_SECTORS) & 1 == 1)
}
