//! The map of suspect sectors: one bit a sector, set where it is suspect.
//!
//! Sector i is bit i mod 64, lowest first, of word i/64. Every call on a volume
//! is lent the map beside the images, and marks the bit of its sector by its
//! answer.

use crate::answer::{answer_number, Refusal, Success};
use crate::volume::check_count;

/// The bits of a word.
pub const WORD_BITS: usize = 64;

/// A call on one sector, without what it takes.
#[derive(Clone, Copy, Debug, PartialEq, Eq)]
pub enum Kind {
    Blank,
    First,
    Second,
    Third,
    Mend,
    Read,
    /// A write in one call.
    Write,
}

/// What is done to a bit.
#[derive(Clone, Copy, Debug, PartialEq, Eq)]
pub enum Mark {
    Clear,
    Set,
}

const WHOLE: &[u8] = &[0];
const DOUBTFUL: &[u8] = &[0x81, 0x82, 0x83];
const FINISHED: &[u8] = &[0, 0x81, 0x82, 0x83];
const LOST_OR_CLASHING: &[u8] = &[6, 7];

/// How calls mark the bit of their sector, by the numbers of their answers, in
/// the order of the request. What has no row leaves the map alone. A write has
/// none, since the calls that it is made of mark the bit.
const MARKS: [(&[Kind], &[u8], Mark); 5] = [
    (
        &[Kind::Blank, Kind::Third, Kind::Mend],
        FINISHED,
        Mark::Clear,
    ),
    (&[Kind::First, Kind::Second], FINISHED, Mark::Set),
    (&[Kind::Read], DOUBTFUL, Mark::Set),
    (&[Kind::Read], WHOLE, Mark::Clear),
    (&[Kind::Read, Kind::Mend], LOST_OR_CLASHING, Mark::Set),
];

/// What a call with this answer does to the bit of its sector, if anything.
pub fn mark_of(kind: Kind, answer: u8) -> Option<Mark> {
    MARKS
        .iter()
        .find(|(kinds, answers, _)| kinds.contains(&kind) && answers.contains(&answer))
        .map(|&(_, _, mark)| mark)
}

/// Marks the sector's bit by the call's answer, which it gives back.
pub(crate) fn marked<T: Success>(
    kind: Kind,
    map: &mut [u64],
    number: usize,
    answer: Result<T, Refusal>,
) -> Result<T, Refusal> {
    if let Some(mark) = mark_of(kind, answer_number(&answer)) {
        put(map, number, mark);
    }
    answer
}

/// The words that a map of so many sectors has.
pub fn words(count: usize) -> usize {
    count.div_ceil(WORD_BITS)
}

/// Refuses a map that has not exactly as many words as the sectors need.
pub(crate) fn check_words(count: usize, map: &[u64]) -> Result<(), Refusal> {
    if map.len() == words(count) {
        Ok(())
    } else {
        Err(Refusal::MapLength)
    }
}

/// Starts a map: every sector is suspect, and the bits past the last are clear.
pub fn start(count: usize, map: &mut [u64]) -> Result<(), Refusal> {
    check_count(count)?;
    check_words(count, map)?;
    for number in 0..WORD_BITS * map.len() {
        let mark = if number < count {
            Mark::Set
        } else {
            Mark::Clear
        };
        put(map, number, mark);
    }
    Ok(())
}

/// The number of suspects, sector by sector.
pub fn count_suspects(count: usize, map: &[u64]) -> Result<u64, Refusal> {
    check_count(count)?;
    check_words(count, map)?;
    let mut suspects = 0;
    for number in 0..count {
        if is_suspect(map, number) {
            suspects += 1;
        }
    }
    Ok(suspects)
}

/// Whether a sector is suspect. The map must have its word.
pub fn is_suspect(map: &[u64], number: usize) -> bool {
    map[number / WORD_BITS] & bit(number) != 0
}

fn put(map: &mut [u64], number: usize, mark: Mark) {
    let word = &mut map[number / WORD_BITS];
    match mark {
        Mark::Clear => *word &= !bit(number),
        Mark::Set => *word |= bit(number),
    }
}

/// The sector's bit in its word.
fn bit(number: usize) -> u64 {
    1 << (number % WORD_BITS)
}
