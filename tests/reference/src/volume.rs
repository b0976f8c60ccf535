//! A volume of sealed sectors, held in three images, with a map of suspects.
//!
//! Every call is lent all three images, since refusal 8 looks at each of them;
//! it is lent writable only those that it may write. A call on one sector marks
//! that sector's bit in the map once its answer is certain. `volume` is the
//! volume's number and `number` that of a sector.

// The calls take what the requirement names, one parameter for each.
#![allow(clippy::too_many_arguments)]

use std::ops::Range;

use crate::answer::{Place, Refusal, Verdict};
use crate::field::{to_blocks, write_blocks, BLOCK_BYTES};
use crate::map::{check_words, marked, Kind};
use crate::seal::{check_key, check_length, check_sector_size, Sealer, Triple, TAG_BYTES};

/// The most sectors that a volume can have.
pub const MAX_SECTORS: usize = 65_536;

/// What a survey counts.
#[derive(Clone, Copy, Debug, Default, PartialEq, Eq)]
pub struct Survey {
    pub whole: usize,
    pub doubtful: usize,
    pub clashing: usize,
    pub lost: usize,
    /// Whole sectors in a thousand, rounded down.
    pub health: usize,
}

/// Seals zeros into all three places of one sector.
pub fn blank(
    key: &[u8],
    volume: u64,
    size: usize,
    count: usize,
    local: &mut [u8],
    tag: &mut [u8],
    remote: &mut [u8],
    map: &mut [u64],
    number: usize,
) -> Result<(), Refusal> {
    let sealer = check_sector(key, size, count, local, tag, remote, map, number)?;
    let zeros = vec![0; size / BLOCK_BYTES];
    let sealed = sealer.seal(volume, number as u64, &zeros);
    write_blocks(&sealed.local, &mut local[part(number, size)]);
    write_blocks(&[sealed.tag], &mut tag[part(number, TAG_BYTES)]);
    write_blocks(&sealed.remote, &mut remote[part(number, size)]);
    marked(Kind::Blank, map, number, Ok(()))
}

/// Writes the local sector of a plaintext over a whole sector.
pub fn first_stage(
    key: &[u8],
    volume: u64,
    size: usize,
    count: usize,
    local: &mut [u8],
    tag: &[u8],
    remote: &[u8],
    map: &mut [u64],
    number: usize,
    plaintext: &[u8],
) -> Result<(), Refusal> {
    let sealer = check_sector(key, size, count, local, tag, remote, map, number)?;
    check_length(plaintext, size)?;
    let held = held(size, local, tag, remote, number);
    let is_whole = matches!(
        sealer.judge(volume, number as u64, &held),
        Ok((Verdict::Whole, _))
    );
    marked(Kind::First, map, number, allow_stage(is_whole))?;
    let sealed = sealer.seal(volume, number as u64, &to_blocks(plaintext));
    write_blocks(&sealed.local, &mut local[part(number, size)]);
    Ok(())
}

/// Writes the tag of a plaintext that fits the local place.
pub fn second_stage(
    key: &[u8],
    volume: u64,
    size: usize,
    count: usize,
    local: &[u8],
    tag: &mut [u8],
    remote: &[u8],
    map: &mut [u64],
    number: usize,
    plaintext: &[u8],
) -> Result<(), Refusal> {
    let sealer = check_sector(key, size, count, local, tag, remote, map, number)?;
    check_length(plaintext, size)?;
    let held = held(size, local, tag, remote, number);
    let sealed = sealer.seal(volume, number as u64, &to_blocks(plaintext));
    let fits = sealed.local == held.local;
    marked(Kind::Second, map, number, allow_stage(fits))?;
    write_blocks(&[sealed.tag], &mut tag[part(number, TAG_BYTES)]);
    Ok(())
}

/// Writes the remote sector of a plaintext that fits the local place and the
/// tag.
pub fn third_stage(
    key: &[u8],
    volume: u64,
    size: usize,
    count: usize,
    local: &[u8],
    tag: &[u8],
    remote: &mut [u8],
    map: &mut [u64],
    number: usize,
    plaintext: &[u8],
) -> Result<(), Refusal> {
    let sealer = check_sector(key, size, count, local, tag, remote, map, number)?;
    check_length(plaintext, size)?;
    let held = held(size, local, tag, remote, number);
    let sealed = sealer.seal(volume, number as u64, &to_blocks(plaintext));
    let fits = sealed.local == held.local && sealed.tag == held.tag;
    marked(Kind::Third, map, number, allow_stage(fits))?;
    write_blocks(&sealed.remote, &mut remote[part(number, size)]);
    Ok(())
}

/// Judges one sector and gives its plaintext.
pub fn read(
    key: &[u8],
    volume: u64,
    size: usize,
    count: usize,
    local: &[u8],
    tag: &[u8],
    remote: &[u8],
    map: &mut [u64],
    number: usize,
    output: &mut [u8],
) -> Result<Verdict, Refusal> {
    let sealer = check_sector(key, size, count, local, tag, remote, map, number)?;
    check_length(output, size)?;
    let held = held(size, local, tag, remote, number);
    let judged = sealer.judge(volume, number as u64, &held);
    let (verdict, plaintext) = marked(Kind::Read, map, number, judged)?;
    write_blocks(&plaintext, output);
    Ok(verdict)
}

/// Writes the doubtful place anew, if there is one, and gives the verdict
/// found before.
pub fn mend(
    key: &[u8],
    volume: u64,
    size: usize,
    count: usize,
    local: &mut [u8],
    tag: &mut [u8],
    remote: &mut [u8],
    map: &mut [u64],
    number: usize,
) -> Result<Verdict, Refusal> {
    let sealer = check_sector(key, size, count, local, tag, remote, map, number)?;
    let held = held(size, local, tag, remote, number);
    let judged = sealer.judge(volume, number as u64, &held);
    let (verdict, plaintext) = marked(Kind::Mend, map, number, judged)?;
    if let Verdict::Doubtful(place) = verdict {
        let sealed = sealer.seal(volume, number as u64, &plaintext);
        match place {
            Place::Local => write_blocks(&sealed.local, &mut local[part(number, size)]),
            Place::Tag => write_blocks(&[sealed.tag], &mut tag[part(number, TAG_BYTES)]),
            Place::Remote => write_blocks(&sealed.remote, &mut remote[part(number, size)]),
        }
    }
    Ok(verdict)
}

/// Writes a plaintext to one sector in one call: judges the sector, mends it if
/// it is doubtful, and makes the three stages. Gives the verdict found first.
/// The map is marked by these calls.
pub fn write(
    key: &[u8],
    volume: u64,
    size: usize,
    count: usize,
    local: &mut [u8],
    tag: &mut [u8],
    remote: &mut [u8],
    map: &mut [u64],
    number: usize,
    plaintext: &[u8],
) -> Result<Verdict, Refusal> {
    let (v, s, n, i, text) = (volume, size, count, number, plaintext);
    // The plaintext's length stands for that of the read's output.
    let mut old = vec![0; text.len()];
    let found = read(key, v, s, n, local, tag, remote, map, i, &mut old)?;
    if found != Verdict::Whole {
        let mended = mend(key, v, s, n, local, tag, remote, map, i);
        assert_eq!(mended, Ok(found), "a mend says what the read said");
    }
    let stages = [
        first_stage(key, v, s, n, local, tag, remote, map, i, text),
        second_stage(key, v, s, n, local, tag, remote, map, i, text),
        third_stage(key, v, s, n, local, tag, remote, map, i, text),
    ];
    assert_eq!(stages, [Ok(()); 3], "no stage of a write is refused");
    Ok(found)
}

/// Judges every sector, counts the verdicts and lists, in repair order, the
/// numbers of the sectors that are not whole: first the lost, then the
/// clashing, then the doubtful, rising within each kind. The map it leaves
/// alone.
pub fn survey(
    key: &[u8],
    volume: u64,
    size: usize,
    count: usize,
    local: &[u8],
    tag: &[u8],
    remote: &[u8],
    map: &[u64],
    list: &mut [u32],
) -> Result<Survey, Refusal> {
    let sealer = check_volume(key, size, count, local, tag, remote, map)?;
    if list.len() < count {
        return Err(Refusal::ShortList);
    }
    let mut survey = Survey::default();
    let mut lost = Vec::new();
    let mut clashing = Vec::new();
    let mut doubtful = Vec::new();
    for number in 0..count {
        let held = held(size, local, tag, remote, number);
        let judged = sealer.judge(volume, number as u64, &held);
        let verdict = judged.map(|(verdict, _)| verdict);
        survey.add(verdict);
        match verdict {
            Ok(Verdict::Whole) => {}
            Ok(Verdict::Doubtful(_)) => doubtful.push(number as u32),
            Err(Refusal::Clashing) => clashing.push(number as u32),
            Err(Refusal::Lost) => lost.push(number as u32),
            Err(refusal) => unreachable!("judging refuses {refusal:?}"),
        }
    }
    let listed = [lost, clashing, doubtful].concat();
    list[..listed.len()].copy_from_slice(&listed);
    survey.health = survey.whole * 1000 / count;
    Ok(survey)
}

impl Survey {
    /// Whole, doubtful, clashing, lost and the health.
    pub fn numbers(&self) -> [u64; 5] {
        let Survey {
            whole,
            doubtful,
            clashing,
            lost,
            health,
        } = *self;
        [whole, doubtful, clashing, lost, health].map(|number| number as u64)
    }

    fn add(&mut self, verdict: Result<Verdict, Refusal>) {
        match verdict {
            Ok(Verdict::Whole) => self.whole += 1,
            Ok(Verdict::Doubtful(_)) => self.doubtful += 1,
            Err(Refusal::Clashing) => self.clashing += 1,
            Err(_) => self.lost += 1,
        }
    }
}

/// Refusals 1, 14, 2, 8 and 13.
fn check_volume(
    key: &[u8],
    size: usize,
    count: usize,
    local: &[u8],
    tag: &[u8],
    remote: &[u8],
    map: &[u64],
) -> Result<Sealer, Refusal> {
    let sealer = check_key(key)?;
    check_sector_size(size)?;
    check_count(count)?;
    let fits = local.len() == count * size
        && tag.len() == count * TAG_BYTES
        && remote.len() == count * size;
    if !fits {
        return Err(Refusal::VolumeShape);
    }
    check_words(count, map)?;
    Ok(sealer)
}

/// Refusal 8 for the number of sectors.
pub(crate) fn check_count(count: usize) -> Result<(), Refusal> {
    if (1..=MAX_SECTORS).contains(&count) {
        Ok(())
    } else {
        Err(Refusal::VolumeShape)
    }
}

/// Refusals 1, 14, 2, 8, 13 and 9.
fn check_sector(
    key: &[u8],
    size: usize,
    count: usize,
    local: &[u8],
    tag: &[u8],
    remote: &[u8],
    map: &[u64],
    number: usize,
) -> Result<Sealer, Refusal> {
    let sealer = check_volume(key, size, count, local, tag, remote, map)?;
    if number < count {
        Ok(sealer)
    } else {
        Err(Refusal::SectorNumber)
    }
}

/// Refusal 10.
fn allow_stage(ready: bool) -> Result<(), Refusal> {
    if ready {
        Ok(())
    } else {
        Err(Refusal::WrongStage)
    }
}

/// Where sector `number` lies in an image with `bytes` for each sector.
pub fn part(number: usize, bytes: usize) -> Range<usize> {
    number * bytes..(number + 1) * bytes
}

/// What one sector's three places hold.
fn held(size: usize, local: &[u8], tag: &[u8], remote: &[u8], number: usize) -> Triple {
    Triple::from_bytes(
        &local[part(number, size)],
        &tag[part(number, TAG_BYTES)],
        &remote[part(number, size)],
    )
}
