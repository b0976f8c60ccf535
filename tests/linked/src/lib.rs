//! The compiled library's calls through the Rust wrapper, each with the number
//! of its answer. `volume` is the volume's number, and `number` a sector's.

// The calls take what the requirement names, one parameter for each.
#![allow(clippy::too_many_arguments)]

pub mod both;

use mirror::{ffi, Place, Refusal, Side, Verdict, Volume};

/// The requirement's number for a refusal, by its name. The wrapper's own number
/// would be the library's again, whatever name it stands under.
fn refusal_number(refusal: Refusal) -> u32 {
    match refusal {
        Refusal::KeyLength => 1,
        Refusal::SectorSize => 2,
        Refusal::OtherLength => 3,
        Refusal::UnknownSide => 4,
        Refusal::NoneFits => 5,
        Refusal::Lost => 6,
        Refusal::Clashing => 7,
        Refusal::VolumeShape => 8,
        Refusal::SectorNumber => 9,
        Refusal::StageOrder => 10,
        Refusal::ListLength => 11,
        Refusal::MapLength => 13,
        Refusal::ZeroHashKey => 14,
        _ => panic!("{refusal:?} has no number here"),
    }
}

fn done(answer: Result<(), Refusal>) -> u32 {
    answer.map_or_else(refusal_number, |()| 0)
}

fn judged(answer: Result<Verdict, Refusal>) -> u32 {
    match answer {
        Ok(Verdict::Whole) => 0,
        Ok(Verdict::Doubtful(Place::Local)) => 0x81,
        Ok(Verdict::Doubtful(Place::Tag)) => 0x82,
        Ok(Verdict::Doubtful(Place::Remote)) => 0x83,
        Err(refusal) => refusal_number(refusal),
    }
}

pub fn seal(
    key: &[u8],
    volume: u64,
    address: u64,
    plain: &[u8],
    local: &mut [u8],
    tag: &mut [u8],
    remote: &mut [u8],
) -> u32 {
    done(mirror::seal(
        key, volume, address, plain, local, tag, remote,
    ))
}

pub fn judge(
    key: &[u8],
    volume: u64,
    address: u64,
    local: &[u8],
    tag: &[u8],
    remote: &[u8],
    out: &mut [u8],
) -> u32 {
    judged(mirror::judge(key, volume, address, local, tag, remote, out))
}

type Opening = fn(&[u8], u64, u64, Side, &[u8], &[u8], &mut [u8]) -> Result<(), Refusal>;

type UnsafeOpening = unsafe extern "C" fn(
    *const u8,
    usize,
    u64,
    u64,
    u32,
    *const u8,
    usize,
    *const u8,
    usize,
    *mut u8,
    usize,
) -> u32;

/// Sides that the wrapper has no name for go to the library itself.
fn with_side(
    named: Opening,
    unnamed: UnsafeOpening,
    key: &[u8],
    volume: u64,
    address: u64,
    side: u32,
    sector: &[u8],
    tag: &[u8],
    out: &mut [u8],
) -> u32 {
    match side {
        0 => done(named(key, volume, address, Side::Local, sector, tag, out)),
        1 => done(named(key, volume, address, Side::Remote, sector, tag, out)),
        // SAFETY: each pointer and length is that of one slice, which lives
        // through the call, and the writable one overlaps no other.
        _ => unsafe {
            unnamed(
                key.as_ptr(),
                key.len(),
                volume,
                address,
                side,
                sector.as_ptr(),
                sector.len(),
                tag.as_ptr(),
                tag.len(),
                out.as_mut_ptr(),
                out.len(),
            )
        },
    }
}

pub fn open(
    key: &[u8],
    volume: u64,
    address: u64,
    side: u32,
    sector: &[u8],
    tag: &[u8],
    out: &mut [u8],
) -> u32 {
    let (named, unnamed) = (mirror::open, ffi::mirror_open);
    with_side(named, unnamed, key, volume, address, side, sector, tag, out)
}

pub fn rebuild(
    key: &[u8],
    volume: u64,
    address: u64,
    side: u32,
    sector: &[u8],
    tag: &[u8],
    out: &mut [u8],
) -> u32 {
    let (named, unnamed) = (mirror::rebuild, ffi::mirror_rebuild);
    with_side(named, unnamed, key, volume, address, side, sector, tag, out)
}

pub fn combine(local: &[u8], remote: &[u8], out: &mut [u8]) -> u32 {
    done(mirror::combine(local, remote, out))
}

pub fn blank(
    key: &[u8],
    volume: u64,
    s: usize,
    n: usize,
    number: usize,
    local: &mut [u8],
    tags: &mut [u8],
    remote: &mut [u8],
    map: &mut [u64],
) -> u32 {
    done(Volume::new(key, volume, s, n, local, tags, remote, map).blank(number))
}

pub fn first_stage(
    key: &[u8],
    volume: u64,
    s: usize,
    n: usize,
    number: usize,
    plain: &[u8],
    local: &mut [u8],
    tags: &mut [u8],
    remote: &mut [u8],
    map: &mut [u64],
) -> u32 {
    done(Volume::new(key, volume, s, n, local, tags, remote, map).first_stage(number, plain))
}

pub fn second_stage(
    key: &[u8],
    volume: u64,
    s: usize,
    n: usize,
    number: usize,
    plain: &[u8],
    local: &mut [u8],
    tags: &mut [u8],
    remote: &mut [u8],
    map: &mut [u64],
) -> u32 {
    done(Volume::new(key, volume, s, n, local, tags, remote, map).second_stage(number, plain))
}

pub fn third_stage(
    key: &[u8],
    volume: u64,
    s: usize,
    n: usize,
    number: usize,
    plain: &[u8],
    local: &mut [u8],
    tags: &mut [u8],
    remote: &mut [u8],
    map: &mut [u64],
) -> u32 {
    done(Volume::new(key, volume, s, n, local, tags, remote, map).third_stage(number, plain))
}

pub fn read(
    key: &[u8],
    volume: u64,
    s: usize,
    n: usize,
    number: usize,
    local: &[u8],
    tags: &[u8],
    remote: &[u8],
    map: &mut [u64],
    out: &mut [u8],
) -> u32 {
    judged(Volume::new(key, volume, s, n, local, tags, remote, map).read(number, out))
}

pub fn mend(
    key: &[u8],
    volume: u64,
    s: usize,
    n: usize,
    number: usize,
    local: &mut [u8],
    tags: &mut [u8],
    remote: &mut [u8],
    map: &mut [u64],
) -> u32 {
    judged(Volume::new(key, volume, s, n, local, tags, remote, map).mend(number))
}

pub fn write(
    key: &[u8],
    volume: u64,
    s: usize,
    n: usize,
    number: usize,
    plain: &[u8],
    local: &mut [u8],
    tags: &mut [u8],
    remote: &mut [u8],
    map: &mut [u64],
) -> u32 {
    judged(Volume::new(key, volume, s, n, local, tags, remote, map).write(number, plain))
}

/// The counts are whole, doubtful, clashing, lost and the health. The numbers
/// that the wrapper gives must be the front of the list. The map is lent as
/// writable, so that a write to it is seen.
pub fn survey(
    key: &[u8],
    volume: u64,
    s: usize,
    n: usize,
    local: &[u8],
    tags: &[u8],
    remote: &[u8],
    map: &mut [u64],
    list: &mut [u32],
    counts: &mut [u64; 5],
) -> u32 {
    let start = list.as_ptr();
    match Volume::new(key, volume, s, n, local, tags, remote, map).survey(list) {
        Ok((found, listed)) => {
            assert_eq!((listed.as_ptr(), listed.len()), (start, n - found.whole));
            let found = [
                found.whole,
                found.doubtful,
                found.clashing,
                found.lost,
                found.health,
            ];
            *counts = found.map(|count| count as u64);
            0
        }
        Err(refusal) => refusal_number(refusal),
    }
}

/// The survey without the wrapper, which has counts of its own: what a refused
/// call leaves in the caller's counts shows only here.
pub fn survey_without_wrapper(
    key: &[u8],
    volume: u64,
    s: usize,
    n: usize,
    local: &[u8],
    tags: &[u8],
    remote: &[u8],
    map: &mut [u64],
    list: &mut [u32],
    counts: &mut [u64; 5],
) -> u32 {
    // SAFETY: each pointer and length is that of one slice, which lives through
    // the call, and a writable one overlaps no other; the counts go as a
    // pointer alone.
    unsafe {
        ffi::mirror_survey(
            key.as_ptr(),
            key.len(),
            volume,
            s,
            n,
            local.as_ptr(),
            local.len(),
            tags.as_ptr(),
            tags.len(),
            remote.as_ptr(),
            remote.len(),
            map.as_mut_ptr(),
            map.len(),
            list.as_mut_ptr(),
            list.len(),
            counts,
        )
    }
}

/// A volume of nothing but a count and a map.
fn of_map(n: usize, map: &mut [u64]) -> Volume<'_, &[u8], &mut [u64]> {
    Volume::new(&[], 0, 0, n, &[], &[], &[], map)
}

pub fn start_map(n: usize, map: &mut [u64]) -> u32 {
    done(mirror::start_map(n, map))
}

pub fn start_map_of_volume(n: usize, map: &mut [u64]) -> u32 {
    done(of_map(n, map).start_map())
}

/// Where it is done, the wrapper's number goes to the caller's.
fn counted(found: Result<u64, Refusal>, count: &mut u64) -> u32 {
    done(found.map(|suspects| *count = suspects))
}

pub fn count_suspects(n: usize, map: &mut [u64], count: &mut u64) -> u32 {
    counted(mirror::count_suspects(n, map), count)
}

pub fn count_suspects_of_volume(n: usize, map: &mut [u64], count: &mut u64) -> u32 {
    counted(of_map(n, map).count_suspects(), count)
}

/// The count without the wrapper, which has a number of its own: what a refused
/// call leaves in the caller's shows only here.
pub fn count_suspects_without_wrapper(n: usize, map: &mut [u64], count: &mut u64) -> u32 {
    // SAFETY: pointer and length are those of one slice; it and the count live
    // through the call.
    unsafe { ffi::mirror_count_suspects(n, map.as_mut_ptr(), map.len(), count) }
}
