//! Numbers and texts of the answers, the numbers of the release and of sizes,
//! and what only the unsafe functions can show: an unknown side, null pointers,
//! and a survey's counts and the number of suspects after a refusal.

use crate::common::{bytes, key, sealed, Triple, SIZE, VOLUME};
use mirror::{ffi, Place, Refusal, Side, Verdict};
use std::collections::HashSet;
use std::ptr::{null, null_mut};

#[test]
fn refusals_have_the_numbers_1_to_11_and_13_and_14() {
    let numbers: Vec<u32> = Refusal::ALL
        .iter()
        .map(|refusal| refusal.number())
        .collect();
    assert_eq!(numbers, (1..=11).chain([13, 14]).collect::<Vec<u32>>());
    for &refusal in Refusal::ALL {
        assert_eq!(Refusal::from_number(refusal.number()), Some(refusal));
    }
    for number in [0, 12, 15, 0x81, u32::MAX] {
        assert_eq!(Refusal::from_number(number), None);
    }
}

#[test]
fn the_library_is_of_the_same_release() {
    assert_eq!(mirror::version(), mirror::VERSION);
    let parts = env!("CARGO_PKG_VERSION").split('.');
    let parts: Vec<u32> = parts.map(|part| part.parse().expect("a number")).collect();
    let due = parts.iter().fold(0, |number, part| number * 1000 + part);
    assert_eq!((parts.len(), mirror::VERSION), (3, due));
}

#[test]
fn sizes_are_those_of_the_requirement() {
    assert_eq!((mirror::KEY_BYTES, mirror::TAG_BYTES), (32, 16));
    assert_eq!(
        (mirror::SECTOR_BYTES_MIN, mirror::SECTOR_BYTES_MAX),
        (16, 4096)
    );
    assert_eq!(mirror::VOLUME_SECTORS_MAX, 65_536);
}

#[test]
fn verdicts_and_sides_have_their_numbers() {
    let places = [Place::Local, Place::Tag, Place::Remote];
    let numbers = places.map(|place| Verdict::Doubtful(place).number());
    assert_eq!(numbers, [0x81, 0x82, 0x83]);
    assert_eq!(Verdict::Whole.number(), 0);
    assert_eq!([Side::Local.number(), Side::Remote.number()], [0, 1]);
}

#[test]
fn each_refusal_says_what_is_wrong_and_what_to_do() {
    let texts: Vec<String> = Refusal::ALL.iter().map(Refusal::to_string).collect();
    for text in &texts {
        let (wrong, what_to_do) = text.split_once(": ").expect("two parts");
        assert!(!wrong.is_empty() && !what_to_do.is_empty(), "{text}");
        assert!(!text.contains("  "), "{text}");
    }
    assert_eq!(texts.iter().collect::<HashSet<_>>().len(), 13);
    let error: Box<dyn std::error::Error> = Box::new(Refusal::Lost);
    assert!(error.to_string().starts_with("lost"));
}

#[test]
fn verdicts_are_shown() {
    let places = [Place::Local, Place::Tag, Place::Remote];
    let texts = places.map(|place| Verdict::Doubtful(place).to_string());
    let due = ["the local sector", "the tag", "the remote sector"];
    assert_eq!(texts, due.map(|place| format!("doubtful at {place}")));
    assert_eq!(Verdict::Whole.to_string(), "whole");
}

#[test]
fn an_unknown_side_is_refused() {
    let key = key();
    let Triple { local, tag, .. } = sealed(0, &bytes(1));
    for side in [2, u32::MAX] {
        for call in [ffi::mirror_open, ffi::mirror_rebuild] {
            let mut out = [0xee; SIZE];
            // SAFETY: pointers and lengths are those of separate buffers.
            let answer = unsafe {
                call(
                    key.as_ptr(),
                    key.len(),
                    VOLUME,
                    0,
                    side,
                    local.as_ptr(),
                    local.len(),
                    tag.as_ptr(),
                    tag.len(),
                    out.as_mut_ptr(),
                    out.len(),
                )
            };
            assert_eq!(answer, Refusal::UnknownSide.number());
            assert_eq!(out, [0xee; SIZE]);
        }
    }
}

#[test]
fn a_refused_survey_leaves_the_counts() {
    let key = key();
    let Triple { local, tag, remote } = sealed(0, &bytes(2));
    let (map, mut counts) = ([1], [77; 5]);
    // SAFETY: pointers and lengths are those of separate buffers; the list is
    // null and has no entries.
    let answer = unsafe {
        ffi::mirror_survey(
            key.as_ptr(),
            key.len(),
            VOLUME,
            SIZE,
            1,
            local.as_ptr(),
            local.len(),
            tag.as_ptr(),
            tag.len(),
            remote.as_ptr(),
            remote.len(),
            map.as_ptr(),
            map.len(),
            null_mut(),
            0,
            &mut counts,
        )
    };
    assert_eq!(answer, Refusal::ListLength.number());
    assert_eq!(counts, [77; 5]);
}

#[test]
fn a_refused_count_leaves_the_number() {
    let map = [u64::MAX; 2];
    let refused = [
        (0, Refusal::VolumeShape),
        (1, Refusal::MapLength),
        (129, Refusal::MapLength),
        (65_537, Refusal::VolumeShape),
    ];
    for (n, due) in refused {
        let mut count = 77;
        // SAFETY: pointer and length are those of one buffer, and the number is
        // another.
        let answer = unsafe { ffi::mirror_count_suspects(n, map.as_ptr(), map.len(), &mut count) };
        assert_eq!((answer, count), (due.number(), 77));
    }
}

#[test]
fn null_with_no_length_is_refused_like_any_empty_buffer() {
    // SAFETY: every pointer is null and every length 0.
    let answer = unsafe { ffi::mirror_combine(null(), 0, null(), 0, null_mut(), 0) };
    assert_eq!(answer, Refusal::SectorSize.number());
    for (n, due) in [(0, Refusal::VolumeShape), (1, Refusal::MapLength)] {
        // SAFETY: the pointer is null and the length 0.
        let answer = unsafe { ffi::mirror_start_map(n, null_mut(), 0) };
        assert_eq!(answer, due.number());
    }
}
