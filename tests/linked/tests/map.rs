//! The map of suspects through the compiled library, each call compared with the
//! independent implementation: the two calls on the map for many counts, the mark
//! of each answer, and the bits as the wrapper gives them.

mod common;

use common::{random_words, rounds};
use linked::both::Both;
use mirror::Volume;
use reference::answer::Refusal;
use reference::history::Calls;
use reference::map::{is_suspect, words};
use reference::marks::{try_another_count, try_every_mark, try_positions};
use reference::rng::Rng;
use reference::suspects::bits;

/// Every count up to three words and more, and large ones about the ends of words
/// and of the range.
fn counts() -> impl Iterator<Item = usize> {
    let large = [
        1000, 4095, 4096, 4097, 65_472, 65_473, 65_500, 65_535, 65_536,
    ];
    (1..=200).chain(large)
}

#[test]
fn starts_and_counts_for_many_counts() {
    let mut maps = 0;
    for round in 0..rounds(8) {
        let mut rng = Rng::new(1200 + round as u64);
        for n in counts() {
            let right = words(n);
            let random = random_words(&mut rng, right);
            for map in [random, vec![0; right], vec![u64::MAX; right]] {
                insist_on_start_and_count(n, map);
                maps += 1;
            }
        }
    }
    println!("{maps} maps are counted and started alike");
}

fn insist_on_start_and_count(n: usize, mut map: Vec<u64>) {
    let set = bits(&map)[..n].iter().filter(|&&bit| bit).count();
    assert_eq!(Both.count_suspects(n, &map), Ok(set as u64));
    assert_eq!(Both.start_map(n, &mut map), Ok(()));
    let started: Vec<bool> = (0..64 * map.len()).map(|bit| bit < n).collect();
    assert_eq!(bits(&map), started, "started for {n}");
    assert_eq!(Both.count_suspects(n, &map), Ok(n as u64));
}

/// A map of one bit has one suspect, or none if the bit is past the last sector.
#[test]
fn one_bit_is_counted_below_n() {
    for n in 1..=200 {
        for bit in 0..64 * words(n) {
            let mut map = vec![0; words(n)];
            map[bit / 64] = 1 << (bit % 64);
            let due = u64::from(bit < n);
            assert_eq!(Both.count_suspects(n, &map), Ok(due), "bit {bit} of {n}");
        }
    }
}

#[test]
fn refusals_of_the_calls_on_a_map() {
    let mut rng = Rng::new(1300);
    for n in counts() {
        for words in [0, words(n) - 1, words(n) + 1, n, 8 * words(n)] {
            if words != reference::map::words(n) {
                insist_on_refusal(&mut rng, n, words, Refusal::MapLength);
            }
        }
    }
    // The last ones would be in the range if a part of the number were lost.
    for n in [
        0,
        65_537,
        65_600,
        1 << 32,
        (1 << 32) + 1,
        1 << 63,
        usize::MAX,
    ] {
        for words in [0, 1, 2, 1024, 1025] {
            insist_on_refusal(&mut rng, n, words, Refusal::VolumeShape);
        }
    }
}

fn insist_on_refusal(rng: &mut Rng, n: usize, words: usize, due: Refusal) {
    let map = random_words(rng, words);
    let mut lent = map.clone();
    assert_eq!(Both.start_map(n, &mut lent), Err(due), "{n}, {words} words");
    assert_eq!(lent, map, "a refused start wrote");
    assert_eq!(Both.count_suspects(n, &map), Err(due), "{n}, {words} words");
}

#[test]
fn sector_i_is_bit_i_mod_64_of_word_i_over_64() {
    try_positions(&Both);
}

#[test]
fn every_answer_and_its_mark() {
    try_every_mark(&Both);
}

#[test]
fn a_map_started_for_another_count() {
    try_another_count(&Both);
}

/// The wrapper says of a bit what the words say, and nothing past the count or the
/// end of the map.
#[test]
fn bits_by_the_wrapper() {
    let mut rng = Rng::new(1400);
    for n in counts() {
        assert_eq!(mirror::map_words(n), words(n));
        let map = random_words(&mut rng, words(n));
        let volume = Volume::new(&[], 0, 0, n, [], [], [0u8; 0], &map[..]);
        assert_eq!(volume.map(), map);
        for number in 0..n {
            let due = Some(is_suspect(&map, number));
            assert_eq!(volume.is_suspect(number), due, "{number} of {n}");
        }
        for number in [n, n + 1, 64 * words(n), usize::MAX] {
            assert_eq!(volume.is_suspect(number), None, "{number} of {n}");
        }
        let short = Volume::new(&[], 0, 0, n, [], [], [0u8; 0], &map[1..]);
        assert_eq!(short.is_suspect(n - 1), None, "{n}");
    }
    assert_eq!(mirror::map_words(usize::MAX), words(usize::MAX));
}
