//! The map of suspects: its words and bits, the two calls on it, and what each
//! answer of a call does to the bit of its sector.

use reference::answer::{answer_number, Refusal};
use reference::history::{Calls, Kind, Reference, Request};
use reference::map::{count_suspects, start, words};
use reference::marks::{try_another_count, try_every_mark, try_positions, Volume};
use reference::rng::Rng;

const MAX: u64 = u64::MAX;

fn random_words(rng: &mut Rng, words: usize) -> Vec<u64> {
    (0..words).map(|_| rng.next_u64()).collect()
}

#[test]
fn words_of_a_map() {
    for (count, due) in [
        (1, 1),
        (63, 1),
        (64, 1),
        (65, 2),
        (127, 2),
        (128, 2),
        (129, 3),
        (65_472, 1023),
        (65_473, 1024),
        (65_536, 1024),
        (usize::MAX, 1 << 58),
    ] {
        assert_eq!(words(count), due, "{count}");
    }
}

#[test]
fn a_started_map() {
    let mut rng = Rng::new(60);
    for (count, due) in [
        (1, vec![1]),
        (2, vec![3]),
        (63, vec![MAX >> 1]),
        (64, vec![MAX]),
        (65, vec![MAX, 1]),
        (128, vec![MAX, MAX]),
        (130, vec![MAX, MAX, 3]),
        (65_535, [vec![MAX; 1023], vec![MAX >> 1]].concat()),
        (65_536, vec![MAX; 1024]),
    ] {
        for before in [0, MAX, rng.next_u64()] {
            let mut map = vec![before; due.len()];
            assert_eq!(start(count, &mut map), Ok(()));
            assert_eq!(map, due, "{count}");
            assert_eq!(count_suspects(count, &map), Ok(count as u64));
        }
    }
}

#[test]
fn suspects_are_counted_below_n() {
    for (map, count, due) in [
        (vec![0b1011], 1, 1),
        (vec![0b1011], 2, 2),
        (vec![0b1011], 3, 2),
        (vec![0b1011], 4, 3),
        (vec![0b1011], 64, 3),
        (vec![MAX], 63, 63),
        (vec![0, MAX], 65, 1),
        (vec![1 << 63, 1 << 63], 127, 1),
        (vec![1 << 63, 1 << 63], 128, 2),
        (vec![MAX; 1024], 65_535, 65_535),
    ] {
        assert_eq!(count_suspects(count, &map), Ok(due), "{map:x?} of {count}");
    }
}

/// Here the ones of each word are counted, with the last word shifted so that
/// bits past n fall out.
#[test]
fn suspects_are_the_ones_of_the_words() {
    let mut rng = Rng::new(61);
    for count in (1..=200).chain([1000, 65_535, 65_536]) {
        let map = random_words(&mut rng, words(count));
        let (last, full) = map.split_last().expect("a map has a word");
        let past = 64 * map.len() - count;
        let ones: u32 = full.iter().map(|word| word.count_ones()).sum();
        let due = u64::from(ones + (last << past).count_ones());
        assert_eq!(count_suspects(count, &map), Ok(due), "{count}");
    }
}

#[test]
fn refusals_of_the_calls_on_a_map() {
    let mut rng = Rng::new(62);
    for (count, right) in [(1, 1), (64, 1), (65, 2), (130, 3), (65_536, 1024)] {
        for words in [0, 1, 2, 3, 4, 1023, 1024, 1025] {
            let map = random_words(&mut rng, words);
            let due = if words == right {
                Ok(())
            } else {
                Err(Refusal::MapLength)
            };
            insist_on_both(count, &map, due);
        }
    }
    for count in [0, 65_537, 1 << 32, usize::MAX] {
        for words in [0, 1, 1024, 1025] {
            let map = random_words(&mut rng, words);
            insist_on_both(count, &map, Err(Refusal::VolumeShape));
        }
    }
}

/// Start and count have this answer, and a refused start writes nothing.
fn insist_on_both(count: usize, map: &[u64], due: Result<(), Refusal>) {
    let mut started = map.to_vec();
    assert_eq!(start(count, &mut started), due);
    assert!(due.is_ok() || started == map, "a refused start wrote");
    assert_eq!(count_suspects(count, map).map(|_| ()), due);
}

#[test]
fn sector_i_is_bit_i_mod_64_of_word_i_over_64() {
    try_positions(&Reference);
}

#[test]
fn every_answer_and_its_mark() {
    try_every_mark(&Reference);
}

#[test]
fn a_map_started_for_another_count() {
    try_another_count(&Reference);
}

/// Every refusal on arguments leaves the map alone, and 13 stands behind 1, 14, 2
/// and 8 and before 9, 3 and what the sector holds.
#[test]
fn refusals_on_arguments_leave_the_map_alone() {
    let mut rng = Rng::new(65);
    let mut volume = Volume::new(&mut rng, 64);
    let takes_text = |kind| !matches!(kind, Kind::Blank | Kind::Mend);
    for kind in [
        Kind::Blank,
        Kind::First,
        Kind::Second,
        Kind::Third,
        Kind::Mend,
        Kind::Read,
        Kind::Write,
    ] {
        for map in [vec![0], vec![MAX], vec![], vec![MAX; 2]] {
            let of_map = if map.len() == 1 { None } else { Some(13) };
            volume.map = map.clone();
            let right = volume.request(kind, 5, &[7; 32]);
            let wrong = |change: fn(&mut Request)| {
                let mut request = right.clone();
                change(&mut request);
                request
            };
            let mut insist = |request: Request, due| {
                assert_eq!(volume.call(&Reference, &request), due, "{kind:?}");
                assert_eq!(volume.map, map);
            };
            insist(wrong(|r| r.given.key = vec![1; 31]), 1);
            insist(wrong(|r| r.given.key[..16].fill(0)), 14);
            insist(wrong(|r| r.given.size = 15), 2);
            insist(wrong(|r| r.given.count = 63), 8);
            insist(wrong(|r| r.given.count = 65), 8);
            insist(wrong(|r| r.number = 64), of_map.unwrap_or(9));
            if takes_text(kind) {
                let other_length = wrong(|r| (r.plaintext, r.output) = (vec![7; 31], 31));
                insist(other_length, of_map.unwrap_or(3));
            }
            if let Some(due) = of_map {
                insist(right.clone(), due);
            }
        }
    }
}

#[test]
fn a_survey_refuses_13_before_11() {
    let volume = Volume::new(&mut Rng::new(66), 65);
    let survey = |words, room| {
        let (map, mut list) = (vec![MAX; words], vec![7; room]);
        let Volume { given, images, .. } = &volume;
        let answer = Reference.survey(given, images, &map, &mut list);
        assert!(answer.is_ok() || list == vec![7; room]);
        answer_number(&answer.map(|_| ()))
    };
    assert_eq!(survey(2, 65), 0);
    assert_eq!(survey(2, 64), 11);
    for words in [0, 1, 3] {
        assert_eq!(survey(words, 65), 13);
        assert_eq!(survey(words, 64), 13);
    }
}
