//! The write in one call through the compiled library, compared with the
//! independent implementation and with the calls that it is made of: the answer,
//! the images and the map.

mod common;

use common::rounds;
use linked::both::Both;
use reference::rng::Rng;
use reference::writes::{try_any_state, try_every_state, Answers};

/// Sizes of every round.
const FREQUENT: [usize; 5] = [16, 32, 48, 512, 4096];

/// As many rounds have all 256 sizes, eight in each.
const ROUNDS_OF_ALL_SIZES: usize = 32;

fn sizes(round: usize) -> impl Iterator<Item = usize> {
    let first = 8 * (round % ROUNDS_OF_ALL_SIZES);
    let in_turn = (first + 1..=first + 8).map(|blocks| 16 * blocks);
    FREQUENT.into_iter().chain(in_turn)
}

#[test]
fn every_state_and_its_answer() {
    try_every_state(&Both, &FREQUENT);
}

/// Sectors whose places are of several plaintexts, damaged, clashing or anything.
#[test]
fn any_state_of_all_sizes() {
    let mut answers = Answers::new();
    for round in 0..rounds(ROUNDS_OF_ALL_SIZES) {
        let mut rng = Rng::new(1500 + round as u64);
        for size in sizes(round) {
            for _ in 0..4 {
                try_any_state(&Both, &mut rng, size, &mut answers);
            }
        }
    }
    for (answer, times) in &answers {
        println!("write answers {answer:02x}: {times}");
    }
    let writes: usize = answers.values().sum();
    println!("{writes} writes agree, also with their calls");
    let seen: Vec<u8> = answers.into_keys().collect();
    assert_eq!(seen, [0, 6, 7, 14, 0x81, 0x82, 0x83]);
}
