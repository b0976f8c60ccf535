//! Random histories of volumes through the compiled library, each under one key
//! and one number. After every event the plain machine says what each sector must
//! give, and the log of the calls what the map must be.

use linked::both::Both;
use reference::history::{insist_on_marks, insist_on_variety, insist_on_words, insist_on_writes};
use reference::history::{insist_on_zero_h, run_histories, Tally, UNDER_ZERO_H};

/// As many seeds come to every kind of number, and to every position of a cut in a
/// write.
const SEEDS: u64 = 18;

/// How many seeds: those, or what the variable MIRROR_SEEDS says.
fn seeds() -> u64 {
    match std::env::var("MIRROR_SEEDS") {
        Ok(text) => text.parse().expect("MIRROR_SEEDS is a number"),
        Err(_) => SEEDS,
    }
}

#[test]
fn histories_through_the_library() {
    let small = [(16, 3), (32, 2), (48, 1), (64, 4)];
    let large = [(512, 3), (4096, 2)];
    let tally = run_histories(&Both, 0..seeds(), &small, 700);
    insist_on_variety(&tally);
    insist_on_marks(&tally);
    if seeds() >= SEEDS {
        insist_on_writes(&tally);
        insist_on_zero_h(&tally);
    }
    for number in ["number 0", "number 1", "largest number", "any number"] {
        let histories = tally.get(&format!("history under {number}"));
        assert!(histories > 0 || seeds() < SEEDS, "{number}");
    }
    let of_large = run_histories(&Both, 1000..1000 + seeds().min(2), &large, 150);
    for (what, times) in &tally.0 {
        println!("{what}: {times}");
    }
    let [events, writes] =
        ["events", "writes in one call"].map(|what| tally.get(what) + of_large.get(what));
    println!("{events} events agree, from {} seeds", seeds());
    println!("{writes} of them are writes in one call");
    let clashing = tally.get("seen clashing");
    println!("few sectors: {clashing} clashing sectors were kept and looked at");
    let under_zero_h = tally.get(&format!("{UNDER_ZERO_H}events"));
    println!("{under_zero_h} more events agree under a hash key of zeros, where nothing is kept");
    print_clear("few sectors", &tally);
}

/// How often the second claim about the map had something to say.
fn print_clear(what: &str, tally: &Tally) {
    let steps = tally.get("seen clear that has to be whole");
    let sectors = tally.get("clear and whole");
    println!("{what}: {sectors} sectors were clear and had to be whole, after {steps} calls");
}

/// Volumes whose map has more words than one.
#[test]
fn histories_of_many_sectors_through_the_library() {
    let seeds = 2000..2000 + seeds().min(3);
    let tally = run_histories(&Both, seeds, &[(16, 65), (16, 130)], 250);
    insist_on_words(&tally);
    println!("{} events on many sectors agree", tally.get("events"));
    print_clear("many sectors", &tally);
}
