//! The wrapper's texts for the answers are those of the header: both are
//! compared with one stored file, a line `NN text` for each answer.

use mirror::{Place, Refusal, Verdict};

const STORED: &str = concat!(env!("CARGO_MANIFEST_DIR"), "/../header/texts.txt");

/// A line of the file, with the answer in two hexadecimal digits.
fn line(number: u32, text: &str) -> String {
    format!("{number:02x} {text}")
}

#[test]
fn the_texts_are_those_that_are_stored() {
    let places = [Place::Local, Place::Tag, Place::Remote];
    let refusals = Refusal::ALL.iter();
    let refusals = refusals.map(|refusal| line(refusal.number(), &refusal.to_string()));
    let refusals: Vec<String> = refusals.collect();
    let doubtful = places.map(Verdict::Doubtful);
    let doubtful = doubtful.map(|verdict| line(verdict.number(), &verdict.to_string()));
    // The number 0 is two answers, done and whole; the wrapper has no one text.
    let both = [line(0, "done, or whole")];
    let due = [&both[..], &refusals, &doubtful].concat();

    let stored = std::fs::read_to_string(STORED);
    let stored = stored.unwrap_or_else(|error| panic!("{STORED}: {error}"));
    assert_eq!(stored.lines().collect::<Vec<_>>(), due);
    println!("{} texts are those that are stored", due.len());
}
