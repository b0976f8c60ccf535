//! The fifteen calls over one record of arguments, each made by the library and
//! by the independent implementation on copies of the same bytes.

// Each test program makes some of the calls.
#![allow(dead_code)]

use std::collections::{BTreeMap, BTreeSet};

use reference::answer::answer_number;
use reference::rng::Rng;
use reference::{map, seal, volume};

/// What a byte of an output holds before a call, so that a write shows.
pub const FILL: u8 = 0x5a;

#[derive(Clone, Copy, Debug, PartialEq, Eq, PartialOrd, Ord)]
pub enum Call {
    Seal,
    Judge,
    Open,
    Rebuild,
    Combine,
    Blank,
    First,
    Second,
    Third,
    Read,
    Mend,
    Write,
    Survey,
    Start,
    Count,
}

/// What the calls take; each takes its part of it. The lists of a copy end where
/// their memory ends, so that valgrind sees a step beyond.
#[derive(Clone, PartialEq, Eq)]
pub struct Arguments {
    pub key: Vec<u8>,
    /// The volume's number.
    pub volume: u64,
    pub address: u64,
    pub side: u32,
    pub s: usize,
    pub n: usize,
    pub number: usize,
    pub plain: Vec<u8>,
    /// The side that is opened or rebuilt from.
    pub sector: Vec<u8>,
    pub local: Vec<u8>,
    pub tag: Vec<u8>,
    pub remote: Vec<u8>,
    pub map: Vec<u64>,
    pub out: Vec<u8>,
    pub list: Vec<u32>,
    /// Whole, doubtful, clashing, lost, health.
    pub counts: Box<[u64; 5]>,
    /// The number of suspects.
    pub suspects: Box<u64>,
}

impl Arguments {
    /// Empty lists and zeros, to be filled in.
    pub fn none() -> Arguments {
        Arguments {
            key: vec![],
            volume: 0,
            address: 0,
            side: 0,
            s: 0,
            n: 0,
            number: 0,
            plain: vec![],
            sector: vec![],
            local: vec![],
            tag: vec![],
            remote: vec![],
            map: vec![],
            out: vec![],
            list: vec![],
            counts: Box::new([u64::from(FILL); 5]),
            suspects: Box::new(u64::from(FILL)),
        }
    }

    /// The numbers and lengths, for a message.
    fn shape(&self) -> String {
        let under = format!("volume {}, address {}", self.volume, self.address);
        let numbers = format!("{under}, side {}", self.side);
        let of_volume = format!("s {}, n {}, number {}", self.s, self.n, self.number);
        let lengths = [
            ("key", self.key.len()),
            ("plain", self.plain.len()),
            ("sector", self.sector.len()),
            ("local", self.local.len()),
            ("tag", self.tag.len()),
            ("remote", self.remote.len()),
            ("map", self.map.len()),
            ("out", self.out.len()),
            ("list", self.list.len()),
        ];
        format!("{numbers}, {of_volume}, {lengths:?}")
    }
}

impl Call {
    /// On a volume, or on its map alone.
    pub fn is_on_volume(self) -> bool {
        self >= Call::Blank
    }

    /// Makes the call twice and insists on one answer and the same bytes.
    /// Gives the answer's number and the arguments as the call left them.
    pub fn by_both(self, given: &Arguments) -> (u32, Arguments) {
        let (mut lent, mut due) = (given.clone(), given.clone());
        let number = self.by_library(&mut lent);
        let due_number = self.by_reference(&mut due);
        let shape = || format!("{self:?} with {}", given.shape());
        assert_eq!(number, due_number, "{}", shape());
        assert!(lent == due, "{} left other bytes", shape());
        (number, lent)
    }

    fn by_library(self, lent: &mut Arguments) -> u32 {
        let (key, v, address, side) = (&lent.key, lent.volume, lent.address, lent.side);
        let (s, n, i) = (lent.s, lent.n, lent.number);
        let (plain, sector, out) = (&lent.plain, &lent.sector, &mut lent.out);
        let (local, tag, remote) = (&mut lent.local, &mut lent.tag, &mut lent.remote);
        let (map, list, counts) = (&mut lent.map, &mut lent.list, &mut lent.counts);
        match self {
            Call::Seal => linked::seal(key, v, address, plain, local, tag, remote),
            Call::Judge => linked::judge(key, v, address, local, tag, remote, out),
            Call::Open => linked::open(key, v, address, side, sector, tag, out),
            Call::Rebuild => linked::rebuild(key, v, address, side, sector, tag, out),
            Call::Combine => linked::combine(local, remote, out),
            Call::Blank => linked::blank(key, v, s, n, i, local, tag, remote, map),
            Call::First => linked::first_stage(key, v, s, n, i, plain, local, tag, remote, map),
            Call::Second => linked::second_stage(key, v, s, n, i, plain, local, tag, remote, map),
            Call::Third => linked::third_stage(key, v, s, n, i, plain, local, tag, remote, map),
            Call::Read => linked::read(key, v, s, n, i, local, tag, remote, map, out),
            Call::Mend => linked::mend(key, v, s, n, i, local, tag, remote, map),
            Call::Write => linked::write(key, v, s, n, i, plain, local, tag, remote, map),
            Call::Survey => linked::survey(key, v, s, n, local, tag, remote, map, list, counts),
            Call::Start => linked::start_map(n, map),
            Call::Count => linked::count_suspects_without_wrapper(n, map, &mut lent.suspects),
        }
    }

    fn by_reference(self, lent: &mut Arguments) -> u32 {
        let (key, v, address) = (&lent.key, lent.volume, lent.address);
        // A side of more than a byte is as unknown as 255.
        let side = u8::try_from(lent.side).unwrap_or(255);
        let (s, n, i) = (lent.s, lent.n, lent.number);
        let (plain, sector, out) = (&lent.plain, &lent.sector, &mut lent.out);
        let (local, tag, remote) = (&mut lent.local, &mut lent.tag, &mut lent.remote);
        let map = &mut lent.map;
        u32::from(match self {
            Call::Seal => answer_number(&seal::seal(key, v, address, plain, local, remote, tag)),
            Call::Judge => answer_number(&seal::judge(key, v, address, local, tag, remote, out)),
            Call::Open => answer_number(&seal::open(key, v, address, side, sector, tag, out)),
            Call::Rebuild => answer_number(&seal::rebuild(key, v, address, side, sector, tag, out)),
            Call::Combine => answer_number(&seal::combine(local, remote, out)),
            Call::Blank => answer_number(&volume::blank(key, v, s, n, local, tag, remote, map, i)),
            Call::First => answer_number(&volume::first_stage(
                key, v, s, n, local, tag, remote, map, i, plain,
            )),
            Call::Second => answer_number(&volume::second_stage(
                key, v, s, n, local, tag, remote, map, i, plain,
            )),
            Call::Third => answer_number(&volume::third_stage(
                key, v, s, n, local, tag, remote, map, i, plain,
            )),
            Call::Read => {
                answer_number(&volume::read(key, v, s, n, local, tag, remote, map, i, out))
            }
            Call::Mend => answer_number(&volume::mend(key, v, s, n, local, tag, remote, map, i)),
            Call::Write => answer_number(&volume::write(
                key, v, s, n, local, tag, remote, map, i, plain,
            )),
            Call::Survey => survey_by_reference(lent),
            Call::Start => answer_number(&map::start(n, map)),
            Call::Count => count_by_reference(lent),
        })
    }
}

/// Writes what the survey counts where the library writes it.
fn survey_by_reference(lent: &mut Arguments) -> u8 {
    let (local, tag, remote) = (&lent.local, &lent.tag, &lent.remote);
    match volume::survey(
        &lent.key,
        lent.volume,
        lent.s,
        lent.n,
        local,
        tag,
        remote,
        &lent.map,
        &mut lent.list,
    ) {
        Ok(found) => {
            *lent.counts = found.numbers();
            0
        }
        Err(refusal) => refusal.number(),
    }
}

/// Writes the number of suspects where the library writes it.
fn count_by_reference(lent: &mut Arguments) -> u8 {
    let found = map::count_suspects(lent.n, &lent.map);
    answer_number(&found.map(|suspects| *lent.suspects = suspects))
}

/// How often each answer came from each call.
#[derive(Default)]
pub struct Tally(BTreeMap<(Call, u32), usize>);

impl Tally {
    /// Makes a call by both and counts it.
    pub fn make(&mut self, call: Call, given: &Arguments) -> (u32, Arguments) {
        let (number, left) = call.by_both(given);
        *self.0.entry((call, number)).or_default() += 1;
        (number, left)
    }

    pub fn print(&self) {
        for ((call, number), times) in &self.0 {
            println!("{call:?} answers {number:02x}: {times}");
        }
        println!("{} calls agree", self.0.values().sum::<usize>());
    }

    /// A call's answers must be these and no others.
    pub fn insist_on(&self, call: Call, answers: &[u32]) {
        let seen = self.0.keys().filter(|(of, _)| *of == call);
        let seen: BTreeSet<u32> = seen.map(|(_, number)| *number).collect();
        let due: BTreeSet<u32> = answers.iter().copied().collect();
        assert_eq!(seen, due, "answers of {call:?}");
    }
}

/// A volume's number: a small one, the largest, or any.
pub fn any_volume(rng: &mut Rng) -> u64 {
    let random = rng.next_u64();
    *rng.pick(&[0, 1, u64::MAX, random])
}

pub fn random_words(rng: &mut Rng, words: usize) -> Vec<u64> {
    (0..words).map(|_| rng.next_u64()).collect()
}

/// How many rounds: the default, or what the variable MIRROR_ROUNDS says.
pub fn rounds(default: usize) -> usize {
    match std::env::var("MIRROR_ROUNDS") {
        Ok(text) => text.parse().expect("MIRROR_ROUNDS is a number"),
        Err(_) => default,
    }
}
