//! The five calls on one sector through the compiled library, each compared
//! with the independent implementation, on sectors as sealed and damaged in
//! every way.

mod common;

use std::collections::{BTreeMap, BTreeSet};

use common::{any_volume, rounds, Arguments, Call, Tally, FILL};
use reference::answer::Place;
use reference::collide::{blind_pair, steer};
use reference::field::{to_block, to_blocks, to_bytes};
use reference::rng::Rng;
use reference::seal::{sealed, Sealed};

/// Sizes of every round.
const FREQUENT: [usize; 5] = [16, 32, 48, 512, 4096];

/// As many rounds have all 256 sizes, eight in each.
const ROUNDS_OF_ALL_SIZES: usize = 32;

fn sizes(round: usize) -> impl Iterator<Item = usize> {
    let first = 8 * (round % ROUNDS_OF_ALL_SIZES);
    let in_turn = (first + 1..=first + 8).map(|blocks| 16 * blocks);
    FREQUENT.into_iter().chain(in_turn)
}

/// How much of a place is changed. Every byte of that part is.
#[derive(Clone, Copy, Debug)]
enum Damage {
    Bit,
    Byte,
    Block,
    All,
}

impl Damage {
    const KINDS: [Damage; 4] = [Damage::Bit, Damage::Byte, Damage::Block, Damage::All];

    fn apply(self, rng: &mut Rng, bytes: &mut [u8]) {
        let (width, one_bit) = match self {
            Damage::Bit => (1, true),
            Damage::Byte => (1, false),
            Damage::Block => (16, false),
            Damage::All => (bytes.len(), false),
        };
        let start = width * rng.below(bytes.len() / width);
        for byte in &mut bytes[start..start + width] {
            *byte ^= if one_bit {
                1 << rng.below(8)
            } else {
                1 + rng.below(255) as u8
            };
        }
    }
}

/// What has been seen, in all trials.
#[derive(Default)]
struct Seen {
    tally: Tally,
    /// What judging said of each kind of triple.
    verdicts: BTreeMap<(String, u32), usize>,
}

impl Seen {
    fn print(&self) {
        for ((what, number), times) in &self.verdicts {
            println!("{what}, {number:02x}: {times}");
        }
        self.tally.print();
    }
}

/// A key, a volume's number and an address, under which sectors of one size are
/// tried.
struct Trial<'a> {
    rng: Rng,
    key: Vec<u8>,
    h_is_random: bool,
    volume: u64,
    address: u64,
    size: usize,
    seen: &'a mut Seen,
}

impl<'a> Trial<'a> {
    fn new(mut rng: Rng, size: usize, seen: &'a mut Seen) -> Self {
        let mut key = rng.bytes(32);
        let how = rng.below(12);
        match how {
            0 => key[..16].fill(0),
            1 => key.fill(0),
            2 => key.fill(0xff),
            3 => key[..16].copy_from_slice(&(1u128 << rng.below(128)).to_be_bytes()),
            4 => key[16..].fill(0),
            _ => {}
        }
        let volume = any_volume(&mut rng);
        let random = rng.next_u64();
        let address = *rng.pick(&[0, 1, 1 << 63, u64::MAX, random]);
        Trial {
            rng,
            key,
            h_is_random: how > 3,
            volume,
            address,
            size,
            seen,
        }
    }

    fn run(&mut self) {
        let plain = self.choose_plaintext();
        if self.h() == 0 {
            self.refuse(&plain);
            return;
        }
        let sealed = self.seal(&plain);
        self.judge("as sealed", &sealed, Some(0));
        self.damage(&sealed);
        self.exchange(&sealed);
        let other = self.rng.bytes(self.size);
        let other = self.seal(&other);
        self.mix(&sealed, &other);
        self.elsewhere(&sealed);
        self.clash(&plain);
    }

    fn h(&self) -> u128 {
        to_block(&self.key[..16])
    }

    /// What is due of a damaged sector under a random h. With h all ones many
    /// plaintexts share a tag that begin with it, and with h of one bit a power of
    /// it may be the tweak.
    fn if_h_is_random(&self, due: u32) -> Option<u32> {
        self.h_is_random.then_some(due)
    }

    /// With h zero every call that takes the key refuses it: on what was sealed under
    /// it before, and on that with a place damaged, or all.
    fn refuse(&mut self, plain: &[u8]) {
        let given = self.to_seal(plain);
        let (number, left) = self.seen.tally.make(Call::Seal, &given);
        assert_eq!(number, 14);
        assert!(left == given, "a refused seal wrote");
        let sealed = sealed(&self.key, self.volume, self.address, plain);
        self.judge("h zero", &sealed, Some(14));
        for kind in Damage::KINDS {
            let mut all = sealed.clone();
            for place in Place::ALL {
                let mut held = sealed.clone();
                kind.apply(&mut self.rng, held.place_mut(place));
                all.place_mut(place).clone_from(held.place_mut(place));
                self.judge("h zero, damaged", &held, Some(14));
            }
            self.judge("h zero, damaged", &all, Some(14));
        }
    }

    fn choose_plaintext(&mut self) -> Vec<u8> {
        match self.rng.below(4) {
            0 => vec![0; self.size],
            1 => vec![0xff; self.size],
            _ => self.rng.bytes(self.size),
        }
    }

    fn arguments(&self) -> Arguments {
        Arguments {
            key: self.key.clone(),
            volume: self.volume,
            address: self.address,
            out: vec![FILL; self.size],
            ..Arguments::none()
        }
    }

    fn to_seal(&self, plain: &[u8]) -> Arguments {
        Arguments {
            plain: plain.to_vec(),
            local: vec![FILL; self.size],
            tag: vec![FILL; 16],
            remote: vec![FILL; self.size],
            ..self.arguments()
        }
    }

    fn seal(&mut self, plain: &[u8]) -> Sealed {
        let given = self.to_seal(plain);
        let (number, left) = self.seen.tally.make(Call::Seal, &given);
        assert_eq!(number, 0);
        Sealed {
            local: left.local,
            tag: left.tag,
            remote: left.remote,
        }
    }

    /// Puts a triple to every call that takes one; `due` is what judging has
    /// to answer, where that is known beforehand.
    fn judge(&mut self, what: &str, held: &Sealed, due: Option<u32>) {
        let given = Arguments {
            local: held.local.clone(),
            tag: held.tag.clone(),
            remote: held.remote.clone(),
            ..self.arguments()
        };
        let (number, _) = self.seen.tally.make(Call::Judge, &given);
        assert_eq!(number, due.unwrap_or(number), "{what}");
        let verdicts = &mut self.seen.verdicts;
        *verdicts.entry((what.to_string(), number)).or_default() += 1;
        self.seen.tally.make(Call::Combine, &given);
        for (side, sector) in [(0, &held.local), (1, &held.remote)] {
            let given = Arguments {
                side,
                sector: sector.clone(),
                ..given.clone()
            };
            for call in [Call::Open, Call::Rebuild] {
                let (opened, _) = self.seen.tally.make(call, &given);
                assert_eq!(opened == 14, number == 14, "{what}");
            }
        }
    }

    /// Each place alone, and each with the next.
    fn damage(&mut self, sealed: &Sealed) {
        for kind in Damage::KINDS {
            for place in Place::ALL {
                let mut held = sealed.clone();
                kind.apply(&mut self.rng, held.place_mut(place));
                let due = self.if_h_is_random(doubtful(place));
                self.judge(&format!("{kind:?} of {place:?} changed"), &held, due);

                let next = Place::ALL[usize::from(place.number()) % 3];
                let kind_there = *self.rng.pick(&Damage::KINDS);
                kind_there.apply(&mut self.rng, held.place_mut(next));
                let due = self.if_h_is_random(6);
                self.judge(&format!("{place:?} and {next:?} changed"), &held, due);
            }
        }
    }

    /// The sides exchanged, and the tag with the first block of a side.
    fn exchange(&mut self, sealed: &Sealed) {
        let mut held = sealed.clone();
        std::mem::swap(&mut held.local, &mut held.remote);
        self.judge("sides exchanged", &held, None);
        for side in [Place::Local, Place::Remote] {
            let mut held = sealed.clone();
            let Sealed { local, tag, remote } = &mut held;
            let side_bytes = if side == Place::Local { local } else { remote };
            tag.swap_with_slice(&mut side_bytes[..16]);
            let due = self.if_h_is_random(6);
            self.judge(&format!("Tag and {side:?} exchanged"), &held, due);
        }
    }

    /// Places of two sectors: one of the other's is doubtful among two.
    fn mix(&mut self, one: &Sealed, other: &Sealed) {
        for place in Place::ALL {
            for (most, rest) in [(one, other), (other, one)] {
                let mut held = most.clone();
                *held.place_mut(place) = rest.place(place).to_vec();
                let due = self.if_h_is_random(doubtful(place));
                self.judge(&format!("{place:?} of another sector"), &held, due);
            }
        }
    }

    /// The sector at another address, under another volume's number, with the two
    /// exchanged, and under a key with another half.
    fn elsewhere(&mut self, sealed: &Sealed) {
        let (key, volume, address) = (self.key.clone(), self.volume, self.address);
        let due = self.if_h_is_random(6);
        for bit in [0, 31, 32, 63] {
            self.address = address ^ (1 << bit);
            self.judge("another address", sealed, due);
            self.address = address;
            self.volume = volume ^ (1 << bit);
            self.judge("another volume", sealed, due);
            self.volume = volume;
        }
        if volume != address {
            (self.volume, self.address) = (address, volume);
            self.judge("volume and address exchanged", sealed, due);
            (self.volume, self.address) = (volume, address);
        }
        for (half, what) in [(0, "another h"), (16, "another AES key")] {
            self.key[half + self.rng.below(16)] ^= 1 << self.rng.below(8);
            self.judge(what, sealed, None);
            self.key.clone_from(&key);
        }
    }

    /// One side of each of two plaintexts that share a tag, which takes two blocks.
    /// Of one that begins with h, any bytes in block 2 of a side are such a side.
    fn clash(&mut self, plain: &[u8]) {
        let blocks = to_blocks(plain);
        if blocks.len() == 1 {
            return;
        }
        let change = self.rng.next_u128();
        let (one, other) = blind_pair(self.h(), &blocks, change);
        self.insist_on_clash(&to_bytes(&one), &to_bytes(&other));
        let sealed = self.seal(&to_bytes(&one));
        for place in [Place::Local, Place::Remote] {
            for kind in [Damage::Bit, Damage::Byte, Damage::Block] {
                let mut held = sealed.clone();
                kind.apply(&mut self.rng, &mut held.place_mut(place)[16..32]);
                self.judge("a side of equal tag by damage", &held, Some(7));
            }
        }
        let other = to_blocks(&self.rng.bytes(self.size));
        match steer(self.h(), self.volume, self.address, &blocks, &other) {
            Some(other) => self.insist_on_clash(plain, &to_bytes(&other)),
            // Where the tweak is a power of h, their sum may be a factor.
            None => assert!(!self.h_is_random),
        }
    }

    fn insist_on_clash(&mut self, one: &[u8], other: &[u8]) {
        let (one, other) = (self.seal(one), self.seal(other));
        assert_eq!(one.tag, other.tag);
        for (a, b) in [(&one, &other), (&other, &one)] {
            let mut held = a.clone();
            held.remote.clone_from(&b.remote);
            self.judge("sides of equal tag", &held, Some(7));
            Damage::Bit.apply(&mut self.rng, &mut held.tag);
            self.judge("sides of equal tag, another tag", &held, None);
        }
    }
}

/// The number of doubt at a place.
fn doubtful(place: Place) -> u32 {
    0x80 | u32::from(place.number())
}

#[test]
fn sectors_through_the_library() {
    let rounds = rounds(ROUNDS_OF_ALL_SIZES);
    let mut seen = Seen::default();
    let mut tried = BTreeSet::new();
    for round in 0..rounds {
        for (index, size) in sizes(round).enumerate() {
            let rng = Rng::new(100 * round as u64 + index as u64);
            Trial::new(rng, size, &mut seen).run();
            tried.insert(size);
        }
    }
    seen.print();
    println!("{} sizes, {rounds} rounds", tried.len());
    assert!(tried.len() == 256 || rounds < ROUNDS_OF_ALL_SIZES);
    // No call here is refused for a length or a number: refusals.rs has these. Some
    // are for an h of zero.
    seen.tally.insist_on(Call::Seal, &[0, 14]);
    let verdicts = [0, 0x81, 0x82, 0x83, 6, 7, 14];
    seen.tally.insist_on(Call::Judge, &verdicts);
    seen.tally.insist_on(Call::Open, &[0, 5, 14]);
    seen.tally.insist_on(Call::Rebuild, &[0, 5, 14]);
    seen.tally.insist_on(Call::Combine, &[0]);
}
