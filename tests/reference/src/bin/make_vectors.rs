//! Prints test vectors for the sector calls, the same on every run.
//!
//! One vector a line, in lower case hexadecimal: the call's number in one byte
//! (0 seal, 1 judge, 2 open, 3 rebuild, 4 combine), then fields, each after its
//! length in two bytes, high first. The fields are the call's parameters in
//! order, outputs as they were before; then the answer's number in one byte and
//! the outputs as they are after. An address is a field of 8 bytes, high first,
//! under the volume's number 0; or a field of 16, which are the number's 8 bytes
//! and then the address's, both high first. A side is a field of one byte.

use std::io::{self, Write};

use reference::answer::answer_number;
use reference::collide::{blind_pair, steer};
use reference::field::{to_block, to_blocks, to_bytes, Block};
use reference::hex;
use reference::rng::Rng;
use reference::seal;

const SEED: u64 = 0x2003_0197;
/// The lines with a number draw for themselves, so that the older ones stay.
const NUMBERED_SEED: u64 = 0x0005_0002_0064;
/// So do the lines about h.
const H_SEED: u64 = 0x0007_000e_0000;
const SMALL_SIZES: [usize; 4] = [16, 32, 48, 64];
const LARGE: usize = 4096;
const LOCAL: u8 = 0;
const REMOTE: u8 = 1;

fn main() -> io::Result<()> {
    let mut maker = Maker::new(SEED);
    maker.seal_vectors();
    maker.seal_refusals();
    maker.judge_vectors();
    maker.judge_clashes();
    maker.judge_refusals();
    for call in [OneSide::Open, OneSide::Rebuild] {
        maker.one_side_vectors(call);
        maker.one_side_refusals(call);
    }
    maker.combine_vectors();
    maker.combine_refusals();
    let mut numbered = Maker::new(NUMBERED_SEED);
    numbered.numbered_vectors(&maker.lines);
    let mut of_h = Maker::new(H_SEED);
    of_h.h_vectors();
    let makers = [&maker, &numbered, &of_h];
    let lines = makers.into_iter().flat_map(|maker| &maker.lines);
    let text: String = lines.map(Line::text).collect();
    io::stdout().write_all(text.as_bytes())
}

/// A call that takes one side and the tag.
#[derive(Clone, Copy)]
enum OneSide {
    Open,
    Rebuild,
}

/// Where a sector is: its address, and the volume's number if the line says it.
#[derive(Clone, Copy)]
struct Position {
    volume: Option<u64>,
    address: u64,
}

impl Position {
    fn under(volume: u64, address: u64) -> Position {
        Position {
            volume: Some(volume),
            address,
        }
    }

    /// The number, which is 0 if the line says nothing.
    fn volume(self) -> u64 {
        self.volume.unwrap_or(0)
    }

    fn field(self) -> Vec<u8> {
        let address = self.address.to_be_bytes();
        match self.volume {
            Some(volume) => [volume.to_be_bytes(), address].concat(),
            None => address.to_vec(),
        }
    }
}

impl From<u64> for Position {
    fn from(address: u64) -> Position {
        Position {
            volume: None,
            address,
        }
    }
}

/// Three places under a key and at a position.
#[derive(Clone)]
struct Sealed {
    key: Vec<u8>,
    position: Position,
    local: Vec<u8>,
    tag: Vec<u8>,
    remote: Vec<u8>,
}

impl Sealed {
    /// Also under an h of zero, as earlier releases sealed.
    fn new(key: &[u8], position: impl Into<Position>, plaintext: &[u8]) -> Sealed {
        let position = position.into();
        let seal::Sealed { local, tag, remote } =
            seal::sealed(key, position.volume(), position.address, plaintext);
        Sealed {
            key: key.to_vec(),
            position,
            local,
            tag,
            remote,
        }
    }

    fn side(&self, side: u8) -> &[u8] {
        if side == LOCAL {
            &self.local
        } else {
            &self.remote
        }
    }
}

/// One vector.
#[derive(Clone)]
struct Line {
    call: u8,
    fields: Vec<Vec<u8>>,
}

impl Line {
    fn new(call: u8) -> Line {
        Line {
            call,
            fields: Vec::new(),
        }
    }

    fn field(mut self, field: &[u8]) -> Line {
        self.fields.push(field.to_vec());
        self
    }

    fn text(&self) -> String {
        let mut bytes = vec![self.call];
        for field in &self.fields {
            let length = u16::try_from(field.len()).expect("fields are short");
            bytes.extend_from_slice(&length.to_be_bytes());
            bytes.extend_from_slice(field);
        }
        hex::encode(&bytes) + "\n"
    }
}

struct Maker {
    rng: Rng,
    lines: Vec<Line>,
}

impl Maker {
    fn new(seed: u64) -> Maker {
        Maker {
            rng: Rng::new(seed),
            lines: Vec::new(),
        }
    }

    fn key(&mut self) -> Vec<u8> {
        self.rng.bytes(32)
    }

    fn address(&mut self) -> u64 {
        self.rng.next_u64()
    }

    fn sealed(&mut self, size: usize) -> Sealed {
        let (key, address) = (self.key(), self.address());
        let plaintext = self.rng.bytes(size);
        Sealed::new(&key, address, &plaintext)
    }

    // The four kinds of line. Each runs the call, insists on the answer that
    // the vector is meant to show, and writes the line. Outputs start random.

    fn seal(
        &mut self,
        key: &[u8],
        position: impl Into<Position>,
        plaintext: &[u8],
        outputs: [usize; 3],
        due: u8,
    ) {
        let position = position.into();
        let before = outputs.map(|len| self.rng.bytes(len));
        let [mut local, mut remote, mut tag] = before.clone();
        let answer = seal::seal(
            key,
            position.volume(),
            position.address,
            plaintext,
            &mut local,
            &mut remote,
            &mut tag,
        );
        assert_eq!(answer_number(&answer), due);
        let line = Line::new(0)
            .field(key)
            .field(&position.field())
            .field(plaintext)
            .field(&before[0])
            .field(&before[1])
            .field(&before[2])
            .field(&[due])
            .field(&local)
            .field(&remote)
            .field(&tag);
        self.lines.push(line);
    }

    fn judge(&mut self, held: &Sealed, output: usize, due: u8) {
        let before = self.rng.bytes(output);
        let mut after = before.clone();
        let answer = seal::judge(
            &held.key,
            held.position.volume(),
            held.position.address,
            &held.local,
            &held.tag,
            &held.remote,
            &mut after,
        );
        assert_eq!(answer_number(&answer), due);
        let line = Line::new(1)
            .field(&held.key)
            .field(&held.position.field())
            .field(&held.local)
            .field(&held.tag)
            .field(&held.remote)
            .field(&before)
            .field(&[due])
            .field(&after);
        self.lines.push(line);
    }

    /// Takes the key, the position and the tag of `held`, and a sector of its
    /// own.
    fn one_side(
        &mut self,
        call: OneSide,
        held: &Sealed,
        side: u8,
        sector: &[u8],
        output: usize,
        due: u8,
    ) {
        let before = self.rng.bytes(output);
        let mut after = before.clone();
        let (kind, run): (u8, OneSideCall) = match call {
            OneSide::Open => (2, seal::open),
            OneSide::Rebuild => (3, seal::rebuild),
        };
        let answer = run(
            &held.key,
            held.position.volume(),
            held.position.address,
            side,
            sector,
            &held.tag,
            &mut after,
        );
        assert_eq!(answer_number(&answer), due);
        let line = Line::new(kind)
            .field(&held.key)
            .field(&held.position.field())
            .field(&[side])
            .field(sector)
            .field(&held.tag)
            .field(&before)
            .field(&[due])
            .field(&after);
        self.lines.push(line);
    }

    fn combine(&mut self, local: &[u8], remote: &[u8], output: usize, due: u8) {
        let before = self.rng.bytes(output);
        let mut after = before.clone();
        let answer = seal::combine(local, remote, &mut after);
        assert_eq!(answer_number(&answer), due);
        let line = Line::new(4)
            .field(local)
            .field(remote)
            .field(&before)
            .field(&[due])
            .field(&after);
        self.lines.push(line);
    }

    /// With outputs of the right lengths: done, or refused for an h of zero.
    fn seal_right(&mut self, key: &[u8], position: impl Into<Position>, plaintext: &[u8]) {
        let size = plaintext.len();
        let due = unless_h_is_zero(key, 0);
        self.seal(key, position, plaintext, [size, size, 16], due);
    }

    fn seal_vectors(&mut self) {
        // Every count of blocks up to 20, for every shape of the hash's halving.
        for blocks in (1..=20).chain([31, 32]) {
            let (key, address) = (self.key(), self.address());
            let plaintext = self.rng.bytes(16 * blocks);
            self.seal_right(&key, address, &plaintext);
        }
        for size in [512, LARGE] {
            let (key, address) = (self.key(), self.address());
            let plaintext = self.rng.bytes(size);
            self.seal_right(&key, address, &plaintext);
        }
        self.seal_edges();
    }

    fn seal_edges(&mut self) {
        let plain_keys = [vec![0; 32], vec![0xff; 32], key_of_h(1), key_of_h(2)];
        for size in SMALL_SIZES {
            for key in &plain_keys {
                for address in [0, u64::MAX] {
                    self.seal_right(key, address, &vec![0; size]);
                }
                self.seal_right(key, 1 << 32, &vec![0xff; size]);
            }
        }
        for size in [16, 32] {
            let (key, address) = (self.key(), self.address());
            let mut top_bits = vec![0; size];
            top_bits
                .iter_mut()
                .step_by(16)
                .for_each(|byte| *byte = 0x80);
            self.seal_right(&key, address, &top_bits);
        }
    }

    fn seal_refusals(&mut self) {
        let (key, address) = (self.key(), self.address());
        for len in [0, 31, 33] {
            let key = self.rng.bytes(len);
            self.seal(&key, address, &[7; 16], [16, 16, 16], 1);
        }
        self.seal(&[], address, &[7; 15], [14, 13, 12], 1);
        for size in [0, 15, 17, 31] {
            self.seal(&key, address, &vec![7; size], [size, size, 16], 2);
        }
        self.seal(&key, address, &[7; 4112], [16, 16, 16], 2);
        self.seal(&key, address, &[7; 31], [15, 16, 17], 2);
        for outputs in [
            [15, 16, 16],
            [17, 16, 16],
            [16, 15, 16],
            [16, 17, 16],
            [16, 16, 15],
            [16, 16, 17],
            [0, 16, 16],
            [16, 0, 16],
            [16, 16, 0],
            [32, 32, 16],
            [16, 16, 32],
        ] {
            self.seal(&key, address, &[7; 16], outputs, 3);
        }
        for outputs in [[48, 64, 16], [64, 48, 16], [64, 64, 64]] {
            self.seal(&key, address, &[7; 64], outputs, 3);
        }
        self.seal(&key, address, &[7; LARGE], [16, 16, 16], 3);
    }

    fn judge_vectors(&mut self) {
        for size in [16, 32, 48, 64, 512] {
            let sealed = self.sealed(size);
            self.judge_damages(&sealed);
        }
        for size in SMALL_SIZES {
            let sealed = self.sealed(size);
            self.judge_single_bits(&sealed);
            for lost in [&[1, 2][..], &[2, 3], &[1, 2, 3]] {
                let damaged = self.scrambled(&sealed, lost);
                self.judge(&damaged, size, 6);
            }
            self.judge_mixed(size);
        }
        let sealed = self.sealed(LARGE);
        self.judge(&sealed, LARGE, 0);
        let mut damaged = sealed;
        damaged.tag[0] ^= 0x80;
        self.judge(&damaged, LARGE, 0x82);
    }

    /// Whole, with each place damaged, and with both sides damaged.
    fn judge_damages(&mut self, sealed: &Sealed) {
        let size = sealed.local.len();
        self.judge(sealed, size, 0);
        for place in 1..=3 {
            let damaged = self.scrambled(sealed, &[place]);
            self.judge(&damaged, size, 0x80 | place);
        }
        let damaged = self.scrambled(sealed, &[1, 3]);
        self.judge(&damaged, size, 6);
    }

    /// One wrong bit at either end of each place.
    fn judge_single_bits(&mut self, sealed: &Sealed) {
        let size = sealed.local.len();
        for place in 1..=3 {
            for (at_end, bit) in [(false, 0x80), (true, 1)] {
                let mut damaged = sealed.clone();
                let bytes = place_mut(&mut damaged, place);
                let position = if at_end { bytes.len() - 1 } else { 0 };
                bytes[position] ^= bit;
                self.judge(&damaged, size, 0x80 | place);
            }
        }
    }

    /// Places from two sealings, and the right places elsewhere.
    fn judge_mixed(&mut self, size: usize) {
        let old = self.sealed(size);
        let plaintext = self.rng.bytes(size);
        let new = Sealed::new(&old.key, old.position, &plaintext);
        for place in 1..=3 {
            let mut mixed = old.clone();
            let bytes = place_mut(&mut new.clone(), place).clone();
            *place_mut(&mut mixed, place) = bytes;
            self.judge(&mixed, size, 0x80 | place);
        }
        let swapped = Sealed {
            local: old.remote.clone(),
            remote: old.local.clone(),
            ..old.clone()
        };
        self.judge(&swapped, size, 6);
        let elsewhere = Sealed {
            position: (old.position.address ^ 1).into(),
            ..old.clone()
        };
        self.judge(&elsewhere, size, 6);
        let other_key = Sealed {
            key: self.key(),
            ..old
        };
        self.judge(&other_key, size, 6);
    }

    /// Judges triples made of two plaintexts with one tag.
    fn judge_pair(&mut self, key: &[u8], position: impl Into<Position>, one: &[u8], other: &[u8]) {
        let position = position.into();
        let size = one.len();
        let due = |due| unless_h_is_zero(key, due);
        let one = Sealed::new(key, position, one);
        let other = Sealed::new(key, position, other);
        assert_eq!(one.tag, other.tag);
        for (first, second) in [(&one, &other), (&other, &one)] {
            let clash = Sealed {
                remote: second.remote.clone(),
                ..first.clone()
            };
            self.judge(&clash, size, due(7));
            // Under a wrong tag neither plaintext fits two places.
            let lost = self.scrambled(&clash, &[2]);
            self.judge(&lost, size, due(6));
        }
        // A second plaintext with the same tag alone is no clash.
        self.judge(&one, size, due(0));
        for place in 1..=3 {
            let damaged = self.scrambled(&one, &[place]);
            self.judge(&damaged, size, due(0x80 | place));
        }
    }

    fn judge_clashes(&mut self) {
        // The pair of the marked table.
        for address in [0, 1, self.rng.next_u64()] {
            let key = self.key();
            let (one, other) = blind_pair(h_of(&key), &[0; 2], 1);
            self.judge_pair(&key, address, &to_bytes(&one), &to_bytes(&other));
        }
        // The like at more sizes, with the rest random.
        for size in [48, 64, 80] {
            let (key, address) = (self.key(), self.address());
            let plaintext = to_blocks(&self.rng.bytes(size));
            let change = self.rng.next_u128();
            let (one, other) = blind_pair(h_of(&key), &plaintext, change);
            self.judge_pair(&key, address, &to_bytes(&one), &to_bytes(&other));
        }
        // Two random plaintexts, one of them steered to the other's tag.
        for size in [32, 48, 64, 128] {
            let (key, address) = (self.key(), self.address());
            let (one, other) = self.steered_pair(&key, address, size);
            self.judge_pair(&key, address, &one, &other);
        }
        // With h = 0 all plaintexts have one tag, even those of one block. Before
        // such keys were refused, these clashed.
        for size in [16, 32] {
            let (mut key, address) = (self.key(), self.address());
            key[..16].fill(0);
            let (one, other) = (self.rng.bytes(size), self.rng.bytes(size));
            self.judge_pair(&key, address, &one, &other);
        }
        for size in [512, LARGE] {
            let (key, address) = (self.key(), self.address());
            self.judge_steered_clash(&key, address, size);
        }
    }

    fn judge_steered_clash(&mut self, key: &[u8], position: impl Into<Position>, size: usize) {
        let position = position.into();
        let (one, other) = self.steered_pair(key, position, size);
        let mut clash = Sealed::new(key, position, &one);
        clash.remote = Sealed::new(key, position, &other).remote;
        self.judge(&clash, size, 7);
    }

    fn steered_pair(
        &mut self,
        key: &[u8],
        position: impl Into<Position>,
        size: usize,
    ) -> (Vec<u8>, Vec<u8>) {
        let position = position.into();
        let (volume, address) = (position.volume(), position.address);
        let one = self.rng.bytes(size);
        let other = to_blocks(&self.rng.bytes(size));
        let steered = steer(h_of(key), volume, address, &to_blocks(&one), &other)
            .expect("a random block 2 has its say");
        (one, to_bytes(&steered))
    }

    fn judge_refusals(&mut self) {
        let sealed = self.sealed(32);
        for len in [0, 31, 33] {
            let wrong = Sealed {
                key: self.rng.bytes(len),
                ..sealed.clone()
            };
            self.judge(&wrong, 32, 1);
        }
        for (key, local, tag, remote, output, due) in [
            (0, 15, 15, 17, 0, 1),
            (32, 0, 16, 0, 0, 2),
            (32, 15, 16, 15, 15, 2),
            (32, 17, 16, 17, 17, 2),
            (32, 4112, 16, 32, 32, 2),
            (32, 31, 15, 17, 0, 2),
            (32, 32, 15, 32, 32, 3),
            (32, 32, 17, 32, 32, 3),
            (32, 32, 0, 32, 32, 3),
            (32, 32, 32, 32, 32, 3),
            (32, 32, 16, 31, 32, 3),
            (32, 32, 16, 33, 32, 3),
            (32, 32, 16, 16, 32, 3),
            (32, 32, 16, 0, 32, 3),
            (32, 32, 16, 32, 31, 3),
            (32, 32, 16, 32, 33, 3),
            (32, 32, 16, 32, 16, 3),
            (32, 32, 16, 32, 0, 3),
            (32, 16, 16, 32, 32, 3),
            (32, LARGE, 16, 32, 32, 3),
        ] {
            let wrong = Sealed {
                key: resized(&sealed.key, key),
                position: sealed.position,
                local: resized(&sealed.local, local),
                tag: resized(&sealed.tag, tag),
                remote: resized(&sealed.remote, remote),
            };
            self.judge(&wrong, output, due);
        }
    }

    fn one_side_vectors(&mut self, call: OneSide) {
        for size in [16, 32, 48, 64, 512] {
            for side in [LOCAL, REMOTE] {
                let sealed = self.sealed(size);
                self.one_side(call, &sealed, side, sealed.side(side), size, 0);
            }
        }
        for size in SMALL_SIZES {
            for side in [LOCAL, REMOTE] {
                let sealed = self.sealed(size);
                self.one_side_misfits(call, &sealed, side);
            }
        }
        self.one_side_same_tag(call);
        let sealed = self.sealed(LARGE);
        let side = match call {
            OneSide::Open => LOCAL,
            OneSide::Rebuild => REMOTE,
        };
        self.one_side(call, &sealed, side, sealed.side(side), LARGE, 0);
    }

    /// Refusal 5: the other side, another tag, a wrong bit, another address.
    fn one_side_misfits(&mut self, call: OneSide, sealed: &Sealed, side: u8) {
        let size = sealed.local.len();
        self.one_side(call, sealed, 1 - side, sealed.side(side), size, 5);
        let other_tag = self.scrambled(sealed, &[2]);
        self.one_side(call, &other_tag, side, sealed.side(side), size, 5);
        let mut sector = sealed.side(side).to_vec();
        sector[size - 1] ^= 1;
        self.one_side(call, sealed, side, &sector, size, 5);
        let elsewhere = Sealed {
            position: Position {
                address: sealed.position.address ^ (1 << 63),
                ..sealed.position
            },
            ..sealed.clone()
        };
        self.one_side(call, &elsewhere, side, sealed.side(side), size, 5);
    }

    /// Both plaintexts of one tag can be had from either side.
    fn one_side_same_tag(&mut self, call: OneSide) {
        let (key, address) = (self.key(), self.address());
        let (one, other) = blind_pair(h_of(&key), &[0; 2], 1);
        for plaintext in [one, other] {
            let sealed = Sealed::new(&key, address, &to_bytes(&plaintext));
            for side in [LOCAL, REMOTE] {
                self.one_side(call, &sealed, side, sealed.side(side), 32, 0);
            }
        }
    }

    fn one_side_refusals(&mut self, call: OneSide) {
        let sealed = self.sealed(32);
        for (key, side, sector, tag, output, due) in [
            (0, LOCAL, 32, 16, 32, 1),
            (31, LOCAL, 32, 16, 32, 1),
            (33, REMOTE, 32, 16, 32, 1),
            (0, 2, 15, 15, 0, 1),
            (32, LOCAL, 0, 16, 0, 2),
            (32, LOCAL, 15, 16, 15, 2),
            (32, REMOTE, 17, 16, 17, 2),
            (32, REMOTE, 4112, 16, 32, 2),
            (32, 2, 31, 15, 0, 2),
            (32, LOCAL, 32, 15, 32, 3),
            (32, REMOTE, 32, 17, 32, 3),
            (32, LOCAL, 32, 0, 32, 3),
            (32, LOCAL, 32, 32, 32, 3),
            (32, REMOTE, 32, 16, 31, 3),
            (32, LOCAL, 32, 16, 33, 3),
            (32, LOCAL, 32, 16, 16, 3),
            (32, REMOTE, 32, 16, 0, 3),
            (32, REMOTE, 16, 16, 32, 3),
            (32, 2, 32, 15, 32, 3),
            (32, 255, 32, 16, 31, 3),
            (32, LOCAL, LARGE, 16, 32, 3),
            (32, 2, 32, 16, 32, 4),
            (32, 255, 32, 16, 32, 4),
        ] {
            let wrong = Sealed {
                key: resized(&sealed.key, key),
                tag: resized(&sealed.tag, tag),
                ..sealed.clone()
            };
            let bytes = resized(sealed.side(side), sector);
            self.one_side(call, &wrong, side, &bytes, output, due);
        }
        // A wrong side goes before a sector that fits nothing.
        let damaged = self.scrambled(&sealed, &[1, 2, 3]);
        self.one_side(call, &damaged, 2, &damaged.local, 32, 4);
    }

    fn combine_vectors(&mut self) {
        for size in [16, 32, 48, 64, 512, LARGE] {
            let (local, remote) = (self.rng.bytes(size), self.rng.bytes(size));
            self.combine(&local, &remote, size, 0);
        }
        let sealed = self.sealed(64);
        self.combine(&sealed.local, &sealed.remote, 64, 0);
        self.combine(&sealed.local, &sealed.local, 64, 0);
    }

    fn combine_refusals(&mut self) {
        for (local, remote, output, due) in [
            (0, 0, 0, 2),
            (15, 15, 15, 2),
            (17, 17, 17, 2),
            (15, 16, 16, 2),
            (17, 15, 0, 2),
            (4112, 16, 16, 2),
            (16, 15, 16, 3),
            (16, 17, 16, 3),
            (16, 0, 16, 3),
            (16, 32, 32, 3),
            (16, 16, 15, 3),
            (16, 16, 17, 3),
            (16, 16, 0, 3),
            (32, 16, 32, 3),
            (32, 32, 16, 3),
            (LARGE, 16, 16, 3),
        ] {
            let (local, remote) = (self.rng.bytes(local), self.rng.bytes(remote));
            self.combine(&local, &remote, output, due);
        }
    }

    /// The triple with these places filled at random.
    fn scrambled(&mut self, sealed: &Sealed, places: &[u8]) -> Sealed {
        let mut damaged = sealed.clone();
        for &place in places {
            self.rng.fill(place_mut(&mut damaged, place));
        }
        damaged
    }
}

/// Numbers at the ends of the range and with a byte in each place.
const VOLUMES: [u64; 6] = [
    1,
    2,
    0x0102_0304_0506_0708,
    0xff00_0000_0000_0000,
    0x0000_0000_0000_00ff,
    u64::MAX,
];
const NUMBERED_SIZES: [usize; 3] = [16, 32, 64];

/// The lines that say the volume's number.
impl Maker {
    fn numbered_vectors(&mut self, old: &[Line]) {
        self.numbered_seals();
        self.numbers_alone();
        self.exchanged();
        self.under_another_number();
        self.numbered_verdicts();
        for call in [OneSide::Open, OneSide::Rebuild] {
            self.numbered_one_side(call);
        }
        self.number_zero(old);
        self.numbered_refusals();
    }

    fn position(&mut self) -> Position {
        Position::under(self.rng.next_u64(), self.rng.next_u64())
    }

    /// A random plaintext sealed under a random key.
    fn sealed_at(&mut self, position: Position, size: usize) -> Sealed {
        let (key, plaintext) = (self.key(), self.rng.bytes(size));
        Sealed::new(&key, position, &plaintext)
    }

    fn numbered_seals(&mut self) {
        let random = [self.rng.next_u64(), self.rng.next_u64()];
        for (turn, volume) in VOLUMES.into_iter().chain(random).enumerate() {
            let addresses = [0, u64::MAX, self.rng.next_u64()];
            for (step, address) in addresses.into_iter().enumerate() {
                let (key, size) = (self.key(), NUMBERED_SIZES[(turn + step) % 3]);
                let plaintext = self.rng.bytes(size);
                self.seal_right(&key, Position::under(volume, address), &plaintext);
            }
        }
        for size in [512, LARGE] {
            let (key, position) = (self.key(), self.position());
            let plaintext = self.rng.bytes(size);
            self.seal_right(&key, position, &plaintext);
        }
    }

    /// Seals one plaintext under one key at two positions, and insists that
    /// all three places differ.
    fn seal_twice(&mut self, one: Position, other: Position, size: usize) -> [Sealed; 2] {
        let (key, plaintext) = (self.key(), self.rng.bytes(size));
        for position in [one, other] {
            self.seal_right(&key, position, &plaintext);
        }
        let sealed = [one, other].map(|position| Sealed::new(&key, position, &plaintext));
        let [a, b] = &sealed;
        assert!(a.local != b.local && a.tag != b.tag && a.remote != b.remote);
        sealed
    }

    /// Pairs that differ in the number alone.
    fn numbers_alone(&mut self) {
        let any = self.rng.next_u64();
        for (size, one, other) in [
            (16, 1, 2),
            (32, 0xff, 0xff << 56),
            (64, any, any ^ 1),
            (64, any, any ^ (1 << 63)),
        ] {
            let address = self.address();
            let [one, other] = [one, other].map(|volume| Position::under(volume, address));
            for sealed in self.seal_twice(one, other, size) {
                self.judge(&sealed, size, 0);
            }
        }
    }

    /// Pairs in which number and address are exchanged.
    fn exchanged(&mut self) {
        let any = self.rng.next_u64();
        for (size, volume, address) in [
            (16, 1, 2),
            (32, 0, u64::MAX),
            (64, 0x0102_0304_0506_0708, 1),
            (64, u64::MAX, any),
        ] {
            let one = Position::under(volume, address);
            let other = Position::under(address, volume);
            let [sealed, _] = self.seal_twice(one, other, size);
            self.judge(&sealed, size, 0);
            self.nothing_fits(&sealed, other, LOCAL);
        }
    }

    /// A sector where it is not sealed: lost, and neither side opens.
    fn nothing_fits(&mut self, sealed: &Sealed, position: Position, opened: u8) {
        let size = sealed.local.len();
        let elsewhere = Sealed {
            position,
            ..sealed.clone()
        };
        self.judge(&elsewhere, size, 6);
        for (call, side) in [(OneSide::Open, opened), (OneSide::Rebuild, 1 - opened)] {
            self.one_side(call, &elsewhere, side, sealed.side(side), size, 5);
        }
    }

    /// Sealed under one number; judged, opened and rebuilt under another.
    fn under_another_number(&mut self) {
        let any = self.rng.next_u64();
        for (opened, size, one, other) in [
            (LOCAL, 16, 0, 1),
            (REMOTE, 16, 1, 0),
            (LOCAL, 32, 1, 2),
            (REMOTE, 32, 0x0102_0304_0506_0708, 0x0807_0605_0403_0201),
            (LOCAL, 64, any, any ^ (1 << 63)),
            (REMOTE, 64, u64::MAX, u64::MAX - 1),
            (LOCAL, 512, any, any.rotate_left(32)),
        ] {
            let address = self.address();
            let sealed = self.sealed_at(Position::under(one, address), size);
            self.nothing_fits(&sealed, Position::under(other, address), opened);
        }
    }

    /// All verdicts under large numbers.
    fn numbered_verdicts(&mut self) {
        for (size, volume) in [
            (16, u64::MAX),
            (32, 0xff << 56),
            (64, 1 << 63),
            (512, 0xfedc_ba98_7654_3210),
        ] {
            let position = Position::under(volume, self.address());
            let sealed = self.sealed_at(position, size);
            self.judge_damages(&sealed);
        }
        let sealed = self.sealed_at(Position::under(u64::MAX, u64::MAX), LARGE);
        self.judge(&sealed, LARGE, 0);

        let (key, position) = (self.key(), Position::under(u64::MAX, 0));
        let (one, other) = blind_pair(h_of(&key), &[0; 2], 1);
        self.judge_pair(&key, position, &to_bytes(&one), &to_bytes(&other));
        let (key, position) = (self.key(), Position::under(0xff << 56, self.address()));
        let (one, other) = self.steered_pair(&key, position, 64);
        self.judge_pair(&key, position, &one, &other);
        let (key, position) = (self.key(), self.position());
        self.judge_steered_clash(&key, position, 512);
    }

    fn numbered_one_side(&mut self, call: OneSide) {
        for (turn, size) in [16, 32, 64, 512].into_iter().enumerate() {
            for side in [LOCAL, REMOTE] {
                let volume = VOLUMES[(2 * turn + usize::from(side)) % VOLUMES.len()];
                let position = Position::under(volume, self.address());
                let sealed = self.sealed_at(position, size);
                self.one_side(call, &sealed, side, sealed.side(side), size, 0);
            }
        }
        let side = match call {
            OneSide::Open => REMOTE,
            OneSide::Rebuild => LOCAL,
        };
        let position = self.position();
        let sealed = self.sealed_at(position, LARGE);
        self.one_side(call, &sealed, side, sealed.side(side), LARGE, 0);
        let position = self.position();
        let sealed = self.sealed_at(position, 32);
        self.one_side_misfits(call, &sealed, 1 - side);
    }

    /// Number 0 written out: the first old line of each call with each of the
    /// answers in which a number has a say.
    fn number_zero(&mut self, old: &[Line]) {
        for (call, answers) in [
            (0, &[0][..]),
            (1, &[0, 0x81, 0x82, 0x83, 6, 7]),
            (2, &[0, 5]),
            (3, &[0, 5]),
        ] {
            for &answer in answers {
                let mut line = old
                    .iter()
                    .find(|line| line.call == call && line.fields[6] == [answer])
                    .expect("the old lines have each answer")
                    .clone();
                line.fields[1].splice(0..0, [0; 8]);
                self.lines.push(line);
            }
        }
    }

    /// A number has no say in refusals 1, 14, 2, 3 and 4 and their order.
    fn numbered_refusals(&mut self) {
        let position = self.position();
        let sealed = self.sealed_at(position, 32);
        self.seal(&sealed.key[..31], position, &[7; 15], [14, 13, 12], 1);
        self.seal(&sealed.key, position, &[7; 31], [15, 16, 17], 2);
        self.seal(&sealed.key, position, &[7; 32], [32, 32, 15], 3);
        for (key, local, tag, output, due) in [
            (33, 15, 15, 0, 1),
            (32, 31, 15, 0, 2),
            (32, 32, 17, 32, 3),
            (32, 32, 16, 31, 3),
        ] {
            let wrong = Sealed {
                key: resized(&sealed.key, key),
                local: resized(&sealed.local, local),
                tag: resized(&sealed.tag, tag),
                ..sealed.clone()
            };
            self.judge(&wrong, output, due);
        }
        for call in [OneSide::Open, OneSide::Rebuild] {
            for (key, sector, output, due) in [
                (0, 15, 0, 1),
                (32, 31, 0, 2),
                (32, 32, 16, 3),
                (32, 32, 32, 4),
            ] {
                let wrong = Sealed {
                    key: resized(&sealed.key, key),
                    ..sealed.clone()
                };
                let bytes = resized(&sealed.local, sector);
                self.one_side(call, &wrong, 2, &bytes, output, due);
            }
        }
    }
}

/// The lines about h: other plaintexts of one tag, keys that are refused for an h
/// of zero, and keys that are not.
impl Maker {
    fn h_vectors(&mut self) {
        self.clashes_by_damage();
        for size in [16, 32, 64] {
            let key = [vec![0; 16], self.rng.bytes(16)].concat();
            self.under_zero_h(&key, size);
        }
        self.under_zero_h(&[0; 32], 48);
        self.zeros_of_other_lengths();
        self.zero_h_beside_other_faults();
        self.keys_with_little_in_h();
    }

    /// Of a plaintext that begins with h, block 2 has no say in the tag: any bytes
    /// there on a side fit a plaintext of that tag. Block 1 has its say.
    fn clashes_by_damage(&mut self) {
        for size in [32, 48, 80] {
            let (key, position) = (self.key(), self.position());
            let mut plaintext = self.rng.bytes(size);
            plaintext[..16].copy_from_slice(&key[..16]);
            let sealed = Sealed::new(&key, position, &plaintext);
            self.judge(&sealed, size, 0);
            for sides in [&[1][..], &[3], &[1, 3]] {
                let mut clash = sealed.clone();
                for &side in sides {
                    self.rng.fill(&mut place_mut(&mut clash, side)[16..32]);
                }
                self.judge(&clash, size, 7);
            }
            for place in 1..=3 {
                let mut damaged = sealed.clone();
                self.rng.fill(&mut place_mut(&mut damaged, place)[..16]);
                self.judge(&damaged, size, 0x80 | place);
            }
        }
    }

    /// What earlier releases sealed under such a key, as sealed and damaged.
    fn under_zero_h(&mut self, key: &[u8], size: usize) {
        let (position, plaintext) = (self.position(), self.rng.bytes(size));
        self.seal_right(key, position, &plaintext);
        let sealed = Sealed::new(key, position, &plaintext);
        for places in [&[][..], &[1], &[2], &[3], &[1, 2]] {
            let damaged = self.scrambled(&sealed, places);
            self.judge(&damaged, size, 14);
        }
        let other_tag = self.scrambled(&sealed, &[2]);
        for call in [OneSide::Open, OneSide::Rebuild] {
            for side in [LOCAL, REMOTE] {
                self.one_side(call, &sealed, side, sealed.side(side), size, 14);
                self.one_side(call, &other_tag, side, sealed.side(side), size, 14);
            }
        }
    }

    /// A key of zeros that is not 32 bytes is refused for its length.
    fn zeros_of_other_lengths(&mut self) {
        let position = self.position();
        let sealed = self.sealed_at(position, 16);
        for length in [0, 16, 31, 33, 64] {
            let wrong = Sealed {
                key: vec![0; length],
                ..sealed.clone()
            };
            self.seal(&wrong.key, position, &[7; 16], [16; 3], 1);
            self.judge(&wrong, 16, 1);
            for call in [OneSide::Open, OneSide::Rebuild] {
                self.one_side(call, &wrong, LOCAL, &wrong.local, 16, 1);
            }
        }
    }

    /// An h of zero goes before all but the key's length.
    fn zero_h_beside_other_faults(&mut self) {
        let position = self.position();
        let key = [vec![0; 16], self.rng.bytes(16)].concat();
        let sealed = Sealed::new(&key, position, &[7; 32]);
        for (plaintext, outputs) in [
            (15, [15, 15, 16]),
            (31, [15, 16, 17]),
            (32, [31, 32, 16]),
            (32, [32, 33, 16]),
            (32, [32, 32, 15]),
        ] {
            self.seal(&key, position, &vec![7; plaintext], outputs, 14);
        }
        for (local, tag, remote, output) in [
            (15, 16, 15, 15),
            (31, 15, 17, 0),
            (32, 15, 32, 32),
            (32, 16, 31, 32),
            (32, 16, 32, 33),
        ] {
            let wrong = Sealed {
                local: resized(&sealed.local, local),
                tag: resized(&sealed.tag, tag),
                remote: resized(&sealed.remote, remote),
                ..sealed.clone()
            };
            self.judge(&wrong, output, 14);
        }
        for call in [OneSide::Open, OneSide::Rebuild] {
            for (side, sector, tag, output) in [
                (LOCAL, 15, 16, 15),
                (2, 31, 15, 0),
                (LOCAL, 32, 17, 32),
                (REMOTE, 32, 16, 31),
                (2, 32, 16, 32),
                (255, 32, 16, 32),
            ] {
                let wrong = Sealed {
                    tag: resized(&sealed.tag, tag),
                    ..sealed.clone()
                };
                let bytes = resized(sealed.side(side), sector);
                self.one_side(call, &wrong, side, &bytes, output, 14);
            }
        }
    }

    /// Keys that are accepted: h of one bit at either end of each half; halves that
    /// are equal, or add up to zero; a K of zero.
    fn keys_with_little_in_h(&mut self) {
        let half = u128::from(self.rng.next_u64());
        let equal = (half << 64) | half;
        let opposite = (half << 64) | ((1 << 64) - half);
        let of_one_bit = [1 << 127, 1 << 64, 1 << 63, 1];
        let any = self.rng.next_u128();
        for (turn, (h, k_is_zero)) in of_one_bit
            .into_iter()
            .chain([1 << 71, 1 << 56, equal, opposite])
            .map(|h| (h, false))
            .chain([(any, true), (1, true), (1 << 127, true)])
            .enumerate()
        {
            let k = if k_is_zero {
                vec![0; 16]
            } else {
                self.rng.bytes(16)
            };
            let key = [h.to_be_bytes().to_vec(), k].concat();
            let (position, size) = (self.position(), [16, 32][turn % 2]);
            let plaintext = self.rng.bytes(size);
            self.seal_right(&key, position, &plaintext);
            let sealed = Sealed::new(&key, position, &plaintext);
            self.judge(&sealed, size, 0);
            for (call, side) in [(OneSide::Open, LOCAL), (OneSide::Rebuild, REMOTE)] {
                self.one_side(call, &sealed, side, sealed.side(side), size, 0);
            }
        }
    }
}

/// What is due under a key, which is 14 where its h is zero.
fn unless_h_is_zero(key: &[u8], due: u8) -> u8 {
    if key[..16] == [0; 16] {
        14
    } else {
        due
    }
}

type OneSideCall =
    fn(&[u8], u64, u64, u8, &[u8], &[u8], &mut [u8]) -> Result<(), reference::answer::Refusal>;

fn place_mut(sealed: &mut Sealed, place: u8) -> &mut Vec<u8> {
    match place {
        1 => &mut sealed.local,
        2 => &mut sealed.tag,
        _ => &mut sealed.remote,
    }
}

/// The first bytes, or more behind them.
fn resized(bytes: &[u8], len: usize) -> Vec<u8> {
    let mut bytes = bytes.to_vec();
    bytes.resize(len, 0x5a);
    bytes
}

fn h_of(key: &[u8]) -> Block {
    to_block(&key[..16])
}

/// A key with this h and a simple AES key.
fn key_of_h(h: Block) -> Vec<u8> {
    let cipher_key: Vec<u8> = (0..16).collect();
    [h.to_be_bytes().to_vec(), cipher_key].concat()
}
