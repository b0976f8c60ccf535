//! What each answer of a call does to the map, as facts of the request that are
//! tried with any implementation of the calls.

use crate::answer::{answer_number, Place};
use crate::collide::blind_pair;
use crate::field::{to_block, to_bytes};
use crate::history::{Calls, Given, Images, Kind, Request};
use crate::map::words;
use crate::rng::Rng;
use crate::seal::{sealed, Sealed};
use crate::volume::part;

const FILL: u8 = 0x5a;
const MAX: u64 = u64::MAX;

/// A volume, whose sectors hold random bytes at first.
#[derive(Clone)]
pub struct Volume {
    pub given: Given,
    pub images: Images,
    pub map: Vec<u64>,
}

impl Volume {
    /// Of sectors of 32 bytes.
    pub fn new(rng: &mut Rng, count: usize) -> Volume {
        Volume::of_size(rng, 32, count)
    }

    pub fn of_size(rng: &mut Rng, size: usize, count: usize) -> Volume {
        let given = Given {
            key: rng.bytes(32),
            volume: rng.next_u64(),
            size,
            count,
        };
        let images = Images {
            local: rng.bytes(size * count),
            tag: rng.bytes(16 * count),
            remote: rng.bytes(size * count),
        };
        let map = vec![0; words(count)];
        Volume { given, images, map }
    }

    pub fn request(&self, kind: Kind, number: usize, plaintext: &[u8]) -> Request {
        Request {
            kind,
            given: self.given.clone(),
            number,
            plaintext: plaintext.to_vec(),
            output: self.given.size,
            words: self.map.len(),
        }
    }

    /// Makes a call, and gives the number of its answer.
    pub fn call(&mut self, calls: &dyn Calls, request: &Request) -> u8 {
        let mut output = vec![FILL; request.output];
        let answer = calls.run(request, &mut self.images, &mut self.map, &mut output);
        answer_number(&answer)
    }

    pub fn sealed(&self, number: usize, plaintext: &[u8]) -> Sealed {
        let Given {
            ref key, volume, ..
        } = self.given;
        sealed(key, volume, number as u64, plaintext)
    }

    /// Puts this into the sector's three places.
    pub fn hold(&mut self, number: usize, held: &Sealed) {
        let Images { local, tag, remote } = &mut self.images;
        let size = self.given.size;
        local[part(number, size)].copy_from_slice(&held.local);
        tag[part(number, 16)].copy_from_slice(&held.tag);
        remote[part(number, size)].copy_from_slice(&held.remote);
    }

    /// Sets or clears a sector's bit in the map.
    pub fn mark(&mut self, number: usize, is_suspect: bool) {
        let bit = 1u64 << (number % 64);
        self.map[number / 64] &= !bit;
        self.map[number / 64] |= if is_suspect { bit } else { 0 };
    }
}

/// Sector i is bit i mod 64, lowest first, of word i/64.
pub fn try_positions(calls: &dyn Calls) {
    let mut volume = Volume::new(&mut Rng::new(63), 130);
    volume.map = vec![MAX; 3];
    for number in [0, 3, 63, 64, 129] {
        let blank = volume.request(Kind::Blank, number, &[]);
        assert_eq!(volume.call(calls, &blank), 0);
    }
    assert_eq!(volume.map, [!(1 | 8 | 1 << 63), !1, !2]);
    volume.map = vec![0; 3];
    for number in [1, 62, 65, 127, 128] {
        let read = volume.request(Kind::Read, number, &[]);
        assert_eq!(volume.call(calls, &read), 6);
    }
    assert_eq!(volume.map, [2 | 1 << 62, 2 | 1 << 63, 1]);
}

/// What a sector is made to hold before a call with a plaintext.
#[derive(Clone, Copy, Debug)]
pub enum Holds {
    Whole,
    /// The plaintext's local sector, and all else of another.
    AfterFirst,
    /// The plaintext's local sector and tag, and all else of another.
    AfterSecond,
    Doubtful(Place),
    /// Which takes two blocks.
    Clashing,
    Lost,
}

impl Holds {
    /// The sector as it is before the call, and the call's plaintext.
    pub fn made(self, rng: &mut Rng, volume: &Volume, number: usize) -> (Sealed, Vec<u8>) {
        let size = volume.given.size;
        let plaintext = rng.bytes(size);
        let new = volume.sealed(number, &plaintext);
        let mut held = volume.sealed(number, &rng.bytes(size));
        match self {
            Holds::Whole => {}
            Holds::AfterFirst => held.local = new.local,
            Holds::AfterSecond => (held.local, held.tag) = (new.local, new.tag),
            Holds::Doubtful(place) => held.place_mut(place)[7] ^= 2,
            Holds::Clashing => {
                let h = to_block(&volume.given.key[..16]);
                let (one, other) = blind_pair(h, &vec![0; size / 16], 1);
                held = volume.sealed(number, &to_bytes(&one));
                held.remote = volume.sealed(number, &to_bytes(&other)).remote;
            }
            Holds::Lost => {
                held.local[0] ^= 1;
                held.tag[0] ^= 1;
            }
        }
        (held, plaintext)
    }
}

const DOUBTFUL: [Holds; 3] = [
    Holds::Doubtful(Place::Local),
    Holds::Doubtful(Place::Tag),
    Holds::Doubtful(Place::Remote),
];

/// A call, what it finds, its answer, and whether the bit is set afterwards. None
/// is a bit that is left alone.
fn rows() -> Vec<(Kind, Holds, u8, Option<bool>)> {
    let (cleared, set, left) = (Some(false), Some(true), None);
    let mut rows = vec![
        (Kind::Blank, Holds::Whole, 0, cleared),
        (Kind::Blank, Holds::Lost, 0, cleared),
        (Kind::Blank, Holds::Clashing, 0, cleared),
        (Kind::Third, Holds::AfterSecond, 0, cleared),
        (Kind::Mend, Holds::Whole, 0, cleared),
        (Kind::First, Holds::Whole, 0, set),
        (Kind::Second, Holds::AfterFirst, 0, set),
        (Kind::Read, Holds::Whole, 0, cleared),
        (Kind::Read, Holds::Lost, 6, set),
        (Kind::Read, Holds::Clashing, 7, set),
        (Kind::Mend, Holds::Lost, 6, set),
        (Kind::Mend, Holds::Clashing, 7, set),
        (Kind::Write, Holds::Whole, 0, cleared),
        (Kind::Write, Holds::AfterFirst, 0x81, cleared),
        (Kind::Write, Holds::AfterSecond, 0x83, cleared),
        (Kind::Write, Holds::Lost, 6, set),
        (Kind::Write, Holds::Clashing, 7, set),
        (Kind::Second, Holds::Whole, 10, left),
        (Kind::Third, Holds::Whole, 10, left),
        (Kind::Third, Holds::AfterFirst, 10, left),
    ];
    for (doubtful, answer) in DOUBTFUL.into_iter().zip([0x81, 0x82, 0x83]) {
        rows.push((Kind::Mend, doubtful, answer, cleared));
        rows.push((Kind::Read, doubtful, answer, set));
        rows.push((Kind::Write, doubtful, answer, cleared));
        rows.push((Kind::First, doubtful, 10, left));
    }
    for stage in [Kind::First, Kind::Second, Kind::Third] {
        rows.push((stage, Holds::Clashing, 10, left));
        rows.push((stage, Holds::Lost, 10, left));
    }
    rows
}

/// Each answer, on sectors at both ends of a word and of the volume, whose bits are
/// clear or set before.
pub fn try_every_mark(calls: &dyn Calls) {
    let mut rng = Rng::new(64);
    let mut volume = Volume::new(&mut rng, 67);
    for (kind, holds, answer, after) in rows() {
        for number in [0, 5, 63, 64, 66] {
            for before in [
                vec![0; 2],
                vec![MAX; 2],
                vec![rng.next_u64(), rng.next_u64()],
            ] {
                let (held, plaintext) = holds.made(&mut rng, &volume, number);
                volume.hold(number, &held);
                volume.map.clone_from(&before);
                let request = volume.request(kind, number, &plaintext);
                assert_eq!(
                    volume.call(calls, &request),
                    answer,
                    "{kind:?} on {holds:?}"
                );
                let left = std::mem::replace(&mut volume.map, before);
                if let Some(is_suspect) = after {
                    volume.mark(number, is_suspect);
                }
                assert_eq!(left, volume.map, "{kind:?} on {holds:?}");
            }
        }
    }
}

/// Started for fewer sectors than the volume has: a call sets a bit past those,
/// which their count leaves out.
pub fn try_another_count(calls: &dyn Calls) {
    let mut volume = Volume::new(&mut Rng::new(67), 5);
    assert_eq!(calls.start_map(3, &mut volume.map), Ok(()));
    assert_eq!(volume.map, [0b111]);
    let read = volume.request(Kind::Read, 4, &[]);
    assert_eq!(volume.call(calls, &read), 6);
    assert_eq!(volume.map, [0b1_0111]);
    assert_eq!(calls.count_suspects(3, &volume.map), Ok(3));
    assert_eq!(calls.count_suspects(5, &volume.map), Ok(4));

    assert_eq!(calls.start_map(64, &mut volume.map), Ok(()));
    let blank = volume.request(Kind::Blank, 0, &[]);
    assert_eq!(volume.call(calls, &blank), 0);
    assert_eq!(volume.map, [MAX - 1]);
    assert_eq!(calls.count_suspects(5, &volume.map), Ok(4));
    assert_eq!(calls.count_suspects(64, &volume.map), Ok(63));
}
