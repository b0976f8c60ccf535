//! What a write in one call answers and leaves, as facts of the request that are
//! tried with any implementation of the calls.

use std::collections::BTreeMap;

use crate::answer::Place;
use crate::collide::blind_pair;
use crate::field::{to_block, to_blocks, to_bytes};
use crate::history::{Calls, Kind};
use crate::marks::{Holds, Volume};
use crate::rng::Rng;

const STAGES: [Kind; 3] = [Kind::First, Kind::Second, Kind::Third];

/// Makes a write on copies, and insists on what the request says of it. Gives the
/// number of its answer.
pub fn insist_on_write(calls: &dyn Calls, volume: &Volume, number: usize, plaintext: &[u8]) -> u8 {
    let mut left = volume.clone();
    let request = volume.request(Kind::Write, number, plaintext);
    let answer = left.call(calls, &request);
    let (found, by_calls) = made_by_calls(calls, volume, number, plaintext);
    assert_eq!(answer, found, "the verdict found");
    insist_on_same(&left, &by_calls, "its calls");

    let mut due = volume.clone();
    match answer {
        0 | 0x81..=0x83 => {
            due.hold(number, &volume.sealed(number, plaintext));
            due.mark(number, false);
        }
        6 | 7 => due.mark(number, true),
        // Other refusals leave the map alone.
        _ => {}
    }
    insist_on_same(&left, &due, "the request says");
    answer
}

fn insist_on_same(left: &Volume, due: &Volume, whose: &str) {
    let same_images = left.images == due.images;
    assert!(same_images, "a write left other images than {whose}");
    let same_map = left.map == due.map;
    assert!(same_map, "a write left another map than {whose}");
}

/// The same by the calls that a write is made of: the read's answer, and what they
/// leave.
fn made_by_calls(
    calls: &dyn Calls,
    volume: &Volume,
    number: usize,
    plaintext: &[u8],
) -> (u8, Volume) {
    let mut left = volume.clone();
    let mut make = |kind| {
        let request = volume.request(kind, number, plaintext);
        left.call(calls, &request)
    };
    let found = make(Kind::Read);
    if matches!(found, 0x81..=0x83) {
        assert_eq!(make(Kind::Mend), found, "a mend says what the read said");
    }
    if matches!(found, 0 | 0x81..=0x83) {
        assert_eq!(STAGES.map(make), [0; 3], "no stage of a write is refused");
    }
    (found, left)
}

/// What a sector holds, and what a write answers there.
const STATES: [(Holds, u8); 8] = [
    (Holds::Whole, 0),
    (Holds::AfterFirst, 0x81),
    (Holds::AfterSecond, 0x83),
    (Holds::Doubtful(Place::Local), 0x81),
    (Holds::Doubtful(Place::Tag), 0x82),
    (Holds::Doubtful(Place::Remote), 0x83),
    (Holds::Lost, 6),
    (Holds::Clashing, 7),
];

/// Every state of a sector, at either end of a word of the map and of the volume,
/// with its bit set before and clear.
pub fn try_every_state(calls: &dyn Calls, sizes: &[usize]) {
    let mut rng = Rng::new(70);
    for &size in sizes {
        for (count, number) in [(1, 0), (3, 1), (65, 63), (65, 64)] {
            let mut volume = Volume::of_size(&mut rng, size, count);
            for (holds, due) in STATES {
                if size == 16 && due == 7 {
                    continue;
                }
                let (held, plaintext) = holds.made(&mut rng, &volume, number);
                volume.hold(number, &held);
                for word in [0, u64::MAX, rng.next_u64()] {
                    volume.map.fill(word);
                    let answer = insist_on_write(calls, &volume, number, &plaintext);
                    assert_eq!(answer, due, "a write on {holds:?} of {size} bytes");
                }
            }
        }
    }
}

/// How often each answer came.
pub type Answers = BTreeMap<u8, usize>;

/// A write onto a sector in any state, of a volume with a key of any h, or of h
/// zero, where it is refused.
pub fn try_any_state(calls: &dyn Calls, rng: &mut Rng, size: usize, answers: &mut Answers) {
    let count = 1 + rng.below(3);
    let mut volume = Volume::of_size(rng, size, count);
    let has_zero_h = rng.chance(10);
    if has_zero_h {
        volume.given.key[..16].fill(0);
    }
    volume.given.volume = *rng.pick(&[0, 1, u64::MAX, volume.given.volume]);
    volume.map = vec![rng.next_u64()];
    let number = rng.below(count);
    let plaintext = put_any_state(rng, &mut volume, number);
    let answer = insist_on_write(calls, &volume, number, &plaintext);
    assert_eq!(answer == 14, has_zero_h, "an h of zero");
    *answers.entry(answer).or_default() += 1;
}

/// Puts into each place what is sealed of one of three plaintexts, some of which
/// have one tag where that can be, or that with some damage, or anything. Gives
/// one of the plaintexts, or another.
fn put_any_state(rng: &mut Rng, volume: &mut Volume, number: usize) -> Vec<u8> {
    let size = volume.given.size;
    let texts = plaintexts(rng, &volume.given.key, size);
    let sealed = texts.clone().map(|text| volume.sealed(number, &text));
    let first = rng.below(3);
    let mut held = sealed[first].clone();
    for place in Place::ALL {
        let bytes = held.place_mut(place);
        match rng.below(10) {
            0..=2 => bytes.copy_from_slice(rng.pick(&sealed).place(place)),
            3 => {
                let at = rng.below(bytes.len());
                bytes[at] ^= 1 << rng.below(8);
            }
            4 => rng.fill(bytes),
            _ => {}
        }
    }
    volume.hold(number, &held);
    let another = rng.bytes(size);
    let [one, two, three] = texts;
    rng.pick(&[one, two, three, another]).clone()
}

/// Three plaintexts, of which the last two, and mostly all, have one tag where
/// there are two blocks.
fn plaintexts(rng: &mut Rng, key: &[u8], size: usize) -> [Vec<u8>; 3] {
    let [one, two, three] = [(); 3].map(|()| rng.bytes(size));
    if size == 16 {
        return [one, two, three];
    }
    let h = to_block(&key[..16]);
    let two = to_blocks(&two);
    let of_equal_tag = |rng: &mut Rng| to_bytes(&blind_pair(h, &two, rng.next_u128()).1);
    let three = of_equal_tag(rng);
    let one = if rng.chance(70) {
        of_equal_tag(rng)
    } else {
        one
    };
    [one, of_equal_tag(rng), three]
}
