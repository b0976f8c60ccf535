//! A key of 32 bytes whose h is all zero is refused by every call that takes a key:
//! directly behind the key's length, beside every other fault, and with every lent
//! byte as it was. No other key is refused for its h.

use reference::answer::{answer_number, Place, Refusal};
use reference::history::{Calls, Given, Images, Kind, Reference, Request};
use reference::marks::{Holds, Volume};
use reference::rng::Rng;
use reference::seal::{combine, judge, open, rebuild, seal, sealed, Sealed};

const FILL: u8 = 0x5a;

fn zero_h(rng: &mut Rng) -> Vec<u8> {
    [vec![0; 16], rng.bytes(16)].concat()
}

/// What a call on a volume is lent besides the images and the map.
#[derive(Clone)]
struct Lent {
    volume: Volume,
    request: Request,
    list: Vec<u32>,
}

impl Lent {
    fn new(volume: &Volume, kind: Kind, plaintext: &[u8]) -> Lent {
        Lent {
            volume: volume.clone(),
            request: volume.request(kind, 1, plaintext),
            list: vec![u32::from(FILL); volume.given.count],
        }
    }

    /// The call is refused with this number, and leaves every lent byte.
    fn insist_on_refusal(&self, due: u8) {
        let Volume { images, map, .. } = &self.volume;
        let (mut lent, mut lent_map) = (images.clone(), map.clone());
        let mut output = vec![FILL; self.request.output];
        let answer = Reference.run(&self.request, &mut lent, &mut lent_map, &mut output);
        assert_eq!(answer_number(&answer), due, "{:?}", self.request.kind);
        assert!(lent == *images && lent_map == *map, "a refusal wrote");
        assert_eq!(output, vec![FILL; self.request.output]);
    }

    fn insist_on_refused_survey(&self, due: u8) {
        let Volume { images, map, .. } = &self.volume;
        let mut list = self.list.clone();
        let answer = Reference.survey(&self.request.given, images, map, &mut list);
        assert_eq!(answer_number(&answer.map(|_| ())), due, "survey");
        assert_eq!(list, self.list);
    }
}

type Fault = fn(&mut Lent);

/// What can be wrong besides, and what is answered then.
const FAULTS: [(u8, Fault); 23] = [
    (1, |lent| lent.request.given.key.clear()),
    (1, |lent| lent.request.given.key.truncate(16)),
    (1, |lent| lent.request.given.key.truncate(31)),
    (1, |lent| lent.request.given.key.push(0)),
    (14, |lent| lent.request.given.size = 0),
    (14, |lent| lent.request.given.size = 31),
    (14, |lent| lent.request.given.size = 4112),
    (14, |lent| lent.request.given.count = 0),
    (14, |lent| lent.request.given.count += 1),
    (14, |lent| lent.request.given.count = 65_537),
    (14, |lent| lent.volume.images.local.push(0)),
    (14, |lent| lent.volume.images.tag.truncate(47)),
    (14, |lent| lent.volume.images.remote.clear()),
    (14, |lent| lent.volume.map.clear()),
    (14, |lent| lent.volume.map.push(7)),
    (14, |lent| lent.request.number = lent.request.given.count),
    (14, |lent| lent.request.number = usize::MAX),
    (14, |lent| lent.request.plaintext.truncate(31)),
    (14, |lent| lent.request.plaintext.push(0)),
    (14, |lent| lent.request.output = 31),
    (14, |lent| lent.request.output = 33),
    (14, |lent| lent.list.clear()),
    (14, |lent| lent.list.truncate(2)),
];

/// What the sector holds, by what was sealed under the key before it was refused.
/// Every stage is out of its order on some of them.
const STATES: [Holds; 8] = [
    Holds::Whole,
    Holds::AfterFirst,
    Holds::AfterSecond,
    Holds::Doubtful(Place::Local),
    Holds::Doubtful(Place::Tag),
    Holds::Doubtful(Place::Remote),
    Holds::Lost,
    Holds::Clashing,
];

const KINDS: [Kind; 7] = [
    Kind::Blank,
    Kind::First,
    Kind::Second,
    Kind::Third,
    Kind::Mend,
    Kind::Read,
    Kind::Write,
];

/// No fault, each, and each two.
fn insist_beside_faults(right: &Lent, insist: fn(&Lent, u8)) {
    insist(right, 14);
    for (due, first) in FAULTS {
        let mut with_one = right.clone();
        first(&mut with_one);
        insist(&with_one, due);
        // Two lengths of the key may make up the right one.
        let others = FAULTS
            .into_iter()
            .filter(|&(other, _)| (due, other) != (1, 1));
        for (due_too, second) in others {
            let mut with_two = with_one.clone();
            second(&mut with_two);
            insist(&with_two, due.min(due_too));
        }
    }
}

#[test]
fn calls_on_a_volume() {
    let mut rng = Rng::new(80);
    let mut volume = Volume::new(&mut rng, 3);
    for key in [zero_h(&mut rng), vec![0; 32]] {
        volume.given.key = key;
        for holds in STATES {
            let (held, plaintext) = holds.made(&mut rng, &volume, 1);
            volume.hold(1, &held);
            for map in [0, u64::MAX] {
                volume.map = vec![map];
                for kind in KINDS {
                    let right = Lent::new(&volume, kind, &plaintext);
                    insist_beside_faults(&right, Lent::insist_on_refusal);
                }
                let right = Lent::new(&volume, Kind::Read, &[]);
                insist_beside_faults(&right, Lent::insist_on_refused_survey);
            }
        }
    }
}

/// The four calls on one sector that take a key have this answer, and where it is a
/// refusal they leave their outputs.
fn insist_on_sector_calls(key: &[u8], side: u8, plain: &[u8], held: &Sealed, out: usize, due: u8) {
    let Sealed { local, tag, remote } = held;
    let sector = if side == 0 { local } else { remote };
    let new = || Sealed {
        local: vec![FILL; local.len()],
        tag: vec![FILL; tag.len()],
        remote: vec![FILL; remote.len()],
    };
    let mut lent = new();
    let answer = seal(
        key,
        3,
        5,
        plain,
        &mut lent.local,
        &mut lent.remote,
        &mut lent.tag,
    );
    assert_eq!(answer_number(&answer), due, "seal");
    assert_eq!(lent == new(), due != 0, "seal");
    for call in [open, rebuild] {
        let mut output = vec![FILL; out];
        let answer = call(key, 3, 5, side, sector, tag, &mut output);
        assert_eq!(answer_number(&answer), due, "open or rebuild");
        assert_eq!(output == vec![FILL; out], due != 0, "open or rebuild");
    }
    let mut output = vec![FILL; out];
    let answer = judge(key, 3, 5, local, tag, remote, &mut output);
    assert_eq!(answer_number(&answer), due, "judge");
    assert_eq!(output == vec![FILL; out], due != 0, "judge");
}

/// Zeros of other lengths than 32, which are refused for that.
const OTHER_LENGTHS: [usize; 10] = [0, 1, 15, 16, 17, 31, 33, 48, 64, 4096];

/// Right and wrong lengths of everything else.
#[test]
fn calls_on_a_sector() {
    let mut rng = Rng::new(81);
    let mut keys = vec![(zero_h(&mut rng), 14), (vec![0; 32], 14)];
    keys.extend(OTHER_LENGTHS.map(|length| (vec![0; length], 1)));
    for (key, due) in keys {
        for side in [0, 1, 2, 255] {
            for one in [0, 15, 16, 32, 4096, 4112] {
                for other in [0, 16, 17, 32] {
                    for tag in [0, 15, 16, 17] {
                        let held = Sealed {
                            local: rng.bytes(one),
                            tag: rng.bytes(tag),
                            remote: rng.bytes(other),
                        };
                        for out in [one, other] {
                            insist_on_sector_calls(&key, side, &held.local, &held, out, due);
                            insist_on_sector_calls(&key, side, &held.remote, &held, out, due);
                        }
                    }
                }
            }
        }
    }
}

/// What was sealed under such a key, as sealed and damaged. Without a key it is
/// combined as before.
#[test]
fn sectors_that_were_sealed_under_h_zero() {
    let mut rng = Rng::new(82);
    for size in [16, 32, 48, 512, 4096] {
        let (key, plain) = (zero_h(&mut rng), rng.bytes(size));
        let whole = sealed(&key, 3, 5, &plain);
        for side in [0, 1] {
            for damaged in [&[][..], &[0], &[1], &[2], &[0, 2], &[0, 1, 2]] {
                let mut held = whole.clone();
                for &place in damaged {
                    rng.fill(held.place_mut(Place::ALL[place]));
                }
                insist_on_sector_calls(&key, side, &plain, &held, size, 14);
            }
        }
        let mut output = vec![FILL; size];
        assert_eq!(combine(&whole.local, &whole.remote, &mut output), Ok(()));
        assert_eq!(output, plain);
    }
}

/// All tags are equal under an h of zero: why such a key is refused.
#[test]
fn under_h_zero_every_plaintext_has_one_tag() {
    let mut rng = Rng::new(83);
    let key = zero_h(&mut rng);
    let tag = sealed(&key, 0, 0, &[0; 16]).tag;
    for size in [16, 32, 512] {
        let other = sealed(&key, rng.next_u64(), rng.next_u64(), &rng.bytes(size));
        assert_eq!(other.tag, tag);
    }
}

/// Every call that takes a key is accepted under this one.
fn insist_on_accepted(rng: &mut Rng, key: &[u8], size: usize) {
    let plain = rng.bytes(size);
    for side in [0, 1] {
        let held = sealed(key, 3, 5, &plain);
        insist_on_sector_calls(key, side, &plain, &held, size, 0);
    }
    let mut volume = Volume::of_size(rng, size, 2);
    volume.given.key = key.to_vec();
    for (kind, holds, due) in [
        (Kind::Blank, Holds::Lost, 0),
        (Kind::First, Holds::Whole, 0),
        (Kind::Second, Holds::AfterFirst, 0),
        (Kind::Third, Holds::AfterSecond, 0),
        (Kind::Mend, Holds::Doubtful(Place::Tag), 0x82),
        (Kind::Read, Holds::Whole, 0),
        (Kind::Write, Holds::Doubtful(Place::Local), 0x81),
    ] {
        let (held, plaintext) = holds.made(rng, &volume, 1);
        volume.hold(1, &held);
        let request = volume.request(kind, 1, &plaintext);
        assert_eq!(volume.call(&Reference, &request), due, "{kind:?}");
    }
    let Volume { given, images, map } = &volume;
    let found = Reference.survey(given, images, map, &mut [0; 2]);
    assert_eq!(found.map(|found| found.whole), Ok(1));
}

/// So it is not the first byte alone that is looked at, nor all but the last, nor
/// one word.
#[test]
fn one_bit_of_h_is_enough() {
    let mut rng = Rng::new(84);
    for bit in 0..128 {
        let h = (1u128 << bit).to_be_bytes();
        for k in [rng.bytes(16), vec![0; 16]] {
            insist_on_accepted(&mut rng, &[h.to_vec(), k].concat(), 16);
        }
    }
}

/// Parts of h that are equal, or add up to zero, do not cancel.
#[test]
fn parts_of_h_do_not_cancel() {
    let mut rng = Rng::new(85);
    for width in [1, 2, 4, 8] {
        for _ in 0..4 {
            let part = rng.bytes(width);
            let number = part
                .iter()
                .fold(0u64, |sum, &byte| sum << 8 | u64::from(byte));
            let opposite = number.wrapping_neg().to_be_bytes()[8 - width..].to_vec();
            for other in [&part, &opposite] {
                let two = [&part[..], other].concat();
                let everywhere = two.repeat(8 / width);
                let mut at_one_place = vec![0; 16];
                let start = width * rng.below(16 / width - 1);
                at_one_place[start..start + 2 * width].copy_from_slice(&two);
                for h in [everywhere, at_one_place] {
                    let key = [h, rng.bytes(16)].concat();
                    insist_on_accepted(&mut rng, &key, 32);
                }
            }
        }
    }
}

/// Whatever h and K are, 14 comes exactly where all of h is zero.
#[test]
fn exactly_an_h_of_zero_is_refused() {
    let mut rng = Rng::new(86);
    let mut refused = 0;
    for round in 0..2000 {
        let mut key = rng.bytes(32);
        for byte in &mut key {
            if rng.chance(90) {
                *byte = 0;
            }
        }
        let has_zero_h = key[..16] == [0; 16];
        let mut output = [FILL; 16];
        let answer = judge(&key, 0, round, &[1; 16], &[2; 16], &[3; 16], &mut output);
        let due = if has_zero_h {
            Refusal::ZeroHashKey
        } else {
            Refusal::Lost
        };
        assert_eq!(answer, Err(due), "{key:?}");
        refused += usize::from(has_zero_h);
    }
    assert!((100..1000).contains(&refused), "{refused}");
}

/// The two calls on n and the map take no key, and a volume whose key is refused
/// has them as before.
#[test]
fn calls_on_the_map_take_no_key() {
    let mut rng = Rng::new(87);
    let mut volume = Volume::new(&mut rng, 65);
    volume.given.key = vec![0; 32];
    let Given { count, .. } = volume.given;
    assert_eq!(Reference.start_map(count, &mut volume.map), Ok(()));
    assert_eq!(Reference.count_suspects(count, &volume.map), Ok(65));
    let images: Images = volume.images.clone();
    for kind in KINDS {
        let request = volume.request(kind, 64, &[7; 32]);
        assert_eq!(volume.call(&Reference, &request), 14);
    }
    assert!(volume.images == images);
    assert_eq!(Reference.count_suspects(count, &volume.map), Ok(65));
}
