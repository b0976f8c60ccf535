//! The write in one call: what it answers and leaves in every state of a sector,
//! and every refusal in its order.

use std::panic::{catch_unwind, AssertUnwindSafe};

use reference::answer::{Place, Refusal, Verdict};
use reference::history::{Answer, Calls, Given, Images, Kind, Reference, Request};
use reference::marks::{Holds, Volume};
use reference::rng::Rng;
use reference::volume::Survey;
use reference::writes::{insist_on_write, try_any_state, try_every_state, Answers};

#[test]
fn every_state_and_its_answer() {
    try_every_state(&Reference, &[16, 32, 48, 512, 4096]);
}

#[test]
fn any_state() {
    let mut answers = Answers::new();
    let mut rng = Rng::new(71);
    for size in [16, 32, 48, 64, 512, 4096] {
        for _ in 0..60 {
            try_any_state(&Reference, &mut rng, size, &mut answers);
        }
    }
    println!("{answers:?}");
    let seen: Vec<u8> = answers.into_keys().collect();
    assert_eq!(seen, [0, 6, 7, 14, 0x81, 0x82, 0x83]);
}

/// What the sector holds already, zeros, and a plaintext whose tag is that of what
/// it holds.
#[test]
fn plaintexts_that_are_near_to_what_is_there() {
    let mut rng = Rng::new(72);
    let volume = &mut Volume::new(&mut rng, 2);
    let mut with_h = rng.bytes(32);
    with_h[..16].copy_from_slice(&volume.given.key[..16]);
    let mut of_equal_tag = with_h.clone();
    of_equal_tag[31] ^= 1;
    volume.hold(1, &volume.sealed(1, &with_h));
    for plaintext in [&with_h, &vec![0; 32], &of_equal_tag] {
        assert_eq!(insist_on_write(&Reference, volume, 1, plaintext), 0);
    }
    let tags = [&with_h, &of_equal_tag].map(|text| volume.sealed(1, text).tag);
    assert_eq!(tags[0], tags[1]);
}

const DOUBTFUL: [Holds; 3] = [
    Holds::Doubtful(Place::Local),
    Holds::Doubtful(Place::Tag),
    Holds::Doubtful(Place::Remote),
];

/// The mend is needed: without it the first stage refuses a doubtful sector.
#[test]
fn without_the_mend_a_stage_is_refused() {
    let mut rng = Rng::new(73);
    let mut volume = Volume::new(&mut rng, 3);
    for holds in DOUBTFUL {
        let (held, plaintext) = holds.made(&mut rng, &volume, 2);
        volume.hold(2, &held);
        let first = volume.request(Kind::First, 2, &plaintext);
        assert_eq!(volume.clone().call(&Reference, &first), 10, "{holds:?}");
        let answer = insist_on_write(&Reference, &volume, 2, &plaintext);
        assert!(matches!(answer, 0x81..=0x83), "{holds:?}");
    }
}

/// What is wrong with a write.
type Fault = fn(&mut Volume, &mut Request);

/// Every refusal on arguments, in the order of the request.
const FAULTS: [(u8, Fault); 16] = [
    (1, |_, request| request.given.key.truncate(31)),
    (1, |_, request| request.given.key.push(0)),
    (14, |_, request| request.given.key[..16].fill(0)),
    (2, |_, request| request.given.size = 31),
    (2, |_, request| request.given.size = 4112),
    (8, |_, request| request.given.count = 0),
    (8, |_, request| request.given.count += 1),
    (8, |volume, _| volume.images.local.push(0)),
    (8, |volume, _| volume.images.tag.push(0)),
    (8, |volume, _| volume.images.remote.truncate(64)),
    (13, |volume, _| volume.map.clear()),
    (13, |volume, _| volume.map.push(0)),
    (9, |_, request| request.number = request.given.count),
    (9, |_, request| request.number = usize::MAX),
    (3, |_, request| request.plaintext.truncate(31)),
    (3, |_, request| request.plaintext.push(0)),
];

/// A write that has faults is refused for the first of them, and leaves every lent
/// byte as it was, the map too.
fn insist_on_refusal(volume: &Volume, plaintext: &[u8], faults: &[Fault], due: u8) {
    let mut volume = volume.clone();
    let mut request = volume.request(Kind::Write, 1, plaintext);
    for fault in faults {
        fault(&mut volume, &mut request);
    }
    let mut left = volume.clone();
    assert_eq!(left.call(&Reference, &request), due);
    assert!(left.images == volume.images && left.map == volume.map);
}

/// Each fault alone and each two of different refusals, on a sector that the write would take and on
/// those that it would refuse.
#[test]
fn refusals_in_order() {
    let mut rng = Rng::new(74);
    let mut volume = Volume::new(&mut rng, 3);
    for (holds, found) in [
        (Holds::Whole, 0),
        (Holds::Doubtful(Place::Tag), 0x82),
        (Holds::Lost, 6),
        (Holds::Clashing, 7),
    ] {
        let (held, plaintext) = holds.made(&mut rng, &volume, 1);
        volume.hold(1, &held);
        for map in [0, u64::MAX] {
            volume.map = vec![map];
            assert_eq!(insist_on_write(&Reference, &volume, 1, &plaintext), found);
            for (index, &(due, first)) in FAULTS.iter().enumerate() {
                insist_on_refusal(&volume, &plaintext, &[first], due);
                let later = FAULTS[index..].iter().filter(|(number, _)| *number != due);
                for &(_, second) in later {
                    insist_on_refusal(&volume, &plaintext, &[first, second], due);
                    insist_on_refusal(&volume, &plaintext, &[second, first], due);
                }
            }
        }
    }
}

/// Every length of a plaintext but the sector's is refused.
#[test]
fn lengths_of_the_plaintext() {
    let mut rng = Rng::new(75);
    for size in [16, 32, 4096] {
        let mut volume = Volume::of_size(&mut rng, size, 2);
        let (held, _) = Holds::Whole.made(&mut rng, &volume, 1);
        volume.hold(1, &held);
        for length in [0, 1, size - 1, size + 1, 2 * size, 4096, 4097, 8192, 65_536] {
            if length != size {
                insist_on_refusal(&volume, &vec![7; length], &[], 3);
            }
        }
    }
}

/// A mistake that the facts must notice.
#[derive(Clone, Copy, Debug)]
enum Mistake {
    SaysWhole,
    LeavesTheBit,
    SetsTheBit,
    AnotherBitToo,
    LeavesOnePlace(Place),
    AnotherSectorToo,
    TakesClashing,
}

/// This package's calls, but a write with a mistake.
struct Mistaken(Mistake);

impl Calls for Mistaken {
    fn run(
        &self,
        request: &Request,
        images: &mut Images,
        map: &mut [u64],
        output: &mut [u8],
    ) -> Answer {
        let before = (images.clone(), map.to_vec());
        let answer = Reference.run(request, images, map, output);
        if request.kind != Kind::Write {
            return answer;
        }
        match self.0 {
            Mistake::SaysWhole => return answer.map(|_| Some(Verdict::Whole)),
            Mistake::LeavesTheBit => map.copy_from_slice(&before.1),
            Mistake::SetsTheBit => map[request.number / 64] |= 1 << (request.number % 64),
            Mistake::AnotherBitToo => map[0] ^= 1,
            Mistake::LeavesOnePlace(Place::Local) => images.local = before.0.local,
            Mistake::LeavesOnePlace(Place::Tag) => images.tag = before.0.tag,
            Mistake::LeavesOnePlace(Place::Remote) => images.remote = before.0.remote,
            Mistake::AnotherSectorToo => images.remote[0] ^= 1,
            Mistake::TakesClashing if answer == Err(Refusal::Clashing) => {
                return Ok(Some(Verdict::Whole));
            }
            Mistake::TakesClashing => {}
        }
        answer
    }

    fn survey(
        &self,
        given: &Given,
        images: &Images,
        map: &[u64],
        list: &mut [u32],
    ) -> Result<Survey, Refusal> {
        Reference.survey(given, images, map, list)
    }

    fn start_map(&self, count: usize, map: &mut [u64]) -> Result<(), Refusal> {
        Reference.start_map(count, map)
    }

    fn count_suspects(&self, count: usize, map: &[u64]) -> Result<u64, Refusal> {
        Reference.count_suspects(count, map)
    }
}

#[test]
fn mistakes_are_noticed() {
    for mistake in [
        Mistake::SaysWhole,
        Mistake::LeavesTheBit,
        Mistake::SetsTheBit,
        Mistake::AnotherBitToo,
        Mistake::LeavesOnePlace(Place::Local),
        Mistake::LeavesOnePlace(Place::Tag),
        Mistake::LeavesOnePlace(Place::Remote),
        Mistake::AnotherSectorToo,
        Mistake::TakesClashing,
    ] {
        let run = || try_every_state(&Mistaken(mistake), &[32]);
        let passed = catch_unwind(AssertUnwindSafe(run)).is_ok();
        assert!(!passed, "{mistake:?}");
    }
}
