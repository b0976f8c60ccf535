//! Surveys through the compiled library, each compared with the independent
//! implementation: refusals, boundaries, mixtures of all kinds of sectors and
//! the largest volume.

mod common;

use common::{any_volume, random_words, rounds};
use linked::both::Both;
use reference::answer::{Place, Refusal};
use reference::collide::blind_pair;
use reference::field::{to_block, to_blocks, to_bytes};
use reference::history::{Calls, Given, Images};
use reference::map::words;
use reference::rng::Rng;
use reference::seal::{sealed, Sealed};
use reference::volume::Survey;

fn volume(rng: &mut Rng, size: usize, count: usize) -> (Given, Images) {
    let given = Given {
        key: rng.bytes(32),
        volume: any_volume(rng),
        size,
        count,
    };
    let images = Images {
        local: rng.bytes(size * count),
        tag: rng.bytes(16 * count),
        remote: rng.bytes(size * count),
    };
    (given, images)
}

/// A survey with so much room in the list, of a map of as many words as needed.
fn survey(given: &Given, images: &Images, room: usize) -> Result<Survey, Refusal> {
    let map = vec![7; words(given.count.min(65_536))];
    Both.survey(given, images, &map, &mut vec![7; room])
}

#[test]
fn refusals_in_order() {
    let mut rng = Rng::new(50);
    let (good, images) = volume(&mut rng, 32, 3);
    assert!(survey(&good, &images, 3).is_ok());
    assert!(survey(&good, &images, 5).is_ok());
    assert_eq!(survey(&good, &images, 2), Err(Refusal::ShortList));
    assert_eq!(survey(&good, &images, 0), Err(Refusal::ShortList));
    for map in [&[][..], &[7, 7], &[7; 3]] {
        for room in [0, 2, 3] {
            let found = Both.survey(&good, &images, map, &mut vec![7; room]);
            assert_eq!(found, Err(Refusal::MapLength));
        }
    }

    for count in [0, 2, 4, 65_537, usize::MAX] {
        let given = Given {
            count,
            ..good.clone()
        };
        assert_eq!(survey(&given, &images, 0), Err(Refusal::VolumeShape));
    }
    for image in 0..3 {
        let mut longer = images.clone();
        [&mut longer.local, &mut longer.tag, &mut longer.remote][image].push(0);
        assert_eq!(survey(&good, &longer, 3), Err(Refusal::VolumeShape));
    }
}

#[test]
fn key_and_size_are_refused_first() {
    let mut rng = Rng::new(54);
    let (good, images) = volume(&mut rng, 32, 3);
    for size in [0, 15, 17, 4112, usize::MAX] {
        let given = Given {
            size,
            count: 0,
            ..good.clone()
        };
        assert_eq!(survey(&given, &images, 0), Err(Refusal::SectorSize));
    }
    for key in [vec![0; 32], [vec![0; 16], rng.bytes(16)].concat()] {
        for (size, count) in [(15, 0), (15, 3), (32, 0), (32, 4), (32, 3)] {
            let given = Given {
                key: key.clone(),
                size,
                count,
                ..good
            };
            for room in [0, 3] {
                let found = survey(&given, &images, room);
                assert_eq!(found, Err(Refusal::ZeroHashKey));
            }
        }
    }
    for length in [0, 31, 33] {
        for byte in [0, 1] {
            let given = Given {
                key: vec![byte; length],
                size: 15,
                count: 0,
                ..good
            };
            assert_eq!(survey(&given, &images, 0), Err(Refusal::KeyLength));
        }
    }
}

#[test]
fn the_largest_volume() {
    let mut rng = Rng::new(51);
    let count = 65_536;
    let (given, mut images) = volume(&mut rng, 16, count);
    let mut map = vec![0; words(count)];
    assert_eq!(Both.start_map(count, &mut map), Ok(()));
    for number in [0, 1, 40_000, 65_535] {
        let Images { local, tag, remote } = &mut images;
        let (key, v) = (&given.key, given.volume);
        let answer = linked::blank(key, v, 16, count, number, local, tag, remote, &mut map);
        assert_eq!(answer, 0);
    }
    let mut list = vec![0; count + 1];
    let survey = Both
        .survey(&given, &images, &map, &mut list)
        .expect("the shape is right");
    assert_eq!((survey.whole, survey.lost), (4, count - 4));
    let suspects = Both.count_suspects(count, &map);
    assert_eq!(suspects, Ok(survey.lost as u64));
}

/// What a sector is made to be.
#[derive(Clone, Copy, PartialEq, Eq)]
enum Kind {
    Whole,
    Doubtful(Place),
    Clashing,
    Lost,
}

/// From two blocks on.
const ALL_KINDS: [Kind; 6] = [
    Kind::Whole,
    Kind::Doubtful(Place::Local),
    Kind::Doubtful(Place::Tag),
    Kind::Doubtful(Place::Remote),
    Kind::Clashing,
    Kind::Lost,
];

/// No two plaintexts of one block have equal tags.
const OF_ONE_BLOCK: [Kind; 5] = [
    Kind::Whole,
    Kind::Doubtful(Place::Local),
    Kind::Doubtful(Place::Tag),
    Kind::Doubtful(Place::Remote),
    Kind::Lost,
];

fn flip(rng: &mut Rng, bytes: &mut [u8]) {
    bytes[rng.below(bytes.len())] ^= 1 << rng.below(8);
}

/// Two plaintexts of one tag.
fn of_equal_tag(rng: &mut Rng, given: &Given) -> (Vec<u8>, Vec<u8>) {
    let (h, plaintext) = (to_block(&given.key[..16]), rng.bytes(given.size));
    let (one, other) = blind_pair(h, &to_blocks(&plaintext), rng.next_u128());
    (to_bytes(&one), to_bytes(&other))
}

fn sector(rng: &mut Rng, given: &Given, number: usize, kind: Kind) -> Sealed {
    let sealed = |plaintext: &[u8]| sealed(&given.key, given.volume, number as u64, plaintext);
    let mut held = sealed(&rng.bytes(given.size));
    match kind {
        Kind::Whole => {}
        Kind::Doubtful(place) => flip(rng, held.place_mut(place)),
        Kind::Clashing => {
            let (one, other) = of_equal_tag(rng, given);
            held = sealed(&one);
            // Of these, any bytes in block 2 of a side are a side of equal tag too.
            match rng.below(3) {
                0 => held.remote = sealed(&other).remote,
                1 => flip(rng, &mut held.local[16..32]),
                _ => flip(rng, &mut held.remote[16..32]),
            }
        }
        Kind::Lost => {
            let side = *rng.pick(&[Place::Local, Place::Remote]);
            flip(rng, held.place_mut(side));
            flip(rng, &mut held.tag);
        }
    }
    held
}

/// A volume whose sectors are of these kinds, under any number.
fn of_kinds(rng: &mut Rng, key: Vec<u8>, size: usize, kinds: &[Kind]) -> (Given, Images) {
    let count = kinds.len();
    let given = Given {
        key,
        volume: any_volume(rng),
        size,
        count,
    };
    let (mut local, mut tag, mut remote) = (vec![], vec![], vec![]);
    for (number, &kind) in kinds.iter().enumerate() {
        let held = sector(rng, &given, number, kind);
        local.extend(held.local);
        tag.extend(held.tag);
        remote.extend(held.remote);
    }
    (given, Images { local, tag, remote })
}

/// The numbers of the sectors of a kind, rising.
fn numbers(kinds: &[Kind], is: impl Fn(&Kind) -> bool) -> Vec<u32> {
    (0..)
        .zip(kinds)
        .filter(|(_, kind)| is(kind))
        .map(|(number, _)| number)
        .collect()
}

/// Surveys a volume whose sectors are of these kinds, with so many entries more
/// than sectors in the list. What the map says has no part in it.
fn insist_on_survey(given: &Given, images: &Images, kinds: &[Kind], more: usize) {
    let filler = 0x5a5a_5a5a;
    let mut list = vec![filler; given.count + more];
    let map = random_words(&mut Rng::new(more as u64), words(given.count));
    let found = Both.survey(given, images, &map, &mut list);
    let found = found.expect("the shape is right");
    let lost = numbers(kinds, |&kind| kind == Kind::Lost);
    let clashing = numbers(kinds, |&kind| kind == Kind::Clashing);
    let doubtful = numbers(kinds, |kind| matches!(kind, Kind::Doubtful(_)));
    assert_eq!(found.lost, lost.len());
    assert_eq!(found.clashing, clashing.len());
    assert_eq!(found.doubtful, doubtful.len());
    let mut due = [lost, clashing, doubtful].concat();
    assert_eq!(found.whole, given.count - due.len());
    due.resize(list.len(), filler);
    assert!(list == due, "another list");
}

/// Among the counts are those about multiples of 64, where a word of bits ends.
#[test]
fn mixtures_in_repair_order() {
    let mut surveys = 0;
    for round in 0..rounds(4) {
        let mut rng = Rng::new(500 + round as u64);
        for count in [1, 2, 63, 64, 65, 127, 128, 129, 1000] {
            for (size, choice) in [
                (16, &OF_ONE_BLOCK[..]),
                (32, &ALL_KINDS),
                (48, &ALL_KINDS),
                (512, &ALL_KINDS),
            ] {
                let key = rng.bytes(32);
                let kinds: Vec<Kind> = (0..count).map(|_| *rng.pick(choice)).collect();
                let (given, images) = of_kinds(&mut rng, key, size, &kinds);
                insist_on_survey(&given, &images, &kinds, rng.below(3));
                surveys += 1;
            }
        }
    }
    println!("{surveys} surveys of mixed sectors agree");
}

/// Under an h of zero there is no survey, whatever the sectors are. The list, the
/// counts and the map stay: both implementations are compared in that.
#[test]
fn none_under_h_zero() {
    let mut rng = Rng::new(55);
    for (size, choice) in [(16, &OF_ONE_BLOCK[..]), (32, &ALL_KINDS)] {
        for count in [1, 64, 65, 1000] {
            let kinds: Vec<Kind> = (0..count).map(|_| *rng.pick(choice)).collect();
            for key in [[vec![0; 16], rng.bytes(16)].concat(), vec![0; 32]] {
                let (given, images) = of_kinds(&mut rng, key, size, &kinds);
                let mut list = vec![7; count];
                let map = random_words(&mut rng, words(count));
                let found = Both.survey(&given, &images, &map, &mut list);
                assert_eq!(found, Err(Refusal::ZeroHashKey));
                assert_eq!(list, vec![7; count]);
            }
        }
    }
}

/// All sectors are of one kind, or all but one.
#[test]
fn one_kind_and_one_other() {
    let mut rng = Rng::new(52);
    for kind in ALL_KINDS {
        for other in ALL_KINDS {
            for at in [0, 63, 64, 129] {
                let mut kinds = [kind; 130];
                kinds[at] = other;
                let key = rng.bytes(32);
                let (given, images) = of_kinds(&mut rng, key, 32, &kinds);
                insist_on_survey(&given, &images, &kinds, 1);
            }
        }
    }
}

#[test]
fn the_largest_volume_of_all_kinds() {
    let mut rng = Rng::new(53);
    let kinds: Vec<Kind> = (0..65_536).map(|_| *rng.pick(&ALL_KINDS)).collect();
    let key = rng.bytes(32);
    let (given, images) = of_kinds(&mut rng, key, 32, &kinds);
    insist_on_survey(&given, &images, &kinds, 0);
}
