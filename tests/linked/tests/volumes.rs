//! One key, several volumes, through the compiled library: what a volume's number
//! sets apart, and that the number 0 gives the bytes of the releases before.

mod common;

use common::{any_volume, random_words, rounds, Arguments, Call, FILL};
use linked::both::Both;
use reference::hex;
use reference::history::{Calls, Given, Images};
use reference::map::words;
use reference::rng::Rng;
use reference::seal::Sealed;
use reference::volume::part;

/// The smallest ones, a usual one and the largest.
const SIZES: [usize; 5] = [16, 32, 48, 512, 4096];

/// Two numbers that differ: in one bit, in the order of their bytes, or anyhow.
fn two_numbers(rng: &mut Rng) -> (u64, u64) {
    let one = any_volume(rng);
    let near = one ^ (1 << *rng.pick(&[0, 7, 8, 31, 32, 63]));
    let any = any_volume(rng);
    let other = *rng.pick(&[near, near, one.swap_bytes(), any]);
    (one, if other == one { near } else { other })
}

/// Makes a call by both. Gives the arguments as they are left. What is refused
/// changes nothing, but a read, a mend or a write of a lost sector sets its bit.
fn insist_on(call: Call, given: &Arguments, due: u32) -> Arguments {
    let (number, left) = call.by_both(given);
    assert_eq!(number, due, "{call:?} under {}", given.volume);
    if due != 0 {
        let mut same = given.clone();
        if due == 6 && call.is_on_volume() {
            same.map[given.number / 64] |= 1 << (given.number % 64);
        }
        assert!(left == same, "{call:?} is refused, and changes a byte");
    }
    left
}

/// Arguments of the calls on one sector, which is sealed under the number.
fn sealed_sector(rng: &mut Rng, key: &[u8], volume: u64, plain: &[u8]) -> Arguments {
    let given = Arguments {
        key: key.to_vec(),
        volume,
        address: rng.next_u64(),
        plain: plain.to_vec(),
        local: vec![FILL; plain.len()],
        tag: vec![FILL; 16],
        remote: vec![FILL; plain.len()],
        out: vec![FILL; plain.len()],
        ..Arguments::none()
    };
    insist_on(Call::Seal, &given, 0)
}

/// Opening and rebuilding from each side have this answer.
fn insist_on_sides(sector: &Arguments, due: u32) {
    for side in [0, 1] {
        let given = Arguments {
            side,
            sector: match side {
                0 => sector.local.clone(),
                _ => sector.remote.clone(),
            },
            ..sector.clone()
        };
        insist_on(Call::Open, &given, due);
        insist_on(Call::Rebuild, &given, due);
    }
}

#[test]
fn a_sector_is_lost_under_the_number_of_another_volume() {
    for round in 0..rounds(40) {
        let mut rng = Rng::new(600 + round as u64);
        for size in SIZES {
            let (one, other) = two_numbers(&mut rng);
            let (key, plain) = (rng.bytes(32), rng.bytes(size));
            let mut sector = sealed_sector(&mut rng, &key, one, &plain);
            assert_eq!(insist_on(Call::Judge, &sector, 0).out, plain);
            insist_on_sides(&sector, 0);
            sector.volume = other;
            insist_on(Call::Judge, &sector, 6);
            insist_on_sides(&sector, 5);
        }
    }
}

#[test]
fn equal_plaintexts_at_equal_addresses_look_different() {
    for round in 0..rounds(40) {
        let mut rng = Rng::new(700 + round as u64);
        for size in SIZES {
            let (volume, other) = two_numbers(&mut rng);
            let random = rng.bytes(size);
            for plain in [&vec![0; size], &vec![0xff; size], &random] {
                let key = rng.bytes(32);
                let one = sealed_sector(&mut rng, &key, volume, plain);
                let two = Arguments {
                    volume: other,
                    ..one.clone()
                };
                let two = insist_on(Call::Seal, &two, 0);
                assert_ne!(one.local, two.local);
                assert_ne!(one.tag, two.tag);
                assert_ne!(one.remote, two.remote);
                // No block is equal either.
                let of_one = one.local.chunks(16).chain(one.remote.chunks(16));
                let of_two = two.local.chunks(16).chain(two.remote.chunks(16));
                assert!(of_one.zip(of_two).all(|(a, b)| a != b));
            }
        }
    }
}

/// Arguments of the calls on a volume of random images.
fn new_volume(rng: &mut Rng, key: &[u8], volume: u64, s: usize, n: usize) -> Arguments {
    Arguments {
        key: key.to_vec(),
        volume,
        s,
        n,
        plain: rng.bytes(s),
        local: rng.bytes(n * s),
        tag: rng.bytes(n * 16),
        remote: rng.bytes(n * s),
        map: random_words(rng, words(n)),
        out: vec![FILL; s],
        list: vec![u32::from(FILL); n],
        ..Arguments::none()
    }
}

/// Makes a call on a volume, which is done, and keeps what it leaves.
fn make(call: Call, lent: &mut Arguments) {
    *lent = insist_on(call, lent, 0);
}

/// Writes a plaintext to a sector, by the three stages and in one call, which
/// leave the same.
fn write(lent: &mut Arguments, number: usize, plain: &[u8]) {
    lent.number = number;
    lent.plain = plain.to_vec();
    let in_one_call = insist_on(Call::Write, lent, 0);
    for stage in [Call::First, Call::Second, Call::Third] {
        make(stage, lent);
    }
    assert!(*lent == in_one_call, "a write left another volume");
}

fn blank_all(lent: &mut Arguments) {
    for number in 0..lent.n {
        lent.number = number;
        make(Call::Blank, lent);
    }
}

/// A read that is whole gives this plaintext.
fn insist_on_read(lent: &Arguments, number: usize, plain: &[u8]) {
    let given = Arguments {
        number,
        ..lent.clone()
    };
    assert_eq!(insist_on(Call::Read, &given, 0).out, plain);
}

/// A volume under a number, each sector written.
fn written(rng: &mut Rng, key: &[u8], volume: u64, s: usize, n: usize) -> Arguments {
    let mut lent = new_volume(rng, key, volume, s, n);
    blank_all(&mut lent);
    for sector in 0..n {
        write(&mut lent, sector, &rng.bytes(s));
    }
    lent
}

/// The counts of a survey, and its whole list.
fn survey(lent: &Arguments) -> ([usize; 4], Vec<u32>) {
    let given = Given {
        key: lent.key.clone(),
        volume: lent.volume,
        size: lent.s,
        count: lent.n,
    };
    let images = Images {
        local: lent.local.clone(),
        tag: lent.tag.clone(),
        remote: lent.remote.clone(),
    };
    let mut list = lent.list.clone();
    let found = Both.survey(&given, &images, &lent.map, &mut list);
    let found = found.expect("the shape is right");
    let counts = [found.whole, found.doubtful, found.clashing, found.lost];
    (counts, list)
}

/// Read, mend and write refuse 6, every stage refuses 10, and a survey finds every
/// sector lost; no lent byte changes. A blank is accepted, and only the sector
/// that it is made on is lost to its own volume.
#[test]
fn a_volume_is_lost_under_the_number_of_another() {
    for round in 0..rounds(8) {
        let mut rng = Rng::new(800 + round as u64);
        for (s, n) in [(16, 5), (32, 4), (48, 3), (512, 2), (4096, 1)] {
            let (own, other) = two_numbers(&mut rng);
            let key = rng.bytes(32);
            let mut lent = written(&mut rng, &key, own, s, n);
            let plain = lent.plain.clone();
            assert_eq!(survey(&lent), ([n, 0, 0, 0], lent.list.clone()));

            lent.volume = other;
            let all: Vec<u32> = (0..n as u32).collect();
            assert_eq!(survey(&lent), ([0, 0, 0, n], all));
            for number in 0..n {
                lent.number = number;
                insist_on(Call::Read, &lent, 6);
                insist_on(Call::Mend, &lent, 6);
                insist_on(Call::Write, &lent, 6);
                for stage in [Call::First, Call::Second, Call::Third] {
                    insist_on(stage, &lent, 10);
                }
            }

            // The last sector holds `plain`.
            lent.number = rng.below(n);
            make(Call::Blank, &mut lent);
            insist_on_read(&lent, lent.number, &vec![0; s]);
            lent.volume = own;
            insist_on(Call::Read, &lent, 6);
            assert_eq!(survey(&lent).0, [n - 1, 0, 0, 1]);
            if lent.number != n - 1 {
                insist_on_read(&lent, n - 1, &plain);
            }
        }
    }
}

/// The stages of a write that began under the volume's number are not due under
/// another, however far the write has come.
#[test]
fn no_stage_goes_on_under_the_number_of_another_volume() {
    for round in 0..rounds(8) {
        let mut rng = Rng::new(900 + round as u64);
        let (own, other) = two_numbers(&mut rng);
        let key = rng.bytes(32);
        let mut lent = written(&mut rng, &key, own, 32, 3);
        lent.number = rng.below(3);
        lent.plain = rng.bytes(32);
        let stages = [Call::First, Call::Second, Call::Third];
        for next in stages {
            let under_other = Arguments {
                volume: other,
                ..lent.clone()
            };
            for stage in stages {
                insist_on(stage, &under_other, 10);
            }
            insist_on(Call::Mend, &under_other, 6);
            insist_on(Call::Write, &under_other, 6);
            make(next, &mut lent);
        }
        insist_on_read(&lent, lent.number, &lent.plain);
    }
}

/// The three places of a sector.
fn places(lent: &Arguments, number: usize) -> Sealed {
    let side = part(number, lent.s);
    Sealed {
        local: lent.local[side.clone()].to_vec(),
        tag: lent.tag[part(number, 16)].to_vec(),
        remote: lent.remote[side].to_vec(),
    }
}

fn put(lent: &mut Arguments, number: usize, held: &Sealed) {
    let side = part(number, lent.s);
    lent.local[side.clone()].copy_from_slice(&held.local);
    lent.tag[part(number, 16)].copy_from_slice(&held.tag);
    lent.remote[side].copy_from_slice(&held.remote);
}

/// Four disks under one key: what each keeps at a sector number is its own, equal
/// sectors look different, and a sector of one that is put into another is lost.
#[test]
fn four_volumes_under_one_key() {
    for round in 0..rounds(8) {
        let mut rng = Rng::new(1000 + round as u64);
        let (key, s, n) = (rng.bytes(32), *rng.pick(&SIZES), 3);
        let number = rng.below(n);
        let mut disks = [1, 2, 3, 4].map(|volume| new_volume(&mut rng, &key, volume, s, n));
        disks.iter_mut().for_each(blank_all);
        for (a, b) in pairs() {
            for sector in 0..n {
                insist_on_difference(&disks, sector, a, b);
            }
        }

        let plains = [(); 4].map(|()| rng.bytes(s));
        for (disk, plain) in disks.iter_mut().zip(&plains) {
            write(disk, number, plain);
        }
        for (disk, plain) in disks.iter().zip(&plains) {
            insist_on_read(disk, number, plain);
            assert_eq!(survey(disk).0, [n, 0, 0, 0]);
        }

        let same = rng.bytes(s);
        for disk in &mut disks {
            write(disk, number, &same);
        }
        for (a, b) in pairs() {
            insist_on_difference(&disks, number, a, b);
            let mut mixed = disks[a].clone();
            put(&mut mixed, number, &places(&disks[b], number));
            mixed.number = number;
            insist_on(Call::Read, &mixed, 6);
            insist_on(Call::Mend, &mixed, 6);
            insist_on(Call::Write, &mixed, 6);
            assert_eq!(survey(&mixed).0, [n - 1, 0, 0, 1]);
        }
    }
}

/// Each two of the four.
fn pairs() -> impl Iterator<Item = (usize, usize)> {
    (0..4).flat_map(|a| (0..4).filter(move |&b| b != a).map(move |b| (a, b)))
}

/// The disks hold one plaintext in this sector, and no place is equal.
fn insist_on_difference(disks: &[Arguments; 4], number: usize, a: usize, b: usize) {
    let (a, b) = (places(&disks[a], number), places(&disks[b], number));
    assert_ne!(a.local, b.local);
    assert_ne!(a.tag, b.tag);
    assert_ne!(a.remote, b.remote);
}

/// Key, address and plaintext, and what release 0.2.0 sealed of them: local
/// sector, tag and remote sector. From its stored vectors.
const OF_RELEASE_0_2_0: [[&str; 6]; 6] = [
    [
        "5f5e9b84c3354e7b3a368227ff68584fba985efabeebaa06b9e807b28b18844b",
        "5e099c888ba0469b",
        "d5765b2ba7d89688ecb358d053158ef5",
        "367877e6baa3e1fa952c161991b280f6",
        "44d76e9dea930a16578d8374c539879b",
        "e30e2ccd1d7b7772799f4ec9c2a70e03",
    ],
    [
        "1438949f69a611444e58bafd88182dd5b2eeb4c87d054e8c12d4b02231038c5f",
        "184705e801d910f1",
        "80de42b9f9687cfd3c27f2c21d70e2a4f3b3ed75c955bb85fff1ae1066b5d062",
        "b24ee409c415389a8857ed51a4c83967a8de73712e4a348ad1bd454604c2650f",
        "1e23ffd1f548eabf35951815d99020c4",
        "3290a6b03d7d4467b4701f93b9b8dbc35b6d9e04e71f8f0f2e4ceb566277b56d",
    ],
    [
        "ffffffffffffffffffffffffffffffffffffffffffffffffffffffffffffffff",
        "0000000100000000",
        "ffffffffffffffffffffffffffffffff",
        "8a72bbf59cf045776cbf7ed98c6e2943",
        "b17bef618d896547678147cd934b7742",
        "758d440a630fba88934081267391d6bc",
    ],
    [
        "ffffffffffffffffffffffffffffffffffffffffffffffffffffffffffffffff",
        "0000000100000000",
        "ffffffffffffffffffffffffffffffffffffffffffffffffffffffffffffffff",
        "8ed3a203404947f9ff117ef56444bdda643d2fd9565a55b844ba118f404e1799",
        "753a0329693cb6fba4484d542bd24830",
        "712c5dfcbfb6b80600ee810a9bbb42259bc2d026a9a5aa47bb45ee70bfb1e866",
    ],
    [
        "7ea04a17997d0c30c1a1b8f5b914e4ef42711adbd041369e8afe3037e72d09c7",
        "42e7478ea307a06e",
        "80000000000000000000000000000000",
        "35b0896f3ac35f0916b6f76431f20a82",
        "fe0e768579744924f2f368cee92c8785",
        "b5b0896f3ac35f0916b6f76431f20a82",
    ],
    [
        "eba4dc9cfceb8dc45d87fd167f3e7cf2e153260b75dff277ec13fb9834b615f3",
        "a2b2fab23e05674a",
        "8000000000000000000000000000000080000000000000000000000000000000",
        "72665ee657887994443d4d3818ac70db631564a74798e6bbfd946bd73ee7c159",
        "856395cd60bcf5e2e3017b08d8e36123",
        "f2665ee657887994443d4d3818ac70dbe31564a74798e6bbfd946bd73ee7c159",
    ],
];

#[test]
fn the_number_0_gives_the_bytes_of_release_0_2_0() {
    for line in OF_RELEASE_0_2_0 {
        let [key, address, plain, local, tag, remote] =
            line.map(|digits| hex::decode(digits.as_bytes()).expect("hexadecimal"));
        let address = u64::from_be_bytes(address.try_into().expect("8 bytes"));
        let given = Arguments {
            key,
            address,
            local: vec![FILL; plain.len()],
            tag: vec![FILL; 16],
            remote: vec![FILL; plain.len()],
            out: vec![FILL; plain.len()],
            plain,
            ..Arguments::none()
        };
        let sealed = insist_on(Call::Seal, &given, 0);
        assert_eq!((&sealed.local, &sealed.remote), (&local, &remote));
        assert_eq!(sealed.tag, tag);
        assert_eq!(insist_on(Call::Judge, &sealed, 0).out, given.plain);
        insist_on_sides(&sealed, 0);
    }
}

/// A volume that is sealed under 0 is whole under 0, and lost under others.
#[test]
fn a_volume_of_before_has_the_number_0() {
    let mut rng = Rng::new(1100);
    for (s, n) in [(16, 4), (512, 3)] {
        let key = rng.bytes(32);
        let mut lent = written(&mut rng, &key, 0, s, n);
        for number in 0..n {
            let plain = rng.bytes(s);
            let held = reference::seal::sealed(&key, 0, number as u64, &plain);
            put(&mut lent, number, &held);
            insist_on_read(&lent, number, &plain);
        }
        for volume in [1, 1 << 32, 1 << 63, u64::MAX] {
            lent.volume = volume;
            assert_eq!(survey(&lent).0, [0, 0, 0, n]);
        }
    }
}

/// What a read that is whole gives.
fn plaintext(lent: &Arguments, number: usize) -> Vec<u8> {
    let given = Arguments {
        number,
        ..lent.clone()
    };
    insist_on(Call::Read, &given, 0).out
}

/// A volume moves to another number as the operators' document says: new images,
/// blanked, each sector copied, and then compared. The old volume stays.
#[test]
fn a_volume_moves_to_another_number() {
    for round in 0..rounds(8) {
        let mut rng = Rng::new(1000 + round as u64);
        for (s, n) in [(16, 5), (48, 3), (512, 2), (4096, 1)] {
            let (key, number) = (rng.bytes(32), any_volume(&mut rng).max(1));
            let old = written(&mut rng, &key, 0, s, n);
            let mut new = new_volume(&mut rng, &key, number, s, n);
            let under = |volume, of: &Arguments| {
                survey(&Arguments {
                    volume,
                    ..of.clone()
                })
                .0
            };
            let (all_whole, all_lost) = ([n, 0, 0, 0], [0, 0, 0, n]);
            assert_eq!(under(0, &old), all_whole);
            assert_eq!(under(0, &new), all_lost);
            blank_all(&mut new);
            for sector in 0..n {
                write(&mut new, sector, &plaintext(&old, sector));
            }
            assert_eq!(under(number, &new), all_whole);
            for sector in 0..n {
                assert_eq!(plaintext(&new, sector), plaintext(&old, sector));
            }
            assert_eq!(under(0, &new), all_lost);
            assert_eq!(under(number, &old), all_lost);
            assert_eq!(under(0, &old), all_whole);
        }
    }
}
