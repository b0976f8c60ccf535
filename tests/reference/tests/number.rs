//! The volume's number: the tweak that it goes into, and sectors that are
//! sealed under one number and met under another.

use reference::answer::{Place, Refusal, Verdict};
use reference::collide::steer;
use reference::field::{to_block, to_blocks, to_bytes};
use reference::rng::Rng;
use reference::seal::{judge, open, rebuild, sealed, tweak, Sealed};

const FILL: u8 = 0x5a;
const SIZES: [usize; 6] = [16, 32, 48, 64, 512, 4096];
const EDGES: [u64; 10] = [
    0,
    1,
    2,
    0xff,
    1 << 31,
    1 << 32,
    0x0102_0304_0506_0708,
    0xff << 56,
    1 << 63,
    u64::MAX,
];

/// Judges and gives the answer with the output, which starts as `FILL`.
fn judged(
    key: &[u8],
    volume: u64,
    address: u64,
    held: &Sealed,
) -> (Result<Verdict, Refusal>, Vec<u8>) {
    let mut output = vec![FILL; held.local.len()];
    let Sealed { local, tag, remote } = held;
    let answer = judge(key, volume, address, local, tag, remote, &mut output);
    (answer, output)
}

#[test]
fn number_zero_gives_the_tweak_of_before() {
    let mut rng = Rng::new(50);
    let random: Vec<u64> = (0..1000).map(|_| rng.next_u64()).collect();
    let bits = (0..64).map(|bit| 1 << bit);
    for address in EDGES.into_iter().chain(bits).chain(random) {
        let block = tweak(0, address).to_be_bytes();
        assert_eq!(block[..8], [0; 8]);
        assert_eq!(block[8..], address.to_be_bytes());
        assert_eq!(tweak(0, address), u128::from(address));
    }
}

#[test]
fn the_tweak_is_the_number_and_then_the_address() {
    for (volume, address, due) in [
        (0, 0, [0; 16]),
        (1, 0, [0, 0, 0, 0, 0, 0, 0, 1, 0, 0, 0, 0, 0, 0, 0, 0]),
        (0, 1, [0, 0, 0, 0, 0, 0, 0, 0, 0, 0, 0, 0, 0, 0, 0, 1]),
        (
            0x0102_0304_0506_0708,
            0x1112_1314_1516_1718,
            [
                0x01, 0x02, 0x03, 0x04, 0x05, 0x06, 0x07, 0x08, 0x11, 0x12, 0x13, 0x14, 0x15, 0x16,
                0x17, 0x18,
            ],
        ),
        (
            0xff00_0000_0000_0000,
            0xfe,
            [0xff, 0, 0, 0, 0, 0, 0, 0, 0, 0, 0, 0, 0, 0, 0, 0xfe],
        ),
        (
            0xff,
            0xfe00_0000_0000_0000,
            [0, 0, 0, 0, 0, 0, 0, 0xff, 0xfe, 0, 0, 0, 0, 0, 0, 0],
        ),
        (u64::MAX, u64::MAX, [0xff; 16]),
    ] {
        assert_eq!(tweak(volume, address).to_be_bytes(), due);
    }
}

#[test]
fn no_two_positions_share_a_tweak() {
    let mut rng = Rng::new(51);
    let numbers: Vec<u64> = EDGES
        .into_iter()
        .chain((0..5).map(|_| rng.next_u64()))
        .collect();
    let mut positions = Vec::new();
    for &volume in &numbers {
        positions.extend(numbers.iter().map(|&address| (volume, address)));
    }
    for &(volume, address) in &positions {
        for &(other, elsewhere) in &positions {
            let same = (volume, address) == (other, elsewhere);
            assert_eq!(tweak(volume, address) == tweak(other, elsewhere), same);
        }
    }
}

/// Pairs of numbers that are easily taken for one another.
fn pairs(rng: &mut Rng) -> Vec<(u64, u64)> {
    let any = rng.next_u64();
    vec![
        (0, 1),
        (1, 2),
        (0, u64::MAX),
        (0xff, 0xff << 56),
        (any, any ^ 1),
        (any, any ^ (1 << 31)),
        (any, any ^ (1 << 32)),
        (any, any ^ (1 << 63)),
        (any, any.swap_bytes()),
        (any, any.rotate_left(32)),
        (any, rng.next_u64()),
    ]
}

#[test]
fn equal_plaintexts_at_equal_addresses_look_different() {
    let mut rng = Rng::new(52);
    for size in SIZES {
        for (volume, other) in pairs(&mut rng) {
            for address in [0, u64::MAX, rng.next_u64()] {
                let key = rng.bytes(32);
                for plaintext in [vec![0; size], rng.bytes(size)] {
                    let one = sealed(&key, volume, address, &plaintext);
                    let two = sealed(&key, other, address, &plaintext);
                    for place in Place::ALL {
                        assert_ne!(one.place(place), two.place(place));
                    }
                    let due = (Ok(Verdict::Whole), plaintext);
                    assert_eq!(judged(&key, volume, address, &one), due);
                    assert_eq!(judged(&key, other, address, &two), due);
                }
            }
        }
    }
}

/// The sector, sealed elsewhere, is lost here and neither of its sides opens.
fn insist_on_lost(key: &[u8], volume: u64, address: u64, held: &Sealed) {
    let untouched = vec![FILL; held.local.len()];
    let due = (Err(Refusal::Lost), untouched.clone());
    assert_eq!(judged(key, volume, address, held), due);
    for (side, sector) in [(0, &held.local), (1, &held.remote)] {
        for call in [open, rebuild] {
            let mut output = untouched.clone();
            let answer = call(key, volume, address, side, sector, &held.tag, &mut output);
            assert_eq!(answer, Err(Refusal::NothingFits));
            assert_eq!(output, untouched);
        }
    }
}

#[test]
fn lost_under_another_number() {
    let mut rng = Rng::new(53);
    for size in SIZES {
        for (volume, other) in pairs(&mut rng) {
            let (key, address) = (rng.bytes(32), rng.next_u64());
            let plaintext = rng.bytes(size);
            let one = sealed(&key, volume, address, &plaintext);
            insist_on_lost(&key, other, address, &one);
            let two = sealed(&key, other, address, &plaintext);
            insist_on_lost(&key, volume, address, &two);
            // The places of two volumes do not make up one sector: the odd one
            // out is in doubt under the number of the two.
            for place in Place::ALL {
                let mut mixed = one.clone();
                *mixed.place_mut(place) = two.place(place).to_vec();
                let due = (Ok(Verdict::Doubtful(place)), plaintext.clone());
                assert_eq!(judged(&key, volume, address, &mixed), due);
                insist_on_lost(&key, other, address, &mixed);
            }
        }
    }
}

#[test]
fn lost_where_number_and_address_are_exchanged() {
    let mut rng = Rng::new(54);
    for size in SIZES {
        for (volume, address) in pairs(&mut rng) {
            let key = rng.bytes(32);
            let held = sealed(&key, volume, address, &rng.bytes(size));
            insist_on_lost(&key, address, volume, &held);
        }
    }
}

#[test]
fn open_and_rebuild_under_a_number() {
    let mut rng = Rng::new(55);
    for size in SIZES {
        for volume in EDGES {
            let (key, address) = (rng.bytes(32), rng.next_u64());
            let plaintext = rng.bytes(size);
            let Sealed { local, tag, remote } = sealed(&key, volume, address, &plaintext);
            for (side, this, other) in [(0, &local, &remote), (1, &remote, &local)] {
                let mut output = vec![FILL; size];
                let answer = open(&key, volume, address, side, this, &tag, &mut output);
                assert_eq!(answer, Ok(()));
                assert_eq!(output, plaintext);
                let answer = rebuild(&key, volume, address, side, this, &tag, &mut output);
                assert_eq!(answer, Ok(()));
                assert_eq!(output, *other);
            }
        }
    }
}

#[test]
fn clashes_under_a_number_are_lost_under_another() {
    let mut rng = Rng::new(56);
    for blocks in (2..20).chain([32]) {
        let (volume, address) = (rng.next_u64(), rng.next_u64());
        let key = rng.bytes(32);
        let one = rng.bytes(16 * blocks);
        let other = to_blocks(&rng.bytes(16 * blocks));
        let h = to_block(&key[..16]);
        let steered = steer(h, volume, address, &to_blocks(&one), &other).expect("steerable");
        let mut held = sealed(&key, volume, address, &one);
        let second = sealed(&key, volume, address, &to_bytes(&steered));
        assert_eq!(held.tag, second.tag);
        held.remote = second.remote;
        let due = (Err(Refusal::Clashing), vec![FILL; 16 * blocks]);
        assert_eq!(judged(&key, volume, address, &held), due);
        insist_on_lost(&key, volume ^ 1, address, &held);
    }
}

/// With h zero the hash is zero, so no number changes the bytes. The calls refuse
/// such a key; the sealing is defined.
#[test]
fn under_h_zero_no_number_changes_the_bytes() {
    let mut rng = Rng::new(57);
    for size in SIZES {
        let key = [vec![0; 16], rng.bytes(16)].concat();
        let (address, plaintext) = (rng.next_u64(), rng.bytes(size));
        let due = sealed(&key, 0, address, &plaintext);
        for volume in EDGES {
            assert_eq!(sealed(&key, volume, address, &plaintext), due);
            let refused = (Err(Refusal::ZeroHashKey), vec![FILL; size]);
            assert_eq!(judged(&key, volume, address, &due), refused);
        }
    }
}

/// In three blocks the hash of the plaintext is the tweak's factor. Where it is
/// zero, as for h, anything, 0, neither number nor address changes the bytes.
#[test]
fn under_a_factor_of_zero_no_number_changes_the_bytes() {
    let mut rng = Rng::new(58);
    let key = rng.bytes(32);
    let plaintext = to_bytes(&[to_block(&key[..16]), rng.next_u128(), 0]);
    let due = sealed(&key, 0, 0, &plaintext);
    for volume in EDGES {
        assert_eq!(sealed(&key, volume, rng.next_u64(), &plaintext), due);
    }
}
