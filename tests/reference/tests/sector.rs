//! The sector calls: round trips, every verdict, every refusal.

mod common;

use reference::aes::Aes128;
use reference::answer::{answer_number, Place, Refusal, Verdict};
use reference::collide::{blind_pair, steer};
use reference::field::{product, to_block, to_blocks, to_bytes};
use reference::rng::Rng;
use reference::seal::{combine, judge, open, rebuild, seal};
use reference::seal::{sealed, Sealed};

const SIZES: [usize; 6] = [16, 32, 48, 64, 512, 4096];
const FILL: u8 = 0x5a;

/// Judges and gives the answer with the output, which starts as `FILL`.
fn judged(key: &[u8], address: u64, held: &Sealed) -> (Result<Verdict, Refusal>, Vec<u8>) {
    let mut output = vec![FILL; held.local.len()];
    let answer = judge(
        key,
        0,
        address,
        &held.local,
        &held.tag,
        &held.remote,
        &mut output,
    );
    (answer, output)
}

#[test]
fn round_trips() {
    let mut rng = Rng::new(10);
    for size in SIZES {
        for round in 0..if size > 512 { 2 } else { 20 } {
            let key = rng.bytes(32);
            let address = if round == 0 { 0 } else { rng.next_u64() };
            let plaintext = rng.bytes(size);
            round_trip(&key, address, &plaintext);
        }
        let k_zero = [rng.bytes(16), vec![0; 16]].concat();
        round_trip(&k_zero, u64::MAX, &vec![0; size]);
        round_trip(&[0xff; 32], u64::MAX, &vec![0xff; size]);
    }
}

fn round_trip(key: &[u8], address: u64, plaintext: &[u8]) {
    let size = plaintext.len();
    let sealed = sealed(key, 0, address, plaintext);
    let (mut local, mut remote, mut tag) = (vec![FILL; size], vec![FILL; size], vec![FILL; 16]);
    let answer = seal(
        key,
        0,
        address,
        plaintext,
        &mut local,
        &mut remote,
        &mut tag,
    );
    assert_eq!(answer, Ok(()));
    assert_eq!(Sealed { local, tag, remote }, sealed);
    assert_eq!(
        judged(key, address, &sealed),
        (Ok(Verdict::Whole), plaintext.to_vec())
    );
    let mut output = vec![FILL; size];
    assert_eq!(combine(&sealed.local, &sealed.remote, &mut output), Ok(()));
    assert_eq!(output, plaintext);
    let sides = [
        (0, &sealed.local, &sealed.remote),
        (1, &sealed.remote, &sealed.local),
    ];
    for (side, this, other) in sides {
        output.fill(FILL);
        let answer = open(key, 0, address, side, this, &sealed.tag, &mut output);
        assert_eq!(answer, Ok(()));
        assert_eq!(output, plaintext);
        output.fill(FILL);
        let answer = rebuild(key, 0, address, side, this, &sealed.tag, &mut output);
        assert_eq!(answer, Ok(()));
        assert_eq!(output, *other);
    }
}

#[test]
fn damage_gives_the_doubtful_place_or_lost() {
    let mut rng = Rng::new(11);
    for size in SIZES {
        for _ in 0..if size > 512 { 1 } else { 10 } {
            let (key, address) = (rng.bytes(32), rng.next_u64());
            let plaintext = rng.bytes(size);
            let sealed = sealed(&key, 0, address, &plaintext);
            for place in Place::ALL {
                let mut damaged = sealed.clone();
                let bytes = damaged.place_mut(place);
                let position = rng.below(bytes.len());
                bytes[position] ^= 1 << rng.below(8);
                assert_eq!(
                    judged(&key, address, &damaged),
                    (Ok(Verdict::Doubtful(place)), plaintext.clone())
                );
                // A second place goes too, and nothing is left to go by.
                let second = Place::ALL[usize::from(place.number()) % 3];
                rng.fill(damaged.place_mut(second));
                assert_eq!(
                    judged(&key, address, &damaged),
                    (Err(Refusal::Lost), vec![FILL; size])
                );
            }
        }
    }
}

#[test]
fn opening_needs_both_to_fit() {
    let mut rng = Rng::new(12);
    for size in SIZES {
        let (key, address) = (rng.bytes(32), rng.next_u64());
        let sealed = sealed(&key, 0, address, &rng.bytes(size));
        let other_tag = rng.bytes(16);
        let cases = [
            (1, address, &sealed.local, &sealed.tag),
            (0, address, &sealed.remote, &sealed.tag),
            (0, address, &sealed.local, &other_tag),
            (1, address, &sealed.remote, &other_tag),
            (0, address ^ 1, &sealed.local, &sealed.tag),
            (1, address ^ 1, &sealed.remote, &sealed.tag),
        ];
        for (side, address, sector, tag) in cases {
            for call in [open, rebuild] {
                let mut output = vec![FILL; size];
                let answer = call(&key, 0, address, side, sector, tag, &mut output);
                assert_eq!(answer, Err(Refusal::NothingFits));
                assert_eq!(output, vec![FILL; size]);
            }
        }
    }
}

/// Either side of one plaintext with the other side of another of equal tag.
fn insist_on_clash(key: &[u8], address: u64, one: &[u8], other: &[u8]) {
    assert_ne!(one, other);
    let size = one.len();
    let first = sealed(key, 0, address, one);
    let second = sealed(key, 0, address, other);
    assert_eq!(first.tag, second.tag);
    for (a, b) in [(&first, &second), (&second, &first)] {
        let held = Sealed {
            local: a.local.clone(),
            tag: a.tag.clone(),
            remote: b.remote.clone(),
        };
        assert_eq!(
            judged(key, address, &held),
            (Err(Refusal::Clashing), vec![FILL; size])
        );
    }
    // Each by itself is whole: an equal tag elsewhere is no clash.
    assert_eq!(
        judged(key, address, &first),
        (Ok(Verdict::Whole), one.to_vec())
    );
}

#[test]
fn clashes_of_blind_pairs() {
    let mut rng = Rng::new(13);
    for size in [32, 48, 64, 80, 512, 4096] {
        let (key, address) = (rng.bytes(32), rng.next_u64());
        let plaintext = to_blocks(&rng.bytes(size));
        let (one, other) = blind_pair(to_block(&key[..16]), &plaintext, rng.next_u128());
        insist_on_clash(&key, address, &to_bytes(&one), &to_bytes(&other));
    }
}

#[test]
fn clashes_of_steered_pairs() {
    let mut rng = Rng::new(14);
    for blocks in (2..20).chain([32, 256]) {
        let (key, address) = (rng.bytes(32), rng.next_u64());
        let one = rng.bytes(16 * blocks);
        let other = to_blocks(&rng.bytes(16 * blocks));
        let steered = steer(to_block(&key[..16]), 0, address, &to_blocks(&one), &other);
        insist_on_clash(&key, address, &one, &to_bytes(&steered.expect("steerable")));
    }
}

/// Of a plaintext that begins with h, any bytes in block 2 of a side fit another
/// plaintext of the same tag. Bytes in another block do not.
#[test]
fn clashes_by_damage_to_one_side() {
    let mut rng = Rng::new(15);
    for size in SIZES.into_iter().filter(|&size| size > 16) {
        let (key, address) = (rng.bytes(32), rng.next_u64());
        let mut plaintext = rng.bytes(size);
        plaintext[..16].copy_from_slice(&key[..16]);
        let held = sealed(&key, 0, address, &plaintext);
        for place in [Place::Local, Place::Remote] {
            let mut damaged = held.clone();
            rng.fill(&mut damaged.place_mut(place)[16..32]);
            let due = (Err(Refusal::Clashing), vec![FILL; size]);
            assert_eq!(judged(&key, address, &damaged), due);
            rng.fill(&mut damaged.place_mut(place)[..16]);
            let due = (Ok(Verdict::Doubtful(place)), plaintext.clone());
            assert_eq!(judged(&key, address, &damaged), due);
        }
    }
}

#[test]
fn clashes_under_an_h_of_one_bit() {
    let mut rng = Rng::new(18);
    for bit in 0..128 {
        let (h, address) = (1 << bit, rng.next_u64());
        let key = common::key_with_h(&mut rng, h);
        let size = 16 * (2 + rng.below(7));
        let plaintext = to_blocks(&rng.bytes(size));
        let (one, other) = blind_pair(h, &plaintext, rng.next_u128());
        insist_on_clash(&key, address, &to_bytes(&one), &to_bytes(&other));
        let other = to_blocks(&rng.bytes(size));
        let steered = steer(h, 0, address, &plaintext, &other).expect("steerable");
        insist_on_clash(&key, address, &to_bytes(&plaintext), &to_bytes(&steered));
    }
}

/// The sealing written out a second time around another cipher, with each
/// power of x computed anew.
fn second_seal(
    encrypt: impl Fn(&[u8], &[u128]) -> Vec<u128>,
    key: &[u8],
    volume: u64,
    address: u64,
    plaintext: &[u8],
) -> Sealed {
    let (h, cipher_key) = (to_block(&key[..16]), &key[16..]);
    let start = encrypt(cipher_key, &[0, 1]);
    let (alpha, beta) = (start[0], start[1]);
    let blocks = to_blocks(plaintext);
    let tweak = (u128::from(volume) << 64) | u128::from(address);
    let hashed = [&blocks[..], &[tweak]].concat();
    let hash = common::direct_brw(h, &hashed);
    let tag = encrypt(cipher_key, &[product(h, hash) ^ alpha])[0];
    let masks: Vec<u128> = (1..=blocks.len())
        .map(|j| tag ^ (0..j).fold(beta, |mask, _| product(mask, 2)))
        .collect();
    let pads = encrypt(cipher_key, &masks);
    let side = |factor| {
        let sealed: Vec<u128> = pads
            .iter()
            .zip(&blocks)
            .map(|(pad, &block)| pad ^ product(factor, block))
            .collect();
        to_bytes(&sealed)
    };
    Sealed {
        local: side(3),
        tag: tag.to_be_bytes().to_vec(),
        remote: side(2),
    }
}

#[test]
fn second_sealing_agrees() {
    let encrypt = |key: &[u8], blocks: &[u128]| {
        let cipher = Aes128::new(key.try_into().expect("16 bytes"));
        let bytewise = |block: &u128| cipher.encrypt_bytewise(block.to_be_bytes());
        blocks
            .iter()
            .map(bytewise)
            .map(u128::from_be_bytes)
            .collect()
    };
    let mut rng = Rng::new(16);
    for blocks in (1..20).chain([32, 255, 256]) {
        let (key, address) = (rng.bytes(32), rng.next_u64());
        let plaintext = rng.bytes(16 * blocks);
        for volume in [0, 1, u64::MAX, rng.next_u64()] {
            let second = second_seal(encrypt, &key, volume, address, &plaintext);
            assert_eq!(sealed(&key, volume, address, &plaintext), second);
        }
    }
}

#[test]
fn openssl_sealing_agrees() {
    let encrypt =
        |key: &[u8], blocks: &[u128]| to_blocks(&common::openssl_ecb(key, &to_bytes(blocks)));
    let mut rng = Rng::new(17);
    for size in SIZES {
        let (key, address) = (rng.bytes(32), rng.next_u64());
        let plaintext = rng.bytes(size);
        for volume in [0, 0x0102_0304_0506_0708, u64::MAX] {
            let outside = second_seal(encrypt, &key, volume, address, &plaintext);
            assert_eq!(sealed(&key, volume, address, &plaintext), outside);
        }
    }
}

#[test]
fn sizes_at_the_bounds() {
    let refused = [0, 1, 15, 17, 31, 4095, 4097, 4111, 4112, 8192];
    for size in refused {
        let bytes = vec![1; size];
        let (mut a, mut b, mut tag) = (vec![FILL; size], vec![FILL; size], [FILL; 16]);
        let (key, due) = ([3; 32], Err(Refusal::SectorSize));
        assert_eq!(seal(&key, 0, 0, &bytes, &mut a, &mut b, &mut tag), due);
        assert_eq!(open(&key, 0, 0, 0, &bytes, &[0; 16], &mut a), due);
        assert_eq!(rebuild(&key, 0, 0, 0, &bytes, &[0; 16], &mut a), due);
        assert_eq!(combine(&bytes, &bytes, &mut a), due);
        assert_eq!(
            judge(&key, 0, 0, &bytes, &[0; 16], &bytes, &mut a),
            Err(Refusal::SectorSize)
        );
        assert!(a.iter().chain(&b).chain(&tag).all(|&byte| byte == FILL));
    }
    for size in (16..=4096).step_by(16) {
        let (a, mut b) = (vec![1; size], vec![FILL; size]);
        assert_eq!(combine(&a, &a, &mut b), Ok(()));
        assert_eq!(b, vec![0; size]);
    }
}

#[test]
fn seal_refusals_in_order() {
    let cases = [
        (0, 16, 16, 16, 16, 1),
        (31, 16, 16, 16, 16, 1),
        (33, 16, 16, 16, 16, 1),
        (31, 15, 14, 13, 12, 1),
        (32, 15, 14, 16, 16, 2),
        (32, 4112, 16, 16, 0, 2),
        (32, 16, 15, 16, 16, 3),
        (32, 16, 17, 16, 16, 3),
        (32, 16, 16, 15, 16, 3),
        (32, 16, 16, 17, 16, 3),
        (32, 16, 16, 16, 15, 3),
        (32, 16, 16, 16, 17, 3),
        (32, 32, 16, 16, 16, 3),
        (32, 32, 32, 32, 32, 3),
        (32, 16, 16, 16, 16, 0),
        (32, 4096, 4096, 4096, 16, 0),
    ];
    for (key, plaintext, local, remote, tag, due) in cases {
        let mut outputs = [local, remote, tag].map(|len| vec![FILL; len]);
        let [local, remote, tag] = &mut outputs;
        let answer = seal(&vec![3; key], 0, 5, &vec![4; plaintext], local, remote, tag);
        assert_eq!(answer_number(&answer), due);
        let untouched = outputs.concat().iter().all(|&byte| byte == FILL);
        assert_eq!(untouched, due != 0);
    }
}

#[test]
fn judge_refusals_in_order() {
    let cases = [
        (0, 16, 16, 16, 16, 1),
        (33, 15, 15, 17, 0, 1),
        (32, 15, 15, 17, 0, 2),
        (32, 4112, 16, 4112, 4112, 2),
        (32, 16, 15, 16, 16, 3),
        (32, 16, 17, 16, 16, 3),
        (32, 16, 16, 15, 16, 3),
        (32, 16, 16, 17, 16, 3),
        (32, 16, 16, 16, 15, 3),
        (32, 16, 16, 16, 17, 3),
        (32, 32, 32, 32, 32, 3),
        (32, 32, 16, 32, 32, 6),
        (32, 4096, 16, 4096, 4096, 6),
    ];
    for (key, local, tag, remote, output, due) in cases {
        let mut output = vec![FILL; output];
        let answer = judge(
            &vec![3; key],
            0,
            5,
            &vec![4; local],
            &vec![5; tag],
            &vec![6; remote],
            &mut output,
        );
        assert_eq!(answer_number(&answer), due);
        assert!(output.iter().all(|&byte| byte == FILL));
    }
}

#[test]
fn open_and_rebuild_refusals_in_order() {
    let cases = [
        (0, 2, 15, 15, 0, 1),
        (31, 0, 16, 16, 16, 1),
        (33, 1, 16, 16, 16, 1),
        (32, 2, 15, 15, 0, 2),
        (32, 0, 0, 16, 0, 2),
        (32, 0, 17, 16, 17, 2),
        (32, 1, 4112, 16, 4112, 2),
        (32, 2, 16, 15, 16, 3),
        (32, 0, 16, 17, 16, 3),
        (32, 255, 16, 16, 15, 3),
        (32, 1, 16, 16, 17, 3),
        (32, 2, 16, 16, 16, 4),
        (32, 255, 4096, 16, 4096, 4),
        (32, 0, 16, 16, 16, 5),
        (32, 1, 4096, 16, 4096, 5),
    ];
    for (key, side, sector, tag, output, due) in cases {
        for call in [open, rebuild] {
            let mut output = vec![FILL; output];
            let (key, sector, tag) = (vec![3; key], vec![4; sector], vec![5; tag]);
            let answer = call(&key, 0, 5, side, &sector, &tag, &mut output);
            assert_eq!(answer_number(&answer), due);
            assert!(output.iter().all(|&byte| byte == FILL));
        }
    }
}

#[test]
fn combine_refusals_in_order() {
    let cases = [
        (15, 14, 13, 2),
        (4112, 16, 16, 2),
        (16, 15, 16, 3),
        (16, 17, 16, 3),
        (16, 16, 15, 3),
        (16, 16, 17, 3),
        (4096, 4080, 4096, 3),
        (32, 16, 16, 3),
    ];
    for (local, remote, output, due) in cases {
        let mut output = vec![FILL; output];
        let answer = combine(&vec![1; local], &vec![2; remote], &mut output);
        assert_eq!(answer_number(&answer), due);
        assert!(output.iter().all(|&byte| byte == FILL));
    }
}
