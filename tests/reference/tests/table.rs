//! The marked table, row by row, and the hash written out directly.

mod common;

use reference::aes::SBOX;
use reference::answer::Refusal;
use reference::brw::brw;
use reference::field::{double, product, to_bytes};
use reference::rng::Rng;
use reference::seal::sealed;
use reference::seal::{judge, local_block, remote_block, tweak, Sealer, Triple};

const TOP_BIT: u128 = 1 << 127;

#[test]
fn rows_a_and_b_doubling() {
    assert_eq!(double(0x01), 0x02);
    assert_eq!(product(2, 0x01), 0x02);
    assert_eq!(double(TOP_BIT), 0x87);
    assert_eq!(product(2, TOP_BIT), 0x87);
}

#[test]
fn rows_c_to_f_hash() {
    assert_eq!(brw(2, &[]), 0);
    assert_eq!(brw(u128::MAX, &[]), 0);
    assert_eq!(brw(2, &[1; 2]), 0x03);
    assert_eq!(brw(2, &[1; 3]), 0x0e);
    assert_eq!(brw(2, &[1; 4]), 0xee);
    assert_eq!(brw(2, &[1; 5]), 0xef);
    assert_eq!(product(2, brw(2, &[1; 4])), 0x01dc);
    assert_eq!(brw(2, &[0; 4]), 0x80);
}

#[test]
fn row_g_sides_under_pad_zero() {
    assert_eq!(local_block(0, TOP_BIT), TOP_BIT | 0x87);
    assert_eq!(remote_block(0, TOP_BIT), 0x87);
}

#[test]
fn row_h_pair_clashes() {
    let mut rng = Rng::new(4);
    for round in 0..200 {
        let h = match round {
            0 => 0,
            1 => 1,
            2 => u128::MAX,
            _ => rng.next_u128(),
        };
        let address = match round % 5 {
            0 => 0,
            1 => u64::MAX,
            _ => rng.next_u64(),
        };
        assert_eq!(brw(h, &[h, 0, tweak(0, address)]), tweak(0, address));
        assert_eq!(brw(h, &[h, 1, tweak(0, address)]), tweak(0, address));

        let key = common::key_with_h(&mut rng, h);
        let one = sealed(&key, 0, address, &to_bytes(&[h, 0]));
        let other = sealed(&key, 0, address, &to_bytes(&[h, 1]));
        assert_eq!(one.tag, other.tag);
        for (local, remote) in [(&one.local, &other.remote), (&other.local, &one.remote)] {
            // By the definition, for every h, and by the call, which refuses h zero.
            let sealer = Sealer::new(key[..].try_into().expect("32 bytes"));
            let held = Triple::from_bytes(local, &one.tag, remote);
            assert_eq!(sealer.judge(0, address, &held), Err(Refusal::Clashing));
            let mut output = [0x5a; 32];
            let answer = judge(&key, 0, address, local, &one.tag, remote, &mut output);
            let due = if h == 0 {
                Refusal::ZeroHashKey
            } else {
                Refusal::Clashing
            };
            assert_eq!(answer, Err(due));
            assert_eq!(output, [0x5a; 32]);
        }
    }
}

#[test]
fn row_i_substitution() {
    assert_eq!(SBOX[0x00], 0x63);
    assert_eq!(SBOX[0x53], 0xed);
}

#[test]
fn hash_is_as_worded_for_every_count() {
    let mut rng = Rng::new(5);
    for count in (0..40).chain([63, 64, 65, 127, 128, 129, 255, 256, 257]) {
        let h = rng.next_u128();
        let blocks: Vec<u128> = (0..count).map(|_| rng.next_u128()).collect();
        assert_eq!(brw(h, &blocks), common::direct_brw(h, &blocks));
    }
}
