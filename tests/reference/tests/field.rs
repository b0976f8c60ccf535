//! The laws of the field, on edge values and random ones.

use reference::field::{
    double, inverse, over_one_plus_x, over_x, product, times_one_plus_x, to_blocks, to_bytes,
    ONE_PLUS_X_INVERSE, X, X_INVERSE,
};
use reference::rng::Rng;

fn samples() -> Vec<u128> {
    let mut rng = Rng::new(1);
    let mut samples = vec![0, 1, 2, 3, 0x87, 1 << 127, u128::MAX];
    samples.extend((0..128).map(|bit| 1 << bit));
    samples.extend((0..100).map(|_| rng.next_u128()));
    samples
}

/// Doubling over the bytes of a block, with carries from byte to byte.
fn double_bytes(block: u128) -> u128 {
    let before = block.to_be_bytes();
    let mut after = [0; 16];
    for i in 0..16 {
        let carry = if i < 15 { before[i + 1] >> 7 } else { 0 };
        after[i] = before[i] << 1 | carry;
    }
    if before[0] & 0x80 != 0 {
        after[15] ^= 0x87;
    }
    u128::from_be_bytes(after)
}

/// The product as a polynomial of 256 bits, reduced afterwards from the top.
fn schoolbook(a: u128, b: u128) -> u128 {
    let mut bits = [false; 256];
    for i in 0..128 {
        for j in 0..128 {
            bits[i + j] ^= (a >> i) & (b >> j) & 1 == 1;
        }
    }
    for top in (128..256).rev() {
        if bits[top] {
            for lower in [128, 127, 126, 121] {
                bits[top - lower] ^= true;
            }
        }
    }
    (0..128).fold(0, |sum, i| sum | u128::from(bits[i]) << i)
}

#[test]
fn doubling_is_multiplying_by_x() {
    for a in samples() {
        assert_eq!(double(a), product(a, X));
        assert_eq!(double(a), product(X, a));
        assert_eq!(double(a), double_bytes(a));
        assert_eq!(times_one_plus_x(a), product(a, 1 ^ X));
    }
}

#[test]
fn doubling_is_linear_and_undone() {
    let samples = samples();
    for pair in samples.windows(2) {
        assert_eq!(double(pair[0] ^ pair[1]), double(pair[0]) ^ double(pair[1]));
    }
    for a in samples {
        assert_eq!(over_x(double(a)), a);
        assert_eq!(double(over_x(a)), a);
        assert_eq!(over_one_plus_x(times_one_plus_x(a)), a);
        assert_eq!(times_one_plus_x(over_one_plus_x(a)), a);
    }
}

#[test]
fn constants_are_inverses() {
    assert_eq!(product(X, X_INVERSE), 1);
    assert_eq!(product(1 ^ X, ONE_PLUS_X_INVERSE), 1);
    assert_eq!(inverse(X), X_INVERSE);
    assert_eq!(inverse(1 ^ X), ONE_PLUS_X_INVERSE);
}

#[test]
fn product_is_the_reduced_polynomial_product() {
    let samples = samples();
    for pair in samples.windows(2) {
        assert_eq!(product(pair[0], pair[1]), schoolbook(pair[0], pair[1]));
    }
}

#[test]
fn product_obeys_the_field_laws() {
    for part in samples().windows(3) {
        let (a, b, c) = (part[0], part[1], part[2]);
        assert_eq!(product(a, b), product(b, a));
        assert_eq!(product(product(a, b), c), product(a, product(b, c)));
        assert_eq!(product(a, b ^ c), product(a, b) ^ product(a, c));
        assert_eq!(product(a, 1), a);
        assert_eq!(product(a, 0), 0);
        if a != 0 {
            assert_eq!(product(a, inverse(a)), 1);
        }
    }
}

#[test]
fn the_first_byte_is_the_most_significant() {
    let bytes: Vec<u8> = (0..32).collect();
    let blocks = to_blocks(&bytes);
    assert_eq!(
        blocks,
        [
            0x000102030405060708090a0b0c0d0e0f,
            0x101112131415161718191a1b1c1d1e1f
        ]
    );
    assert_eq!(to_bytes(&blocks), bytes);
}
