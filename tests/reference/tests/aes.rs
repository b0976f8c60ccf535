//! AES against the examples of FIPS 197 and against an outside program.

mod common;

use reference::aes::{affine, byte_inverse, byte_product, Aes, Aes128, Aes256, SBOX};
use reference::hex;
use reference::rng::Rng;

fn bytes<const N: usize>(digits: &str) -> [u8; N] {
    let bytes = hex::decode(digits.as_bytes()).expect("digits");
    bytes.try_into().expect("the right length")
}

/// Encrypts in both ways and insists that they agree.
fn encrypt<const WORDS: usize>(cipher: &Aes<WORDS>, block: [u8; 16]) -> [u8; 16] {
    let bytewise = cipher.encrypt_bytewise(block);
    let with_tables = cipher.encrypt(u128::from_be_bytes(block));
    assert_eq!(bytewise, with_tables.to_be_bytes());
    bytewise
}

#[test]
fn appendix_a1_key_expansion() {
    let cipher = Aes128::new(&bytes("2b7e151628aed2a6abf7158809cf4f3c"));
    let words = cipher.round_keys();
    assert_eq!(
        words[4..8],
        [0xa0fafe17, 0x88542cb1, 0x23a33939, 0x2a6c7605]
    );
    assert_eq!(
        words[40..],
        [0xd014f9a8, 0xc9ee2589, 0xe13f0cc8, 0xb6630ca6]
    );
}

#[test]
fn appendix_a3_key_expansion() {
    let cipher = Aes256::new(&bytes(
        "603deb1015ca71be2b73aef0857d77811f352c073b6108d72d9810a30914dff4",
    ));
    let words = cipher.round_keys();
    assert_eq!(
        words[8..12],
        [0x9ba35411, 0x8e6925af, 0xa51a8b5f, 0x2067fcde]
    );
    assert_eq!(
        words[56..],
        [0xfe4890d1, 0xe6188d0b, 0x046df344, 0x706c631e]
    );
}

#[test]
fn appendix_b_cipher_example() {
    let cipher = Aes128::new(&bytes("2b7e151628aed2a6abf7158809cf4f3c"));
    let output = encrypt(&cipher, bytes("3243f6a8885a308d313198a2e0370734"));
    assert_eq!(output, bytes("3925841d02dc09fbdc118597196a0b32"));
}

#[test]
fn appendix_c1_example_vector() {
    let cipher = Aes128::new(&bytes("000102030405060708090a0b0c0d0e0f"));
    let output = encrypt(&cipher, bytes("00112233445566778899aabbccddeeff"));
    assert_eq!(output, bytes("69c4e0d86a7b0430d8cdb78070b4c55a"));
}

#[test]
fn appendix_c3_example_vector() {
    let cipher = Aes256::new(&bytes(
        "000102030405060708090a0b0c0d0e0f101112131415161718191a1b1c1d1e1f",
    ));
    let output = encrypt(&cipher, bytes("00112233445566778899aabbccddeeff"));
    assert_eq!(output, bytes("8ea2b7ca516745bfeafc49904b496089"));
}

/// The rule by search for the inverse and by the standard's equation on bits.
#[test]
fn every_sbox_entry_follows_the_rule() {
    for byte in 0..=255u8 {
        let inverse = (0..=255)
            .find(|&other| byte_product(byte, other) == 1)
            .unwrap_or(0);
        assert_eq!(byte_inverse(byte), inverse);
        let bit = |i: u32| inverse >> (i % 8) & 1;
        let mapped = (0..8).fold(0, |sum, i| {
            let b = bit(i) ^ bit(i + 4) ^ bit(i + 5) ^ bit(i + 6) ^ bit(i + 7) ^ (0x63 >> i & 1);
            sum | b << i
        });
        assert_eq!(affine(inverse), mapped);
        assert_eq!(SBOX[usize::from(byte)], mapped);
    }
}

#[test]
fn tables_agree_with_bytes() {
    let mut rng = Rng::new(2);
    for _ in 0..200 {
        let (mut short, mut long, mut block) = ([0; 16], [0; 32], [0; 16]);
        rng.fill(&mut short);
        rng.fill(&mut long);
        for _ in 0..10 {
            rng.fill(&mut block);
            encrypt(&Aes128::new(&short), block);
            encrypt(&Aes256::new(&long), block);
        }
    }
}

#[test]
fn openssl_agrees() {
    let mut rng = Rng::new(3);
    for _ in 0..8 {
        let (mut short, mut long) = ([0; 16], [0; 32]);
        rng.fill(&mut short);
        rng.fill(&mut long);
        let data = rng.bytes(16 * 256);
        let outside = common::openssl_ecb(&short, &data);
        assert_eq!(outside, encrypt_all(&Aes128::new(&short), &data));
        let outside = common::openssl_ecb(&long, &data);
        assert_eq!(outside, encrypt_all(&Aes256::new(&long), &data));
    }
}

fn encrypt_all<const WORDS: usize>(cipher: &Aes<WORDS>, data: &[u8]) -> Vec<u8> {
    data.chunks_exact(16)
        .flat_map(|block| encrypt(cipher, block.try_into().expect("16 bytes")))
        .collect()
}
