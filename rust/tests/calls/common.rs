//! A sealed sector, and what a volume of a test is like.

use mirror::{seal, KEY_BYTES, TAG_BYTES};

/// The size of a test's sectors.
pub const SIZE: usize = 48;

/// How many sectors a test's volume has.
pub const COUNT: usize = 3;

/// The number of a test's volume; all its bytes differ.
pub const VOLUME: u64 = 0xf0e1_d2c3_b4a5_9687;

/// A key whose bytes all differ.
pub fn key() -> Vec<u8> {
    (100..132).collect()
}

/// The same with a hash key, the first 16 bytes, of zeros.
pub fn zero_hash_key() -> Vec<u8> {
    let mut key = key();
    key[..16].fill(0);
    key
}

/// Keys that are accepted, though all their bytes but one of the hash key are zero:
/// there the lowest or the highest bit is set.
pub fn almost_zero_keys() -> impl Iterator<Item = [u8; KEY_BYTES]> {
    (0..16).flat_map(|at| {
        [1, 0x80].map(|byte| {
            let mut key = [0; KEY_BYTES];
            key[at] = byte;
            key
        })
    })
}

/// Bytes that differ for different `first`.
pub fn bytes(first: u8) -> Vec<u8> {
    (first..).take(SIZE).collect()
}

/// Local, tag and remote of one sector.
#[derive(Clone, Debug, PartialEq)]
pub struct Triple {
    pub local: Vec<u8>,
    pub tag: Vec<u8>,
    pub remote: Vec<u8>,
}

/// The sealing of a plaintext under [`key`] and [`VOLUME`].
pub fn sealed(address: u64, plaintext: &[u8]) -> Triple {
    let mut triple = Triple {
        local: vec![0; plaintext.len()],
        tag: vec![0; TAG_BYTES],
        remote: vec![0; plaintext.len()],
    };
    let Triple { local, tag, remote } = &mut triple;
    seal(&key(), VOLUME, address, plaintext, local, tag, remote).expect("lengths are right");
    triple
}

/// A clashing sector, and the plaintexts of its local and its remote sector:
/// after a first block that equals h, the second block has no say in the tag.
pub fn clashing(address: u64) -> (Triple, Vec<u8>, Vec<u8>) {
    let mut one = bytes(0);
    one[..16].copy_from_slice(&key()[..16]);
    let mut other = one.clone();
    other[31] ^= 1;
    let (mut triple, of_other) = (sealed(address, &one), sealed(address, &other));
    assert_eq!(triple.tag, of_other.tag);
    triple.remote = of_other.remote;
    (triple, one, other)
}
