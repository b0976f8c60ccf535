//! Pairs of plaintexts with one tag, from which tests build clashing sectors.
//!
//! In every plaintext of two blocks or more the hash starts with the factors
//! (h + X1) and (h^2 + X2). So X1 = h makes it blind to X2, and otherwise it is
//! affine in X2 and can be steered there.

use crate::brw::brw;
use crate::field::{inverse, product, Block};
use crate::seal::tweak;

/// Two plaintexts of one tag: `plaintext` with h for its block 1, and the same
/// with `change` added to block 2. Needs two blocks or more.
pub fn blind_pair(h: Block, plaintext: &[Block], change: Block) -> (Vec<Block>, Vec<Block>) {
    let mut one = plaintext.to_vec();
    one[0] = h;
    let mut other = one.clone();
    other[1] ^= change;
    (one, other)
}

/// Changes block 2 of `other` so that its tag at this address of this volume is
/// that of `plaintext`. Gives nothing where block 2 has no say in the hash.
pub fn steer(
    h: Block,
    volume: u64,
    address: u64,
    plaintext: &[Block],
    other: &[Block],
) -> Option<Vec<Block>> {
    let with_block_2 = |block| {
        let mut blocks = other.to_vec();
        blocks[1] = block;
        blocks
    };
    let at_zero = hash(h, volume, address, &with_block_2(0));
    let slope = hash(h, volume, address, &with_block_2(1)) ^ at_zero;
    if slope == 0 {
        return None;
    }
    let rise = hash(h, volume, address, plaintext) ^ at_zero;
    Some(with_block_2(product(rise, inverse(slope))))
}

fn hash(h: Block, volume: u64, address: u64, plaintext: &[Block]) -> Block {
    let mut blocks = plaintext.to_vec();
    blocks.push(tweak(volume, address));
    brw(h, &blocks)
}
