//! The BRW hash.

use crate::field::{product, Block};

/// BRW with key `h` over any number of blocks.
pub fn brw(h: Block, blocks: &[Block]) -> Block {
    hash(&powers(h, blocks.len()), blocks)
}

/// h^1, h^2, h^4, ... as far as `count` blocks can need them.
fn powers(h: Block, count: usize) -> Vec<Block> {
    let mut powers = vec![h];
    let mut exponent = 2;
    while exponent <= count {
        let last = powers[powers.len() - 1];
        powers.push(product(last, last));
        exponent *= 2;
    }
    powers
}

/// The hash itself; entry i of `powers` is h^(2^i).
fn hash(powers: &[Block], blocks: &[Block]) -> Block {
    match *blocks {
        [] => 0,
        [x1] => x1,
        [x1, x2] => product(x1, powers[0]) ^ x2,
        [x1, x2, x3] => product(powers[0] ^ x1, powers[1] ^ x2) ^ x3,
        _ => {
            let log = blocks.len().ilog2() as usize;
            let (head, rest) = blocks.split_at((1 << log) - 1);
            product(hash(powers, head), powers[log] ^ rest[0]) ^ hash(powers, &rest[1..])
        }
    }
}
