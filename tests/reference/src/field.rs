//! Blocks of 16 bytes and the field of 2^128 elements that they form.
//!
//! A block is a `u128` whose most significant byte is the block's first byte,
//! so bit i of the number is the coefficient of X^i.

/// A block, also an element of GF(2^128) modulo X^128 + X^7 + X^2 + X + 1.
pub type Block = u128;

/// Bytes in a block.
pub const BLOCK_BYTES: usize = 16;

/// The element x.
pub const X: Block = 2;

/// The element that gives 1 when multiplied by x.
pub const X_INVERSE: Block = 0x8000_0000_0000_0000_0000_0000_0000_0043;

/// The element that gives 1 when multiplied by 1 + x.
pub const ONE_PLUS_X_INVERSE: Block = 0xffff_ffff_ffff_ffff_ffff_ffff_ffff_ff82;

/// What X^128 is worth below degree 128.
const REDUCTION: Block = 0x87;

/// Multiplies by x.
pub fn double(a: Block) -> Block {
    (a << 1) ^ (REDUCTION & mask(a >> 127))
}

/// Multiplies two elements, taking the bits of `b` from the lowest up.
pub fn product(a: Block, b: Block) -> Block {
    let mut sum = 0;
    let mut multiple = a;
    let mut bits = b;
    for _ in 0..128 {
        sum ^= multiple & mask(bits & 1);
        multiple = double(multiple);
        bits >>= 1;
    }
    sum
}

/// All ones for 1 and all zeros for 0. Random bits would mislead a branch.
fn mask(bit: Block) -> Block {
    bit.wrapping_neg()
}

/// Multiplies by 1 + x.
pub fn times_one_plus_x(a: Block) -> Block {
    a ^ double(a)
}

/// Undoes `double`.
pub fn over_x(a: Block) -> Block {
    product(a, X_INVERSE)
}

/// Undoes `times_one_plus_x`.
pub fn over_one_plus_x(a: Block) -> Block {
    product(a, ONE_PLUS_X_INVERSE)
}

/// The inverse of any element but 0, as its power 2^128 - 2; 0 gives 0.
pub fn inverse(a: Block) -> Block {
    let mut power = 1;
    let mut square = a;
    for _ in 1..128 {
        square = product(square, square);
        power = product(power, square);
    }
    power
}

/// Cuts bytes into blocks. The length must be a multiple of 16.
pub fn to_blocks(bytes: &[u8]) -> Vec<Block> {
    assert_eq!(bytes.len() % BLOCK_BYTES, 0);
    bytes.chunks_exact(BLOCK_BYTES).map(to_block).collect()
}

/// Reads one block from exactly 16 bytes.
pub fn to_block(bytes: &[u8]) -> Block {
    Block::from_be_bytes(bytes.try_into().expect("a block has 16 bytes"))
}

/// Writes blocks over bytes. The lengths must agree.
pub fn write_blocks(blocks: &[Block], bytes: &mut [u8]) {
    assert_eq!(bytes.len(), blocks.len() * BLOCK_BYTES);
    for (part, block) in bytes.chunks_exact_mut(BLOCK_BYTES).zip(blocks) {
        part.copy_from_slice(&block.to_be_bytes());
    }
}

/// The bytes of a list of blocks.
pub fn to_bytes(blocks: &[Block]) -> Vec<u8> {
    let mut bytes = vec![0; blocks.len() * BLOCK_BYTES];
    write_blocks(blocks, &mut bytes);
    bytes
}
