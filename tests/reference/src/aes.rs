//! AES encryption (FIPS 197) with keys of 128 and of 256 bits.
//!
//! `encrypt` works on four 32-bit columns with tables and is the one in use.
//! `encrypt_bytewise` follows the standard step by step and checks the other.
//! All tables are computed from their rules when the crate is compiled.

use crate::field::Block;

/// The substitution of bytes: inverse in GF(2^8), then the affine map.
pub static SBOX: [u8; 256] = build_sbox();

/// Entry b of table r is the column that row r's byte b adds to the state
/// through SubBytes and MixColumns.
static COLUMNS: [[u32; 256]; 4] = build_columns();

/// A key schedule of `WORDS` words.
#[derive(Clone)]
pub struct Aes<const WORDS: usize> {
    round_keys: [u32; WORDS],
}

/// AES with a 128-bit key: 10 rounds.
pub type Aes128 = Aes<44>;

/// AES with a 256-bit key: 14 rounds.
pub type Aes256 = Aes<60>;

impl Aes128 {
    pub fn new(key: &[u8; 16]) -> Self {
        Self::expand(key)
    }
}

impl Aes256 {
    pub fn new(key: &[u8; 32]) -> Self {
        Self::expand(key)
    }
}

impl<const WORDS: usize> Aes<WORDS> {
    const ROUNDS: usize = WORDS / 4 - 1;

    /// The words of the expanded key.
    pub fn round_keys(&self) -> &[u32; WORDS] {
        &self.round_keys
    }

    /// Encrypts one block with the column tables.
    pub fn encrypt(&self, block: Block) -> Block {
        let mut state = add_round_key(split(block), &self.round_keys[..4]);
        for round in 1..Self::ROUNDS {
            let key = &self.round_keys[4 * round..4 * round + 4];
            state = add_round_key(mixed_round(state), key);
        }
        let key = &self.round_keys[4 * Self::ROUNDS..];
        join(add_round_key(last_round(state), key))
    }

    /// Encrypts one block byte by byte.
    pub fn encrypt_bytewise(&self, block: [u8; 16]) -> [u8; 16] {
        let mut state = block;
        self.add_round_key_bytewise(&mut state, 0);
        for round in 1..Self::ROUNDS {
            sub_bytes(&mut state);
            shift_rows(&mut state);
            mix_columns(&mut state);
            self.add_round_key_bytewise(&mut state, round);
        }
        sub_bytes(&mut state);
        shift_rows(&mut state);
        self.add_round_key_bytewise(&mut state, Self::ROUNDS);
        state
    }

    /// The key expansion for any length of key.
    fn expand(key: &[u8]) -> Self {
        let key_words = key.len() / 4;
        let mut words = [0; WORDS];
        for (word, bytes) in words.iter_mut().zip(key.chunks_exact(4)) {
            *word = u32::from_be_bytes(bytes.try_into().expect("a word has 4 bytes"));
        }
        let mut round_constant = 1;
        for i in key_words..WORDS {
            let mut word = words[i - 1];
            if i % key_words == 0 {
                word = sub_word(word.rotate_left(8)) ^ (u32::from(round_constant) << 24);
                round_constant = byte_product(round_constant, 2);
            } else if key_words > 6 && i % key_words == 4 {
                word = sub_word(word);
            }
            words[i] = words[i - key_words] ^ word;
        }
        Aes { round_keys: words }
    }

    fn add_round_key_bytewise(&self, state: &mut [u8; 16], round: usize) {
        for (i, byte) in state.iter_mut().enumerate() {
            *byte ^= self.round_keys[4 * round + i / 4].to_be_bytes()[i % 4];
        }
    }
}

/// The four columns of a block.
fn split(block: Block) -> [u32; 4] {
    [96, 64, 32, 0].map(|shift| (block >> shift) as u32)
}

/// The block of four columns.
fn join(columns: [u32; 4]) -> Block {
    columns
        .iter()
        .fold(0, |block, &column| (block << 32) | Block::from(column))
}

fn add_round_key(state: [u32; 4], key: &[u32]) -> [u32; 4] {
    [
        state[0] ^ key[0],
        state[1] ^ key[1],
        state[2] ^ key[2],
        state[3] ^ key[3],
    ]
}

/// The byte of row `row` that ShiftRows brings into column `column`.
#[inline(always)]
fn shifted_byte(state: &[u32; 4], column: usize, row: usize) -> usize {
    (state[(column + row) % 4] >> (24 - 8 * row)) as usize & 0xff
}

/// A round with MixColumns, without its key.
#[inline(always)]
fn mixed_round(state: [u32; 4]) -> [u32; 4] {
    [0, 1, 2, 3].map(|column| {
        COLUMNS[0][shifted_byte(&state, column, 0)]
            ^ COLUMNS[1][shifted_byte(&state, column, 1)]
            ^ COLUMNS[2][shifted_byte(&state, column, 2)]
            ^ COLUMNS[3][shifted_byte(&state, column, 3)]
    })
}

/// The last round, which has no MixColumns, without its key.
#[inline(always)]
fn last_round(state: [u32; 4]) -> [u32; 4] {
    [0, 1, 2, 3].map(|column| {
        u32::from_be_bytes([0, 1, 2, 3].map(|row| SBOX[shifted_byte(&state, column, row)]))
    })
}

fn sub_word(word: u32) -> u32 {
    u32::from_be_bytes(word.to_be_bytes().map(|byte| SBOX[usize::from(byte)]))
}

fn sub_bytes(state: &mut [u8; 16]) {
    for byte in state.iter_mut() {
        *byte = SBOX[usize::from(*byte)];
    }
}

fn shift_rows(state: &mut [u8; 16]) {
    let before = *state;
    for (i, byte) in state.iter_mut().enumerate() {
        let (column, row) = (i / 4, i % 4);
        *byte = before[4 * ((column + row) % 4) + row];
    }
}

fn mix_columns(state: &mut [u8; 16]) {
    for column in state.chunks_exact_mut(4) {
        let before = [column[0], column[1], column[2], column[3]];
        for (row, byte) in column.iter_mut().enumerate() {
            *byte = byte_product(before[row], 2)
                ^ byte_product(before[(row + 1) % 4], 3)
                ^ before[(row + 2) % 4]
                ^ before[(row + 3) % 4];
        }
    }
}

/// The product in GF(2^8) modulo X^8 + X^4 + X^3 + X + 1.
pub const fn byte_product(a: u8, b: u8) -> u8 {
    let mut sum = 0;
    let mut bit = 8;
    while bit > 0 {
        bit -= 1;
        sum = (sum << 1) ^ if sum & 0x80 != 0 { 0x1b } else { 0 };
        if (b >> bit) & 1 == 1 {
            sum ^= a;
        }
    }
    sum
}

/// The inverse in GF(2^8) as the power 254, so 0 gives 0.
pub const fn byte_inverse(a: u8) -> u8 {
    let mut power = 1;
    let mut square = a;
    let mut step = 1;
    while step < 8 {
        square = byte_product(square, square);
        power = byte_product(power, square);
        step += 1;
    }
    power
}

/// The affine map of the substitution.
pub const fn affine(a: u8) -> u8 {
    a ^ a.rotate_left(1) ^ a.rotate_left(2) ^ a.rotate_left(3) ^ a.rotate_left(4) ^ 0x63
}

const fn build_sbox() -> [u8; 256] {
    let mut table = [0; 256];
    let mut byte = 0;
    while byte < 256 {
        table[byte] = affine(byte_inverse(byte as u8));
        byte += 1;
    }
    table
}

const fn build_columns() -> [[u32; 256]; 4] {
    let sbox = build_sbox();
    let mut tables = [[0; 256]; 4];
    let mut byte = 0;
    while byte < 256 {
        let s = sbox[byte];
        let column = u32::from_be_bytes([byte_product(s, 2), s, s, byte_product(s, 3)]);
        tables[0][byte] = column;
        tables[1][byte] = column.rotate_right(8);
        tables[2][byte] = column.rotate_right(16);
        tables[3][byte] = column.rotate_right(24);
        byte += 1;
    }
    tables
}
