//! The program `frames`: one line of hexadecimal in, one line out.

use crate::answer::{Refusal, Success};
use crate::hex;
use crate::seal::{check_sector_size, combine, judge, Sealed, KEY_BYTES, TAG_BYTES};

/// The digits of the longest frame: kind `01` with the largest sectors.
const MAX_DIGITS: usize = 16_498;

const ADDRESS_BYTES: usize = 8;

/// The volume's number of every frame, which has no field for another.
pub const VOLUME: u64 = 0;

/// Everything in a frame of kind `01` but the two sectors.
const JUDGE_FRAME_BYTES: usize = 1 + KEY_BYTES + ADDRESS_BYTES + TAG_BYTES;

/// Answers every line of the input.
pub fn run(input: &[u8]) -> Vec<u8> {
    let mut output = Vec::new();
    for line in lines(input) {
        output.extend_from_slice(answer_line(line).as_bytes());
        output.push(b'\n');
    }
    output
}

/// The lines: each line feed ends one, and the end of the input ends a last
/// one that is not empty.
fn lines(input: &[u8]) -> Vec<&[u8]> {
    if input.is_empty() {
        return Vec::new();
    }
    let body = input.strip_suffix(b"\n").unwrap_or(input);
    body.split(|&byte| byte == b'\n').collect()
}

/// The digits to print for one line.
fn answer_line(line: &[u8]) -> String {
    match answer_frame(line) {
        Ok((number, plaintext)) => hex::encode(&[number]) + &hex::encode(&plaintext),
        Err(refusal) => hex::encode(&[refusal.number()]),
    }
}

fn answer_frame(line: &[u8]) -> Result<(u8, Vec<u8>), Refusal> {
    let frame = decode(line)?;
    match frame[0] {
        1 if frame.len() >= JUDGE_FRAME_BYTES => answer_judge(&frame[1..]),
        2 => answer_combine(&frame[1..]),
        _ => Err(Refusal::BadFrame),
    }
}

/// The bytes of a line, at least one.
fn decode(line: &[u8]) -> Result<Vec<u8>, Refusal> {
    if line.is_empty() || line.len() > MAX_DIGITS {
        return Err(Refusal::BadFrame);
    }
    hex::decode(line).ok_or(Refusal::BadFrame)
}

/// The size of each of two sectors that have this many bytes together.
fn half(together: usize) -> Result<usize, Refusal> {
    let size = together / 2;
    if together != 2 * size {
        return Err(Refusal::OtherLength);
    }
    check_sector_size(size)?;
    Ok(size)
}

fn answer_judge(fields: &[u8]) -> Result<(u8, Vec<u8>), Refusal> {
    let size = half(fields.len() + 1 - JUDGE_FRAME_BYTES)?;
    let (key, fields) = fields.split_at(KEY_BYTES);
    let (address, fields) = fields.split_at(ADDRESS_BYTES);
    let (local, fields) = fields.split_at(size);
    let (tag, remote) = fields.split_at(TAG_BYTES);
    let address = u64::from_be_bytes(address.try_into().expect("an address has 8 bytes"));
    let mut plaintext = vec![0; size];
    let verdict = judge(key, VOLUME, address, local, tag, remote, &mut plaintext)?;
    Ok((verdict.number(), plaintext))
}

fn answer_combine(fields: &[u8]) -> Result<(u8, Vec<u8>), Refusal> {
    let size = half(fields.len())?;
    let (local, remote) = fields.split_at(size);
    let mut plaintext = vec![0; size];
    combine(local, remote, &mut plaintext)?;
    Ok((0, plaintext))
}

/// A frame of kind `01` in digits, without its line feed.
pub fn judge_frame(key: &[u8], address: u64, held: &Sealed) -> String {
    let bytes = [
        &[1],
        key,
        &address.to_be_bytes(),
        &held.local,
        &held.tag,
        &held.remote,
    ]
    .concat();
    hex::encode(&bytes)
}
