//! The portable C's calls as functions on slices, with the parameters that the
//! library's have in `linked`. Each gives the number of the answer.

// The calls take what the requirement names, one parameter for each.
#![allow(clippy::too_many_arguments)]

#[repr(C)]
struct Slice {
    at: *const u8,
    length: usize,
}

#[repr(C)]
struct SliceMut {
    at: *mut u8,
    length: usize,
}

#[rustfmt::skip]
extern "C" {
    fn plain_start();
    fn plain_seal(key: Slice, volume: u64, address: u64, plain: Slice, local: SliceMut, remote: SliceMut, tag: SliceMut) -> u32;
    fn plain_judge(key: Slice, volume: u64, address: u64, local: Slice, tag: Slice, remote: Slice, out: SliceMut) -> u32;
    fn plain_read(
        key: Slice, volume: u64, s: usize, n: usize, number: usize, local: Slice, tags: Slice, remote: Slice, out: SliceMut,
    ) -> u32;
    fn plain_mend(
        key: Slice, volume: u64, s: usize, n: usize, number: usize, local: SliceMut, tags: SliceMut, remote: SliceMut,
    ) -> u32;
    fn plain_survey(
        key: Slice, volume: u64, s: usize, n: usize, local: Slice, tags: Slice, remote: Slice,
        list: *mut u32, list_length: usize, counts: *mut [u64; 5],
    ) -> u32;
}

fn shared(bytes: &[u8]) -> Slice {
    Slice {
        at: bytes.as_ptr(),
        length: bytes.len(),
    }
}

fn lent(bytes: &mut [u8]) -> SliceMut {
    SliceMut {
        at: bytes.as_mut_ptr(),
        length: bytes.len(),
    }
}

/// Makes the table of AES. It has to come before any other call.
pub fn start() {
    // SAFETY: the table is written before a call can read it, and again with
    // the same values only.
    unsafe { plain_start() }
}

// SAFETY of all that follow: each pointer and length is that of one slice,
// which lives through the call, and a writable one overlaps no other.

pub fn seal(
    key: &[u8],
    volume: u64,
    address: u64,
    plain: &[u8],
    local: &mut [u8],
    tag: &mut [u8],
    remote: &mut [u8],
) -> u32 {
    let (key, plain) = (shared(key), shared(plain));
    unsafe {
        plain_seal(
            key,
            volume,
            address,
            plain,
            lent(local),
            lent(remote),
            lent(tag),
        )
    }
}

pub fn judge(
    key: &[u8],
    volume: u64,
    address: u64,
    local: &[u8],
    tag: &[u8],
    remote: &[u8],
    out: &mut [u8],
) -> u32 {
    let (key, local, tag, remote) = (shared(key), shared(local), shared(tag), shared(remote));
    unsafe { plain_judge(key, volume, address, local, tag, remote, lent(out)) }
}

pub fn read(
    key: &[u8],
    volume: u64,
    s: usize,
    n: usize,
    number: usize,
    local: &[u8],
    tags: &[u8],
    remote: &[u8],
    out: &mut [u8],
) -> u32 {
    let (key, local, tags, remote) = (shared(key), shared(local), shared(tags), shared(remote));
    unsafe { plain_read(key, volume, s, n, number, local, tags, remote, lent(out)) }
}

pub fn mend(
    key: &[u8],
    volume: u64,
    s: usize,
    n: usize,
    number: usize,
    local: &mut [u8],
    tags: &mut [u8],
    remote: &mut [u8],
) -> u32 {
    let (local, tags, remote) = (lent(local), lent(tags), lent(remote));
    unsafe { plain_mend(shared(key), volume, s, n, number, local, tags, remote) }
}

pub fn survey(
    key: &[u8],
    volume: u64,
    s: usize,
    n: usize,
    local: &[u8],
    tags: &[u8],
    remote: &[u8],
    list: &mut [u32],
    counts: &mut [u64; 5],
) -> u32 {
    let (key, local, tags, remote) = (shared(key), shared(local), shared(tags), shared(remote));
    let (list, length) = (list.as_mut_ptr(), list.len());
    unsafe { plain_survey(key, volume, s, n, local, tags, remote, list, length, counts) }
}
