//! The calls on one sector.

use crate::answer::{done, judged};
use crate::{ffi, Refusal, Side, Verdict};

/// Seals the plaintext under key, volume's number and address: writes the local
/// sector, the tag and the remote sector.
///
/// A sector is sealed under number and address together, and the other calls
/// take both. Where every call exchanges the two it is not noticed; where one
/// does, the sector is [lost](Refusal::Lost) to [`judge`], and [`open`] and
/// [`rebuild`] answer [`NoneFits`](Refusal::NoneFits), unless the plaintext has
/// one tag under both.
///
/// # Errors
///
/// In this order: [`KeyLength`](Refusal::KeyLength);
/// [`ZeroHashKey`](Refusal::ZeroHashKey);
/// [`SectorSize`](Refusal::SectorSize) of the plaintext;
/// [`OtherLength`](Refusal::OtherLength) of a sector or the tag.
pub fn seal(
    key: &[u8],
    volume: u64,
    address: u64,
    plaintext: &[u8],
    local: &mut [u8],
    tag: &mut [u8],
    remote: &mut [u8],
) -> Result<(), Refusal> {
    // SAFETY: each pointer and length is that of one slice, which lives through
    // the call; those that are written are borrowed alone, so none overlaps.
    done(unsafe {
        ffi::mirror_seal(
            key.as_ptr(),
            key.len(),
            volume,
            address,
            plaintext.as_ptr(),
            plaintext.len(),
            local.as_mut_ptr(),
            local.len(),
            tag.as_mut_ptr(),
            tag.len(),
            remote.as_mut_ptr(),
            remote.len(),
        )
    })
}

/// Judges a sector and writes its plaintext to the output.
///
/// It mends nothing. If the sector is doubtful, seal the plaintext again, under
/// the same number and address, and write the place that the verdict names.
///
/// # Errors
///
/// In this order: [`KeyLength`](Refusal::KeyLength);
/// [`ZeroHashKey`](Refusal::ZeroHashKey);
/// [`SectorSize`](Refusal::SectorSize) of the local sector;
/// [`OtherLength`](Refusal::OtherLength) of the remote sector, the tag or the
/// output; [`Lost`](Refusal::Lost); [`Clashing`](Refusal::Clashing).
pub fn judge(
    key: &[u8],
    volume: u64,
    address: u64,
    local: &[u8],
    tag: &[u8],
    remote: &[u8],
    output: &mut [u8],
) -> Result<Verdict, Refusal> {
    // SAFETY: as in `seal`.
    judged(unsafe {
        ffi::mirror_judge(
            key.as_ptr(),
            key.len(),
            volume,
            address,
            local.as_ptr(),
            local.len(),
            tag.as_ptr(),
            tag.len(),
            remote.as_ptr(),
            remote.len(),
            output.as_mut_ptr(),
            output.len(),
        )
    })
}

/// Opens one side with the tag, where the other side is not at hand: writes the
/// one plaintext that fits both to the output.
///
/// # Errors
///
/// In this order: [`KeyLength`](Refusal::KeyLength);
/// [`ZeroHashKey`](Refusal::ZeroHashKey);
/// [`SectorSize`](Refusal::SectorSize) of the sector;
/// [`OtherLength`](Refusal::OtherLength) of the tag or the output;
/// [`NoneFits`](Refusal::NoneFits).
pub fn open(
    key: &[u8],
    volume: u64,
    address: u64,
    side: Side,
    sector: &[u8],
    tag: &[u8],
    output: &mut [u8],
) -> Result<(), Refusal> {
    // SAFETY: as in `seal`.
    done(unsafe {
        ffi::mirror_open(
            key.as_ptr(),
            key.len(),
            volume,
            address,
            side.number(),
            sector.as_ptr(),
            sector.len(),
            tag.as_ptr(),
            tag.len(),
            output.as_mut_ptr(),
            output.len(),
        )
    })
}

/// Rebuilds the other side: `side` says which one `sector` is, and the output is
/// given the sector of the side that is missing.
///
/// # Errors
///
/// As [`open`].
pub fn rebuild(
    key: &[u8],
    volume: u64,
    address: u64,
    side: Side,
    sector: &[u8],
    tag: &[u8],
    output: &mut [u8],
) -> Result<(), Refusal> {
    // SAFETY: as in `seal`.
    done(unsafe {
        ffi::mirror_rebuild(
            key.as_ptr(),
            key.len(),
            volume,
            address,
            side.number(),
            sector.as_ptr(),
            sector.len(),
            tag.as_ptr(),
            tag.len(),
            output.as_mut_ptr(),
            output.len(),
        )
    })
}

/// Writes local ⊕ remote to the output, without a key. It is the plaintext if
/// both sides are as sealed; nothing is checked of that.
///
/// # Errors
///
/// In this order: [`SectorSize`](Refusal::SectorSize) of the local sector;
/// [`OtherLength`](Refusal::OtherLength) of the remote sector or the output.
pub fn combine(local: &[u8], remote: &[u8], output: &mut [u8]) -> Result<(), Refusal> {
    // SAFETY: as in `seal`.
    done(unsafe {
        ffi::mirror_combine(
            local.as_ptr(),
            local.len(),
            remote.as_ptr(),
            remote.len(),
            output.as_mut_ptr(),
            output.len(),
        )
    })
}
