//! The library's functions as `include/mirror.h` declares them.
//!
//! Each call is unsafe, and gives the number of its answer: 0, hexadecimal 81, 82
//! or 83, or a refusal, 1 to 11, 13 or 14. Places come in the order local, tag,
//! remote, and behind them comes the map of suspects, its length in 64-bit words.
//! `volume` is the volume's number, and `number` that of a sector.
//! The functions at the root of this crate and the methods of
//! [`Volume`](crate::Volume) are the same calls on slices, and safe.
//!
//! # Safety
//!
//! A caller of any of these sees to it that
//!
//! - each pointer is valid for the length that follows it, in elements, and the
//!   length in bytes is at most `isize::MAX`; `counts` is valid for five numbers
//!   and `count` for one;
//! - a pointer is null only if its length is 0, and `counts` and `count` never are;
//! - `map`, `list`, `counts` and `count` are aligned for their types;
//! - a buffer that comes as `*mut` overlaps no other buffer of the call.
//!
//! Nothing else is asked: any lengths, numbers and bytes are safe.

extern "C" {
    /// The library's release: major × 1,000,000 + minor × 1,000 + patch.
    pub fn mirror_version() -> u32;

    /// Seals a plaintext.
    pub fn mirror_seal(
        key: *const u8,
        key_len: usize,
        volume: u64,
        address: u64,
        plain: *const u8,
        plain_len: usize,
        local: *mut u8,
        local_len: usize,
        tag: *mut u8,
        tag_len: usize,
        remote: *mut u8,
        remote_len: usize,
    ) -> u32;

    /// Judges a sector.
    pub fn mirror_judge(
        key: *const u8,
        key_len: usize,
        volume: u64,
        address: u64,
        local: *const u8,
        local_len: usize,
        tag: *const u8,
        tag_len: usize,
        remote: *const u8,
        remote_len: usize,
        out: *mut u8,
        out_len: usize,
    ) -> u32;

    /// Opens side 0 (local) or 1 (remote) with the tag.
    pub fn mirror_open(
        key: *const u8,
        key_len: usize,
        volume: u64,
        address: u64,
        side: u32,
        sector: *const u8,
        sector_len: usize,
        tag: *const u8,
        tag_len: usize,
        out: *mut u8,
        out_len: usize,
    ) -> u32;

    /// Writes the other side than the one given, which is 0 (local) or 1
    /// (remote).
    pub fn mirror_rebuild(
        key: *const u8,
        key_len: usize,
        volume: u64,
        address: u64,
        side: u32,
        sector: *const u8,
        sector_len: usize,
        tag: *const u8,
        tag_len: usize,
        out: *mut u8,
        out_len: usize,
    ) -> u32;

    /// Writes the exclusive or of both sides, without a key.
    pub fn mirror_combine(
        local: *const u8,
        local_len: usize,
        remote: *const u8,
        remote_len: usize,
        out: *mut u8,
        out_len: usize,
    ) -> u32;

    /// Seals zeros into one sector of a volume.
    pub fn mirror_blank(
        key: *const u8,
        key_len: usize,
        volume: u64,
        s: usize,
        n: usize,
        number: usize,
        local: *mut u8,
        local_len: usize,
        tags: *mut u8,
        tags_len: usize,
        remote: *mut u8,
        remote_len: usize,
        map: *mut u64,
        map_len: usize,
    ) -> u32;

    /// Writes the local sector of a plaintext.
    pub fn mirror_first_stage(
        key: *const u8,
        key_len: usize,
        volume: u64,
        s: usize,
        n: usize,
        number: usize,
        plain: *const u8,
        plain_len: usize,
        local: *mut u8,
        local_len: usize,
        tags: *const u8,
        tags_len: usize,
        remote: *const u8,
        remote_len: usize,
        map: *mut u64,
        map_len: usize,
    ) -> u32;

    /// Writes the tag of a plaintext.
    pub fn mirror_second_stage(
        key: *const u8,
        key_len: usize,
        volume: u64,
        s: usize,
        n: usize,
        number: usize,
        plain: *const u8,
        plain_len: usize,
        local: *const u8,
        local_len: usize,
        tags: *mut u8,
        tags_len: usize,
        remote: *const u8,
        remote_len: usize,
        map: *mut u64,
        map_len: usize,
    ) -> u32;

    /// Writes the remote sector of a plaintext.
    pub fn mirror_third_stage(
        key: *const u8,
        key_len: usize,
        volume: u64,
        s: usize,
        n: usize,
        number: usize,
        plain: *const u8,
        plain_len: usize,
        local: *const u8,
        local_len: usize,
        tags: *const u8,
        tags_len: usize,
        remote: *mut u8,
        remote_len: usize,
        map: *mut u64,
        map_len: usize,
    ) -> u32;

    /// Judges one sector of a volume.
    pub fn mirror_read(
        key: *const u8,
        key_len: usize,
        volume: u64,
        s: usize,
        n: usize,
        number: usize,
        local: *const u8,
        local_len: usize,
        tags: *const u8,
        tags_len: usize,
        remote: *const u8,
        remote_len: usize,
        map: *mut u64,
        map_len: usize,
        out: *mut u8,
        out_len: usize,
    ) -> u32;

    /// Writes the doubtful place of one sector anew.
    pub fn mirror_mend(
        key: *const u8,
        key_len: usize,
        volume: u64,
        s: usize,
        n: usize,
        number: usize,
        local: *mut u8,
        local_len: usize,
        tags: *mut u8,
        tags_len: usize,
        remote: *mut u8,
        remote_len: usize,
        map: *mut u64,
        map_len: usize,
    ) -> u32;

    /// Judges one sector, mends it if it is doubtful, and makes the three stages of
    /// a plaintext.
    pub fn mirror_write(
        key: *const u8,
        key_len: usize,
        volume: u64,
        s: usize,
        n: usize,
        number: usize,
        plain: *const u8,
        plain_len: usize,
        local: *mut u8,
        local_len: usize,
        tags: *mut u8,
        tags_len: usize,
        remote: *mut u8,
        remote_len: usize,
        map: *mut u64,
        map_len: usize,
    ) -> u32;

    /// Judges every sector. `counts` is given whole, doubtful, clashing, lost
    /// and the health; `list` the lost, then the clashing, then the doubtful
    /// sectors, the numbers of each kind rising.
    pub fn mirror_survey(
        key: *const u8,
        key_len: usize,
        volume: u64,
        s: usize,
        n: usize,
        local: *const u8,
        local_len: usize,
        tags: *const u8,
        tags_len: usize,
        remote: *const u8,
        remote_len: usize,
        map: *const u64,
        map_len: usize,
        list: *mut u32,
        list_len: usize,
        counts: *mut [u64; 5],
    ) -> u32;

    /// Starts a map: sets the bits of all `n` sectors and clears those past them.
    pub fn mirror_start_map(n: usize, map: *mut u64, map_len: usize) -> u32;

    /// Counts the set bits of sectors 0 to `n` - 1. Refused, `count` is as it was.
    pub fn mirror_count_suspects(n: usize, map: *const u64, map_len: usize, count: *mut u64)
        -> u32;
}
