//! The three implementations: each call as a function of a volume and the
//! number of a sector, which gives the number of the answer.

use crate::volume::Volume;
use reference::answer::answer_number;
use reference::volume::part;

/// The calls that are timed.
#[derive(Clone, Copy, PartialEq, Eq)]
pub enum Call {
    Seal,
    Judge,
    Read,
    Mend,
    Survey,
}

pub struct Implementation {
    pub name: &'static str,
    pub run: fn(Call, &mut Volume, usize) -> u32,
    /// Whether its calls on a volume take the map and mark their sector's bit.
    pub marks: bool,
}

/// The proved library first, the other two behind it.
pub const ALL: [Implementation; 3] = [
    Implementation {
        name: "library",
        run: library,
        marks: true,
    },
    Implementation {
        name: "rust",
        run: rust,
        marks: true,
    },
    Implementation {
        name: "c",
        run: c,
        marks: false,
    },
];

/// Defines a function that makes the calls of a module. Where the map has a name,
/// the calls on a volume take it behind the images.
macro_rules! calls_of {
    ($name:ident, $module:path $(, $map:ident)?) => {
        fn $name(call: Call, v: &mut Volume, number: usize) -> u32 {
            use $module as calls;
            let (volume, s, n) = (v.number, v.size, v.count);
            let (side, tag) = (part(number, s), part(number, 16));
            let (key, local, tags, remote) = (&v.key, &mut v.local, &mut v.tags, &mut v.remote);
            $(let $map = &mut v.map;)?
            let out = &mut v.out;
            match call {
                Call::Seal => {
                    let (plain, local) = (&v.plain[side.clone()], &mut local[side.clone()]);
                    let (tag, remote) = (&mut tags[tag], &mut remote[side]);
                    calls::seal(key, volume, number as u64, plain, local, tag, remote)
                }
                Call::Judge => {
                    let (local, remote) = (&local[side.clone()], &remote[side]);
                    calls::judge(key, volume, number as u64, local, &tags[tag], remote, out)
                }
                Call::Read => {
                    calls::read(key, volume, s, n, number, local, tags, remote, $($map,)? out)
                }
                Call::Mend => {
                    calls::mend(key, volume, s, n, number, local, tags, remote $(, $map)?)
                }
                Call::Survey => {
                    let (list, counts) = (&mut v.list, &mut v.counts);
                    calls::survey(key, volume, s, n, local, tags, remote, $($map,)? list, counts)
                }
            }
        }
    };
}
calls_of!(library, linked, map);
calls_of!(rust, self::rust_calls, map);
calls_of!(c, crate::plain);

/// The independent implementation's calls with the parameters of `linked`.
mod rust_calls {
    #![allow(clippy::too_many_arguments)]
    use super::answer_number;
    use reference::volume as of_reference;

    pub fn seal(
        key: &[u8],
        volume: u64,
        address: u64,
        plain: &[u8],
        local: &mut [u8],
        tag: &mut [u8],
        remote: &mut [u8],
    ) -> u32 {
        let answer = reference::seal::seal(key, volume, address, plain, local, remote, tag);
        u32::from(answer_number(&answer))
    }

    pub fn judge(
        key: &[u8],
        volume: u64,
        address: u64,
        local: &[u8],
        tag: &[u8],
        remote: &[u8],
        out: &mut [u8],
    ) -> u32 {
        let answer = reference::seal::judge(key, volume, address, local, tag, remote, out);
        u32::from(answer_number(&answer))
    }

    pub fn read(
        key: &[u8],
        volume: u64,
        s: usize,
        n: usize,
        number: usize,
        local: &[u8],
        tags: &[u8],
        remote: &[u8],
        map: &mut [u64],
        out: &mut [u8],
    ) -> u32 {
        let answer = of_reference::read(key, volume, s, n, local, tags, remote, map, number, out);
        u32::from(answer_number(&answer))
    }

    pub fn mend(
        key: &[u8],
        volume: u64,
        s: usize,
        n: usize,
        number: usize,
        local: &mut [u8],
        tags: &mut [u8],
        remote: &mut [u8],
        map: &mut [u64],
    ) -> u32 {
        let answer = of_reference::mend(key, volume, s, n, local, tags, remote, map, number);
        u32::from(answer_number(&answer))
    }

    pub fn survey(
        key: &[u8],
        volume: u64,
        s: usize,
        n: usize,
        local: &[u8],
        tags: &[u8],
        remote: &[u8],
        map: &[u64],
        list: &mut [u32],
        counts: &mut [u64; 5],
    ) -> u32 {
        match of_reference::survey(key, volume, s, n, local, tags, remote, map, list) {
            Ok(found) => {
                *counts = found.numbers();
                0
            }
            Err(refusal) => u32::from(refusal.number()),
        }
    }
}
