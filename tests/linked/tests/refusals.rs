//! The refusals of all fifteen calls through the compiled library, each compared
//! with the independent implementation. To the right arguments of a call comes
//! every fault alone and every pair of faults, which tests the order too.

mod common;

use common::{random_words, rounds, Arguments, Call, Tally, FILL};
use reference::answer::Place;
use reference::collide::blind_pair;
use reference::field::{to_block, to_blocks, to_bytes};
use reference::map::words;
use reference::rng::Rng;
use reference::seal::{sealed, Sealed};
use reference::volume::part;

/// What can be wrong with a call. The first three change several arguments
/// together, so that they still agree with each other.
#[derive(Clone, Copy, Debug, PartialEq, Eq)]
enum Parameter {
    /// What the sector holds.
    Contents,
    /// The sector size, with every length that follows from it.
    SizeOfAll,
    /// The number of sectors, with every length that follows from it.
    CountOfAll,
    Key,
    /// So many bytes of the key are zero, from the first: h, or all of it.
    ZeroKey,
    /// The volume's number: no call refuses it, but a sector may not fit it.
    Volume,
    Side,
    Size,
    Count,
    Number,
    Plain,
    Sector,
    Local,
    Tag,
    Remote,
    Map,
    Out,
    List,
}

use Parameter::*;

/// A parameter and what it gets: a number, or the length of a lent part.
type Fault = (Parameter, usize);

/// What can be wrong with every call on a volume.
const OF_VOLUME: &[Parameter] = &[
    Contents, SizeOfAll, CountOfAll, Key, ZeroKey, Volume, Size, Count, Local, Tag, Remote, Map,
];

/// Sizes about the bounds, and lengths for lent parts.
const SIZES: [usize; 11] = [0, 1, 15, 16, 17, 31, 4080, 4095, 4096, 4097, 4112];

/// The sector sizes and numbers of sectors of the right arguments. The last has a
/// map of two words.
const SHAPES: [(usize, usize); 8] = [
    (32, 3),
    (16, 1),
    (16, 4),
    (48, 2),
    (64, 16),
    (512, 1),
    (4096, 2),
    (16, 65),
];

const CALLS: [(Call, &[u32]); 15] = [
    (Call::Seal, &[0, 1, 14, 2, 3]),
    (Call::Judge, &[0, 0x81, 0x82, 0x83, 1, 14, 2, 3, 6, 7]),
    (Call::Open, &[0, 1, 14, 2, 3, 4, 5]),
    (Call::Rebuild, &[0, 1, 14, 2, 3, 4, 5]),
    (Call::Combine, &[0, 2, 3]),
    (Call::Blank, &[0, 1, 14, 2, 8, 13, 9]),
    (Call::First, &[0, 1, 14, 2, 8, 13, 9, 3, 10]),
    (Call::Second, &[0, 1, 14, 2, 8, 13, 9, 3, 10]),
    (Call::Third, &[0, 1, 14, 2, 8, 13, 9, 3, 10]),
    (
        Call::Read,
        &[0, 0x81, 0x82, 0x83, 1, 14, 2, 8, 13, 9, 3, 6, 7],
    ),
    (Call::Mend, &[0, 0x81, 0x82, 0x83, 1, 14, 2, 8, 13, 9, 6, 7]),
    (
        Call::Write,
        &[0, 0x81, 0x82, 0x83, 1, 14, 2, 8, 13, 9, 3, 6, 7],
    ),
    (Call::Survey, &[0, 1, 14, 2, 8, 13, 11]),
    (Call::Start, &[0, 8, 13]),
    (Call::Count, &[0, 8, 13]),
];

/// What a call takes that can be wrong. The order is that of the changes.
fn parameters(call: Call) -> Vec<Parameter> {
    let of_volume = |more: &[Parameter]| [OF_VOLUME, more].concat();
    match call {
        Call::Seal => vec![SizeOfAll, Key, ZeroKey, Volume, Plain, Local, Tag, Remote],
        Call::Judge => {
            vec![
                Contents, SizeOfAll, Key, ZeroKey, Volume, Local, Tag, Remote, Out,
            ]
        }
        Call::Open | Call::Rebuild => {
            vec![
                Contents, SizeOfAll, Key, ZeroKey, Volume, Side, Sector, Tag, Out,
            ]
        }
        Call::Combine => vec![SizeOfAll, Local, Remote, Out],
        Call::Blank | Call::Mend => of_volume(&[Number]),
        Call::First | Call::Second | Call::Third | Call::Write => of_volume(&[Number, Plain]),
        Call::Read => of_volume(&[Number, Out]),
        Call::Survey => of_volume(&[List]),
        Call::Start | Call::Count => vec![CountOfAll, Count, Map],
    }
}

/// The values at and about each bound, and some that a sum, a product or a
/// narrower number would take for the right one.
fn values(parameter: Parameter, right: &Arguments) -> Vec<usize> {
    let (s, n) = (right.s, right.n);
    let wide = |number| vec![number + (1 << 32), number + (1 << 60), usize::MAX];
    match parameter {
        Contents => (0..if s > 16 { 5 } else { 4 }).collect(),
        SizeOfAll => SIZES.to_vec(),
        CountOfAll => vec![0, 1, 2, n - 1, n + 1],
        Key => vec![0, 1, 16, 31, 33, 48, 64],
        ZeroKey => vec![16, 32],
        Volume => {
            let own = right.volume as usize;
            vec![0, usize::MAX, own ^ 1, own ^ (1 << 63)]
        }
        Side => vec![0, 1, 2, 255, 256, 257, u32::MAX as usize],
        Size => [sizes_about(s), wide(s), vec![1 << 60, 1 << 63]].concat(),
        Count => {
            let bounds = vec![0, 1, 2, n - 1, n + 1, 65_535, 65_536, 65_537];
            [bounds, wide(n), vec![1 << 60]].concat()
        }
        Number => [vec![0, n - 1, n, n + 1, 65_536], wide(right.number)].concat(),
        // The last ones are longer than any sector.
        Plain => [sizes_about(s), vec![8192, 65_536]].concat(),
        Sector | Out => sizes_about(s),
        Local | Remote if n == 1 => sizes_about(s),
        Local | Remote => [vec![0, 16 * n], about(n * s, s)].concat(),
        Tag => [vec![0, 15, 17, 32, n * s], about(16 * n, 16)].concat(),
        // The last two would be right if the map were counted in bytes or bits.
        Map => vec![0, words(n) - 1, words(n) + 1, 1024, 8 * words(n), n],
        List => vec![0, n - 1, n + 1, 2 * n],
    }
}

/// A byte, a block and a sector fewer or more.
fn about(length: usize, sector: usize) -> Vec<usize> {
    [1, 16, sector]
        .into_iter()
        .flat_map(|step| [length - step, length + step])
        .collect()
}

fn sizes_about(s: usize) -> Vec<usize> {
    [SIZES.to_vec(), about(s, s)].concat()
}

fn faults(call: Call, right: &Arguments) -> Vec<Fault> {
    let mut faults = vec![];
    for parameter in parameters(call) {
        for value in values(parameter, right) {
            if !faults.contains(&(parameter, value)) {
                faults.push((parameter, value));
            }
        }
    }
    faults
}

fn apply(arguments: &mut Arguments, (parameter, value): Fault) {
    match parameter {
        Contents => spoil(arguments, value),
        SizeOfAll => {
            arguments.s = value;
            follow(arguments);
        }
        CountOfAll => {
            arguments.n = value;
            follow(arguments);
        }
        Key => arguments.key.resize(value, FILL),
        ZeroKey => arguments
            .key
            .iter_mut()
            .take(value)
            .for_each(|byte| *byte = 0),
        Volume => arguments.volume = value as u64,
        Side => arguments.side = value as u32,
        Size => arguments.s = value,
        Count => arguments.n = value,
        Number => arguments.number = value,
        Plain => arguments.plain.resize(value, FILL),
        Sector => arguments.sector.resize(value, FILL),
        Local => arguments.local.resize(value, FILL),
        Tag => arguments.tag.resize(value, FILL),
        Remote => arguments.remote.resize(value, FILL),
        Map => arguments.map.resize(value, u64::from(FILL)),
        Out => arguments.out.resize(value, FILL),
        List => arguments.list.resize(value, u32::from(FILL)),
    }
}

/// Gives every lent part the length that follows from s and n.
fn follow(arguments: &mut Arguments) {
    let (s, n) = (arguments.s, arguments.n);
    arguments.plain.resize(s, FILL);
    arguments.sector.resize(s, FILL);
    arguments.out.resize(s, FILL);
    arguments.local.resize(n * s, FILL);
    arguments.tag.resize(n * 16, FILL);
    arguments.remote.resize(n * s, FILL);
    arguments.map.resize(words(n), u64::from(FILL));
    arguments.list.resize(n, u32::from(FILL));
}

/// Damages one place (0 to 2) of the sector, or all three (3), or puts there
/// the sides of two plaintexts of equal tag (4), which takes two blocks.
fn spoil(arguments: &mut Arguments, how: usize) {
    let mut held = held(arguments);
    if how == 4 {
        let h = to_block(&arguments.key[..16]);
        let (one, other) = blind_pair(h, &to_blocks(&arguments.plain), 1);
        held = sealed_by(arguments, &to_bytes(&one));
        held.remote = sealed_by(arguments, &to_bytes(&other)).remote;
    }
    for (index, place) in Place::ALL.into_iter().enumerate() {
        if how == index || how == 3 {
            held.place_mut(place)[5] ^= 0x40;
        }
    }
    hold(arguments, &held);
}

/// A plaintext's sealing as the arguments say.
fn sealed_by(arguments: &Arguments, plain: &[u8]) -> Sealed {
    sealed(&arguments.key, arguments.volume, arguments.address, plain)
}

/// The sector's three places.
fn held(arguments: &Arguments) -> Sealed {
    let sector = part(arguments.number, arguments.s);
    Sealed {
        local: arguments.local[sector.clone()].to_vec(),
        tag: arguments.tag[part(arguments.number, 16)].to_vec(),
        remote: arguments.remote[sector].to_vec(),
    }
}

/// Puts a triple into the sector's places.
fn hold(arguments: &mut Arguments, held: &Sealed) {
    let sector = part(arguments.number, arguments.s);
    arguments.local[sector.clone()].copy_from_slice(&held.local);
    arguments.tag[part(arguments.number, 16)].copy_from_slice(&held.tag);
    arguments.remote[sector].copy_from_slice(&held.remote);
    arguments.sector = match arguments.side {
        0 => held.local.clone(),
        _ => held.remote.clone(),
    };
}

/// Arguments that the call takes.
fn right(rng: &mut Rng, call: Call, s: usize, n: usize) -> Arguments {
    let key = rng.bytes(32);
    right_under(rng, key, call, s, n)
}

/// Arguments that are right but perhaps for the key's h.
fn right_under(rng: &mut Rng, key: Vec<u8>, call: Call, s: usize, n: usize) -> Arguments {
    let n = if call.is_on_volume() { n } else { 1 };
    let number = rng.below(n);
    let random = rng.next_u64();
    let mut arguments = Arguments {
        key,
        volume: rng.next_u64(),
        address: if call.is_on_volume() {
            number as u64
        } else {
            random
        },
        side: (random & 1) as u32,
        s,
        n,
        number,
        plain: rng.bytes(s),
        local: rng.bytes(n * s),
        tag: rng.bytes(n * 16),
        remote: rng.bytes(n * s),
        map: random_words(rng, words(n)),
        out: vec![FILL; s],
        list: vec![u32::from(FILL); n],
        ..Arguments::none()
    };
    let old = sealed_by(&arguments, &rng.bytes(s));
    if let Some(triple) = found_by(call, &arguments, old) {
        hold(&mut arguments, &triple);
    }
    arguments
}

/// What the call finds in the sector, if not random bytes. What it has to write
/// is not there yet.
fn found_by(call: Call, arguments: &Arguments, old: Sealed) -> Option<Sealed> {
    let new = sealed_by(arguments, &arguments.plain);
    match call {
        Call::Seal | Call::Blank => None,
        Call::First | Call::Write => Some(old),
        Call::Second => Some(Sealed {
            local: new.local,
            ..old
        }),
        Call::Third => Some(Sealed {
            remote: old.remote,
            ..new
        }),
        _ => Some(new),
    }
}

/// A call with right arguments, with every fault and with every two. Every other
/// one comes with the bits of the map turned over, so that each mark shows.
fn try_faults(tally: &mut Tally, call: Call, right: &Arguments) {
    let mut right = right.clone();
    for _ in 0..2 {
        assert_eq!(tally.make(call, &right).0, 0, "{call:?}");
        turn_over(&mut right);
    }
    let faults = faults(call, &right);
    for (index, &first) in faults.iter().enumerate() {
        turn_over(&mut right);
        let mut with_one = right.clone();
        apply(&mut with_one, first);
        tally.make(call, &with_one);
        for &second in faults[index..].iter().filter(|fault| fault.0 != first.0) {
            turn_over(&mut with_one);
            let mut with_two = with_one.clone();
            apply(&mut with_two, second);
            tally.make(call, &with_two);
        }
    }
}

fn turn_over(arguments: &mut Arguments) {
    for word in &mut arguments.map {
        *word = !*word;
    }
}

#[test]
fn refusals_through_the_library() {
    let mut tally = Tally::default();
    for round in 0..rounds(SHAPES.len()) {
        let mut rng = Rng::new(200 + round as u64);
        let (s, n) = SHAPES[round % SHAPES.len()];
        for (call, _) in CALLS {
            let right = right(&mut rng, call, s, n);
            try_faults(&mut tally, call, &right);
        }
    }
    tally.print();
    for (call, answers) in CALLS {
        tally.insist_on(call, answers);
    }
}

/// The answers that are about lengths and numbers, and not about what is there.
const OF_ARGUMENTS: [u32; 9] = [1, 14, 2, 3, 4, 8, 9, 11, 13];

/// What comes with a map of another length, and which of the two is refused.
const BESIDE_MAP: [(Fault, u32); 17] = [
    ((Key, 31), 1),
    ((ZeroKey, 16), 14),
    ((SizeOfAll, 15), 2),
    ((Size, 4112), 2),
    ((Count, 0), 8),
    ((Count, 65_537), 8),
    ((Count, usize::MAX), 8),
    ((Local, 31), 8),
    ((Tag, 15), 8),
    ((Remote, 33), 8),
    ((Contents, 0), 13),
    ((Contents, 3), 13),
    ((Number, 65), 13),
    ((Plain, 31), 13),
    ((Out, 33), 13),
    ((List, 0), 13),
    ((List, 2), 13),
];

/// The refusal 13 stands behind 8, and before 9, 3, 11 and what the sector holds.
#[test]
fn a_map_of_another_length_in_its_order() {
    let mut rng = Rng::new(500);
    for (call, answers) in CALLS {
        for n in [3, 63, 64, 65] {
            let right = right(&mut rng, call, 32, n);
            for length in [0, words(n) - 1, words(n) + 1] {
                if !answers.contains(&13) {
                    continue;
                }
                let mut wrong = right.clone();
                apply(&mut wrong, (Map, length));
                insist_on_refusal(call, &wrong, 13);
                for (fault, due) in BESIDE_MAP {
                    if parameters(call).contains(&fault.0) {
                        let mut with_two = right.clone();
                        apply(&mut with_two, fault);
                        apply(&mut with_two, (Map, length));
                        insist_on_refusal(call, &with_two, due);
                    }
                }
            }
        }
    }
}

/// The call is refused by both, and changes nothing.
fn insist_on_refusal(call: Call, given: &Arguments, due: u32) {
    let (number, left) = call.by_both(given);
    assert_eq!(number, due, "{call:?}");
    assert!(left == *given, "{call:?} is refused, and changes a byte");
}

/// The calls that take a key.
fn keyed() -> impl Iterator<Item = Call> {
    let calls = CALLS.iter().map(|&(call, _)| call);
    calls.filter(|&call| parameters(call).contains(&Key))
}

/// A key whose h is zero, over what was sealed under it when it was not refused: the
/// refusal 14 stands behind 1 and before all else. So beside every fault it is 1 for
/// the key's length, and else 14; and beside every two, in the first shape.
#[test]
fn a_hash_key_of_zeros_in_its_order() {
    let mut rng = Rng::new(600);
    let due = |fault: Fault| if fault.0 == Key { 1 } else { 14 };
    let mut refused = 0;
    for (round, (s, n)) in SHAPES.into_iter().enumerate() {
        for call in keyed() {
            let k = if round % 2 == 0 {
                rng.bytes(16)
            } else {
                vec![0; 16]
            };
            let key = [vec![0; 16], k].concat();
            let mut right = right_under(&mut rng, key, call, s, n);
            insist_on_refusal(call, &right, 14);
            let faults = faults(call, &right);
            for (index, &first) in faults.iter().enumerate() {
                turn_over(&mut right);
                let mut with_one = right.clone();
                apply(&mut with_one, first);
                insist_on_refusal(call, &with_one, due(first));
                refused += 1;
                let others = if round == 0 { &faults[index..] } else { &[] };
                for &second in others.iter().filter(|fault| fault.0 != first.0) {
                    let mut with_two = with_one.clone();
                    apply(&mut with_two, second);
                    insist_on_refusal(call, &with_two, due(first).min(due(second)));
                    refused += 1;
                }
            }
        }
    }
    println!("{refused} calls under a hash key of zeros are refused in their order");
}

/// A key of zeros that has not 32 bytes is refused for its length.
#[test]
fn zeros_of_other_lengths() {
    let mut rng = Rng::new(601);
    for call in keyed() {
        let right = right(&mut rng, call, 32, 3);
        for length in [0, 1, 8, 15, 16, 17, 24, 31, 33, 48, 64, 4096] {
            let wrong = Arguments {
                key: vec![0; length],
                ..right.clone()
            };
            insist_on_refusal(call, &wrong, 1);
        }
    }
}

/// Keys that have little in h: each bit of it alone; parts of each width, twice in a
/// row, so that they are equal or add up to zero.
fn keys_with_little_in_h(rng: &mut Rng) -> Vec<Vec<u8>> {
    let mut hs: Vec<Vec<u8>> = (0..128)
        .map(|bit| (1u128 << bit).to_be_bytes().to_vec())
        .collect();
    for width in [1, 2, 4, 8] {
        for start in (0..=16 - 2 * width).step_by(width) {
            let part = 1 + rng.next_u64() % 0xff;
            for other in [part, part.wrapping_neg()] {
                let two = [part, other].map(|number| number.to_be_bytes()[8 - width..].to_vec());
                let mut h = vec![0; 16];
                h[start..start + 2 * width].copy_from_slice(&two.concat());
                hs.push(h);
            }
        }
    }
    let keys = hs.iter().flat_map(|h| {
        let ks = [rng.bytes(16), vec![0; 16]];
        ks.map(|k| [&h[..], &k].concat())
    });
    keys.collect()
}

/// So neither the first byte alone is looked at, nor all but the last, nor one word,
/// nor K; and no parts of h cancel.
#[test]
fn keys_with_little_in_h_are_accepted() {
    let mut rng = Rng::new(602);
    let mut accepted = 0;
    let k_is_zero = [rng.bytes(16), vec![0; 16]].concat();
    for key in keys_with_little_in_h(&mut rng)
        .into_iter()
        .chain([k_is_zero])
    {
        for call in keyed() {
            let right = right_under(&mut rng, key.clone(), call, 16, 2);
            assert_eq!(call.by_both(&right).0, 0, "{call:?} under {key:02x?}");
            accepted += 1;
        }
    }
    println!("{accepted} calls under keys with little in h are accepted");
}

/// What is refused under one volume's number is refused under every one.
#[test]
fn no_number_of_a_volume_changes_a_refusal() {
    let mut rng = Rng::new(400);
    for (call, _) in CALLS {
        let right = right(&mut rng, call, 32, 3);
        for fault in faults(call, &right) {
            let mut wrong = right.clone();
            apply(&mut wrong, fault);
            let (due, _) = call.by_both(&wrong);
            if !OF_ARGUMENTS.contains(&due) {
                continue;
            }
            for volume in [0, 1, u64::MAX, !right.volume] {
                wrong.volume = volume;
                let (number, left) = call.by_both(&wrong);
                assert_eq!(number, due, "{call:?} with {fault:?} under {volume}");
                assert!(left == wrong, "{call:?} is refused, and changes a byte");
            }
        }
    }
}

/// One fault at a time, since three images of a megabyte are copied for each
/// call, and none that makes every sector larger.
#[test]
fn faults_of_the_largest_volume() {
    let mut tally = Tally::default();
    let mut rng = Rng::new(300);
    for (call, _) in CALLS {
        if !call.is_on_volume() {
            continue;
        }
        let right = right(&mut rng, call, 16, 65_536);
        assert_eq!(tally.make(call, &right).0, 0, "{call:?}");
        for fault in faults(call, &right) {
            if fault.0 != SizeOfAll {
                let mut with_one = right.clone();
                apply(&mut with_one, fault);
                tally.make(call, &with_one);
            }
        }
    }
    tally.print();
    for (call, answers) in CALLS {
        if call.is_on_volume() {
            // A clash takes two blocks.
            let answers: Vec<u32> = answers.iter().copied().filter(|&n| n != 7).collect();
            tally.insist_on(call, &answers);
        }
    }
}
