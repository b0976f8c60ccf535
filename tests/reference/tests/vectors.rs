//! The printed vectors: their form, what they cover, and a run of each.

use std::collections::BTreeSet;
use std::process::Command;

use reference::answer::answer_number;
use reference::hex;
use reference::seal;

fn print_vectors() -> String {
    let output = Command::new(env!("CARGO_BIN_EXE_make_vectors"))
        .output()
        .expect("the program was built");
    assert!(output.status.success());
    String::from_utf8(output.stdout).expect("digits and line feeds")
}

/// The lines from before the volume's number, which stay in front.
const OLD_LINES: usize = 473;

/// Those that were stored with it, which come next. The rest are about h.
const NUMBERED_LINES: usize = 177;

/// The lines of these three kinds.
fn parts(text: &str) -> [Vec<Parsed>; 3] {
    let mut old: Vec<_> = text.lines().map(parse).collect();
    let mut numbered = old.split_off(OLD_LINES);
    let of_h = numbered.split_off(NUMBERED_LINES);
    [old, numbered, of_h]
}

/// The call's number and all fields of a line.
type Parsed = (u8, Vec<Vec<u8>>);

fn parse(line: &str) -> Parsed {
    let bytes = hex::decode(line.as_bytes()).expect("digits");
    let (call, mut rest) = bytes.split_first().expect("not empty");
    let mut fields = Vec::new();
    while !rest.is_empty() {
        let (length, behind) = rest.split_at(2);
        let length = u16::from_be_bytes([length[0], length[1]]);
        let (field, behind) = behind.split_at(usize::from(length));
        fields.push(field.to_vec());
        rest = behind;
    }
    (*call, fields)
}

/// The volume's number and the address. Without its bytes the number is 0.
fn position(field: &[u8]) -> (u64, u64) {
    let number = |bytes: &[u8]| u64::from_be_bytes(bytes.try_into().expect("8 bytes"));
    match field.len() {
        8 => (0, number(field)),
        _ => (number(&field[..8]), number(&field[8..])),
    }
}

/// Runs a line's call; gives the answer and insists on the outputs.
fn replay(call: u8, fields: &[Vec<u8>]) -> u8 {
    match (call, fields) {
        (0, [key, at, plaintext, local, remote, tag, due, after @ ..]) => {
            let mut outputs = [local.clone(), remote.clone(), tag.clone()];
            let [local, remote, tag] = &mut outputs;
            let (volume, address) = position(at);
            let answer = seal::seal(key, volume, address, plaintext, local, remote, tag);
            assert_eq!([answer_number(&answer)], due[..]);
            assert_eq!(outputs, after);
            due[0]
        }
        (1, [key, at, local, tag, remote, output, due, after]) => {
            let mut output = output.clone();
            let (volume, address) = position(at);
            let answer = seal::judge(key, volume, address, local, tag, remote, &mut output);
            assert_eq!([answer_number(&answer)], due[..]);
            assert_eq!(output, *after);
            due[0]
        }
        (2 | 3, [key, at, side, sector, tag, output, due, after]) => {
            let run = if call == 2 { seal::open } else { seal::rebuild };
            let mut output = output.clone();
            let (volume, address) = position(at);
            let answer = run(key, volume, address, side[0], sector, tag, &mut output);
            assert_eq!([answer_number(&answer)], due[..]);
            assert_eq!(output, *after);
            due[0]
        }
        (4, [local, remote, output, due, after]) => {
            let mut output = output.clone();
            let answer = seal::combine(local, remote, &mut output);
            assert_eq!([answer_number(&answer)], due[..]);
            assert_eq!(output, *after);
            due[0]
        }
        _ => panic!("another form"),
    }
}

#[test]
fn vectors_replay_and_cover() {
    let text = print_vectors();
    assert_eq!(text, print_vectors(), "the same on every run");
    assert!(text.len() < 950_000);
    assert!(text.ends_with('\n'));
    assert_eq!(text, text.to_lowercase());
    let [old, numbered, of_h] = parts(&text);
    let due: [BTreeSet<u8>; 4] = [
        [0, 1, 2, 3].into(),
        [0, 1, 2, 3, 6, 7, 0x81, 0x82, 0x83].into(),
        [0, 1, 2, 3, 4, 5].into(),
        [0, 1, 2, 3, 4, 5].into(),
    ];
    let mut answers = answers_of_calls(&old);
    assert_eq!(answers.pop(), Some([0, 2, 3].into()));
    // The keys of an h of zero, which were accepted once.
    for call in [0, 1] {
        assert!(answers[call].remove(&14));
    }
    assert_eq!(answers, due);
    answers = answers_of_calls(&numbered);
    assert_eq!(answers.pop(), Some([].into()), "combining has no number");
    assert_eq!(answers, due);
    answers = answers_of_calls(&of_h);
    assert_eq!(answers.pop(), Some([].into()), "combining has no key");
    let due: [BTreeSet<u8>; 4] = [
        [0, 1, 14].into(),
        [0, 1, 7, 14, 0x81, 0x82, 0x83].into(),
        [0, 1, 14].into(),
        [0, 1, 14].into(),
    ];
    assert_eq!(answers, due);
    let [old, numbered, of_h] = [old, numbered, of_h].map(|lines| lines.len());
    println!("{old} old, {numbered} numbered and {of_h} about h");
}

/// Exactly the keys of 32 bytes with an h of zero answer 14, and there the outputs
/// stay. These lines were stored before, and only their answers have changed.
#[test]
fn zero_h_answers_14() {
    let [old, numbered, of_h] = parts(&print_vectors());
    let mut changed = vec![];
    let lines = old.iter().chain(&numbered).chain(&of_h);
    for (line, (call, fields)) in (1..).zip(lines) {
        if *call == 4 {
            continue;
        }
        let has_zero_h = fields[0].len() == 32 && fields[0][..16] == [0; 16];
        assert_eq!(fields[6] == [14], has_zero_h, "line {line}");
        if has_zero_h {
            let outputs = if *call == 0 { 3..6 } else { 5..6 };
            assert_eq!(fields[7..], fields[outputs], "line {line}");
            changed.push(line);
        }
    }
    let seals = [25..=27, 37..=39, 49..=51, 61..=63];
    let stored: Vec<usize> = seals.into_iter().flatten().chain(267..=282).collect();
    assert_eq!(changed[..stored.len()], stored);
    assert!(changed[stored.len()] > OLD_LINES + NUMBERED_LINES);
}

/// Among the lines about h: an h of one bit, and a K of zero, are accepted by each
/// call.
#[test]
fn keys_with_little_in_them_are_accepted() {
    let [_, _, of_h] = parts(&print_vectors());
    for call in 0..4 {
        let accepted = of_h
            .iter()
            .filter(|(of, fields)| *of == call && fields[6] == [0]);
        let keys: BTreeSet<&[u8]> = accepted.map(|(_, fields)| &fields[0][..]).collect();
        let ones = |bytes: &[u8]| bytes.iter().map(|byte| byte.count_ones()).sum::<u32>();
        let of_one_bit = keys.iter().filter(|key| ones(&key[..16]) == 1);
        let places: BTreeSet<usize> = of_one_bit
            .map(|key| key.iter().position(|&byte| byte != 0).expect("a bit"))
            .collect();
        assert_eq!(places, [0, 7, 8, 15].into());
        assert!(keys.iter().any(|key| key[16..] == [0; 16]));
    }
}

/// The answers that each call gives, after a run of all lines.
fn answers_of_calls(lines: &[Parsed]) -> Vec<BTreeSet<u8>> {
    let mut answers = vec![BTreeSet::new(); 5];
    for (call, fields) in lines {
        answers[usize::from(*call)].insert(replay(*call, fields));
    }
    answers
}

#[test]
fn only_the_lines_behind_the_old_ones_say_a_number() {
    let [old, numbered, of_h] = parts(&print_vectors());
    for (call, fields) in &old {
        assert!(*call == 4 || fields[1].len() == 8);
    }
    for (_, fields) in &of_h {
        assert_eq!(fields[1].len(), 16);
    }
    let mut positions = BTreeSet::new();
    for (_, fields) in &numbered {
        assert_eq!(fields[1].len(), 16);
        positions.insert(position(&fields[1]));
    }
    for volume in [0, 1, 2, 0x0102_0304_0506_0708, 0xff << 56, 0xff, u64::MAX] {
        assert!(positions.iter().any(|&(number, _)| number == volume));
    }
    for volume in [1, 2, 0x0102_0304_0506_0708, 0xff << 56, 0xff, u64::MAX] {
        assert!(positions.contains(&(volume, 0)));
        assert!(positions.contains(&(volume, u64::MAX)));
    }
    // The field of the plaintext, the local side, or the sector.
    for (call, field) in [(0, 2), (1, 2), (2, 3), (3, 3)] {
        for size in [16, 32, 64, 512, 4096] {
            let has = |line: &Parsed| line.0 == call && line.1[field].len() == size;
            assert!(numbered.iter().any(has), "{call} {size}");
        }
    }
}

#[test]
fn numbered_lines_have_their_pairs() {
    let [old, numbered, _] = parts(&print_vectors());
    let seals = || {
        numbered
            .iter()
            .filter(|line| line.0 == 0 && line.1[6] == [0])
    };
    let (mut alone, mut exchanged) = (0, 0);
    for (_, one) in seals() {
        for (_, other) in seals() {
            if one[0] != other[0] || one[2] != other[2] {
                continue;
            }
            let (a, b) = (position(&one[1]), position(&other[1]));
            alone += usize::from(a.0 != b.0 && a.1 == b.1);
            exchanged += usize::from(a != b && a == (b.1, b.0));
            // Another position gives other bytes in all three places.
            assert!(a == b || (7..10).all(|field| one[field] != other[field]));
        }
    }
    // Each pair is met from both ends.
    assert_eq!((alone, exchanged), (8, 8));

    let mut zeros = 0;
    for (call, fields) in &numbered {
        if fields[1][..8] == [0; 8] {
            let mut short = fields.clone();
            short[1].drain(..8);
            zeros += usize::from(old.contains(&(*call, short)));
        }
    }
    assert_eq!(zeros, 11);
}
