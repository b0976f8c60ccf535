//! The program `frames`, as a function and as a program.

use std::collections::BTreeSet;
use std::io::Write;
use std::process::{Command, Stdio};

use reference::frames::{judge_frame, run};
use reference::hex;
use reference::rng::Rng;
use reference::seal::sealed;

const LARGEST: usize = 4096;

fn answer(input: &str) -> String {
    String::from_utf8(run(input.as_bytes())).expect("digits and line feeds")
}

fn example() -> (String, String) {
    let zeros = "0".repeat(28);
    let input = format!("ff\n02{zeros}03ff{zeros}0200\n");
    let output = format!("0c\n00{zeros}01ff\n");
    (input, output)
}

#[test]
fn the_example() {
    let (input, output) = example();
    assert_eq!(answer(&input), output);
}

#[test]
fn the_program_runs_the_function() {
    let (input, output) = example();
    let mut child = Command::new(env!("CARGO_BIN_EXE_frames"))
        .stdin(Stdio::piped())
        .stdout(Stdio::piped())
        .spawn()
        .expect("the program was built");
    let mut stdin = child.stdin.take().expect("standard input is piped");
    stdin.write_all(input.as_bytes()).expect("it reads");
    drop(stdin);
    let result = child.wait_with_output().expect("it ends");
    assert!(result.status.success());
    assert_eq!(result.stdout, output.as_bytes());
}

/// The input that is stored for the proved program meets every answer.
#[test]
fn made_frames_have_every_answer() {
    let output = Command::new(env!("CARGO_BIN_EXE_make_frames"))
        .output()
        .expect("the program was built");
    assert!(output.status.success());
    let answers = String::from_utf8(run(&output.stdout)).expect("digits and line feeds");
    let numbers: BTreeSet<&str> = answers.lines().map(|line| &line[..2]).collect();
    let due = ["00", "02", "03", "06", "07", "0c", "0e", "81", "82", "83"];
    assert_eq!(numbers, due.into());
}

#[test]
fn line_ends() {
    assert_eq!(answer(""), "");
    assert_eq!(answer("\n"), "0c\n");
    assert_eq!(answer("\n\n"), "0c\n0c\n");
    assert_eq!(answer("02"), "02\n");
    assert_eq!(answer("02\n"), "02\n");
    assert_eq!(answer("02\n\n"), "02\n0c\n");
    assert_eq!(answer("\n02"), "0c\n02\n");
    assert_eq!(answer("02\r\n"), "0c\n");
}

#[test]
fn bad_frames() {
    let cases = [
        "0", "2", "020", "0g", "g0", " 02", "02 ", "0x02", "00", "03", "12", "20", "01", "+2",
        "\u{e9}",
    ];
    for case in cases {
        assert_eq!(answer(case), "0c\n", "{case}");
    }
    assert_eq!(run(b"\xff\xfe"), b"0c\n");
    assert_eq!(run(b"02\0\0"), b"0c\n");
}

/// With an h of zero, 14 stands in place of what judging says, and behind every
/// refusal on lengths.
#[test]
fn lengths_of_judge_frames() {
    for (byte, judged) in [("03", "06\n"), ("00", "0e\n")] {
        let frame = |bytes: usize| format!("01{}", byte.repeat(bytes - 1));
        assert_eq!(answer(&frame(33)), "0c\n");
        assert_eq!(answer(&frame(56)), "0c\n");
        assert_eq!(answer(&frame(57)), "02\n");
        assert_eq!(answer(&frame(58)), "03\n");
        assert_eq!(answer(&frame(57 + 30)), "02\n");
        assert_eq!(answer(&frame(57 + 31)), "03\n");
        assert_eq!(answer(&frame(57 + 32)), judged);
        assert_eq!(answer(&frame(57 + 34)), "02\n");
        assert_eq!(answer(&frame(57 + 2 * LARGEST)), judged);
        assert_eq!(answer(&frame(57 + 2 * LARGEST + 1)), "0c\n");
    }
}

/// Whatever the sector is under a key with an h of zero.
#[test]
fn zero_h() {
    let mut rng = Rng::new(22);
    for size in [16, 32, 48, LARGEST] {
        for k in [rng.bytes(16), vec![0; 16]] {
            let (key, address) = ([vec![0; 16], k].concat(), rng.next_u64());
            let whole = sealed(&key, 0, address, &rng.bytes(size));
            let mut doubtful = whole.clone();
            doubtful.tag[3] ^= 1;
            let mut clashing = whole.clone();
            rng.fill(&mut clashing.remote);
            let mut lost = clashing.clone();
            lost.tag[0] ^= 1;
            for held in [whole, doubtful, clashing, lost] {
                let frame = judge_frame(&key, address, &held);
                assert_eq!(answer(&frame), "0e\n");
                assert_eq!(answer(&frame.to_uppercase()), "0e\n");
                assert_eq!(answer(&frame[1..]), "0c\n");
                assert_eq!(answer(&frame.replace("00", "0g")), "0c\n");
            }
        }
    }
}

#[test]
fn one_bit_of_h_is_enough() {
    let mut rng = Rng::new(23);
    for bit in 0..128 {
        let h = 1u128 << bit;
        for k in [rng.bytes(16), vec![0; 16]] {
            let (key, address) = ([h.to_be_bytes().to_vec(), k].concat(), rng.next_u64());
            let plaintext = rng.bytes(32);
            let held = sealed(&key, 0, address, &plaintext);
            let due = format!("00{}\n", hex::encode(&plaintext));
            assert_eq!(answer(&judge_frame(&key, address, &held)), due);
        }
    }
}

#[test]
fn lengths_of_combine_frames() {
    let frame = |bytes: usize| format!("02{}", "00".repeat(bytes - 1));
    assert_eq!(answer(&frame(1)), "02\n");
    assert_eq!(answer(&frame(2)), "03\n");
    assert_eq!(answer(&frame(1 + 30)), "02\n");
    assert_eq!(answer(&frame(1 + 33)), "03\n");
    assert_eq!(answer(&frame(1 + 2 * 4112)), "02\n");
    assert_eq!(answer(&frame(8248)), "03\n");
    assert_eq!(answer(&frame(8249)), "02\n");
    assert_eq!(answer(&frame(8250)), "0c\n");
    for size in [16, 32, LARGEST] {
        let due = format!("00{}\n", "00".repeat(size));
        assert_eq!(answer(&frame(1 + 2 * size)), due);
    }
}

#[test]
fn verdicts() {
    let mut rng = Rng::new(20);
    for size in [16, 32, 48, 64, 512, LARGEST] {
        let (key, address) = (rng.bytes(32), rng.next_u64());
        let plaintext = rng.bytes(size);
        let sealed = sealed(&key, 0, address, &plaintext);
        let digits = hex::encode(&plaintext);

        let frame = judge_frame(&key, address, &sealed);
        assert_eq!(answer(&frame), format!("00{digits}\n"));
        assert_eq!(answer(&frame.to_uppercase()), format!("00{digits}\n"));

        let mut local = sealed.clone();
        local.local[0] ^= 1;
        let mut tag = sealed.clone();
        tag.tag[15] ^= 1;
        let mut remote = sealed.clone();
        remote.remote[size - 1] ^= 1;
        let frames = [&local, &tag, &remote].map(|held| judge_frame(&key, address, held));
        let due = format!("81{digits}\n82{digits}\n83{digits}\n");
        assert_eq!(answer(&frames.join("\n")), due);

        let mut lost = local;
        lost.tag[0] ^= 1;
        assert_eq!(answer(&judge_frame(&key, address, &lost)), "06\n");
    }
}

#[test]
fn clash() {
    let mut rng = Rng::new(21);
    let (key, address) = (rng.bytes(32), rng.next_u64());
    let zero = [&key[..16], &[0; 16]].concat();
    let mut one = zero.clone();
    one[31] = 1;
    let mut held = sealed(&key, 0, address, &zero);
    held.remote = sealed(&key, 0, address, &one).remote;
    assert_eq!(answer(&judge_frame(&key, address, &held)), "07\n");
}
