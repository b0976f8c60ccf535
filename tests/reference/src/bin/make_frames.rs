//! Prints an input for the program `frames`, the same on every run: frames
//! with each answer and each refusal, and lines that are no frames.

use std::io::{self, Write};

use reference::answer::Place;
use reference::collide::blind_pair;
use reference::field::{to_block, to_blocks, to_bytes};
use reference::frames::{judge_frame, run, VOLUME};
use reference::hex;
use reference::rng::Rng;
use reference::seal::{sealed, Sealed};

const SEED: u64 = 0x0f4a_3e50;
/// The frames about h draw for themselves, so that the older ones stay.
const H_SEED: u64 = 0x0007_000e_0001;
const SIZES: [usize; 8] = [16, 32, 48, 64, 128, 512, 1024, 4096];
const LARGEST: usize = 4096;

fn main() -> io::Result<()> {
    let mut maker = Maker::new(SEED);
    maker.example();
    maker.verdicts();
    maker.clashes();
    maker.elsewhere();
    maker.combined();
    maker.lengths();
    maker.malformed();
    maker.long();
    maker.due("ff", b"0c");
    let mut of_h = Maker::new(H_SEED);
    of_h.under_zero_h();
    of_h.zero_h_beside_other_faults();
    of_h.keys_with_little_in_h();
    of_h.zeros_without_a_key();
    // Last, since no line feed ends it.
    let (key, address, held) = of_h.sector_under_zero_h(16);
    of_h.due(judge_frame(&key, address, &held), b"0e");
    of_h.text.pop();
    io::stdout().write_all(&[maker.text, of_h.text].concat())
}

struct Maker {
    rng: Rng,
    text: Vec<u8>,
}

impl Maker {
    fn new(seed: u64) -> Maker {
        Maker {
            rng: Rng::new(seed),
            text: Vec::new(),
        }
    }

    /// Adds a line, and insists on how its answer begins.
    fn due(&mut self, line: impl AsRef<[u8]>, answer: &[u8]) {
        let line = [line.as_ref(), b"\n"].concat();
        assert!(run(&line).starts_with(answer));
        self.text.extend(line);
    }

    /// The same in lower, upper and mixed case.
    fn due_in_cases(&mut self, line: &str, answer: &[u8]) {
        self.due(line, answer);
        self.due(line.to_uppercase(), answer);
        let mixed: String = line
            .chars()
            .map(|digit| {
                if self.rng.chance(50) {
                    digit.to_ascii_uppercase()
                } else {
                    digit
                }
            })
            .collect();
        self.due(mixed, answer);
    }

    fn example(&mut self) {
        let zeros = "0".repeat(28);
        self.due("ff", b"0c");
        self.due(format!("02{zeros}03ff{zeros}0200"), b"00");
    }

    /// A random plaintext under a random key and address, sealed.
    fn sector(&mut self, size: usize) -> (Vec<u8>, u64, Sealed) {
        let (key, address) = (self.rng.bytes(32), self.rng.next_u64());
        let held = sealed(&key, VOLUME, address, &self.rng.bytes(size));
        (key, address, held)
    }

    fn verdicts(&mut self) {
        for size in SIZES {
            let (key, address, held) = self.sector(size);
            self.due_in_cases(&judge_frame(&key, address, &held), b"00");
            for (place, answer) in Place::ALL.into_iter().zip([b"81", b"82", b"83"]) {
                for how in 0..3 {
                    let mut damaged = held.clone();
                    self.damage(damaged.place_mut(place), how);
                    self.due(judge_frame(&key, address, &damaged), answer);
                }
                let mut lost = held.clone();
                for other in Place::ALL.into_iter().filter(|&other| other != place) {
                    self.damage(lost.place_mut(other), 0);
                }
                self.due(judge_frame(&key, address, &lost), b"06");
            }
        }
        for address in [0, 1, 0xff, 1 << 32, u64::MAX] {
            for plaintext in [vec![0; 16], vec![0xff; 32], self.rng.bytes(48)] {
                let key = self.rng.bytes(32);
                let held = sealed(&key, VOLUME, address, &plaintext);
                self.due(judge_frame(&key, address, &held), b"00");
            }
        }
    }

    /// One bit, all bytes random, or all zero.
    fn damage(&mut self, bytes: &mut [u8], how: usize) {
        match how {
            0 => {
                let position = self.rng.below(bytes.len());
                bytes[position] ^= 1 << self.rng.below(8);
            }
            1 => self.rng.fill(bytes),
            _ => bytes.fill(0),
        }
    }

    /// The local sector and tag of one plaintext with the remote sector of
    /// another that has the same tag.
    fn clashes(&mut self) {
        for size in [32, 48, 64, 512] {
            for change in [1, self.rng.next_u128()] {
                let (key, address) = (self.rng.bytes(32), self.rng.next_u64());
                let plaintext = to_blocks(&self.rng.bytes(size));
                let (one, other) = blind_pair(to_block(&key[..16]), &plaintext, change);
                let mut held = sealed(&key, VOLUME, address, &to_bytes(&one));
                held.remote = sealed(&key, VOLUME, address, &to_bytes(&other)).remote;
                self.due(judge_frame(&key, address, &held), b"07");
            }
        }
    }

    /// Sealed under another key or address, or the two sides exchanged.
    fn elsewhere(&mut self) {
        for size in [16, 64, 512] {
            let (key, address, held) = self.sector(size);
            self.due(judge_frame(&key, address ^ 1, &held), b"06");
            self.due(judge_frame(&key, address.swap_bytes(), &held), b"06");
            let mut other = key.clone();
            other[31] ^= 1;
            self.due(judge_frame(&other, address, &held), b"06");
            let exchanged = Sealed {
                local: held.remote,
                tag: held.tag,
                remote: held.local,
            };
            self.due(judge_frame(&key, address, &exchanged), b"06");
        }
    }

    fn combined(&mut self) {
        for size in SIZES {
            let both = self.rng.bytes(2 * size);
            self.due_in_cases(&format!("02{}", hex::encode(&both)), b"00");
        }
    }

    /// Every number of bytes near a boundary; of random bytes, so that a frame
    /// to be judged is lost.
    fn lengths(&mut self) {
        for (kind, beside, answered) in [("01", 57, "06"), ("02", 1, "00")] {
            let near = |size: usize| beside + 2 * size;
            let mut all = vec![1, 2, 3, 55, 56, 57, 58, 59];
            for size in [8, 15, 16, 17, 24, 31, 33, 4095, 4097, 4112] {
                all.extend([near(size), near(size) + 1]);
            }
            for bytes in all {
                let rest = self.rng.bytes(bytes - 1);
                let line = format!("{kind}{}", hex::encode(&rest));
                let answer = match bytes.checked_sub(beside) {
                    None => "0c",
                    Some(_) if bytes > 8249 => "0c",
                    Some(sectors) if sectors % 2 == 1 => "03",
                    Some(32) => answered,
                    Some(_) => "02",
                };
                self.due(&line, answer.as_bytes());
            }
        }
    }

    fn malformed(&mut self) {
        for line in ["", "", "0", "1", "01", "0g", "g0", "0x", "+2", "-1", "é"] {
            self.due(line, b"0c");
        }
        let both = hex::encode(&self.rng.bytes(32));
        for kind in [
            "00", "03", "04", "10", "11", "12", "20", "21", "7f", "80", "ff",
        ] {
            self.due(format!("{kind}{both}"), b"0c");
        }
        let line = format!("02{both}");
        self.due(&line[..line.len() - 1], b"0c");
        self.due(format!("{line}0"), b"0c");
        let strange = b"\0\t\r \"/:;@G[`g{\x7f\x80\xb2\xc3\xff";
        for &byte in strange {
            for position in [0, 1, line.len() / 2, line.len() - 1] {
                let mut spoiled = line.clone().into_bytes();
                spoiled[position] = byte;
                self.due(&spoiled, b"0c");
            }
            let mut longer = line.clone().into_bytes();
            longer.push(byte);
            self.due(&longer, b"0c");
        }
    }

    /// Lines at the limit and behind it.
    fn long(&mut self) {
        let (key, address, held) = self.sector(LARGEST);
        let largest = judge_frame(&key, address, &held);
        assert_eq!(largest.len(), 16_498);
        self.due(&largest, b"00");
        self.due(format!("{largest}0"), b"0c");
        self.due(format!("{largest}00"), b"0c");
        self.due(format!("02{}", "00".repeat(8_248)), b"02");
        for digits in [16_499, 16_500, 16_501, 33_000, 65_536, 131_072] {
            self.due("0".repeat(digits), b"0c");
        }
        // What comes behind a long line is not mistaken for a part of it.
        self.due(&largest, b"00");
    }
}

/// The frames about h.
impl Maker {
    /// What earlier releases sealed under a key whose h is zero.
    fn sector_under_zero_h(&mut self, size: usize) -> (Vec<u8>, u64, Sealed) {
        let key = [vec![0; 16], self.rng.bytes(16)].concat();
        let address = self.rng.next_u64();
        let held = sealed(&key, VOLUME, address, &self.rng.bytes(size));
        (key, address, held)
    }

    /// As sealed, with each place damaged, and with two.
    fn under_zero_h(&mut self) {
        for size in [16, 32, 64, 512, LARGEST] {
            let (key, address, held) = self.sector_under_zero_h(size);
            let frame = judge_frame(&key, address, &held);
            if size == LARGEST {
                self.due(frame, b"0e");
                continue;
            }
            self.due_in_cases(&frame, b"0e");
            for place in Place::ALL {
                let mut damaged = held.clone();
                self.damage(damaged.place_mut(place), 1);
                self.due(judge_frame(&key, address, &damaged), b"0e");
                self.damage(&mut damaged.tag, 0);
                self.due(judge_frame(&key, address, &damaged), b"0e");
            }
            let held = sealed(&[0; 32], VOLUME, address, &vec![0; size]);
            self.due(judge_frame(&[0; 32], address, &held), b"0e");
        }
        self.due(format!("01{}", "00".repeat(88)), b"0e");
    }

    /// The refusals of a frame come before that of its key.
    fn zero_h_beside_other_faults(&mut self) {
        let (key, address, held) = self.sector_under_zero_h(32);
        let frame = judge_frame(&key, address, &held);
        self.due(&frame[..frame.len() - 1], b"0c");
        self.due(format!("{frame}0"), b"0c");
        self.due(frame.replacen("00", "0g", 1), b"0c");
        self.due(frame.replacen("01", "03", 1), b"0c");
        for (bytes, answer) in [
            (33, b"0c"),
            (56, b"0c"),
            (57, b"02"),
            (58, b"03"),
            (57 + 30, b"02"),
            (57 + 31, b"03"),
            (57 + 32, b"0e"),
            (57 + 33, b"03"),
            (57 + 34, b"02"),
            (57 + 63, b"03"),
            (57 + 64, b"0e"),
        ] {
            self.due(&frame[..2 * bytes], answer);
        }
        self.due(format!("{frame}00"), b"03");
        self.due(format!("{frame}0000"), b"02");
        let (key, address, held) = self.sector_under_zero_h(LARGEST);
        let largest = judge_frame(&key, address, &held);
        self.due(format!("{largest}00"), b"0c");
    }

    /// Keys that are accepted: h of one bit at either end of each half; halves that
    /// are equal, or add up to zero; a K of zero.
    fn keys_with_little_in_h(&mut self) {
        let half = u128::from(self.rng.next_u64());
        let equal = (half << 64) | half;
        let opposite = (half << 64) | ((1 << 64) - half);
        let of_one_bit = [1 << 127, 1 << 64, 1 << 63, 1];
        for h in of_one_bit.into_iter().chain([equal, opposite]) {
            for k in [self.rng.bytes(16), vec![0; 16]] {
                let key = [h.to_be_bytes().to_vec(), k].concat();
                let address = self.rng.next_u64();
                let mut held = sealed(&key, VOLUME, address, &self.rng.bytes(32));
                self.due(judge_frame(&key, address, &held), b"00");
                self.damage(&mut held.tag, 0);
                self.due(judge_frame(&key, address, &held), b"82");
            }
        }
    }

    /// Zeros where a frame to be judged has h.
    fn zeros_without_a_key(&mut self) {
        for size in [16, 32] {
            let rest = self.rng.bytes(2 * size - 16);
            let zeros = "00".repeat(16);
            self.due(format!("02{zeros}{}", hex::encode(&rest)), b"00");
        }
    }
}
