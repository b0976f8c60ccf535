//! Power cuts. What a command writes and flushes is recorded; then every point at
//! which power can go is tried, with the writes that were not flushed landing or
//! not. A medium writes units of 512 bytes whole or not at all; of a local or remote
//! sector whose write had begun, anything may be there.

mod common;

use std::fs;

use common::{noise, Folder, Run};
use mirror::{judge, Verdict};

const NAMES: [&str; 3] = ["local", "tags", "remote"];
const KEY: [u8; 32] = [7; 32];
const UNIT: usize = 512;
const SECTORS: usize = 40;

/// Ways in which the writes that were not flushed land, for each cut.
const WAYS: usize = 24;

type Files = [Vec<u8>; 3];

#[derive(Debug)]
enum Event {
    Write(usize, usize, Vec<u8>),
    Flush(usize),
}

fn files(folder: &Folder) -> Files {
    NAMES.map(|name| folder.bytes(name))
}

/// Runs a command on the disk, and gives what it wrote and flushed, in order.
fn recorded(folder: &Folder, words: &[&str], input: &[u8]) -> (Run, Vec<Event>) {
    let _ = fs::remove_file(folder.path("log"));
    let run = folder.run_on_medium(words, input, &[("RECORD", "log")]);
    let events = events(&folder.bytes("log"));
    (run, events)
}

fn events(log: &[u8]) -> Vec<Event> {
    let (mut rest, mut events) = (log, Vec::new());
    while let Some(end) = rest.iter().position(|&byte| byte == b'\n') {
        let line = String::from_utf8(rest[..end].to_vec()).unwrap();
        rest = &rest[end + 1..];
        let words: Vec<&str> = line.split(' ').collect();
        let Some(file) = NAMES.iter().position(|&name| name == words[1]) else {
            continue; // the folder
        };
        if words[0] == "F" {
            events.push(Event::Flush(file));
        } else {
            let (bytes, behind) = rest.split_at(words[3].parse().unwrap());
            events.push(Event::Write(
                file,
                words[2].parse().unwrap(),
                bytes.to_vec(),
            ));
            rest = behind;
        }
    }
    events
}

/// A row of numbers that is the same in each run.
struct Dice(u64);

impl Dice {
    fn below(&mut self, count: u64) -> u64 {
        self.0 = self
            .0
            .wrapping_mul(6_364_136_223_846_793_005)
            .wrapping_add(1);
        (self.0 >> 33) % count
    }
}

/// Lets a write land: all of it, none of it, or by chance unit by unit.
fn land(files: &mut Files, file: usize, offset: usize, bytes: &[u8], way: usize, dice: &mut Dice) {
    let image = &mut files[file];
    image.resize(image.len().max(offset + bytes.len()), 0);
    let mut at = 0;
    while at < bytes.len() {
        let end = bytes.len().min((offset + at) / UNIT * UNIT + UNIT - offset);
        let unit = &mut image[offset + at..offset + end];
        let is_superblock = offset == 0;
        match (way, dice.below(3)) {
            (0, _) | (2.., 0) => {}
            (2.., 1) if NAMES[file] != "tags" && !is_superblock => unit.fill(0xaa),
            _ => unit.copy_from_slice(&bytes[at..end]),
        }
        at = end;
    }
}

/// What a cut behind so many events can leave.
fn after_cut(before: &Files, events: &[Event], way: usize, dice: &mut Dice) -> Files {
    let mut files = before.clone();
    for (index, event) in events.iter().enumerate() {
        if let Event::Write(file, offset, bytes) = event {
            let flushed = |event: &Event| matches!(event, Event::Flush(other) if other == file);
            let way = match events[index..].iter().any(flushed) {
                true => 1,
                false => way,
            };
            land(&mut files, *file, *offset, bytes, way, dice);
        }
    }
    files
}

/// Looks at every state that a cut can leave. When the command has ended all that it
/// wrote is on the medium.
fn cut_everywhere(folder: &Folder, before: &Files, events: &[Event], mut look: impl FnMut(&Files)) {
    let mut dice = Dice(1);
    let end = after_cut(before, events, 0, &mut dice);
    assert!(end == files(folder), "something was not flushed");
    for cut in 0..=events.len() {
        for way in 0..WAYS {
            look(&after_cut(before, &events[..cut], way, &mut dice));
        }
    }
}

/// The verdict and the plaintext of a sector; none if it has none.
fn sector(files: &Files, number: usize) -> Option<(Verdict, Vec<u8>)> {
    let [local, tags, remote] = files;
    let side = |image: &[u8]| image[4096 + number * 512..][..512].to_vec();
    let (volume, address) = (5 + number as u64 / 16, number as u64 % 16);
    let tag = &tags[4096 + number * 16..][..16];
    let mut plaintext = vec![0; 512];
    let (local, remote) = (side(local), side(remote));
    let verdict = judge(&KEY, volume, address, &local, tag, &remote, &mut plaintext);
    verdict.ok().map(|verdict| (verdict, plaintext))
}

fn plaintext(files: &Files, number: usize) -> Option<Vec<u8>> {
    sector(files, number).map(|(_, plaintext)| plaintext)
}

/// A disk with data, and with one damaged place in some sectors.
fn damaged_disk() -> (Folder, Vec<u8>) {
    let folder = Folder::with_disk();
    let data = noise(SECTORS * 512);
    let run = folder.run_with_input("write", &["sector=0"], &data);
    assert_eq!(run.status, 0, "{run:?}");
    for (name, sector) in [
        ("local", 11),
        ("tags", 12),
        ("remote", 13),
        ("tags", 20),
        ("local", 39),
    ] {
        folder.damage_place(name, sector);
    }
    (folder, data)
}

#[test]
fn a_cut_in_a_write_leaves_the_old_data_or_the_new() {
    let (folder, old) = damaged_disk();
    let (before, new) = (files(&folder), vec![9; 20 * 512]);
    let (run, events) = recorded(&folder, &["write", "sector=10"], &new);
    assert_eq!(run.status, 0, "{run:?}");
    cut_everywhere(&folder, &before, &events, |files| {
        for number in 0..SECTORS {
            let found = plaintext(files, number).expect("no sector is lost");
            let is_new = (10..30).contains(&number) && found == new[..512];
            assert!(
                is_new || found == old[number * 512..][..512],
                "sector {number}"
            );
        }
    });
}

#[test]
fn a_cut_while_a_lost_sector_is_given_up_leaves_it_lost_or_new() {
    let (folder, old) = damaged_disk();
    folder.damage_place("local", 12);
    let (before, new) = (files(&folder), vec![9; 20 * 512]);
    let words = ["write", "sector=10", "overwrite-lost=true"];
    let (run, events) = recorded(&folder, &words, &new);
    assert_eq!(run.status, 0, "{run:?}");
    cut_everywhere(&folder, &before, &events, |files| {
        // Never the zeros of a blank, which would be taken for data.
        assert!(plaintext(files, 12).is_none_or(|found| found == new[..512]));
        for number in (0..SECTORS).filter(|&number| number != 12) {
            let found = plaintext(files, number).expect("no other sector is lost");
            let is_new = (10..30).contains(&number) && found == new[..512];
            assert!(
                is_new || found == old[number * 512..][..512],
                "sector {number}"
            );
        }
    });
}

#[test]
fn a_cut_in_a_mend_leaves_the_data() {
    let (folder, old) = damaged_disk();
    let before = files(&folder);
    let (run, events) = recorded(&folder, &["mend"], b"");
    assert_eq!(run.status, 0, "{run:?}");
    cut_everywhere(&folder, &before, &events, |files| {
        for number in 0..SECTORS {
            let found = plaintext(files, number).expect("no sector is lost");
            assert_eq!(found, old[number * 512..][..512], "sector {number}");
        }
    });
}

#[test]
fn a_mend_writes_the_damaged_places_alone() {
    let (folder, _) = damaged_disk();
    let (_, events) = recorded(&folder, &["mend"], b"");
    let mut written = Vec::new();
    for event in &events {
        if let Event::Write(file, offset, bytes) = event {
            let sector = (offset - 4096) / bytes.len();
            written.push((NAMES[*file], sector));
        }
    }
    let due = [
        ("local", 11),
        ("tags", 12),
        ("remote", 13),
        ("tags", 20),
        ("local", 39),
    ];
    assert_eq!(written, due);
    assert!(matches!(events.last(), Some(Event::Flush(_))));
}

#[test]
fn a_superblock_is_written_when_all_sectors_are() {
    let folder = Folder::new();
    let words = ["create", "size=20480", "sector=512", "part=16", "number=5"];
    let (run, events) = recorded(&folder, &words, b"");
    assert_eq!(run.status, 0, "{run:?}");
    let mut seen = [false; 2];
    let none = NAMES.map(|_| Vec::new());
    cut_everywhere(&folder, &none, &events, |files| {
        let has_superblock = files.iter().any(|file| file.starts_with(b"DCMIRROR"));
        seen[usize::from(has_superblock)] = true;
        if has_superblock {
            for number in 0..SECTORS {
                let due = Some((Verdict::Whole, vec![0; 512]));
                assert_eq!(sector(files, number), due, "sector {number}");
            }
        }
    });
    assert_eq!(seen, [true; 2]);
}

/// After a kill the kernel may hold what is not on the medium.
#[test]
fn files_are_flushed_before_anything_else() {
    let (folder, _) = damaged_disk();
    let flushed = |events: &[Event]| {
        let first = events.iter().take(3).map(|event| match event {
            Event::Flush(file) => *file,
            Event::Write(..) => panic!("a write comes before the flush"),
        });
        first.collect::<Vec<_>>() == [0, 1, 2]
    };
    for words in [&["status"][..], &["read", "sector=11"]] {
        let (_, events) = recorded(&folder, words, b"");
        assert!(flushed(&events) && events.len() == 3, "{events:?}");
    }
    let (_, events) = recorded(&folder, &["mend"], b"");
    assert!(flushed(&events));
}
