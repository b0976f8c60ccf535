//! Each command, run as an operator runs it.

mod common;

use std::fs::{self, File};
use std::os::unix::fs::{symlink, PermissionsExt};
use std::process::{Command, Stdio};

use common::{noise, run, Folder, FRONT, TOOL};

#[test]
fn create_makes_the_files_of_the_format() {
    let folder = Folder::with_disk();
    for (name, bytes) in [("local", 40 * 512), ("tags", 40 * 16), ("remote", 40 * 512)] {
        let metadata = fs::metadata(folder.path(name)).unwrap();
        assert_eq!(metadata.len(), FRONT + bytes, "{name}");
        assert_eq!(metadata.permissions().mode() & 0o777, 0o600, "{name}");
    }
    let (local, tags) = (folder.bytes("local"), folder.bytes("tags"));
    assert_eq!(local[..8], *b"DCMIRROR");
    // Sector 17 is sector 1 of the second part, whose number is 6.
    let (mut side, mut tag, mut other) = ([0; 512], [0; 16], [0; 512]);
    mirror::seal(&[7; 32], 6, 1, &[0; 512], &mut side, &mut tag, &mut other).unwrap();
    assert_eq!(local[4096 + 17 * 512..][..512], side);
    assert_eq!(tags[4096 + 17 * 16..][..16], tag);
    assert_eq!(folder.bytes("remote")[4096 + 17 * 512..][..512], other);
    let run = folder.status();
    assert_eq!(run.errors, "", "a bar is for a terminal");
    run.ends_with(
        0,
        &[
            "20,480 bytes, 20 KiB",
            "3 of 16 sectors, with the numbers 5 to 7",
            "whole     40\n",
            "health    1,000 of 1,000",
        ],
    );
}

#[test]
fn two_disks_have_two_uuids() {
    let (one, other) = (Folder::with_disk(), Folder::with_disk());
    assert_ne!(one.bytes("local")[16..32], other.bytes("local")[16..32]);
    assert_eq!(one.bytes("local")[16..32], one.bytes("remote")[16..32]);
}

#[test]
fn create_never_overwrites() {
    for name in ["local", "tags", "remote"] {
        let folder = Folder::new();
        folder.put(name, b"precious");
        let run = folder.run("create", &["size=20480", "sector=512"]);
        run.fails_with(&[name, "exists"]);
        assert_eq!(folder.bytes(name), b"precious");
        assert_eq!(folder.names(), ["key", name]);
    }
    let folder = Folder::new();
    symlink("nowhere", folder.path("tags")).unwrap();
    folder
        .run("create", &["size=1M"])
        .fails_with(&["tags exists"]);
    assert_eq!(folder.names(), ["key", "tags"]);
}

#[test]
fn create_refuses_what_makes_no_disk() {
    let folder = Folder::new();
    for (parameters, words) in [
        (
            &["size=1000", "sector=512"][..],
            &["size=512 or size=1024"][..],
        ),
        (&["size=100", "sector=512"], &["give size=512\n"]),
        (&["size=0"], &["no sectors"]),
        (&["size=1K", "sector=24"], &["multiple of 16"]),
        (&["size=8K", "sector=8K"], &["multiple of 16"]),
        (&["size=1K", "sector=512", "part=0"], &["1 to 65536"]),
        (&["size=1K", "sector=512", "part=65537"], &["1 to 65536"]),
        (
            &[
                "size=32",
                "sector=16",
                "part=1",
                "number=18446744073709551615",
            ],
            &["2^64"],
        ),
        (&["size=many"], &["size=many"]),
        (&["sector=512"], &["size= is missing"]),
        (&["size=1M", "remote=local"], &["name one file"]),
        (&["size=1M", "remote=./local"], &["exists"]),
        (&["size=1M", "remote=none/remote"], &["none/remote"]),
        (&["size=1M", "colour=red"], &["colour=red"]),
    ] {
        folder.run("create", parameters).fails_with(words);
        assert_eq!(folder.names(), ["key"], "{parameters:?}");
    }
}

#[test]
fn a_create_that_fails_removes_its_files() {
    let folder = Folder::new();
    let run = limited(&folder, "create", "size=1M");
    run.fails_with(&["File too large", "removed"]);
    assert_eq!(folder.names(), ["key"]);
}

/// Runs a command that cannot write behind the first 16 KiB of a file.
fn limited(folder: &Folder, command: &str, parameter: &str) -> common::Run {
    let script = format!(
        "trap '' XFSZ; ulimit -f 16; \
         exec '{TOOL}' {command} local=local tags=tags remote=remote key=key {parameter}"
    );
    let mut bash = Command::new("bash");
    bash.args(["-c", &script]).current_dir(&folder.0);
    run(&mut bash, &noise(512))
}

#[test]
fn keys_are_checked() {
    let folder = Folder::with_disk();
    let status = |key: &str| folder.run("status", &[&format!("key={key}")]);
    status("none").fails_with(&["no key file none", "umask 077", "/dev/urandom > none"]);
    folder.put("short", &[7; 31]);
    status("short").fails_with(&["has 31 bytes"]);
    folder.put("long", &[7; 33]);
    status("long").fails_with(&["has more than 32 bytes"]);
    folder.put("zero", &[[0; 16], [7; 16]].concat());
    status("zero").fails_with(&["zero hash key"]);
    folder.put("other", &[8; 32]);
    status("other").fails_with(&["other is not the key of the disk"]);
}

#[test]
fn a_key_that_others_can_read_is_warned_of() {
    let folder = Folder::with_disk();
    let warns = |mode: u32| {
        fs::set_permissions(folder.path("key"), fs::Permissions::from_mode(mode)).unwrap();
        let run = folder.status();
        assert_eq!(run.status, 0);
        run.errors.contains("chmod 600 key")
    };
    assert!(!warns(0o600));
    assert!(warns(0o640));
    assert!(warns(0o604));
}

#[test]
fn damage_is_found_and_mended_in_each_place() {
    for (name, place) in [
        ("local", "the local sector"),
        ("tags", "the tag"),
        ("remote", "the remote sector"),
    ] {
        let folder = Folder::with_disk();
        let before = folder.bytes(name);
        for sector in [15, 16, 17, 39] {
            folder.damage_place(name, sector);
        }
        let lines = [
            format!("sectors 15 to 17: doubtful at {place}"),
            format!("sector 39: doubtful at {place}"),
        ];
        let run = folder.status();
        run.ends_with(1, &[&lines[0], &lines[1], "doubtful  4\n", "health    900"]);
        assert_ne!(folder.bytes(name), before, "the status mends nothing");
        let text = format!("4 at {place}");
        let run = folder.run("mend", &[]);
        run.ends_with(
            0,
            &["mended 4 sectors", &text, "the disk is whole: 40 sectors\n"],
        );
        assert_eq!(folder.bytes(name), before);
        assert_eq!(folder.status().status, 0);
        folder
            .run("mend", &[])
            .ends_with(0, &["nothing was to be mended"]);
    }
}

#[test]
fn two_damaged_places_lose_a_sector() {
    let folder = Folder::with_disk();
    folder.damage_place("local", 20);
    folder.damage_place("tags", 20);
    folder.damage_place("remote", 3);
    let run = folder.status();
    run.ends_with(
        2,
        &[
            "lost      1\n",
            "doubtful  1\n",
            "overwrite-lost=true",
            "Mend soon",
        ],
    );
    let (lost, doubtful) = (
        run.text.find("sector 20: lost"),
        run.text.find("sector 3: doubtful"),
    );
    assert!(lost.unwrap() < doubtful.unwrap(), "the lost come first");
    folder
        .run("mend", &[])
        .ends_with(2, &["mended 1 sector:", "sector 20: lost"]);
    folder
        .status()
        .ends_with(2, &["lost      1\n", "doubtful  0\n"]);
}

#[test]
fn where_nothing_is_whole_nothing_is_to_be_overwritten() {
    let folder = Folder::new();
    folder.create(&["size=1K", "sector=512"]);
    for sector in [0, 1] {
        folder.damage_place("local", sector);
        folder.damage_place("remote", sector);
    }
    let words = [
        "None of these sectors is whole",
        "overwrite nothing",
        "sectors 0 to 1: lost",
    ];
    folder.status().ends_with(2, &words);
}

#[test]
fn long_lists_are_cut() {
    let folder = Folder::new();
    folder.create(&["size=64K", "sector=512"]);
    for sector in (0..126).step_by(3) {
        folder.damage_place("remote", sector);
    }
    let run = folder.status();
    run.ends_with(1, &["  and 2 more\n", "sector 117: doubtful"]);
    assert!(!run.text.contains("sector 120: doubtful"));
}

#[test]
fn what_is_written_is_read() {
    let folder = Folder::with_disk();
    let data = noise(20 * 512);
    let run = folder.run_with_input("write", &["sector=10"], &data);
    run.ends_with(0, &["wrote 20 sectors from sector 10 on"]);
    assert_eq!(folder.run("read", &["sector=10", "count=20"]).bytes, data);
    assert_eq!(folder.run("read", &["sector=12"]).bytes, data[1024..1536]);
    let all = folder.run("read", &["sector=0", "count=40"]);
    let zeros = vec![0; 10 * 512];
    assert_eq!(
        (all.status, all.bytes),
        (0, [&zeros[..], &data, &zeros].concat())
    );
    folder.status().ends_with(0, &["whole     40\n"]);
}

#[test]
fn a_doubtful_sector_is_read_and_named_and_not_mended() {
    let folder = Folder::with_disk();
    let data = noise(3 * 512);
    folder.run_with_input("write", &["sector=7"], &data);
    folder.damage_place("remote", 8);
    let before = folder.bytes("remote");
    let run = folder.run("read", &["sector=7", "count=3"]);
    assert_eq!((run.status, &run.bytes), (1, &data));
    assert!(
        run.errors
            .contains("sector 8: doubtful at the remote sector"),
        "{run:?}"
    );
    assert_eq!(folder.bytes("remote"), before);
}

#[test]
fn reading_stops_before_a_lost_sector() {
    let folder = Folder::with_disk();
    let data = noise(6 * 512);
    folder.run_with_input("write", &["sector=14"], &data);
    folder.damage_place("local", 17);
    folder.damage_place("tags", 17);
    folder.damage_place("local", 19);
    // The last sectors are of the next part.
    let run = folder.run("read", &["sector=14", "count=20"]);
    assert_eq!((run.status, &run.bytes[..]), (2, &data[..3 * 512]));
    assert!(run.errors.contains("sector 17: lost"), "{run:?}");
    assert!(!run.errors.contains("sector 19"), "{run:?}");
}

#[test]
fn reads_outside_the_disk_are_refused() {
    let folder = Folder::with_disk();
    for parameters in [
        &["sector=40"][..],
        &["sector=39", "count=2"],
        &["sector=0", "count=0"],
        &["sector=18446744073709551615", "count=2"],
    ] {
        folder
            .run("read", parameters)
            .fails_with(&["40 sectors count from 0"]);
    }
    folder.run("read", &[]).fails_with(&["sector= is missing"]);
}

#[test]
fn a_closed_pipe_is_no_panic() {
    let folder = Folder::with_disk();
    for words in [
        &["read", "sector=0", "count=40"][..],
        &["status"],
        &["--help"],
    ] {
        let mut tool = Command::new(TOOL);
        tool.args(words).current_dir(&folder.0);
        tool.args(["local=local", "tags=tags", "remote=remote", "key=key"]);
        let (reader, writer) = std::io::pipe().unwrap();
        drop(reader);
        let output = tool.stdout(writer).stderr(Stdio::piped()).output().unwrap();
        let errors = String::from_utf8(output.stderr).unwrap();
        assert_eq!(output.status.code(), Some(3), "{errors}");
        assert!(errors.contains("standard output"), "{errors}");
        assert!(!errors.contains("panicked"), "{errors}");
    }
}

#[test]
fn input_that_does_not_fit_is_refused() {
    let folder = Folder::with_disk();
    let before = ["local", "tags", "remote"].map(|name| folder.bytes(name));
    for (sector, bytes, words) in [
        ("sector=0", 0, "empty"),
        ("sector=0", 100, "no whole number"),
        ("sector=0", 513, "no whole number"),
        ("sector=39", 1024, "more than the 512 bytes"),
        ("sector=0", 41 * 512, "more than"),
        ("sector=40", 512, "no sector 40"),
    ] {
        let run = folder.run_with_input("write", &[sector], &noise(bytes));
        run.fails_with(&[words, "nothing was written"]);
    }
    assert_eq!(
        before,
        ["local", "tags", "remote"].map(|name| folder.bytes(name))
    );
}

#[test]
fn a_write_mends_what_is_doubtful() {
    for name in ["local", "tags", "remote"] {
        let folder = Folder::with_disk();
        folder.run_with_input("write", &["sector=4"], &noise(3 * 512));
        folder.damage_place(name, 5);
        let run = folder.run_with_input("write", &["sector=5"], &[9; 512]);
        run.ends_with(0, &["doubtful, and mended: 1 sector\n"]);
        assert_eq!(folder.run("read", &["sector=5"]).bytes, [9; 512]);
        assert_eq!(
            folder.run("read", &["sector=6"]).bytes,
            noise(3 * 512)[1024..]
        );
        assert_eq!(folder.status().status, 0);
    }
}

#[test]
fn a_lost_sector_is_overwritten_only_if_asked() {
    let folder = Folder::with_disk();
    folder.damage_place("local", 18);
    folder.damage_place("remote", 18);
    let files = || ["local", "tags", "remote"].map(|name| folder.bytes(name));
    let (before, data) = (files(), noise(30 * 512));
    let run = folder.run_with_input("write", &["sector=2"], &data);
    assert_eq!(run.status, 2);
    assert!(run.errors.contains("sector 18: lost"), "{run:?}");
    assert!(run.errors.contains("overwrite-lost=true"), "{run:?}");
    assert!(before == files(), "nothing was to be written");
    let run = folder.run_with_input("write", &["sector=2", "overwrite-lost=true"], &data);
    run.ends_with(0, &["wrote 30 sectors", "lost, and given up: 1 sector\n"]);
    assert_eq!(folder.run("read", &["sector=2", "count=30"]).bytes, data);
    assert_eq!(folder.status().status, 0);
}

/// A key under which the hash is the sum of the blocks, so that plaintexts of one
/// tag are at hand.
fn weak_key() -> [u8; 32] {
    let weak = |bit: usize| {
        let mut key = [7; 32];
        key[..16].fill(0);
        key[bit / 8] = 1 << (bit % 8);
        key
    };
    let mut keys = (0..128).map(weak);
    keys.find(|key| seal(key, 1).1 == seal(key, 2).1).unwrap()
}

/// Sector 3 of a disk, whose plaintext is one byte in one of its blocks.
fn seal(key: &[u8; 32], block: usize) -> ([u8; 64], [u8; 16], [u8; 64]) {
    let (mut local, mut tag, mut remote) = ([0; 64], [0; 16], [0; 64]);
    let mut plaintext = [0; 64];
    plaintext[16 * block] = 42;
    mirror::seal(key, 0, 3, &plaintext, &mut local, &mut tag, &mut remote).unwrap();
    (local, tag, remote)
}

#[test]
fn a_clashing_sector_is_never_overwritten() {
    let folder = Folder::new();
    let key = weak_key();
    folder.put("key", &key);
    folder.create(&["size=512", "sector=64"]);
    let (one, other) = (seal(&key, 1), seal(&key, 2));
    for (name, place, at) in [
        ("local", &one.0[..], 4096 + 3 * 64),
        ("tags", &one.1, 4096 + 3 * 16),
        ("remote", &other.2, 4096 + 3 * 64),
    ] {
        let mut bytes = folder.bytes(name);
        bytes[at..at + place.len()].copy_from_slice(place);
        folder.put(name, &bytes);
    }
    let before = folder.bytes("local");
    folder
        .status()
        .ends_with(2, &["clashing  1\n", "sector 3: clashing", "OPERATORS.md"]);
    folder
        .run("mend", &[])
        .ends_with(2, &["sector 3: clashing"]);
    for parameters in [&["sector=2"][..], &["sector=2", "overwrite-lost=true"]] {
        let run = folder.run_with_input("write", parameters, &[9; 192]);
        assert_eq!(run.status, 2, "{run:?}");
        assert!(run.errors.contains("sector 3: clashing"), "{run:?}");
    }
    let run = folder.run("read", &["sector=2", "count=2"]);
    assert_eq!((run.status, run.bytes), (2, vec![0; 64]));
    assert_eq!(folder.bytes("local"), before);
}

#[test]
fn a_write_that_fails_is_told_as_a_power_cut() {
    let folder = Folder::new();
    folder.create(&["size=64K", "sector=512"]);
    let run = limited(&folder, "write", "sector=100");
    run.fails_with(&["File too large", "as after a power cut", "status"]);
    let run = limited(&folder, "write", "sector=3");
    run.ends_with(0, &["wrote 1 sector from"]);
    folder.damage_place("remote", 100);
    limited(&folder, "mend", "").fails_with(&["as after a power cut"]);
}

/// The place of sector 5 in the local file is a bad one. It shares a read with all
/// of its part.
const BAD_PLACE: (&str, &str) = ("FAIL_READ", "local 6756");

#[test]
fn a_place_that_cannot_be_read_is_a_damaged_one() {
    let folder = Folder::with_disk();
    let data = noise(40 * 512);
    folder.run_with_input("write", &["sector=0"], &data);
    let run = folder.run_on_medium(&["status"], b"", &[BAD_PLACE]);
    run.ends_with(
        1,
        &[
            "doubtful  1\n",
            "  sector 5: doubtful at the local sector\n",
        ],
    );
    let note = "places of local that could not be read, and count as damaged: 1:";
    assert!(run.errors.contains(note), "{run:?}");
    let run = folder.run_on_medium(&["status", "--json"], b"", &[BAD_PLACE]);
    run.ends_with(
        1,
        &["\"unreadable\": {\"local\": 1, \"tags\": 0, \"remote\": 0}"],
    );
    let run = folder.run_on_medium(&["read", "sector=0", "count=40"], b"", &[BAD_PLACE]);
    assert_eq!((run.status, &run.bytes), (1, &data));
    let run = folder.run_on_medium(&["mend"], b"", &[BAD_PLACE]);
    run.ends_with(0, &["mended 1 sector: 1 at the local sector"]);
    folder.damage_place("tags", 5);
    let run = folder.run_on_medium(&["read", "sector=4", "count=3"], b"", &[BAD_PLACE]);
    assert_eq!((run.status, &run.bytes[..]), (2, &data[4 * 512..][..512]));
}

#[test]
fn a_superblock_that_cannot_be_read_is_told() {
    let folder = Folder::with_disk();
    let run = folder.run_on_medium(&["status"], b"", &[("FAIL_READ", "tags 0")]);
    run.fails_with(&[
        "reading the superblock of tags failed",
        "look at its device",
    ]);
}

#[test]
fn a_flush_that_fails_ends_the_command() {
    let folder = Folder::with_disk();
    let flush = |words: &[&str], which| {
        let run = folder.run_on_medium(words, &[9; 512], &[("FAIL_FLUSH", which)]);
        run.fails_with(&["flushing", "as after a power cut"]);
    };
    flush(&["status"], "remote 1");
    flush(&["write", "sector=3"], "local 2");
    // The first stage is there, and no other.
    assert_eq!(folder.run("read", &["sector=3"]).bytes, [0; 512]);
    folder
        .status()
        .ends_with(1, &["sector 3: doubtful at the local sector"]);
    flush(&["mend"], "local 2");
    flush(&["write", "sector=3"], "tags 2");
    folder
        .status()
        .ends_with(1, &["sector 3: doubtful at the remote sector"]);
    assert_eq!(folder.run("read", &["sector=3"]).bytes, [9; 512]);
}

#[test]
fn swapped_files_are_told() {
    let folder = Folder::with_disk();
    let run = folder.run("status", &["local=remote", "remote=local"]);
    run.fails_with(&[
        "remote is the remote file of the disk",
        "given as local=: give it as remote=",
    ]);
    let run = folder.run("status", &["tags=local", "local=tags"]);
    run.fails_with(&["tags is the tags file", "given as local="]);
    folder
        .run("status", &["remote=local"])
        .fails_with(&["local= and remote= name one file"]);
}

#[test]
fn a_foreign_file_is_named() {
    let (folder, other) = (Folder::with_disk(), Folder::with_disk());
    for name in ["local", "tags", "remote"] {
        folder.put("foreign", &other.bytes(name));
        let run = folder.run("status", &[&format!("{name}=foreign")]);
        run.fails_with(&["foreign is of the disk", "the other two of"]);
        assert!(
            run.errors.contains(&format!("name the {name} file")),
            "{run:?}"
        );
    }
    let third = Folder::with_disk();
    folder.put("tags", &other.bytes("tags"));
    folder.put("remote", &third.bytes("remote"));
    folder
        .status()
        .fails_with(&["local is of", "tags is of", "remote is of", "one disk"]);
}

#[test]
fn a_file_cut_short_is_lengthened_and_mended() {
    for (name, length) in [("local", 4096 + 40 * 512), ("tags", 4096 + 40 * 16)] {
        let folder = Folder::with_disk();
        let before = folder.bytes(name);
        folder.put(name, &before[..before.len() - 20]);
        let (short, due) = (
            format!("has {} bytes", length - 20),
            format!("must have {length}"),
        );
        let command = format!("truncate -s {length} {name}");
        folder.status().fails_with(&[&short, &due, &command]);
        let mut truncate = Command::new("bash");
        truncate.args(["-c", &command]).current_dir(&folder.0);
        assert_eq!(run(&mut truncate, b"").status, 0);
        assert_eq!(folder.status().status, 1);
        assert_eq!(folder.run("mend", &[]).status, 0);
        assert_eq!(folder.bytes(name), before);
        folder.put(name, &[&before[..], b"more"].concat());
        folder.status().fails_with(&["shorten"]);
    }
}

#[test]
fn damaged_superblocks_are_told() {
    let folder = Folder::with_disk();
    let (local, tags) = (folder.bytes("local"), folder.bytes("tags"));
    folder.damage("tags", 60);
    let words = ["superblock of tags is damaged", "replace ... place=tags"];
    folder.status().fails_with(&words);
    folder.put("tags", &tags);
    folder.damage("tags", 4090);
    folder
        .status()
        .fails_with(&["key check in the superblock of tags", "place=tags"]);
    folder.put("tags", &tags);
    folder.damage("local", 0);
    folder
        .status()
        .fails_with(&["local has no superblock", "replace ... place=local"]);
    folder.put("local", b"short");
    folder
        .status()
        .fails_with(&["local has no superblock", "replace ... place=local"]);
    folder.damage("remote", 0);
    folder
        .status()
        .fails_with(&["local has no superblock", "remove nothing"]);
    folder.damage("tags", 0);
    folder
        .status()
        .fails_with(&["a create was cut", "remove nothing"]);
    folder.put("local", &local);
    folder
        .status()
        .fails_with(&["tags has no superblock", "remove nothing"]);
}

#[test]
fn what_is_no_file_is_refused() {
    let folder = Folder::with_disk();
    folder
        .run("status", &["local=none"])
        .fails_with(&["no file none", "place=local"]);
    folder
        .run("status", &["local=."])
        .fails_with(&["no regular file"]);
    folder
        .run("status", &["local=/dev/null"])
        .fails_with(&["no regular file"]);
}

#[test]
fn a_disk_in_use_is_left_alone() {
    let folder = Folder::with_disk();
    let holder = File::open(folder.path("remote")).unwrap();
    holder.lock().unwrap();
    for command in ["status", "mend"] {
        folder.run(command, &[]).fails_with(&["remote is in use"]);
    }
    folder.run("read", &["sector=0"]).fails_with(&["in use"]);
    holder.unlock().unwrap();
    holder.lock_shared().unwrap();
    assert_eq!(folder.status().status, 0);
    assert_eq!(folder.run("read", &["sector=0"]).status, 0);
    folder.run("mend", &[]).fails_with(&["in use"]);
    folder
        .run_with_input("write", &["sector=0"], &[1; 512])
        .fails_with(&["in use"]);
    fs::remove_file(folder.path("local")).unwrap();
    folder
        .run("replace", &["place=local"])
        .fails_with(&["in use"]);
    holder.unlock().unwrap();
    folder
        .run("replace", &["place=local"])
        .ends_with(0, &["mend"]);
}

#[test]
fn a_file_that_is_gone_is_replaced_and_mended() {
    for name in ["local", "tags", "remote"] {
        let folder = Folder::with_disk();
        folder.run_with_input("write", &["sector=0"], &noise(40 * 512));
        let before = folder.bytes(name);
        let place = format!("place={name}");
        folder
            .run("replace", &[&place])
            .fails_with(&["is there", "move this one away"]);
        assert_eq!(folder.bytes(name), before);
        fs::remove_file(folder.path(name)).unwrap();
        folder.status().fails_with(&["no file", &place]);
        folder
            .run("replace", &[&place])
            .ends_with(0, &["mirror-volume mend"]);
        let mode = fs::metadata(folder.path(name))
            .unwrap()
            .permissions()
            .mode();
        assert_eq!(mode & 0o777, 0o600);
        let run = folder.status();
        run.ends_with(1, &["doubtful  40\n", "sectors 0 to 39: doubtful"]);
        assert!(
            !run.text.contains("None of these sectors is whole"),
            "the data is there"
        );
        folder.run("mend", &[]).ends_with(0, &["mended 40 sectors"]);
        assert_eq!(folder.bytes(name), before);
        assert_eq!(
            folder.run("read", &["sector=0", "count=40"]).bytes,
            noise(40 * 512)
        );
    }
}

#[test]
fn a_file_is_replaced_from_two_sound_ones_only() {
    let folder = Folder::with_disk();
    fs::remove_file(folder.path("local")).unwrap();
    folder
        .run("replace", &[])
        .fails_with(&["place= is missing"]);
    folder
        .run("replace", &["place=tag"])
        .fails_with(&["place=tag is no file"]);
    folder.put("other", &[8; 32]);
    folder
        .run("replace", &["place=local", "key=other"])
        .fails_with(&["not the key"]);
    let tags = folder.bytes("tags");
    folder.put("tags", &Folder::with_disk().bytes("tags"));
    folder
        .run("replace", &["place=local"])
        .fails_with(&["name files of one disk"]);
    folder.put("tags", &tags);
    fs::remove_file(folder.path("remote")).unwrap();
    folder
        .run("replace", &["place=local"])
        .fails_with(&["no file remote either"]);
    assert_eq!(folder.names(), ["key", "other", "tags"]);
}

#[test]
fn the_picture_shows_what_is_not_whole() {
    let folder = Folder::with_disk();
    folder.damage_place("tags", 16);
    folder.damage_place("remote", 16);
    folder.damage_place("remote", 39);
    folder.put("map.svg", b"old");
    let run = folder.run("status", &["--svg", "map.svg"]);
    run.ends_with(2, &["sector 16: lost"]);
    let svg = String::from_utf8(folder.bytes("map.svg")).unwrap();
    assert!(svg.starts_with("<svg ") && svg.ends_with("</svg>\n"));
    assert!(svg.contains("<use href=\"#lost\" x=\"192\" y=\"0\"><title>sector 16: 1 lost</title>"));
    assert!(svg.contains("<title>sector 39: 1 doubtful</title>"));
    for text in [
        "whole: 38<",
        "doubtful: 1<",
        "clashing: 0<",
        "lost: 1<",
        "health 950 of",
    ] {
        assert!(svg.contains(text), "{text}");
    }
    assert_eq!(
        folder.names(),
        ["key", "local", "map.svg", "remote", "tags"]
    );
}

#[test]
fn a_picture_takes_no_place_of_the_disk() {
    let folder = Folder::with_disk();
    symlink("tags", folder.path("link")).unwrap();
    for name in ["local", "./remote", "link", "key"] {
        let before = folder.bytes(name);
        let run = folder.run("status", &["--svg", name]);
        run.fails_with(&["is a file of the disk, or its key"]);
        assert_eq!(folder.bytes(name), before);
    }
    let run = folder.run("status", &["--svg", "none/map.svg"]);
    run.fails_with(&["writing the picture none/map.svg"]);
    folder
        .run("status", &["--svg"])
        .fails_with(&["--svg has no value"]);
}

/// What is behind one JSON value, if the text begins with one.
fn behind_json(text: &str) -> Option<&str> {
    let text = text.trim_start();
    match text.chars().next()? {
        '{' => behind_members(&text[1..], '}', |text| {
            let text = behind_json(text.trim_start().strip_prefix('"').map(|_| text)?)?;
            behind_json(text.trim_start().strip_prefix(':')?)
        }),
        '[' => behind_members(&text[1..], ']', behind_json),
        '"' => text[1..].split_once('"').map(|(_, behind)| behind),
        'n' => text.strip_prefix("null"),
        _ => {
            let digits = text.trim_start_matches(|c: char| c.is_ascii_digit());
            (digits.len() < text.len()).then_some(digits)
        }
    }
}

fn behind_members(text: &str, end: char, behind_one: fn(&str) -> Option<&str>) -> Option<&str> {
    if let Some(behind) = text.trim_start().strip_prefix(end) {
        return Some(behind);
    }
    let mut text = behind_one(text)?.trim_start();
    while let Some(behind) = text.strip_prefix(',') {
        text = behind_one(behind)?.trim_start();
    }
    text.strip_prefix(end)
}

#[test]
fn the_json_is_one_object() {
    let folder = Folder::with_disk();
    let whole = folder.run("status", &["--json"]);
    whole.ends_with(0, &["\"health\": 1000,", "\"runs\": []"]);
    for name in ["local", "tags"] {
        folder.damage_place(name, 20);
    }
    folder.damage_place("remote", 30);
    folder.damage_place("remote", 31);
    let run = folder.run("status", &["--json"]);
    run.ends_with(
        2,
        &[
            "\"sectors\": 40,",
            "\"last_number\": 7,",
            "\"whole\": 37,",
            "\"health\": 925,",
            "{\"first\": 20, \"last\": 20, \"verdict\": \"lost\", \"place\": null}, \
             {\"first\": 30, \"last\": 31, \"verdict\": \"doubtful\", \"place\": \"remote\"}",
        ],
    );
    for text in [whole.text, run.text] {
        assert_eq!(behind_json(&text), Some("\n"), "{text}");
        assert_eq!(behind_json(&text[..text.len() - 2]), None);
    }
}

#[test]
fn help_and_wrong_words() {
    let folder = Folder::new();
    let help = folder.run_words(&["--help"], b"");
    help.ends_with(0, &["mirror-volume create", "Exit status"]);
    for command in ["create", "status", "mend", "read", "write", "replace"] {
        let usage = format!("mirror-volume {command} ");
        let run = folder.run_words(&[command, "--help"], b"");
        run.ends_with(0, &[&usage]);
        assert_ne!(run.text, help.text);
    }
    folder
        .run_words(&["create", "--help"], b"")
        .ends_with(0, &["do not\nmeet"]);
    folder
        .run_words(&["--version"], b"")
        .ends_with(0, &["mirror-volume 0.1.0", "libmirror 0.8.0"]);
    folder.run_words(&[], b"").fails_with(&["no command"]);
    folder
        .run_words(&["destroy"], b"")
        .fails_with(&["\"destroy\" is no command"]);
    folder
        .run_words(&["status", "key=key"], b"")
        .fails_with(&["local= is missing"]);
    folder
        .run_words(&["mend", "--json"], b"")
        .fails_with(&["--json"]);
}
