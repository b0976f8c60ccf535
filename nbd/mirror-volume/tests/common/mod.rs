//! A folder with a disk's files, and the tool run on them.

// Not each of the tests uses all of it.
#![allow(dead_code)]

use std::fmt;
use std::fs::{self, OpenOptions};
use std::io::Write;
use std::os::unix::fs::{FileExt, OpenOptionsExt};
use std::path::PathBuf;
use std::process::{Command, Output, Stdio};
use std::sync::atomic::{AtomicU32, Ordering};

pub const TOOL: &str = env!("CARGO_BIN_EXE_mirror-volume");

/// The bytes of a superblock.
pub const FRONT: u64 = 4096;

/// A folder of its own, removed at the end.
pub struct Folder(pub PathBuf);

impl Folder {
    /// A folder with a key.
    pub fn new() -> Folder {
        static COUNT: AtomicU32 = AtomicU32::new(0);
        let count = COUNT.fetch_add(1, Ordering::Relaxed);
        let name = format!("mirror-volume-{}-{count}", std::process::id());
        let folder = Folder(std::env::temp_dir().join(name));
        fs::create_dir(&folder.0).unwrap();
        folder.put("key", &[7; 32]);
        folder
    }

    /// A folder with a disk of 40 sectors of 512 bytes in three parts.
    pub fn with_disk() -> Folder {
        let folder = Folder::new();
        folder.create(&["size=20480", "sector=512", "part=16", "number=5"]);
        folder
    }

    pub fn create(&self, parameters: &[&str]) {
        let run = self.run("create", parameters);
        assert_eq!(run.status, 0, "{}", run.errors);
    }

    pub fn path(&self, name: &str) -> PathBuf {
        self.0.join(name)
    }

    /// Makes or overwrites a file, for its owner alone.
    pub fn put(&self, name: &str, bytes: &[u8]) {
        let mut options = OpenOptions::new();
        options.write(true).create(true).truncate(true).mode(0o600);
        let mut file = options.open(self.path(name)).unwrap();
        file.write_all(bytes).unwrap();
    }

    pub fn bytes(&self, name: &str) -> Vec<u8> {
        fs::read(self.path(name)).unwrap()
    }

    /// Changes a byte of a file.
    pub fn damage(&self, name: &str, at: u64) {
        let mut options = OpenOptions::new();
        let file = options.read(true).write(true).open(self.path(name));
        let file = file.unwrap();
        let mut byte = [0];
        file.read_exact_at(&mut byte, at).unwrap();
        file.write_all_at(&[byte[0] ^ 1], at).unwrap();
    }

    /// Changes a byte of a place of a sector of 512 bytes.
    pub fn damage_place(&self, name: &str, sector: u64) {
        let place_bytes = if name == "tags" { 16 } else { 512 };
        self.damage(name, FRONT + sector * place_bytes + 3);
    }

    /// Runs a command on the disk.
    pub fn run(&self, command: &str, parameters: &[&str]) -> Run {
        self.run_with_input(command, parameters, b"")
    }

    pub fn run_with_input(&self, command: &str, parameters: &[&str], input: &[u8]) -> Run {
        let disk = ["local=local", "tags=tags", "remote=remote", "key=key"];
        let mut words = vec![command];
        for word in disk {
            // A parameter that is given takes the place of the usual one.
            let name = word.split_once('=').unwrap().0;
            let is_given = |other: &&str| other.split_once('=').is_some_and(|(n, _)| n == name);
            if !parameters.iter().any(is_given) {
                words.push(word);
            }
        }
        words.extend(parameters);
        self.run_words(&words, input)
    }

    /// Runs a command on the disk's files on a medium that is watched and can fail, as
    /// medium.c says.
    pub fn run_on_medium(&self, words: &[&str], input: &[u8], wishes: &[(&str, &str)]) -> Run {
        let source = concat!(env!("CARGO_MANIFEST_DIR"), "/tests/medium.c");
        let library = self.path("medium.so");
        let mut compiler = Command::new("cc");
        compiler.args(["-shared", "-fPIC", "-o"]).arg(&library);
        let compiled = run(compiler.args([source, "-ldl"]), b"");
        assert_eq!(compiled.status, 0, "{compiled:?}");
        let mut tool = Command::new(TOOL);
        tool.args(words).current_dir(&self.0);
        tool.args(["local=local", "tags=tags", "remote=remote", "key=key"]);
        tool.env("LD_PRELOAD", library).envs(wishes.iter().copied());
        run(&mut tool, input)
    }

    pub fn run_words(&self, words: &[&str], input: &[u8]) -> Run {
        let mut tool = Command::new(TOOL);
        tool.args(words).current_dir(&self.0);
        run(&mut tool, input)
    }

    /// The status, which changes nothing: its exit status, and its text.
    pub fn status(&self) -> Run {
        self.run("status", &[])
    }

    pub fn names(&self) -> Vec<String> {
        let entries = fs::read_dir(&self.0).unwrap();
        let names = entries.map(|entry| entry.unwrap().file_name().into_string().unwrap());
        let mut names: Vec<String> = names.collect();
        names.sort();
        names
    }
}

impl Drop for Folder {
    fn drop(&mut self) {
        let _ = fs::remove_dir_all(&self.0);
    }
}

/// What a run has given.
pub struct Run {
    pub status: i32,
    pub bytes: Vec<u8>,
    pub text: String,
    pub errors: String,
}

impl fmt::Debug for Run {
    fn fmt(&self, f: &mut fmt::Formatter<'_>) -> fmt::Result {
        let Run {
            status,
            text,
            errors,
            ..
        } = self;
        write!(
            f,
            "a run of status {status} with the output {text:?} and the errors {errors:?}"
        )
    }
}

impl Run {
    /// The run could not be done, and says so in one line with these words.
    #[track_caller]
    pub fn fails_with(&self, words: &[&str]) {
        assert_eq!(self.status, 3, "{self:?}");
        assert!(self.text.is_empty(), "{self:?}");
        assert_eq!(self.errors.lines().count(), 1, "{self:?}");
        assert!(self.errors.starts_with("mirror-volume: "), "{self:?}");
        for word in words {
            assert!(self.errors.contains(word), "{word:?} is not in {self:?}");
        }
    }

    /// The run ended with a status, and printed lines with these words.
    #[track_caller]
    pub fn ends_with(&self, status: i32, words: &[&str]) {
        assert_eq!(self.status, status, "{self:?}");
        for word in words {
            assert!(self.text.contains(word), "{word:?} is not in {self:?}");
        }
    }
}

pub fn run(command: &mut Command, input: &[u8]) -> Run {
    let command = command.stdin(Stdio::piped()).stdout(Stdio::piped());
    let mut child = command.stderr(Stdio::piped()).spawn().unwrap();
    // A command that does not read its input closes it: that is its own matter.
    let _ = child.stdin.take().unwrap().write_all(input);
    let Output {
        status,
        stdout,
        stderr,
    } = child.wait_with_output().unwrap();
    Run {
        status: status.code().expect("it was not killed"),
        text: String::from_utf8_lossy(&stdout).into_owned(),
        bytes: stdout,
        errors: String::from_utf8(stderr).unwrap(),
    }
}

/// Bytes that are no pattern.
pub fn noise(count: usize) -> Vec<u8> {
    let mut state = 1u64;
    let next = |_| {
        state = state
            .wrapping_mul(6_364_136_223_846_793_005)
            .wrapping_add(1);
        (state >> 56) as u8
    };
    (0..count).map(next).collect()
}
