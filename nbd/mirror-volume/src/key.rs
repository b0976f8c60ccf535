//! The key's file.

use std::fs::{self, File};
use std::io::{ErrorKind, Read};
use std::os::unix::fs::MetadataExt;
use std::path::Path;

use mirror::KEY_BYTES;

use crate::failure::{note, Failure};

pub type Key = [u8; KEY_BYTES];

/// The bytes of the hash key, with which a key begins.
const HASH_KEY_BYTES: usize = 16;

/// Loads a key, and warns if others can read it.
pub fn load(path: &Path) -> Result<Key, Failure> {
    // Looked at before, since opening a pipe would wait for its writer.
    if fs::metadata(path).is_ok_and(|metadata| !metadata.is_file()) {
        let what_is_wrong = format!("{} is no regular file", path.display());
        return Err(Failure::new(
            what_is_wrong,
            "name the file of the disk's key",
        ));
    }
    let mut file = File::open(path).map_err(|error| match error.kind() {
        ErrorKind::NotFound => Failure::new(
            format!("there is no key file {}", path.display()),
            format!(
                "name the disk's; for a new disk {}",
                how_to_make(&path.display().to_string())
            ),
        ),
        _ => Failure::of_file("opening the key file", path, &error, "see its permissions"),
    })?;
    let mut bytes = Vec::new();
    let most = KEY_BYTES as u64 + 1;
    let read = file.by_ref().take(most).read_to_end(&mut bytes);
    read.map_err(|error| Failure::of_file("reading the key file", path, &error, "name a file"))?;
    warn_if_open(&file, path);
    checked(&bytes, path)
}

fn checked(bytes: &[u8], path: &Path) -> Result<Key, Failure> {
    let Ok(key) = Key::try_from(bytes) else {
        let length = match bytes.len() {
            fewer if fewer < KEY_BYTES => format!("{fewer} bytes"),
            _ => format!("more than {KEY_BYTES} bytes"),
        };
        return Err(Failure::new(
            format!("the key file {} has {length}", path.display()),
            format!(
                "a key has exactly {KEY_BYTES}: name the disk's; for a new disk {}",
                how_to_make("FILE")
            ),
        ));
    };
    if key[..HASH_KEY_BYTES].iter().all(|&byte| byte == 0) {
        return Err(Failure::new(
            format!(
                "the key file {} begins with {HASH_KEY_BYTES} zeros, a zero hash key",
                path.display()
            ),
            format!(
                "no disk has such a key; for a new one {}",
                how_to_make("FILE")
            ),
        ));
    }
    Ok(key)
}

fn how_to_make(file: &str) -> String {
    format!("make one by (umask 077; head -c {KEY_BYTES} /dev/urandom > {file})")
}

fn warn_if_open(file: &File, path: &Path) {
    let open = file
        .metadata()
        .is_ok_and(|metadata| metadata.is_file() && metadata.mode() & 0o044 != 0);
    if open {
        let path = path.display();
        note(&format!(
            "warning: group or others can read the key file {path}: chmod 600 {path}"
        ));
    }
}
