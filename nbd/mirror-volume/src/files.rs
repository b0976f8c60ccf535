//! The three files: made, read, written and flushed.

use std::fs::{self, File, OpenOptions, TryLockError};
use std::io::{self, ErrorKind};
use std::os::unix::fs::{FileExt, OpenOptionsExt};
use std::path::{Path, PathBuf};

use crate::failure::Failure;
use crate::shape::Role;

/// What a read takes at once.
const CHUNK_BYTES: usize = 1 << 20;

/// A file of the disk, open.
#[derive(Debug)]
pub struct Member {
    pub role: Role,
    pub path: PathBuf,
    pub file: File,
}

impl Member {
    /// Makes a new file, which nobody else can read, and locks it. One that is there
    /// is left alone.
    pub fn create(role: Role, path: &Path) -> Result<Member, Failure> {
        let mut options = OpenOptions::new();
        options.read(true).write(true).create_new(true).mode(0o600);
        let file = options.open(path).map_err(|error| match error.kind() {
            ErrorKind::AlreadyExists => exists(path),
            _ => Failure::of_file("making", path, &error, "see the folder and its permissions"),
        })?;
        let path = path.to_path_buf();
        let member = Member { role, path, file };
        if let Err(failure) = member.lock(Access::Write) {
            remove(&member.path);
            return Err(failure);
        }
        Ok(member)
    }

    /// Opens a file that is there.
    pub fn open(role: Role, path: &Path, access: Access) -> Result<Member, Failure> {
        // Looked at before, since opening a pipe would wait for its writer.
        if fs::metadata(path).is_ok_and(|metadata| !metadata.is_file()) {
            let what_is_wrong = format!("{} is no regular file", path.display());
            return Err(Failure::new(what_is_wrong, "name a file of a disk"));
        }
        let mut options = OpenOptions::new();
        options.read(true).write(access == Access::Write);
        let file = options.open(path).map_err(|error| match error.kind() {
            ErrorKind::NotFound => gone(role, path),
            _ => Failure::of_file("opening", path, &error, "see its permissions"),
        })?;
        let path = path.to_path_buf();
        Ok(Member { role, path, file })
    }

    /// Takes the lock, which keeps others off the disk until this process ends.
    pub fn lock(&self, access: Access) -> Result<(), Failure> {
        let locked = match access {
            Access::Read => self.file.try_lock_shared(),
            Access::Write => self.file.try_lock(),
        };
        locked.map_err(|error| match error {
            TryLockError::WouldBlock => Failure::new(
                format!("{} is in use by another program", self.path.display()),
                "end that program (nbdkit, another mirror-volume), or wait for its end",
            ),
            TryLockError::Error(error) => Failure::of_file(
                "locking",
                &self.path,
                &error,
                "use a file system with flock",
            ),
        })
    }

    pub fn write(&self, bytes: &[u8], offset: u64) -> Result<(), Failure> {
        let written = self.file.write_all_at(bytes, offset);
        written.map_err(|error| Failure::of_writing("writing to", &self.path, &error))
    }

    /// Waits until all that was written is on the medium.
    pub fn flush(&self) -> Result<(), Failure> {
        let flushed = self.file.sync_all();
        flushed.map_err(|error| Failure::of_writing("flushing", &self.path, &error))
    }

    /// Loads places, each of so many bytes, and gives how many could not be read:
    /// these are lent as zeros, so that they are judged as damaged.
    pub fn load(&self, places: &mut [u8], place_bytes: usize, offset: u64) -> u64 {
        let step = (CHUNK_BYTES / place_bytes).max(1) * place_bytes;
        let mut unreadable = 0;
        for (index, chunk) in places.chunks_mut(step).enumerate() {
            let offset = offset + (index * step) as u64;
            if self.file.read_exact_at(chunk, offset).is_err() {
                unreadable += self.load_one_by_one(chunk, place_bytes, offset);
            }
        }
        unreadable
    }

    fn load_one_by_one(&self, places: &mut [u8], place_bytes: usize, offset: u64) -> u64 {
        let mut unreadable = 0;
        for (index, place) in places.chunks_mut(place_bytes).enumerate() {
            let offset = offset + (index * place_bytes) as u64;
            if self.file.read_exact_at(place, offset).is_err() {
                place.fill(0);
                unreadable += 1;
            }
        }
        unreadable
    }
}

/// What a command does to the disk, which decides on the lock.
#[derive(Clone, Copy, Debug, PartialEq, Eq)]
pub enum Access {
    Read,
    Write,
}

/// The failure of a file that was to be made and is there.
pub fn exists(path: &Path) -> Failure {
    Failure::new(
        format!("{} exists, and nothing was made", path.display()),
        "name a file that is not there, or move this one away",
    )
}

fn gone(role: Role, path: &Path) -> Failure {
    let name = role.name();
    Failure::new(
        format!("there is no file {}, given as {name}=", path.display()),
        format!(
            "name the disk's; if it is gone, make a new one by `mirror-volume replace ... \
             place={name}`, and mend"
        ),
    )
}

/// Whether there is anything by that name, be it a link to nothing.
pub fn is_there(path: &Path) -> bool {
    !matches!(fs::symlink_metadata(path), Err(error) if error.kind() == ErrorKind::NotFound)
}

/// Removes a file that this run has made.
pub fn remove(path: &Path) {
    // What was wrong before is told; that this failed too would hide it.
    let _ = fs::remove_file(path);
}

/// Flushes the folder that has a file's name.
pub fn flush_folder(path: &Path) -> Result<(), Failure> {
    let folder = folder_of(path);
    let flushed = File::open(folder).and_then(|folder| folder.sync_all());
    flushed.map_err(|error| Failure::of_writing("flushing the folder", folder, &error))
}

fn folder_of(path: &Path) -> &Path {
    match path.parent() {
        Some(folder) if !folder.as_os_str().is_empty() => folder,
        _ => Path::new("."),
    }
}

/// Random bytes of the system.
pub fn random_bytes() -> Result<[u8; 16], Failure> {
    let mut bytes = [0; 16];
    let path = Path::new("/dev/urandom");
    let read = File::open(path).and_then(|mut file| io::Read::read_exact(&mut file, &mut bytes));
    let what_to_do = "see that the system has random numbers";
    read.map_err(|error| Failure::of_file("reading", path, &error, what_to_do))?;
    Ok(bytes)
}

#[cfg(test)]
mod tests {
    use super::*;

    #[test]
    fn what_cannot_be_read_is_lent_as_zeros() {
        let path = std::env::temp_dir().join(format!("mirror-volume-load-{}", std::process::id()));
        let member = Member::create(Role::Tags, &path).unwrap();
        member.write(&[7; 100 + 40], 0).unwrap();
        remove(&path);
        let mut places = [9; 64];
        assert_eq!(member.load(&mut places, 16, 100), 2);
        assert_eq!(places[..32], [7; 32]);
        assert_eq!(places[32..], [0; 32]);
        assert_eq!(member.load(&mut places, 16, 76), 0);
        assert_eq!(places, [7; 64]);
    }
}
