//! The file of a picture, replaced in one step.

use std::fs::{self, OpenOptions};
use std::io::Write;
use std::os::unix::fs::MetadataExt;
use std::path::{Path, PathBuf};

use crate::disk::Disk;
use crate::failure::Failure;
use crate::files;

/// A picture never takes the place of the disk's own files or of its key.
pub fn check_target(path: &Path, disk: &Disk, key: &Path) -> Result<(), Failure> {
    let identity = |path: &Path| {
        let metadata = fs::metadata(path).ok()?;
        Some((metadata.dev(), metadata.ino()))
    };
    let Some(target) = identity(path) else {
        return Ok(());
    };
    let mut own = disk.members.iter().map(|member| member.path.as_path());
    if own.any(|own| identity(own) == Some(target)) || identity(key) == Some(target) {
        let what_is_wrong = format!("{} is a file of the disk, or its key", path.display());
        return Err(Failure::new(
            what_is_wrong,
            "name another file for the picture",
        ));
    }
    Ok(())
}

/// Writes a picture beside the file, and then gives it the file's name.
pub fn replace(path: &Path, picture: &str) -> Result<(), Failure> {
    let beside = beside(path);
    let written = write_new(&beside, picture).and_then(|()| fs::rename(&beside, path));
    written.map_err(|error| {
        files::remove(&beside);
        Failure::of_file(
            "writing the picture",
            path,
            &error,
            "name a file that can be written",
        )
    })
}

fn beside(path: &Path) -> PathBuf {
    let mut name = path.file_name().unwrap_or_default().to_owned();
    name.push(format!(".{}.new", std::process::id()));
    path.with_file_name(name)
}

fn write_new(path: &Path, picture: &str) -> std::io::Result<()> {
    let mut file = OpenOptions::new().write(true).create_new(true).open(path)?;
    file.write_all(picture.as_bytes())?;
    file.sync_all()
}
