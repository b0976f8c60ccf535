//! A disk: its three files, its superblock and its key.

use std::path::Path;

use crate::args::Arguments;
use crate::checks;
use crate::failure::{note, Failure};
use crate::files::{Access, Member};
use crate::key::{self, Key};
use crate::shape::{Role, Shape};
use crate::size::grouped;
use crate::superblock::Superblock;

pub struct Disk {
    pub superblock: Superblock,
    pub key: Key,
    /// The files, by their roles.
    pub members: [Member; 3],
}

impl Disk {
    /// Opens the disk that the parameters name, if its files pass all checks. Then
    /// flushes them: after a kill the kernel may hold what is not on the medium yet,
    /// and a call counts as finished only when it is.
    pub fn open(arguments: &Arguments, access: Access) -> Result<Disk, Failure> {
        let paths = arguments.disk_paths()?;
        let key_path = arguments.path("key")?;
        let key = key::load(&key_path)?;
        let members = open_members(Role::ALL.map(|role| (role, &paths[role.index()])), access)?;
        let superblock = checks::superblock_of(&members, &key, &key_path)?;
        let disk = Disk {
            superblock,
            key,
            members,
        };
        disk.flush()?;
        Ok(disk)
    }

    pub fn shape(&self) -> &Shape {
        &self.superblock.shape
    }

    pub fn member(&self, role: Role) -> &Member {
        &self.members[role.index()]
    }

    /// Waits until all that was written to the three files is on the medium.
    pub fn flush(&self) -> Result<(), Failure> {
        self.members.iter().try_for_each(Member::flush)
    }

    /// Tells of places that could not be read.
    pub fn note_unreadable(&self, unreadable: [u64; 3]) {
        for (member, count) in self.members.iter().zip(unreadable) {
            if count > 0 {
                note(&format!(
                    "places of {} that could not be read, and count as damaged: {}: look at its \
                     device",
                    member.path.display(),
                    grouped(count)
                ));
            }
        }
    }
}

/// Opens and locks files of a disk: all three, or the two beside one that is gone.
pub fn open_members<const N: usize>(
    files: [(Role, impl AsRef<Path>); N],
    access: Access,
) -> Result<[Member; N], Failure> {
    let mut members = Vec::new();
    for (role, path) in files {
        members.push(Member::open(role, path.as_ref(), access)?);
    }
    checks::are_different(&members)?;
    members.iter().try_for_each(|member| member.lock(access))?;
    Ok(members.try_into().expect("a member for each file"))
}
