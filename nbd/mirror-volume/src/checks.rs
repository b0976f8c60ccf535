//! What is looked at when files of a disk are opened, in the order of FORMAT.md.
//! Nothing is written here.

use std::io::{self, ErrorKind};
use std::os::unix::fs::{FileExt, MetadataExt};
use std::path::Path;

use crate::failure::Failure;
use crate::files::Member;
use crate::key::Key;
use crate::shape::SUPERBLOCK_BYTES;
use crate::superblock::{key_fits, Fault, Superblock};

type Bytes = [u8; SUPERBLOCK_BYTES];

/// A system call on an open file that failed.
fn of_looking(member: &Member, error: &io::Error) -> Failure {
    Failure::of_file("looking at", &member.path, error, "look at its device")
}

/// No two parameters name one file. Its second lock would say that it is in use.
pub fn are_different(members: &[Member]) -> Result<(), Failure> {
    let mut seen: Vec<((u64, u64), &Member)> = Vec::new();
    for member in members {
        let metadata = member.file.metadata();
        let metadata = metadata.map_err(|error| of_looking(member, &error))?;
        let identity = (metadata.dev(), metadata.ino());
        if let Some((_, other)) = seen.iter().find(|(known, _)| *known == identity) {
            return Err(Failure::new(
                format!(
                    "{}= and {}= name one file",
                    other.role.name(),
                    member.role.name()
                ),
                "give each of the disk's files once",
            ));
        }
        seen.push((identity, member));
    }
    Ok(())
}

/// The superblock that the files agree in, if all of it is right, their lengths
/// too, and the key is theirs.
pub fn superblock_of(
    members: &[Member],
    key: &Key,
    key_path: &Path,
) -> Result<Superblock, Failure> {
    let blocks = members.iter().map(read_superblock);
    let blocks = blocks.collect::<Result<Vec<Bytes>, Failure>>()?;
    let superblocks = identified(members, &blocks)?;
    let superblock = agreed(members, &superblocks)?;
    for member in members {
        check_length(member, &superblock)?;
    }
    check_key(members, &blocks, &superblock, key, key_path)?;
    Ok(superblock)
}

/// The bytes of a superblock; zeros, which are none, if the file is too short. A
/// device that does not give them may do so another time.
fn read_superblock(member: &Member) -> Result<Bytes, Failure> {
    let mut bytes = [0; SUPERBLOCK_BYTES];
    match member.file.read_exact_at(&mut bytes, 0) {
        Ok(()) => Ok(bytes),
        Err(error) if error.kind() == ErrorKind::UnexpectedEof => Ok([0; SUPERBLOCK_BYTES]),
        Err(error) => {
            let what_to_do = format!("look at its device; if it stays so, {}", replace_it(member));
            let doing = "reading the superblock of";
            Err(Failure::of_file(doing, &member.path, &error, &what_to_do))
        }
    }
}

/// What the superblocks say. Magic, CRC, version and role of all files come before
/// the numbers of any.
fn identified(members: &[Member], blocks: &[Bytes]) -> Result<Vec<Superblock>, Failure> {
    let faults: Vec<Option<Fault>> = members
        .iter()
        .zip(blocks)
        .map(|(member, bytes)| Superblock::check_role(bytes, member.role).err())
        .collect();
    for (member, fault) in members.iter().zip(&faults) {
        if let Some(fault) = fault {
            return Err(no_superblock(member, fault, &faults));
        }
    }
    let decode = |(member, bytes): (&Member, &Bytes)| {
        let decoded = Superblock::decode(bytes, member.role);
        decoded.map_err(|fault| no_superblock(member, &fault, &faults))
    };
    members.iter().zip(blocks).map(decode).collect()
}

/// The failure of a file whose superblock has a fault.
fn no_superblock(member: &Member, fault: &Fault, faults: &[Option<Fault>]) -> Failure {
    let path = member.path.display();
    let what_is_wrong = match fault {
        Fault::Magic => format!("{path} has no superblock"),
        Fault::Crc => format!("the superblock of {path} is damaged"),
        Fault::Version(version) => format!("{path} has version {version} of the format"),
        Fault::Role(role) => format!("{path} says that it has the role {role}"),
        Fault::OtherRole(found, uuid) => format!(
            "{path} is the {} file of the disk {uuid}, given as {}=",
            found.name(),
            member.role.name()
        ),
        Fault::Numbers(what) => format!("the superblock of {path} says {what}"),
    };
    let what_to_do = match fault {
        Fault::Magic | Fault::Crc => about_damage(member, faults),
        Fault::OtherRole(found, _) => format!("give it as {}=", found.name()),
        _ => "use the release that made it, or name the right file".to_string(),
    };
    Failure::new(what_is_wrong, what_to_do)
}

/// What to do about a damaged superblock depends on how many are: a damaged file is
/// made anew from two that are not, and only a create that was cut leaves none.
fn about_damage(member: &Member, faults: &[Option<Fault>]) -> String {
    let damaged = faults
        .iter()
        .filter(|fault| matches!(fault, Some(Fault::Magic | Fault::Crc)));
    if damaged.count() == 1 {
        return format!(
            "see that it is the disk's; if it is, {}",
            replace_it(member)
        );
    }
    let none_has_one = faults.iter().all(|fault| *fault == Some(Fault::Magic));
    let what_to_do = match none_has_one {
        true => {
            "nor have the others: see the names; if a create was cut and they never held data, \
             move them away and create again; if they have, remove nothing, and go by \
             docs/DISK.md, When something is wrong"
        }
        false => {
            "and another file has none either: if a create was cut and they never held data, \
             move them away and create again; if they have, remove nothing, for the sectors are \
             still there, and go by docs/DISK.md, When something is wrong"
        }
    };
    what_to_do.to_string()
}

fn replace_it(member: &Member) -> String {
    format!(
        "move it away and keep it, make a new one by `mirror-volume replace ... place={}`, and go \
         by what that says",
        member.role.name()
    )
}

/// The superblock that all files have. The odd one is named, if there is one.
fn agreed(members: &[Member], superblocks: &[Superblock]) -> Result<Superblock, Failure> {
    let first = superblocks[0];
    if superblocks.iter().all(|superblock| *superblock == first) {
        return Ok(first);
    }
    let is_odd = |index: &usize| {
        let others = (0..superblocks.len()).filter(|other| other != index);
        let others: Vec<&Superblock> = others.map(|other| &superblocks[other]).collect();
        others.len() > 1 && others.windows(2).all(|pair| pair[0] == pair[1])
    };
    let Some(odd) = (0..members.len()).find(is_odd) else {
        return Err(of_many_disks(members, superblocks));
    };
    let other = superblocks[(odd + 1) % superblocks.len()];
    let (path, uuid) = (members[odd].path.display(), superblocks[odd].uuid);
    let what_is_wrong = match uuid == other.uuid {
        false => format!(
            "{path} is of the disk {uuid}, the other two of {}",
            other.uuid
        ),
        true => format!("{path} has another size or number than the other two of its disk {uuid}"),
    };
    let what_to_do = format!("name the {} file of their disk", members[odd].role.name());
    Err(Failure::new(what_is_wrong, what_to_do))
}

fn of_many_disks(members: &[Member], superblocks: &[Superblock]) -> Failure {
    let each = members.iter().zip(superblocks);
    let each = each.map(|(member, superblock)| {
        format!(
            "{} is of the disk {}",
            member.path.display(),
            superblock.uuid
        )
    });
    let what_is_wrong = each.collect::<Vec<_>>().join(", ");
    Failure::new(what_is_wrong, "name files of one disk")
}

fn check_length(member: &Member, superblock: &Superblock) -> Result<(), Failure> {
    let metadata = member.file.metadata();
    let length = metadata.map_err(|error| of_looking(member, &error))?.len();
    let due = superblock.shape.file_bytes(member.role);
    if length == due {
        return Ok(());
    }
    let path = member.path.display();
    let what_to_do = match length < due {
        true => format!("if it was cut, lengthen it by `truncate -s {due} {path}`, and then mend"),
        false => format!(
            "if nothing in the bytes behind is needed, shorten it by `truncate -s {due} {path}`"
        ),
    };
    let what_is_wrong = format!("{path} has {length} bytes and must have {due}");
    Err(Failure::new(what_is_wrong, what_to_do))
}

/// The key check of each file. If it holds for none, the key is another one; if it
/// holds for some, the key is right.
fn check_key(
    members: &[Member],
    blocks: &[Bytes],
    superblock: &Superblock,
    key: &Key,
    key_path: &Path,
) -> Result<(), Failure> {
    let mut unfit = Vec::new();
    for (member, bytes) in members.iter().zip(blocks) {
        if !key_fits(bytes, member.role, superblock.shape.first_number, key)? {
            unfit.push(member);
        }
    }
    match unfit.first() {
        None => Ok(()),
        Some(_) if unfit.len() == members.len() => Err(Failure::new(
            format!(
                "{} is not the key of the disk {}",
                key_path.display(),
                superblock.uuid
            ),
            "name the file of the disk's key",
        )),
        Some(member) => Err(Failure::new(
            format!(
                "the key check in the superblock of {} does not hold, and the key is right",
                member.path.display()
            ),
            replace_it(member),
        )),
    }
}
