//! `replace`: makes a file anew that is gone, or whose superblock is damaged.

use crate::args::{missing, Accepted, Arguments};
use crate::checks;
use crate::disk::open_members;
use crate::failure::Failure;
use crate::files::{self, Access, Member};
use crate::key::{self, Key};
use crate::output::{self, Outcome};
use crate::shape::Role;
use crate::superblock::Superblock;

pub const ACCEPTED: Accepted = Accepted {
    parameters: &["local", "tags", "remote", "key", "place"],
    with_value: &[],
    flags: &[],
};

pub fn run(arguments: &Arguments) -> Result<Outcome, Failure> {
    let role = role_of(arguments)?;
    let paths = arguments.disk_paths()?;
    let key_path = arguments.path("key")?;
    let key = key::load(&key_path)?;
    let path = &paths[role.index()];
    if files::is_there(path) {
        let what_is_wrong = format!("{} is there", path.display());
        let what_to_do = "a file is replaced that is gone: move this one away first, and keep it \
                          until the disk is mended";
        return Err(Failure::new(what_is_wrong, what_to_do));
    }
    let others = others_of(role).map(|other| (other, &paths[other.index()]));
    if let Some((_, other)) = others.iter().find(|(_, other)| !files::is_there(other)) {
        let what_is_wrong = format!("there is no file {} either", other.display());
        let what_to_do = "a file is made from the other two: find one of them";
        return Err(Failure::new(what_is_wrong, what_to_do));
    }
    let members = open_members(others, Access::Write)?;
    let superblock = checks::superblock_of(&members, &key, &key_path)?;
    members.iter().try_for_each(Member::flush)?;
    let member = Member::create(role, path)?;
    if let Err(failure) = fill(&member, &superblock, &key) {
        files::remove(path);
        return Err(Failure::of_making(failure));
    }
    output::report(&made(&member));
    Ok(Outcome::Whole)
}

fn role_of(arguments: &Arguments) -> Result<Role, Failure> {
    let values = "local, place=tags or place=remote";
    let name = arguments.text("place");
    let name = name.ok_or_else(|| missing("place", values))?;
    let role = Role::ALL.into_iter().find(|role| role.name() == name);
    role.ok_or_else(|| {
        let what_to_do = format!("give place={values}");
        Failure::new(format!("place={name} is no file of a disk"), what_to_do)
    })
}

fn others_of(role: Role) -> [Role; 2] {
    match role {
        Role::Local => [Role::Tags, Role::Remote],
        Role::Tags => [Role::Local, Role::Remote],
        Role::Remote => [Role::Local, Role::Tags],
    }
}

/// Zeros, and then the superblock: a file that has it has its length.
fn fill(member: &Member, superblock: &Superblock, key: &Key) -> Result<(), Failure> {
    let length = superblock.shape.file_bytes(member.role);
    let lengthened = member.file.set_len(length);
    lengthened.map_err(|error| Failure::of_writing("lengthening", &member.path, &error))?;
    member.flush()?;
    member.write(&superblock.encode(member.role, key)?, 0)?;
    member.flush()?;
    files::flush_folder(&member.path)
}

fn made(member: &Member) -> String {
    let (path, name) = (member.path.display(), member.role.name());
    format!(
        "made the {name} file {path}: all its places are zeros, and so every sector is doubtful\n\
         what to do:\n  \
         If the file of before can be read, put its places behind the new superblock:\n  \
         `dd if=BEFORE of={path} bs=4096 skip=1 seek=1 conv=notrunc`.\n  \
         Then mend: `mirror-volume mend ...`.\n"
    )
}
