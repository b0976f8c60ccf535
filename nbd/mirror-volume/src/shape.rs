//! The shape of a disk: its sectors, its parts, and where their places are.

use std::iter;
use std::ops::Range;

use crate::size::{grouped, sectors};
use mirror::{SECTOR_BYTES_MAX, SECTOR_BYTES_MIN, TAG_BYTES, VOLUME_SECTORS_MAX};

/// The bytes of a superblock, which each file begins with.
pub const SUPERBLOCK_BYTES: usize = 4096;

/// A file of the disk: the one of the local sectors, the tags or the remote
/// sectors.
#[derive(Clone, Copy, Debug, PartialEq, Eq)]
pub enum Role {
    Local,
    Tags,
    Remote,
}

impl Role {
    /// All roles, each at its number.
    pub const ALL: [Role; 3] = [Role::Local, Role::Tags, Role::Remote];

    pub fn number(self) -> u32 {
        self as u32
    }

    pub fn index(self) -> usize {
        self as usize
    }

    /// The name of the parameter that gives the file.
    pub fn name(self) -> &'static str {
        match self {
            Role::Local => "local",
            Role::Tags => "tags",
            Role::Remote => "remote",
        }
    }
}

impl From<mirror::Place> for Role {
    fn from(place: mirror::Place) -> Role {
        match place {
            mirror::Place::Local => Role::Local,
            mirror::Place::Tag => Role::Tags,
            mirror::Place::Remote => Role::Remote,
        }
    }
}

/// The numbers that say how a disk is laid out. A disk is a row of parts, each a
/// volume of the library.
#[derive(Clone, Copy, Debug, PartialEq, Eq)]
pub struct Shape {
    /// The bytes of a sector.
    pub sector_bytes: usize,
    /// The sectors of each part but the last.
    pub part_sectors: u64,
    /// The sectors of the disk.
    pub sectors: u64,
    /// The volume's number of the first part.
    pub first_number: u64,
}

impl Shape {
    /// What is wrong with the numbers, if they make no disk. The other functions
    /// are for a shape that this has accepted.
    pub fn fault(&self) -> Option<String> {
        if !is_sector_size(self.sector_bytes) {
            return Some(format!(
                "a sector of {} bytes: it has a multiple of 16 from {SECTOR_BYTES_MIN} to \
                 {SECTOR_BYTES_MAX}",
                self.sector_bytes
            ));
        }
        if !(1..=VOLUME_SECTORS_MAX as u64).contains(&self.part_sectors) {
            return Some(format!(
                "a part of {} sectors: it has 1 to {VOLUME_SECTORS_MAX}",
                self.part_sectors
            ));
        }
        if self.sectors == 0 {
            return Some("a disk of no sectors: it has 1 or more".to_string());
        }
        self.fault_of_extent()
    }

    /// What is too large: files have 2^63 - 1 bytes at most, and the count of parts
    /// is stored in 32 bits.
    fn fault_of_extent(&self) -> Option<String> {
        let longest = u128::from(self.sectors) * self.sector_bytes.max(TAG_BYTES) as u128
            + SUPERBLOCK_BYTES as u128;
        if longest > i64::MAX as u128 {
            return Some(format!(
                "{} sectors: a file has 2^63 - 1 bytes at most",
                self.sectors
            ));
        }
        if self.parts() > u64::from(u32::MAX) {
            return Some(format!(
                "{} parts: a disk has {} at most",
                grouped(self.parts()),
                grouped(u32::MAX.into())
            ));
        }
        if self.first_number.checked_add(self.parts() - 1).is_none() {
            return Some(format!(
                "the first number {} for {} parts: the last one's number would be above 2^64 - 1",
                self.first_number,
                self.parts()
            ));
        }
        None
    }

    /// How many parts there are.
    pub fn parts(&self) -> u64 {
        self.sectors.div_ceil(self.part_sectors)
    }

    /// How many parts there are, and their numbers, in words.
    pub fn parts_in_words(&self) -> String {
        let (parts, first) = (self.parts(), self.first_number);
        match parts {
            1 => format!("1, with the number {first}"),
            _ => format!(
                "{} of {}, with the numbers {first} to {}",
                grouped(parts),
                sectors(self.part_sectors),
                self.number_of(parts - 1)
            ),
        }
    }

    /// The bytes of the disk.
    pub fn bytes(&self) -> u64 {
        self.sectors * self.sector_bytes as u64
    }

    /// How many sectors a part has.
    pub fn sectors_of(&self, part: u64) -> usize {
        let before = part * self.part_sectors;
        (self.sectors - before).min(self.part_sectors) as usize
    }

    /// The volume's number of a part.
    pub fn number_of(&self, part: u64) -> u64 {
        self.first_number + part
    }

    /// The part that a sector of the disk is in, and its number there.
    pub fn part_of(&self, sector: u64) -> (u64, usize) {
        let part = sector / self.part_sectors;
        (part, (sector % self.part_sectors) as usize)
    }

    /// The number in the disk of a part's sector.
    pub fn sector_of(&self, part: u64, number: usize) -> u64 {
        part * self.part_sectors + number as u64
    }

    /// Sectors of the disk in batches, each in one part: the part, and numbers there.
    pub fn batches(
        &self,
        sectors: Range<u64>,
        most: usize,
    ) -> impl Iterator<Item = (u64, Range<usize>)> + use<'_> {
        let mut next = sectors.start;
        iter::from_fn(move || {
            if next >= sectors.end {
                return None;
            }
            let (part, first) = self.part_of(next);
            let in_part = self.sectors_of(part) - first;
            let count = (sectors.end - next).min(in_part.min(most) as u64);
            next += count;
            Some((part, first..first + count as usize))
        })
    }

    /// The bytes of a sector's place in a file.
    pub fn place_bytes(&self, role: Role) -> usize {
        match role {
            Role::Local | Role::Remote => self.sector_bytes,
            Role::Tags => TAG_BYTES,
        }
    }

    /// Where a sector's place begins in a file.
    pub fn offset(&self, role: Role, sector: u64) -> u64 {
        SUPERBLOCK_BYTES as u64 + sector * self.place_bytes(role) as u64
    }

    /// The bytes of a file.
    pub fn file_bytes(&self, role: Role) -> u64 {
        self.offset(role, self.sectors)
    }
}

pub fn is_sector_size(bytes: usize) -> bool {
    bytes.is_multiple_of(16) && (SECTOR_BYTES_MIN..=SECTOR_BYTES_MAX).contains(&bytes)
}

#[cfg(test)]
mod tests {
    use super::*;

    const SHAPE: Shape = Shape {
        sector_bytes: 512,
        part_sectors: 16,
        sectors: 40,
        first_number: 7,
    };

    #[test]
    fn parts_divide_the_sectors() {
        assert_eq!(SHAPE.fault(), None);
        assert_eq!(SHAPE.parts(), 3);
        assert_eq!([0, 1, 2].map(|part| SHAPE.sectors_of(part)), [16, 16, 8]);
        assert_eq!(SHAPE.part_of(15), (0, 15));
        assert_eq!(SHAPE.part_of(16), (1, 0));
        assert_eq!(SHAPE.sector_of(2, 7), 39);
        assert_eq!(SHAPE.number_of(2), 9);
    }

    #[test]
    fn batches_end_with_their_part() {
        let batches = |sectors, most| SHAPE.batches(sectors, most).collect::<Vec<_>>();
        assert_eq!(
            batches(3..37, 10),
            [(0, 3..13), (0, 13..16), (1, 0..10), (1, 10..16), (2, 0..5)]
        );
        assert_eq!(batches(0..40, 100), [(0, 0..16), (1, 0..16), (2, 0..8)]);
        assert_eq!(batches(5..5, 10), []);
    }

    #[test]
    fn files_have_their_lengths() {
        assert_eq!(SHAPE.file_bytes(Role::Local), 4096 + 40 * 512);
        assert_eq!(SHAPE.file_bytes(Role::Tags), 4096 + 40 * 16);
        assert_eq!(SHAPE.offset(Role::Tags, 3), 4096 + 48);
        assert_eq!(SHAPE.offset(Role::Remote, 3), 4096 + 1536);
    }

    #[test]
    fn what_makes_no_disk_is_found() {
        let faulty = |change: fn(&mut Shape)| {
            let mut shape = SHAPE;
            change(&mut shape);
            shape.fault().is_some()
        };
        assert!(faulty(|shape| shape.sector_bytes = 0));
        assert!(faulty(|shape| shape.sector_bytes = 24));
        assert!(faulty(|shape| shape.sector_bytes = 4112));
        assert!(faulty(|shape| shape.part_sectors = 0));
        assert!(faulty(|shape| shape.part_sectors = 65_537));
        assert!(faulty(|shape| shape.sectors = 0));
        assert!(faulty(|shape| shape.sectors = u64::MAX));
        assert!(faulty(|shape| shape.sectors = 1 << 37));
        assert!(faulty(|shape| shape.first_number = u64::MAX - 1));
        assert!(!faulty(|shape| shape.first_number = u64::MAX - 2));
    }
}
