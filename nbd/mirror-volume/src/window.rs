//! A part of the disk in memory.

use std::ops::Range;

use mirror::{map_words, Volume};

use crate::disk::Disk;
use crate::failure::Failure;
use crate::shape::Role;
use crate::size::grouped;

/// The files that were written since the last flush.
#[derive(Clone, Copy, Debug, Default)]
pub struct Touched([bool; 3]);

impl Touched {
    pub fn add(&mut self, role: Role) {
        self.0[role.index()] = true;
    }
}

/// Whether so many bytes can be had: `vec!` would end the process.
fn is_there_memory(bytes: usize) -> Result<(), Failure> {
    let tried = Vec::<u8>::new().try_reserve_exact(bytes);
    tried.map_err(|_| {
        Failure::new(
            format!(
                "there is no memory for a part, {} bytes",
                grouped(bytes as u64)
            ),
            "give more (ulimit -v), or make disks with a smaller part=",
        )
    })
}

/// The images of one part, a volume of the library. They are as long as the part;
/// what was never touched is zeros that take no memory. So a window in which few
/// sectors are loaded is small.
pub struct Window<'d> {
    disk: &'d Disk,
    part: u64,
    pub volume: Volume<'d, Vec<u8>, Vec<u64>>,
    /// How many places could not be read, by their roles.
    pub unreadable: [u64; 3],
}

impl<'d> Window<'d> {
    /// A window to a part, with nothing loaded.
    pub fn new(disk: &'d Disk, part: u64) -> Result<Window<'d>, Failure> {
        let shape = disk.shape();
        let count = shape.sectors_of(part);
        let bytes = Role::ALL.map(|role| count * shape.place_bytes(role));
        is_there_memory(bytes.iter().sum())?;
        let [local, tags, remote] = bytes.map(|bytes| vec![0; bytes]);
        let mut volume = Volume::new(
            &disk.key[..],
            shape.number_of(part),
            shape.sector_bytes,
            count,
            local,
            tags,
            remote,
            vec![0; map_words(count)],
        );
        volume.start_map()?;
        Ok(Window {
            disk,
            part,
            volume,
            unreadable: [0; 3],
        })
    }

    /// The disk's number of a sector of the part.
    pub fn sector_of(&self, number: usize) -> u64 {
        self.disk.shape().sector_of(self.part, number)
    }

    /// Loads all sectors of the part.
    pub fn load_all(&mut self) {
        self.load(0..self.volume.count());
    }

    /// Loads sectors from the files. A place that cannot be read is a damaged place.
    pub fn load(&mut self, numbers: Range<usize>) {
        for role in Role::ALL {
            let bytes = self.bytes_of(role, &numbers);
            let offset = self.offset_of(role, numbers.start);
            let image = match role {
                Role::Local => self.volume.local_mut(),
                Role::Tags => self.volume.tags_mut(),
                Role::Remote => self.volume.remote_mut(),
            };
            let place_bytes = self.disk.shape().place_bytes(role);
            let member = self.disk.member(role);
            let unreadable = member.load(&mut image[bytes], place_bytes, offset);
            self.unreadable[role.index()] += unreadable;
        }
    }

    /// Writes the places of sectors out, in one write. A tag never crosses a unit of
    /// the medium, so it goes out whole.
    pub fn write_out(&self, role: Role, numbers: Range<usize>) -> Result<(), Failure> {
        let image = match role {
            Role::Local => self.volume.local(),
            Role::Tags => self.volume.tags(),
            Role::Remote => self.volume.remote(),
        };
        let bytes = &image[self.bytes_of(role, &numbers)];
        let offset = self.offset_of(role, numbers.start);
        self.disk.member(role).write(bytes, offset)
    }

    /// Waits until what was written to these files is on the medium.
    pub fn flush(&self, touched: Touched) -> Result<(), Failure> {
        let mut roles = Role::ALL.into_iter();
        roles.try_for_each(|role| match touched.0[role.index()] {
            true => self.disk.member(role).flush(),
            false => Ok(()),
        })
    }

    fn bytes_of(&self, role: Role, numbers: &Range<usize>) -> Range<usize> {
        let place_bytes = self.disk.shape().place_bytes(role);
        numbers.start * place_bytes..numbers.end * place_bytes
    }

    fn offset_of(&self, role: Role, number: usize) -> u64 {
        let sector = self.sector_of(number);
        self.disk.shape().offset(role, sector)
    }
}
