//! The superblock of a file, as FORMAT.md has it.

use std::fmt;

use mirror::{seal, Refusal, KEY_BYTES, TAG_BYTES};

use crate::shape::{Role, Shape, SUPERBLOCK_BYTES};

const MAGIC: &[u8; 8] = b"DCMIRROR";

/// The version of the format that is written and known here.
const VERSION: u32 = 1;

/// Where the CRC stands: it is of all bytes before it.
const CRC_AT: usize = 4076;

/// Where the key check stands: it is of all bytes before it.
const CHECK_AT: usize = 4080;

/// The number that a disk's three files share.
#[derive(Clone, Copy, Debug, PartialEq, Eq)]
pub struct Uuid(pub [u8; 16]);

impl Uuid {
    /// A UUID of version 4 from 16 random bytes.
    pub fn from_random(mut bytes: [u8; 16]) -> Uuid {
        bytes[6] = bytes[6] & 0x0f | 0x40;
        bytes[8] = bytes[8] & 0x3f | 0x80;
        Uuid(bytes)
    }
}

impl fmt::Display for Uuid {
    fn fmt(&self, f: &mut fmt::Formatter<'_>) -> fmt::Result {
        for (place, byte) in self.0.iter().enumerate() {
            if [4, 6, 8, 10].contains(&place) {
                f.write_str("-")?;
            }
            write!(f, "{byte:02x}")?;
        }
        Ok(())
    }
}

/// What a disk's three superblocks agree in.
#[derive(Clone, Copy, Debug, PartialEq, Eq)]
pub struct Superblock {
    pub uuid: Uuid,
    pub shape: Shape,
}

/// Why bytes are no superblock of a file, in the order in which it is looked for.
#[derive(Debug, PartialEq, Eq)]
pub enum Fault {
    Magic,
    Crc,
    Version(u32),
    /// A role that there is not.
    Role(u32),
    /// It is of another file, of this disk or of another.
    OtherRole(Role, Uuid),
    Numbers(String),
}

impl Superblock {
    /// The bytes of the superblock of one file.
    pub fn encode(
        &self,
        role: Role,
        key: &[u8; KEY_BYTES],
    ) -> Result<[u8; SUPERBLOCK_BYTES], Refusal> {
        let mut bytes = self.encode_without_check(role);
        let check = key_check(&bytes, role, self.shape.first_number, key)?;
        bytes[CHECK_AT..].copy_from_slice(&check);
        Ok(bytes)
    }

    fn encode_without_check(&self, role: Role) -> [u8; SUPERBLOCK_BYTES] {
        let mut bytes = [0; SUPERBLOCK_BYTES];
        let mut put = |at: usize, field: &[u8]| bytes[at..at + field.len()].copy_from_slice(field);
        let shape = &self.shape;
        put(0, MAGIC);
        put(8, &VERSION.to_le_bytes());
        put(12, &role.number().to_le_bytes());
        put(16, &self.uuid.0);
        put(32, &(shape.sector_bytes as u32).to_le_bytes());
        put(36, &(shape.part_sectors as u32).to_le_bytes());
        put(40, &shape.sectors.to_le_bytes());
        put(48, &(shape.parts() as u32).to_le_bytes());
        put(56, &shape.first_number.to_le_bytes());
        let crc = crc32(&bytes[..CRC_AT]);
        bytes[CRC_AT..CHECK_AT].copy_from_slice(&crc.to_le_bytes());
        bytes
    }

    /// Whether the bytes are a superblock of a file of that role.
    pub fn check_role(bytes: &[u8; SUPERBLOCK_BYTES], role: Role) -> Result<(), Fault> {
        if &bytes[..8] != MAGIC {
            return Err(Fault::Magic);
        }
        if u32_at(bytes, CRC_AT) != crc32(&bytes[..CRC_AT]) {
            return Err(Fault::Crc);
        }
        match u32_at(bytes, 8) {
            VERSION => {}
            other => return Err(Fault::Version(other)),
        }
        let number = u32_at(bytes, 12);
        let found = Role::ALL.into_iter().find(|role| role.number() == number);
        match found {
            None => Err(Fault::Role(number)),
            Some(found) if found != role => Err(Fault::OtherRole(found, uuid_of(bytes))),
            Some(_) => Ok(()),
        }
    }

    /// What the bytes say of the disk. The key check is not looked at.
    pub fn decode(bytes: &[u8; SUPERBLOCK_BYTES], role: Role) -> Result<Superblock, Fault> {
        Superblock::check_role(bytes, role)?;
        let superblock = Superblock {
            uuid: uuid_of(bytes),
            shape: decode_shape(bytes)?,
        };
        if superblock.encode_without_check(role)[..CHECK_AT] != bytes[..CHECK_AT] {
            let fault = "something in bytes that the format leaves zero";
            return Err(Fault::Numbers(fault.to_string()));
        }
        Ok(superblock)
    }
}

fn uuid_of(bytes: &[u8; SUPERBLOCK_BYTES]) -> Uuid {
    let mut uuid = Uuid([0; 16]);
    uuid.0.copy_from_slice(&bytes[16..32]);
    uuid
}

fn decode_shape(bytes: &[u8; SUPERBLOCK_BYTES]) -> Result<Shape, Fault> {
    let shape = Shape {
        sector_bytes: u32_at(bytes, 32) as usize,
        part_sectors: u32_at(bytes, 36).into(),
        sectors: u64_at(bytes, 40),
        first_number: u64_at(bytes, 56),
    };
    if let Some(fault) = shape.fault() {
        return Err(Fault::Numbers(fault));
    }
    let parts = u32_at(bytes, 48);
    if u64::from(parts) != shape.parts() {
        let fault = format!("{parts} parts, where {} are due", shape.parts());
        return Err(Fault::Numbers(fault));
    }
    Ok(shape)
}

/// The key check: the tag of the bytes before it, at an address that no sector has.
pub fn key_check(
    bytes: &[u8; SUPERBLOCK_BYTES],
    role: Role,
    first_number: u64,
    key: &[u8; KEY_BYTES],
) -> Result<[u8; TAG_BYTES], Refusal> {
    let mut tag = [0; TAG_BYTES];
    let (mut local, mut remote) = ([0; CHECK_AT], [0; CHECK_AT]);
    let address = u64::MAX - u64::from(role.number());
    seal(
        key,
        first_number,
        address,
        &bytes[..CHECK_AT],
        &mut local,
        &mut tag,
        &mut remote,
    )?;
    Ok(tag)
}

/// Whether the key check in the bytes is the one that the key gives.
pub fn key_fits(
    bytes: &[u8; SUPERBLOCK_BYTES],
    role: Role,
    first_number: u64,
    key: &[u8; KEY_BYTES],
) -> Result<bool, Refusal> {
    Ok(bytes[CHECK_AT..] == key_check(bytes, role, first_number, key)?)
}

fn u32_at(bytes: &[u8; SUPERBLOCK_BYTES], at: usize) -> u32 {
    let mut field = [0; 4];
    field.copy_from_slice(&bytes[at..at + 4]);
    u32::from_le_bytes(field)
}

fn u64_at(bytes: &[u8; SUPERBLOCK_BYTES], at: usize) -> u64 {
    let mut field = [0; 8];
    field.copy_from_slice(&bytes[at..at + 8]);
    u64::from_le_bytes(field)
}

/// The CRC-32 of gzip.
fn crc32(bytes: &[u8]) -> u32 {
    let step = |crc: u32| match crc & 1 {
        0 => crc >> 1,
        _ => crc >> 1 ^ 0xedb8_8320,
    };
    !bytes.iter().fold(!0, |crc, byte| {
        (0..8).fold(crc ^ u32::from(*byte), |crc, _| step(crc))
    })
}

#[cfg(test)]
mod tests {
    use super::*;

    const KEY: [u8; KEY_BYTES] = [7; KEY_BYTES];

    const SUPERBLOCK: Superblock = Superblock {
        uuid: Uuid([
            0x10, 0x11, 0x12, 0x13, 0x14, 0x15, 0x16, 0x17, 0x18, 0x19, 0x1a, 0x1b, 0x1c, 0x1d,
            0x1e, 0x1f,
        ]),
        shape: Shape {
            sector_bytes: 512,
            part_sectors: 16,
            sectors: 40,
            first_number: 0x0102_0304_0506_0708,
        },
    };

    /// Of the remote file, written by hand from the table; the CRC is zlib's.
    const FRONT: [u8; 64] = [
        0x44, 0x43, 0x4d, 0x49, 0x52, 0x52, 0x4f, 0x52, // DCMIRROR
        0x01, 0x00, 0x00, 0x00, 0x02, 0x00, 0x00, 0x00, // version, role
        0x10, 0x11, 0x12, 0x13, 0x14, 0x15, 0x16, 0x17, // UUID
        0x18, 0x19, 0x1a, 0x1b, 0x1c, 0x1d, 0x1e, 0x1f, //
        0x00, 0x02, 0x00, 0x00, 0x10, 0x00, 0x00, 0x00, // s, part sectors
        0x28, 0x00, 0x00, 0x00, 0x00, 0x00, 0x00, 0x00, // sectors
        0x03, 0x00, 0x00, 0x00, 0x00, 0x00, 0x00, 0x00, // parts
        0x08, 0x07, 0x06, 0x05, 0x04, 0x03, 0x02, 0x01, // first number
    ];
    const CRC: [u8; 4] = [0x5b, 0x4a, 0x3b, 0xad];

    #[test]
    fn the_crc_is_that_of_gzip() {
        assert_eq!(crc32(b"123456789"), 0xcbf4_3926);
        assert_eq!(crc32(b""), 0);
    }

    #[test]
    fn the_bytes_are_those_of_the_format() {
        let bytes = SUPERBLOCK.encode(Role::Remote, &KEY).unwrap();
        assert_eq!(bytes[..64], FRONT);
        assert!(bytes[64..4076].iter().all(|&byte| byte == 0));
        assert_eq!(bytes[4076..4080], CRC);
        let mut tag = [0; 16];
        let (mut local, mut remote) = ([0; 4080], [0; 4080]);
        let (number, address) = (0x0102_0304_0506_0708, 0xffff_ffff_ffff_fffd);
        let plaintext = &bytes[..4080];
        seal(
            &KEY,
            number,
            address,
            plaintext,
            &mut local,
            &mut tag,
            &mut remote,
        )
        .unwrap();
        assert_eq!(bytes[4080..], tag);
    }

    #[test]
    fn what_was_encoded_is_decoded() {
        for role in Role::ALL {
            let bytes = SUPERBLOCK.encode(role, &KEY).unwrap();
            assert_eq!(Superblock::decode(&bytes, role), Ok(SUPERBLOCK));
            let number = SUPERBLOCK.shape.first_number;
            assert_eq!(key_fits(&bytes, role, number, &KEY), Ok(true));
            assert_eq!(key_fits(&bytes, role, number, &[8; KEY_BYTES]), Ok(false));
        }
    }

    /// The fault of the remote superblock with a byte changed, its CRC made anew.
    fn fault_with(at: usize, byte: u8) -> Fault {
        let mut bytes = SUPERBLOCK.encode(Role::Remote, &KEY).unwrap();
        bytes[at] = byte;
        let crc = crc32(&bytes[..CRC_AT]);
        bytes[CRC_AT..CHECK_AT].copy_from_slice(&crc.to_le_bytes());
        Superblock::decode(&bytes, Role::Remote).unwrap_err()
    }

    #[test]
    fn faults_are_named() {
        assert_eq!(fault_with(0, b'd'), Fault::Magic);
        assert_eq!(fault_with(8, 2), Fault::Version(2));
        assert_eq!(fault_with(12, 3), Fault::Role(3));
        let other = Fault::OtherRole(Role::Tags, SUPERBLOCK.uuid);
        assert_eq!(fault_with(12, 1), other);
        for (at, byte) in [
            (32, 1),
            (36, 0),
            (40, 0),
            (48, 4),
            (52, 1),
            (64, 1),
            (4075, 1),
        ] {
            assert!(matches!(fault_with(at, byte), Fault::Numbers(_)), "{at}");
        }
        let mut bytes = SUPERBLOCK.encode(Role::Remote, &KEY).unwrap();
        bytes[20] ^= 1;
        assert_eq!(Superblock::decode(&bytes, Role::Remote), Err(Fault::Crc));
    }

    #[test]
    fn uuids_are_of_version_4() {
        let uuid = Uuid::from_random([0xff; 16]).to_string();
        assert_eq!(uuid, "ffffffff-ffff-4fff-bfff-ffffffffffff");
        let uuid = Uuid::from_random([0; 16]).to_string();
        assert_eq!(uuid, "00000000-0000-4000-8000-000000000000");
    }
}
