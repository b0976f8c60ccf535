//! The sealed sector: sealing, the verdict, and the calls without images.
//!
//! `volume` is the volume's number, which sets the sectors of one volume apart
//! from those of another under the same key.

use crate::aes::Aes128;
use crate::answer::{Place, Refusal, Verdict};
use crate::brw::brw;
use crate::field::{
    double, over_one_plus_x, over_x, product, times_one_plus_x, to_block, to_blocks, to_bytes,
    write_blocks, Block, BLOCK_BYTES,
};

/// Bytes in a key: h, then the AES key.
pub const KEY_BYTES: usize = 32;

/// Bytes in a tag.
pub const TAG_BYTES: usize = BLOCK_BYTES;

/// Bytes in the largest sector.
pub const MAX_SECTOR_BYTES: usize = 4096;

/// Which of the two sides a sector is.
#[derive(Clone, Copy, Debug, PartialEq, Eq)]
pub enum Side {
    Local,
    Remote,
}

impl Side {
    /// The side of number 0 or 1; any other number is refused.
    pub fn from_number(number: u8) -> Result<Side, Refusal> {
        match number {
            0 => Ok(Side::Local),
            1 => Ok(Side::Remote),
            _ => Err(Refusal::UnknownSide),
        }
    }
}

/// What the three places of a sector hold.
#[derive(Clone, Debug, PartialEq, Eq)]
pub struct Triple {
    pub local: Vec<Block>,
    pub tag: Block,
    pub remote: Vec<Block>,
}

impl Triple {
    /// Takes the bytes of the three places, whose lengths must be right.
    pub fn from_bytes(local: &[u8], tag: &[u8], remote: &[u8]) -> Triple {
        Triple {
            local: to_blocks(local),
            tag: to_block(tag),
            remote: to_blocks(remote),
        }
    }
}

/// A key made ready for use. The sealing is defined for every h, zero too, under
/// which all plaintexts have one tag.
pub struct Sealer {
    h: Block,
    cipher: Aes128,
    alpha: Block,
    beta: Block,
}

impl Sealer {
    pub fn new(key: &[u8; KEY_BYTES]) -> Sealer {
        let (h, cipher_key) = key.split_at(BLOCK_BYTES);
        let cipher = Aes128::new(cipher_key.try_into().expect("an AES-128 key has 16 bytes"));
        Sealer {
            h: to_block(h),
            alpha: cipher.encrypt(0),
            beta: cipher.encrypt(1),
            cipher,
        }
    }

    /// The tag of a plaintext at an address of a volume.
    pub fn tag(&self, volume: u64, address: u64, plaintext: &[Block]) -> Block {
        let mut hashed = plaintext.to_vec();
        hashed.push(tweak(volume, address));
        self.cipher
            .encrypt(product(self.h, brw(self.h, &hashed)) ^ self.alpha)
    }

    /// The pads of a tag, for block 1 and on without end.
    pub fn pads(&self, tag: Block) -> impl Iterator<Item = Block> + '_ {
        let mask_of_first = double(self.beta);
        std::iter::successors(Some(mask_of_first), |&mask| Some(double(mask)))
            .map(move |mask| self.cipher.encrypt(tag ^ mask))
    }

    /// Seals a plaintext into three places.
    pub fn seal(&self, volume: u64, address: u64, plaintext: &[Block]) -> Triple {
        let tag = self.tag(volume, address, plaintext);
        let (local, remote) = self
            .pads(tag)
            .zip(plaintext)
            .map(|(pad, &block)| (local_block(pad, block), remote_block(pad, block)))
            .unzip();
        Triple { local, tag, remote }
    }

    /// The only plaintext that can fit this side together with this tag.
    pub fn unseal(&self, side: Side, sector: &[Block], tag: Block) -> Vec<Block> {
        let divide = match side {
            Side::Local => over_one_plus_x,
            Side::Remote => over_x,
        };
        self.pads(tag)
            .zip(sector)
            .map(|(pad, block)| divide(pad ^ block))
            .collect()
    }

    /// Which places a plaintext fits, in the order local, tag, remote.
    pub fn fits(&self, volume: u64, address: u64, plaintext: &[Block], held: &Triple) -> [bool; 3] {
        let sealed = self.seal(volume, address, plaintext);
        [
            sealed.local == held.local,
            sealed.tag == held.tag,
            sealed.remote == held.remote,
        ]
    }

    /// The verdict on a triple, with its plaintext.
    pub fn judge(
        &self,
        volume: u64,
        address: u64,
        held: &Triple,
    ) -> Result<(Verdict, Vec<Block>), Refusal> {
        let mut fitting: Vec<(Verdict, Vec<Block>)> = self
            .candidates(held)
            .into_iter()
            .filter_map(|plaintext| {
                let verdict = verdict_of(self.fits(volume, address, &plaintext, held))?;
                Some((verdict, plaintext))
            })
            .collect();
        match fitting.len() {
            0 => Err(Refusal::Lost),
            1 => Ok(fitting.remove(0)),
            _ => Err(Refusal::Clashing),
        }
    }

    /// Every plaintext that can fit two places, each once. Any two places
    /// leave room for at most one plaintext, so there are at most three.
    fn candidates(&self, held: &Triple) -> Vec<Vec<Block>> {
        let mut candidates = vec![self.unseal(Side::Local, &held.local, held.tag)];
        for other in [
            self.unseal(Side::Remote, &held.remote, held.tag),
            exclusive_or(&held.local, &held.remote),
        ] {
            if !candidates.contains(&other) {
                candidates.push(other);
            }
        }
        candidates
    }

    /// The plaintext that fits a side and the tag, with its whole sealing.
    fn open(
        &self,
        volume: u64,
        address: u64,
        side: Side,
        sector: &[Block],
        tag: Block,
    ) -> Result<(Vec<Block>, Triple), Refusal> {
        let plaintext = self.unseal(side, sector, tag);
        let sealed = self.seal(volume, address, &plaintext);
        let same_side = match side {
            Side::Local => sealed.local == sector,
            Side::Remote => sealed.remote == sector,
        };
        if same_side && sealed.tag == tag {
            Ok((plaintext, sealed))
        } else {
            Err(Refusal::NothingFits)
        }
    }
}

/// The volume's number as the upper 8 bytes of a block and the address as the
/// lower 8, both high byte first.
pub fn tweak(volume: u64, address: u64) -> Block {
    to_block(&[volume.to_be_bytes(), address.to_be_bytes()].concat())
}

/// One block of the local side.
pub fn local_block(pad: Block, plaintext: Block) -> Block {
    pad ^ times_one_plus_x(plaintext)
}

/// One block of the remote side.
pub fn remote_block(pad: Block, plaintext: Block) -> Block {
    pad ^ double(plaintext)
}

/// Refusals 1 and 14, with which every call that takes a key begins: a key that is
/// not 32 bytes, and one whose h is all zero.
pub(crate) fn check_key(key: &[u8]) -> Result<Sealer, Refusal> {
    let key = key.try_into().map_err(|_| Refusal::KeyLength)?;
    let sealer = Sealer::new(key);
    if sealer.h == 0 {
        return Err(Refusal::ZeroHashKey);
    }
    Ok(sealer)
}

/// Refuses what is not a multiple of 16 from 16 to 4,096.
pub fn check_sector_size(size: usize) -> Result<(), Refusal> {
    let whole_blocks = size / BLOCK_BYTES * BLOCK_BYTES;
    if size == whole_blocks && (BLOCK_BYTES..=MAX_SECTOR_BYTES).contains(&size) {
        Ok(())
    } else {
        Err(Refusal::SectorSize)
    }
}

/// Seals a plaintext into the three outputs.
pub fn seal(
    key: &[u8],
    volume: u64,
    address: u64,
    plaintext: &[u8],
    local: &mut [u8],
    remote: &mut [u8],
    tag: &mut [u8],
) -> Result<(), Refusal> {
    let sealer = check_key(key)?;
    check_sector_size(plaintext.len())?;
    check_length(local, plaintext.len())?;
    check_length(remote, plaintext.len())?;
    check_length(tag, TAG_BYTES)?;
    let sealed = sealer.seal(volume, address, &to_blocks(plaintext));
    write_blocks(&sealed.local, local);
    write_blocks(&sealed.remote, remote);
    write_blocks(&[sealed.tag], tag);
    Ok(())
}

/// Judges three places and gives the plaintext.
pub fn judge(
    key: &[u8],
    volume: u64,
    address: u64,
    local: &[u8],
    tag: &[u8],
    remote: &[u8],
    output: &mut [u8],
) -> Result<Verdict, Refusal> {
    let sealer = check_key(key)?;
    check_sector_size(local.len())?;
    check_length(remote, local.len())?;
    check_length(output, local.len())?;
    check_length(tag, TAG_BYTES)?;
    let (verdict, plaintext) =
        sealer.judge(volume, address, &Triple::from_bytes(local, tag, remote))?;
    write_blocks(&plaintext, output);
    Ok(verdict)
}

/// Gives the plaintext that fits one side and the tag.
pub fn open(
    key: &[u8],
    volume: u64,
    address: u64,
    side: u8,
    sector: &[u8],
    tag: &[u8],
    output: &mut [u8],
) -> Result<(), Refusal> {
    let (_, plaintext, _) = open_checked(key, volume, address, side, sector, tag, output.len())?;
    write_blocks(&plaintext, output);
    Ok(())
}

/// Writes the other side of the one that survives.
pub fn rebuild(
    key: &[u8],
    volume: u64,
    address: u64,
    side: u8,
    sector: &[u8],
    tag: &[u8],
    output: &mut [u8],
) -> Result<(), Refusal> {
    let (side, _, sealed) = open_checked(key, volume, address, side, sector, tag, output.len())?;
    let other = match side {
        Side::Local => sealed.remote,
        Side::Remote => sealed.local,
    };
    write_blocks(&other, output);
    Ok(())
}

/// Gives local exclusive-or remote, which needs no key.
pub fn combine(local: &[u8], remote: &[u8], output: &mut [u8]) -> Result<(), Refusal> {
    check_sector_size(local.len())?;
    check_length(remote, local.len())?;
    check_length(output, local.len())?;
    for ((byte, l), r) in output.iter_mut().zip(local).zip(remote) {
        *byte = l ^ r;
    }
    Ok(())
}

/// What opening and rebuilding share: all refusals, then the opening.
fn open_checked(
    key: &[u8],
    volume: u64,
    address: u64,
    side: u8,
    sector: &[u8],
    tag: &[u8],
    output_bytes: usize,
) -> Result<(Side, Vec<Block>, Triple), Refusal> {
    let sealer = check_key(key)?;
    check_sector_size(sector.len())?;
    check_length(tag, TAG_BYTES)?;
    if output_bytes != sector.len() {
        return Err(Refusal::OtherLength);
    }
    let side = Side::from_number(side)?;
    let (plaintext, sealed) =
        sealer.open(volume, address, side, &to_blocks(sector), to_block(tag))?;
    Ok((side, plaintext, sealed))
}

/// Refuses bytes of another length than the one due.
pub(crate) fn check_length(bytes: &[u8], due: usize) -> Result<(), Refusal> {
    if bytes.len() == due {
        Ok(())
    } else {
        Err(Refusal::OtherLength)
    }
}

/// The verdict for one plaintext that fits these places, if it fits two.
fn verdict_of(fits: [bool; 3]) -> Option<Verdict> {
    match fits {
        [true, true, true] => Some(Verdict::Whole),
        [false, true, true] => Some(Verdict::Doubtful(Place::Local)),
        [true, false, true] => Some(Verdict::Doubtful(Place::Tag)),
        [true, true, false] => Some(Verdict::Doubtful(Place::Remote)),
        _ => None,
    }
}

fn exclusive_or(a: &[Block], b: &[Block]) -> Vec<Block> {
    a.iter().zip(b).map(|(a, b)| a ^ b).collect()
}

/// The sealing of a plaintext, as bytes.
#[derive(Clone, Debug, PartialEq, Eq)]
pub struct Sealed {
    pub local: Vec<u8>,
    pub tag: Vec<u8>,
    pub remote: Vec<u8>,
}

impl Sealed {
    pub fn place(&self, place: Place) -> &[u8] {
        match place {
            Place::Local => &self.local,
            Place::Tag => &self.tag,
            Place::Remote => &self.remote,
        }
    }

    pub fn place_mut(&mut self, place: Place) -> &mut Vec<u8> {
        match place {
            Place::Local => &mut self.local,
            Place::Tag => &mut self.tag,
            Place::Remote => &mut self.remote,
        }
    }
}

/// Seals a plaintext under a key, whose lengths must be right. The call refuses an
/// h of zero, and this does not: it also gives what earlier releases wrote.
pub fn sealed(key: &[u8], volume: u64, address: u64, plaintext: &[u8]) -> Sealed {
    assert_eq!(check_sector_size(plaintext.len()), Ok(()));
    let key = key.try_into().expect("a key has 32 bytes");
    let Triple { local, tag, remote } =
        Sealer::new(key).seal(volume, address, &to_blocks(plaintext));
    Sealed {
        local: to_bytes(&local),
        tag: to_bytes(&[tag]),
        remote: to_bytes(&remote),
    }
}
