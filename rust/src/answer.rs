//! What a call can answer, and the library's number for it.

use core::error::Error;
use core::fmt;

/// One of the three places of a sector.
#[derive(Clone, Copy, Debug, PartialEq, Eq, Hash)]
pub enum Place {
    /// The local sector.
    Local,
    /// The tag.
    Tag,
    /// The remote sector.
    Remote,
}

impl fmt::Display for Place {
    fn fmt(&self, f: &mut fmt::Formatter<'_>) -> fmt::Result {
        f.write_str(match self {
            Place::Local => "the local sector",
            Place::Tag => "the tag",
            Place::Remote => "the remote sector",
        })
    }
}

/// One of the two sides, local and remote.
#[derive(Clone, Copy, Debug, PartialEq, Eq, Hash)]
pub enum Side {
    /// The local sector.
    Local = 0,
    /// The remote sector.
    Remote = 1,
}

impl Side {
    /// The library's number: 0 or 1.
    pub fn number(self) -> u32 {
        self as u32
    }
}

/// What judging finds where it gives a plaintext.
///
/// From [`mend`](crate::Volume::mend) and [`write`](crate::Volume::write) it is
/// what they found before, and so is its text: the sector is whole now.
#[derive(Clone, Copy, Debug, PartialEq, Eq, Hash)]
pub enum Verdict {
    /// One plaintext fits all three places.
    Whole,
    /// Exactly one plaintext fits two places, and this place does not fit it.
    Doubtful(Place),
}

impl Verdict {
    /// The library's number: 0, or hexadecimal 81, 82 or 83.
    pub fn number(self) -> u32 {
        match self {
            Verdict::Whole => 0,
            Verdict::Doubtful(Place::Local) => 0x81,
            Verdict::Doubtful(Place::Tag) => 0x82,
            Verdict::Doubtful(Place::Remote) => 0x83,
        }
    }
}

impl fmt::Display for Verdict {
    fn fmt(&self, f: &mut fmt::Formatter<'_>) -> fmt::Result {
        match self {
            Verdict::Whole => f.write_str("whole"),
            Verdict::Doubtful(place) => write!(f, "doubtful at {place}"),
        }
    }
}

/// Why a call was turned away. It has changed nothing that it was lent, but for
/// one bit: where [`read`](crate::Volume::read), [`mend`](crate::Volume::mend) or
/// [`write`](crate::Volume::write) answers [`Lost`](Self::Lost) or
/// [`Clashing`](Self::Clashing), the sector's bit of the map is set.
///
/// The text ([`Display`](fmt::Display)) says what is wrong and what to do.
///
/// ```
/// let refused = mirror::combine(&[0; 15], &[0; 15], &mut [0; 15]);
/// assert_eq!(refused, Err(mirror::Refusal::SectorSize));
/// assert!(refused.unwrap_err().to_string().starts_with("the size is not a multiple of 16"));
/// ```
#[derive(Clone, Copy, Debug, PartialEq, Eq, Hash)]
#[non_exhaustive]
pub enum Refusal {
    /// 1: the key does not have 32 bytes.
    KeyLength = 1,
    /// 2: the size is not a multiple of 16 from 16 to 4,096.
    SectorSize = 2,
    /// 3: a plaintext, a sector, a tag or an output has another length than it
    /// must have.
    OtherLength = 3,
    /// 4: the side is neither local nor remote. [`Side`] rules this out.
    UnknownSide = 4,
    /// 5: no plaintext fits this side and this tag.
    NoneFits = 5,
    /// 6: no plaintext fits two places.
    Lost = 6,
    /// 7: more than one plaintext fits two places. After a cut in a write see
    /// [power cuts](crate#power-cuts) and, if it was one call,
    /// [there](crate#a-write-in-one-call).
    Clashing = 7,
    /// 8: the count is not 1 to 65,536, or an image has another length than
    /// size and count ask for.
    VolumeShape = 8,
    /// 9: the sector's number is not below the count.
    SectorNumber = 9,
    /// 10: this stage is not due.
    StageOrder = 10,
    /// 11: the list is shorter than the count.
    ListLength = 11,
    /// 13: the map does not have exactly as many 64-bit words as the count needs;
    /// [`map_words`](crate::map_words) says how many.
    MapLength = 13,
    /// 14: the hash key, the first 16 bytes of the key, is all zero. Each call with
    /// a key checks it directly after [`KeyLength`](Self::KeyLength). See
    /// [secrets](crate#secrets) for why, and for what was sealed under such a key.
    ZeroHashKey = 14,
}

impl Refusal {
    /// All refusals, by their numbers.
    pub const ALL: &'static [Refusal] = &[
        Refusal::KeyLength,
        Refusal::SectorSize,
        Refusal::OtherLength,
        Refusal::UnknownSide,
        Refusal::NoneFits,
        Refusal::Lost,
        Refusal::Clashing,
        Refusal::VolumeShape,
        Refusal::SectorNumber,
        Refusal::StageOrder,
        Refusal::ListLength,
        Refusal::MapLength,
        Refusal::ZeroHashKey,
    ];

    /// The library's number: 1 to 11, 13 or 14. The 12 is no call's: with it the
    /// program `frames` answers what is no frame.
    pub fn number(self) -> u32 {
        self as u32
    }

    /// The refusal that has this number.
    pub fn from_number(number: u32) -> Option<Refusal> {
        Self::ALL.iter().copied().find(|r| r.number() == number)
    }

    fn what_is_wrong(self) -> &'static str {
        match self {
            Refusal::KeyLength => "the key does not have 32 bytes",
            Refusal::SectorSize => "the size is not a multiple of 16 from 16 to 4,096",
            Refusal::OtherLength => {
                "a plaintext, a sector, a tag or an output has another length than it must have"
            }
            Refusal::UnknownSide => "the side is neither 0 (local) nor 1 (remote)",
            Refusal::NoneFits => "no plaintext fits this side and this tag",
            Refusal::Lost => "lost, no plaintext fits two places",
            Refusal::Clashing => "clashing, more than one plaintext fits two places",
            Refusal::VolumeShape => {
                "the count is not 1 to 65,536, or an image has another length than size and count ask for"
            }
            Refusal::SectorNumber => "the sector's number is not below the count",
            Refusal::StageOrder => "this stage is not due",
            Refusal::ListLength => "the list is shorter than the count",
            Refusal::MapLength => {
                "the map does not have exactly as many 64-bit words as the count needs"
            }
            Refusal::ZeroHashKey => "the hash key, the first 16 bytes of the key, is all zero",
        }
    }

    fn what_to_do(self) -> &'static str {
        match self {
            Refusal::KeyLength => "give the hash key and then the AES key, 16 bytes each",
            Refusal::SectorSize => "give the size that the sector or the volume was made with",
            Refusal::OtherLength => "give as many bytes as the sector's size, and 16 for a tag",
            Refusal::UnknownSide => "name one of the two",
            Refusal::NoneFits => {
                "see that the key, the volume's number and the address are the sector's; \
                 then try the other side, or judge the sector if both are there"
            }
            Refusal::Lost => {
                "see by other sectors whether the key and the volume's number are right; \
                 if they are, blank the sector and write it from a backup"
            }
            Refusal::Clashing => {
                "if a write was under way, go on with its second and third stage \
                 (if the second refuses and it is known that a separate first stage was cut, \
                 rebuild the local sector from the remote side); \
                 otherwise open each side and combine both, choose, blank the sector and write the choice"
            }
            Refusal::VolumeShape => "check the size, the count and the three images",
            Refusal::SectorNumber => "sectors count from 0, so give a number below the count",
            Refusal::StageOrder => {
                "read the sector, mend it if it is doubtful, and begin again with the first stage"
            }
            Refusal::ListLength => "lend one entry for each sector",
            Refusal::MapLength => "lend one word for each 64 sectors begun, and start it",
            Refusal::ZeroHashKey => {
                "see that the key was loaded, and give a new volume a key of 32 random bytes; \
                 what was sealed under this key needs a release before 0.8.0"
            }
        }
    }
}

impl fmt::Display for Refusal {
    fn fmt(&self, f: &mut fmt::Formatter<'_>) -> fmt::Result {
        write!(f, "{}: {}", self.what_is_wrong(), self.what_to_do())
    }
}

impl Error for Refusal {}

/// The answer of a call that only writes.
pub(crate) fn done(answer: u32) -> Result<(), Refusal> {
    match answer {
        0 => Ok(()),
        _ => Err(refusal(answer)),
    }
}

/// The answer of a call that judges.
pub(crate) fn judged(answer: u32) -> Result<Verdict, Refusal> {
    match answer {
        0 => Ok(Verdict::Whole),
        0x81 => Ok(Verdict::Doubtful(Place::Local)),
        0x82 => Ok(Verdict::Doubtful(Place::Tag)),
        0x83 => Ok(Verdict::Doubtful(Place::Remote)),
        _ => Err(refusal(answer)),
    }
}

fn refusal(answer: u32) -> Refusal {
    Refusal::from_number(answer).unwrap_or_else(|| {
        panic!("libmirror.a answers {answer}, which is unknown here: link the release that this crate is of")
    })
}
