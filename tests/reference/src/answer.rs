//! What a call can answer, and the number that the requirement gives to it.

/// One of the three places of a sector.
#[derive(Clone, Copy, Debug, PartialEq, Eq)]
pub enum Place {
    Local,
    Tag,
    Remote,
}

impl Place {
    pub const ALL: [Place; 3] = [Place::Local, Place::Tag, Place::Remote];

    /// The place's number, 1 to 3.
    pub fn number(self) -> u8 {
        match self {
            Place::Local => 1,
            Place::Tag => 2,
            Place::Remote => 3,
        }
    }
}

/// What judging finds when it gives a plaintext.
#[derive(Clone, Copy, Debug, PartialEq, Eq)]
pub enum Verdict {
    Whole,
    Doubtful(Place),
}

/// Why a call was turned away.
#[derive(Clone, Copy, Debug, PartialEq, Eq)]
pub enum Refusal {
    KeyLength,
    SectorSize,
    OtherLength,
    UnknownSide,
    NothingFits,
    Lost,
    Clashing,
    VolumeShape,
    SectorNumber,
    WrongStage,
    ShortList,
    BadFrame,
    MapLength,
    ZeroHashKey,
}

impl Refusal {
    /// The refusal's number, 1 to 14.
    pub fn number(self) -> u8 {
        match self {
            Refusal::KeyLength => 1,
            Refusal::SectorSize => 2,
            Refusal::OtherLength => 3,
            Refusal::UnknownSide => 4,
            Refusal::NothingFits => 5,
            Refusal::Lost => 6,
            Refusal::Clashing => 7,
            Refusal::VolumeShape => 8,
            Refusal::SectorNumber => 9,
            Refusal::WrongStage => 10,
            Refusal::ShortList => 11,
            Refusal::BadFrame => 12,
            Refusal::MapLength => 13,
            Refusal::ZeroHashKey => 14,
        }
    }
}

/// A success that has a number of its own.
pub trait Success {
    fn number(&self) -> u8;
}

impl Success for () {
    fn number(&self) -> u8 {
        0
    }
}

impl Success for Verdict {
    fn number(&self) -> u8 {
        match self {
            Verdict::Whole => 0,
            Verdict::Doubtful(place) => 0x80 | place.number(),
        }
    }
}

/// A verdict with what it comes with.
impl<T> Success for (Verdict, T) {
    fn number(&self) -> u8 {
        self.0.number()
    }
}

/// Where only some of the calls find a verdict.
impl Success for Option<Verdict> {
    fn number(&self) -> u8 {
        self.map_or(0, |verdict| verdict.number())
    }
}

/// The number of a whole answer: 0, `81` to `83`, or the refusal's.
pub fn answer_number<T: Success>(answer: &Result<T, Refusal>) -> u8 {
    match answer {
        Ok(success) => success.number(),
        Err(refusal) => refusal.number(),
    }
}
