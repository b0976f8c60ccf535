//! The plain machine: what must be kept of each sector, told from the events
//! alone and without a look at the images.

use crate::answer::Place;

/// A call on one sector, with the plaintext that it takes.
#[derive(Clone, Copy, Debug, PartialEq, Eq)]
pub enum Call<'a> {
    Blank,
    FirstStage(&'a [u8]),
    SecondStage(&'a [u8]),
    ThirdStage(&'a [u8]),
    Mend,
    Read,
}

/// How a call ended.
#[derive(Clone, Copy, Debug, PartialEq, Eq)]
pub enum Ending {
    Finished,
    /// The power went. Whether the tag is new counts for a second stage only;
    /// a new tag that equals the old one is new.
    Cut {
        tag_is_new: bool,
    },
}

/// One event, as the machine is told of it.
#[derive(Clone, Copy, Debug, PartialEq, Eq)]
pub enum Event<'a> {
    Call {
        call: Call<'a>,
        number: usize,
        ending: Ending,
        /// A listed refusal turned the call away, or would have if not cut.
        refused: bool,
    },
    Damage {
        number: usize,
        place: Place,
    },
}

/// What the machine holds of a sector.
#[derive(Clone, Debug, PartialEq, Eq)]
pub enum Sector {
    Gone,
    Kept {
        plaintext: Vec<u8>,
        doubt: Option<Place>,
    },
}

/// The machine for one volume, which is that of one key and one number.
#[derive(Clone, Debug)]
pub struct Machine {
    size: usize,
    sectors: Vec<Sector>,
}

impl Machine {
    /// All sectors start gone, whatever the images hold.
    pub fn new(size: usize, count: usize) -> Machine {
        Machine {
            size,
            sectors: vec![Sector::Gone; count],
        }
    }

    /// What is held of one sector.
    pub fn sector(&self, number: usize) -> &Sector {
        &self.sectors[number]
    }

    /// Takes one event into account.
    pub fn feed(&mut self, event: &Event) {
        match *event {
            Event::Call { refused: true, .. } => {}
            Event::Call {
                call,
                number,
                ending,
                refused: false,
            } => self.feed_call(call, number, ending),
            Event::Damage { number, place } => self.sectors[number].damage(place),
        }
    }

    fn feed_call(&mut self, call: Call, number: usize, ending: Ending) {
        let size = self.size;
        let sector = &mut self.sectors[number];
        match (call, ending) {
            (Call::Blank, Ending::Finished) => *sector = Sector::kept(&vec![0; size], None),
            (Call::Blank, Ending::Cut { .. }) => *sector = Sector::Gone,
            (Call::FirstStage(_), _) => sector.set_doubt(Some(Place::Local)),
            (Call::SecondStage(_), Ending::Cut { tag_is_new: false }) => {}
            (Call::SecondStage(plaintext), _) => {
                *sector = Sector::kept(plaintext, Some(Place::Remote))
            }
            (Call::ThirdStage(plaintext), Ending::Finished) => {
                *sector = Sector::kept(plaintext, None)
            }
            (Call::ThirdStage(plaintext), Ending::Cut { .. }) => {
                *sector = Sector::kept(plaintext, Some(Place::Remote))
            }
            (Call::Mend, Ending::Finished) => sector.set_doubt(None),
            (Call::Mend, Ending::Cut { .. }) | (Call::Read, _) => {}
        }
    }
}

impl Sector {
    fn kept(plaintext: &[u8], doubt: Option<Place>) -> Sector {
        Sector::Kept {
            plaintext: plaintext.to_vec(),
            doubt,
        }
    }

    /// Changes the doubt of a kept sector; a gone one stays gone.
    fn set_doubt(&mut self, new: Option<Place>) {
        if let Sector::Kept { doubt, .. } = self {
            *doubt = new;
        }
    }

    /// A second place in doubt leaves nothing to trust.
    fn damage(&mut self, place: Place) {
        match self {
            Sector::Kept {
                doubt: Some(other), ..
            } if *other != place => *self = Sector::Gone,
            _ => self.set_doubt(Some(place)),
        }
    }
}
