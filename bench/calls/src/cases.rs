//! What is timed: a call on a volume in some state.

use crate::implementations::{Call, Implementation, ALL};
use crate::volume::{State, Volume};
use reference::answer::Place;

/// The sizes of the tables.
pub const SIZES: [usize; 3] = [16, 512, 4096];

/// The sectors of a volume in the tables. A run of calls takes each in turn,
/// so that a mend finds its damage without putting it back between calls.
pub const SECTORS: usize = 16;

pub struct Case {
    /// As the tables say it.
    pub title: &'static str,
    /// As the command line says it.
    pub name: &'static str,
    pub call: Call,
    pub state: State,
    /// The answer that is due from every call.
    pub answer: u32,
}

const fn case(
    title: &'static str,
    name: &'static str,
    call: Call,
    state: State,
    answer: u32,
) -> Case {
    Case {
        title,
        name,
        call,
        state,
        answer,
    }
}

const LOCAL: State = State::Doubtful(Place::Local);
const TAG: State = State::Doubtful(Place::Tag);
const REMOTE: State = State::Doubtful(Place::Remote);

#[rustfmt::skip]
pub const CASES: [Case; 13] = [
    case("seal", "seal", Call::Seal, State::Whole, 0),
    case("judge, whole", "judge-whole", Call::Judge, State::Whole, 0),
    case("judge, doubtful at local", "judge-local", Call::Judge, LOCAL, 0x81),
    case("judge, doubtful at the tag", "judge-tag", Call::Judge, TAG, 0x82),
    case("judge, doubtful at remote", "judge-remote", Call::Judge, REMOTE, 0x83),
    case("judge, lost", "judge-lost", Call::Judge, State::Lost, 6),
    case("judge, clashing", "judge-clashing", Call::Judge, State::Clashing, 7),
    case("read, whole", "read", Call::Read, State::Whole, 0),
    case("mend, local", "mend-local", Call::Mend, LOCAL, 0x81),
    case("mend, the tag", "mend-tag", Call::Mend, TAG, 0x82),
    case("mend, remote", "mend-remote", Call::Mend, REMOTE, 0x83),
    case("survey, 16 whole", "survey", Call::Survey, State::Whole, 0),
    case("survey, 4 of 16 damaged", "survey-mixed", Call::Survey, State::Mixed, 0),
];

impl Case {
    pub fn named(name: &str) -> &'static Case {
        let found = CASES.iter().find(|case| case.name == name);
        found.unwrap_or_else(|| panic!("no case {name}"))
    }

    /// The sizes of the tables at which it is timed, each with its place there.
    pub fn sizes(&self) -> impl Iterator<Item = (usize, usize)> {
        let state = self.state;
        let sizes = SIZES.into_iter().enumerate();
        sizes.filter(move |&(_, size)| state.is_possible(size))
    }

    /// The volume before the first call.
    pub fn volume(&self, size: usize, sectors: usize) -> Volume {
        let mut volume = Volume::new(size, sectors, self.state);
        if self.call == Call::Seal {
            volume.local.fill(0);
            volume.tags.fill(0);
            volume.remote.fill(0);
        }
        volume
    }

    /// The calls that a volume is good for before it is put back.
    pub fn calls(&self, volume: &Volume) -> usize {
        match self.call {
            Call::Survey => 1,
            _ => volume.count,
        }
    }

    /// Makes a call, and ends the program if the answer is not the one due.
    pub fn run(&self, implementation: &Implementation, volume: &mut Volume, number: usize) {
        let answer = (implementation.run)(self.call, volume, number);
        if answer != self.answer {
            let (by, size) = (implementation.name, volume.size);
            panic!("{} at {size} bytes: {by} answers {answer:#x}", self.title);
        }
    }

    /// Makes each call by all implementations and ends the program unless the
    /// answers and all lent bytes are the same, but for the map of one that marks
    /// nothing in it.
    pub fn insist_on_agreement(&self, start: &Volume) {
        let mut volumes = [(); ALL.len()].map(|()| start.clone());
        for number in 0..self.calls(start) {
            for (implementation, volume) in ALL.iter().zip(&mut volumes) {
                self.run(implementation, volume, number);
            }
            let [due, others @ ..] = &mut volumes;
            for (implementation, volume) in ALL[1..].iter().zip(others) {
                if !implementation.marks {
                    volume.map.copy_from_slice(&due.map);
                }
                if volume != due {
                    let (by, size) = (implementation.name, start.size);
                    panic!("{} at {size} bytes: {by} leaves other bytes", self.title);
                }
            }
        }
    }
}
