//! The volumes that the calls work on.

use reference::answer::Place;
use reference::collide::blind_pair;
use reference::field::{to_block, to_blocks, to_bytes};
use reference::map::words;
use reference::rng::Rng;
use reference::seal::{sealed, Sealed};
use reference::volume::part;

/// What stands in outputs before a call, so that a call that must not write
/// one is seen if it does.
const FILL: u8 = 0x5a;

/// A word of the map before a call: of two neighbours one is suspect, so that a
/// bit that is set and one that is cleared both show.
const SUSPECTS: u64 = 0x5555_5555_5555_5555;

/// The volume's number. Its bytes differ, so that all sides must agree on their
/// order.
const NUMBER: u64 = 0x0123_4567_89ab_cdef;

/// What the sectors of a volume are.
#[derive(Clone, Copy)]
pub enum State {
    Whole,
    Doubtful(Place),
    Lost,
    Clashing,
    /// Three in four whole; of the others as many doubtful at each place and
    /// lost, by turns.
    Mixed,
}

/// Everything that is lent to a call.
#[derive(Clone, PartialEq, Eq)]
pub struct Volume {
    pub key: Vec<u8>,
    /// The volume's number.
    pub number: u64,
    pub size: usize,
    pub count: usize,
    /// The plaintexts of all sectors, one behind the other.
    pub plain: Vec<u8>,
    pub local: Vec<u8>,
    pub tags: Vec<u8>,
    pub remote: Vec<u8>,
    pub map: Vec<u64>,
    pub out: Vec<u8>,
    pub list: Vec<u32>,
    pub counts: [u64; 5],
}

impl Volume {
    pub fn new(size: usize, count: usize, state: State) -> Volume {
        let mut rng = Rng::new(1);
        let mut volume = Volume {
            key: rng.bytes(32),
            number: NUMBER,
            size,
            count,
            plain: rng.bytes(count * size),
            local: vec![0; count * size],
            tags: vec![0; count * 16],
            remote: vec![0; count * size],
            map: vec![SUSPECTS; words(count)],
            out: vec![FILL; size],
            list: vec![u32::MAX; count],
            counts: [u64::MAX; 5],
        };
        for number in 0..count {
            let sector = volume.sector(&mut rng, number, state.of_sector(number));
            volume.local[part(number, size)].copy_from_slice(&sector.local);
            volume.tags[part(number, 16)].copy_from_slice(&sector.tag);
            volume.remote[part(number, size)].copy_from_slice(&sector.remote);
        }
        volume
    }

    /// The three places of one sector in a state.
    fn sector(&self, rng: &mut Rng, number: usize, state: State) -> Sealed {
        let plain = &self.plain[part(number, self.size)];
        let sealed = |plain: &[u8]| sealed(&self.key, self.number, number as u64, plain);
        let mut sector = sealed(plain);
        match state {
            State::Whole | State::Mixed => {}
            State::Doubtful(place) => rng.fill(sector.place_mut(place)),
            State::Lost => {
                rng.fill(&mut sector.local);
                rng.fill(&mut sector.remote);
            }
            State::Clashing => {
                // They begin with h, so that their second blocks have no say in the tag.
                let (one, other) = blind_pair(to_block(&self.key[..16]), &to_blocks(plain), 1);
                sector = sealed(&to_bytes(&one));
                sector.remote = sealed(&to_bytes(&other)).remote;
            }
        }
        sector
    }

    /// Puts everything back as it is in a volume of the same shape.
    pub fn restore(&mut self, from: &Volume) {
        self.local.copy_from_slice(&from.local);
        self.tags.copy_from_slice(&from.tags);
        self.remote.copy_from_slice(&from.remote);
        self.map.copy_from_slice(&from.map);
        self.out.copy_from_slice(&from.out);
        self.list.copy_from_slice(&from.list);
        self.counts = from.counts;
    }
}

impl State {
    /// Whether sectors of this size can be in it. A clash takes two blocks: no two
    /// plaintexts of one block have one tag.
    pub fn is_possible(self, size: usize) -> bool {
        !matches!(self, State::Clashing) || size >= 32
    }

    fn of_sector(self, number: usize) -> State {
        match self {
            State::Mixed if number % 4 == 3 => match number / 4 % 4 {
                0 => State::Doubtful(Place::Local),
                1 => State::Doubtful(Place::Tag),
                2 => State::Doubtful(Place::Remote),
                _ => State::Lost,
            },
            State::Mixed => State::Whole,
            state => state,
        }
    }
}
