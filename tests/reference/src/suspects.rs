//! What a map of suspects must say, told from a log alone: which calls were made
//! on which sector, for how many sectors, and the number of each answer.
//!
//! But for the names of the calls nothing here is shared with the code that marks
//! (`map`), so that each can be held against the other.

use crate::map::Kind;

/// A call that is lent a map.
#[derive(Clone, Copy, Debug, PartialEq, Eq)]
pub enum Call {
    Start,
    Count,
    Survey,
    OnSector(Kind),
}

/// What happened to a volume.
#[derive(Clone, Copy, Debug, PartialEq, Eq)]
pub enum Entry {
    Call {
        call: Call,
        /// The sector's number; of no meaning for the calls on all of them.
        number: usize,
        /// n, as the call was given it.
        count: usize,
        /// The number of its answer.
        answer: u8,
        /// Whether it took the volume's key, number, s and n.
        own: bool,
    },
    /// Something that is no finished or refused call wrote the images: damage, a
    /// cut.
    Written,
}

impl Entry {
    /// For how many sectors this starts the map, if it does.
    fn starts(&self) -> Option<usize> {
        match *self {
            Entry::Call {
                call: Call::Start,
                count,
                answer: 0,
                ..
            } => Some(count),
            _ => None,
        }
    }

    /// The sector of whose bit this says something, and whether it is set.
    fn says(&self) -> Option<(usize, bool)> {
        let Entry::Call {
            call: Call::OnSector(kind),
            number,
            answer,
            ..
        } = *self
        else {
            return None;
        };
        let is_suspect = match answer {
            0 => matches!(kind, Kind::First | Kind::Second),
            0x81..=0x83 => kind == Kind::Read,
            // Only reads, mends and writes end so.
            6 | 7 => true,
            _ => return None,
        };
        Some((number, is_suspect))
    }

    /// Whether this ends what a clear bit says of the volume: a call that was not
    /// refused and took other things, or what is no call at all.
    fn is_foreign(&self) -> bool {
        match *self {
            Entry::Call {
                call: Call::OnSector(_),
                answer,
                own,
                ..
            } => !own && matches!(answer, 0 | 0x81..=0x83),
            // A survey and a count write nothing, whatever they take.
            Entry::Call { .. } => false,
            Entry::Written => true,
        }
    }
}

/// All that happened to a volume and its map, from a moment on.
#[derive(Clone, Debug, Default)]
pub struct Log(Vec<Entry>);

impl Log {
    pub fn push(&mut self, entry: Entry) {
        self.0.push(entry);
    }

    /// For how many sectors the map was started, the last time.
    pub fn started(&self) -> Option<usize> {
        self.0.iter().rev().find_map(Entry::starts)
    }

    /// The first claim: so many bits as the rule gives them over this log and what
    /// comes then. Each is what the last call says that says something of it, or
    /// else what the start says. None where nothing starts the map.
    pub fn due(&self, then: &[Entry], bits: usize) -> Option<Vec<bool>> {
        let mut said = vec![None; bits];
        for entry in self.0.iter().chain(then).rev() {
            if let Some(count) = entry.starts() {
                let said = said.iter().enumerate();
                let due = said.map(|(bit, said)| said.unwrap_or(bit < count));
                return Some(due.collect());
            }
            if let Some((number, is_suspect)) = entry.says() {
                said[number].get_or_insert(is_suspect);
            }
        }
        None
    }

    /// The second claim's premise: the map was started for the volume's n, and
    /// since then all calls that were not refused took its key, number, s and n
    /// and nothing else wrote the images. Then each clear bit below n is that of
    /// a whole sector.
    pub fn clear_is_whole(&self, count: usize) -> bool {
        let from_the_last = self.0.iter().rev();
        let mut since = from_the_last.take_while(|entry| entry.starts().is_none());
        self.started() == Some(count) && !since.any(Entry::is_foreign)
    }
}

/// The bits of a map, from sector 0 on: of each word the lowest first.
pub fn bits(map: &[u64]) -> Vec<bool> {
    let mut bits = vec![];
    for &word in map {
        let mut rest = word;
        for _ in 0..64 {
            bits.push(rest % 2 == 1);
            rest /= 2;
        }
    }
    bits
}

/// What a call on n and a map of so many words must answer: 8, 13 or 0.
pub fn answer_on_map(count: usize, words: usize) -> u8 {
    // The last word is the first that is not full, or is just full.
    let room = 64 * words;
    match count {
        0 | 65_537.. => 8,
        _ if room < count || room - count >= 64 => 13,
        _ => 0,
    }
}
