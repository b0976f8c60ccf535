//! The part of a history that is about the map: the calls on it, and the two
//! claims that are made of it, which are told from the log.

use super::{Answer, History, Made, Request, Stretch, Tally, FEW, KINDS};
use crate::answer::{answer_number, Verdict};
use crate::seal::{Sealed, Sealer, Triple};
use crate::suspects::{answer_on_map, bits, Call, Entry, Log};

/// The first claim: every bit of the map, also those past n, is what the rule
/// gives over the calls and their answers.
pub(super) fn insist_on_rule(map: &[u64], log: &Log, then: &[Entry]) {
    let bits = bits(map);
    let due = log.due(then, bits.len()).expect("the map was started");
    let wrong = (0..bits.len()).find(|&bit| bits[bit] != due[bit]);
    assert_eq!(wrong, None, "a bit is not as the rule says");
}

impl History<'_> {
    // Events.

    /// After a cut the map may hold anything, and is started anew.
    pub(super) fn start_anew(&mut self) {
        for word in &mut self.map {
            *word = self.rng.next_u64();
        }
        self.log = Log::default();
        self.start(self.given.count, self.map.len());
    }

    pub(super) fn start_in_the_middle(&mut self) {
        let (count, words) = (self.choose_count(), self.choose_words());
        self.start(count, words);
    }

    /// A start, a count or a survey.
    pub(super) fn call_on_map(&mut self) {
        match self.rng.below(10) {
            0..=1 if self.stretch != Stretch::AnyWriter => self.start_in_the_middle(),
            0..=5 => self.count_suspects(),
            _ => self.survey_lent_anything(),
        }
        self.check_map();
    }

    /// The volume's n or another, most often one that needs as many words.
    fn choose_count(&mut self) -> usize {
        let own = self.given.count;
        let (least, most) = (64 * self.map.len() - 63, 64 * self.map.len());
        match self.rng.below(12) {
            0 => 0,
            1 => *self.rng.pick(&[65_537, usize::MAX]),
            2 => most + 1,
            3..=4 => most - self.rng.below(most - own + 1),
            5..=6 => least + self.rng.below(own - least + 1),
            _ => own,
        }
    }

    /// As many words as the map has, or another number.
    fn choose_words(&mut self) -> usize {
        if self.rng.chance(20) {
            self.wrong_words()
        } else {
            self.map.len()
        }
    }

    /// None, one too few or one too many.
    pub(super) fn wrong_words(&mut self) -> usize {
        let right = self.map.len();
        *self.rng.pick(&[0, right - 1, right + 1])
    }

    fn start(&mut self, count: usize, words: usize) {
        let mut map = self.lent(words);
        let answer = answer_number(&self.calls.start_map(count, &mut map));
        assert_eq!(answer, answer_on_map(count, words), "a start for {count}");
        let entry = self.on_all(Call::Start, count, answer);
        if answer == 0 {
            insist_on_rule(&map, &Log::default(), &[entry]);
        } else {
            assert_eq!(map, self.lent(words), "a refused start wrote");
        }
        self.tally_on_map(&entry, words);
        if words == self.map.len() {
            self.map = map;
            self.log.push(entry);
        }
    }

    fn count_suspects(&mut self) {
        let (count, words) = (self.choose_count(), self.choose_words());
        let map = self.lent(words);
        let found = self.calls.count_suspects(count, &map);
        let answer = answer_on_map(count, words);
        let entry = self.on_all(Call::Count, count, answer);
        self.log.push(entry);
        self.tally_on_map(&entry, words);
        if answer != 0 {
            assert_eq!(found.map_err(|refusal| refusal.number()), Err(answer));
            return;
        }
        let bits = bits(&map);
        let suspects = bits[..count].iter().filter(|&&bit| bit).count();
        assert_eq!(found, Ok(suspects as u64), "suspects of {count}");
        if bits[count..].contains(&true) {
            self.tally.add("a count leaves out a set bit");
        }
    }

    /// A survey that may be refused for its key, its map or its list.
    fn survey_lent_anything(&mut self) {
        let (count, words) = (self.given.count, self.choose_words());
        let room = *self.rng.pick(&[0, count - 1, count]);
        let (map, mut list) = (self.lent(words), vec![u32::MAX; room]);
        let mut given = self.given.clone();
        if self.rng.chance(10) {
            given.key[..16].fill(0);
        }
        let found = self.calls.survey(&given, &self.images, &map, &mut list);
        let due = if given.has_zero_h() {
            14
        } else if words != self.map.len() {
            13
        } else if room < count {
            11
        } else {
            0
        };
        assert_eq!(answer_number(&found.map(|_| ())), due, "a survey");
        if due != 0 {
            assert_eq!(list, vec![u32::MAX; room], "a refused survey wrote");
        }
        let entry = self.on_all(Call::Survey, count, due);
        self.log.push(entry);
        self.tally_on_map(&entry, words);
    }

    /// Takes over what a call left of its map. After a cut the map is started
    /// anew. Beside any writer it is not: there the call was made, or was never
    /// made, and then something else wrote.
    pub(super) fn keep_map(&mut self, made: &Made, is_cut: bool) {
        if is_cut && self.stretch == Stretch::Cuts {
            self.start_anew();
            return;
        }
        if !is_cut || self.rng.chance(50) {
            self.tally_mark(made);
            self.take_map(made);
        }
        if is_cut {
            self.log.push(Entry::Written);
        }
    }

    /// The log and the map, with a call that was made.
    pub(super) fn take_map(&mut self, made: &Made) {
        self.log.push(self.entry(&made.request, made.answer));
        if made.request.words == self.map.len() {
            self.map.clone_from(&made.map);
        }
    }

    // The log.

    /// The entry of a call on one sector.
    pub(super) fn entry(&self, request: &Request, answer: Answer) -> Entry {
        Entry::Call {
            call: Call::OnSector(request.kind),
            number: request.number,
            count: request.given.count,
            answer: answer_number(&answer),
            own: request.given == self.given,
        }
    }

    /// The entry of a call on all sectors.
    fn on_all(&self, call: Call, count: usize, answer: u8) -> Entry {
        Entry::Call {
            call,
            number: 0,
            count,
            answer,
            own: count == self.given.count,
        }
    }

    // Checks.

    /// Both claims.
    pub(super) fn check_map(&mut self) {
        insist_on_rule(&self.map, &self.log, &[]);
        let is_due = self.log.clear_is_whole(self.given.count);
        if is_due || self.given.count <= FEW {
            self.check_clear(is_due);
        }
    }

    /// The second claim: where it is due, each clear bit below n is that of a
    /// sector whose three places one plaintext fits.
    fn check_clear(&mut self, is_due: bool) {
        let key = self.given.key[..].try_into().expect("the volume's key");
        let sealer = Sealer::new(key);
        let bits = bits(&self.map);
        let mut clear_and_whole = 0;
        for number in (0..self.given.count).filter(|&number| !bits[number]) {
            if self.is_whole(&sealer, number) {
                clear_and_whole += 1;
                continue;
            }
            assert!(!is_due, "sector {number} is clear, and not whole");
            self.tally.add("seen clear, not due and not whole");
        }
        if is_due && clear_and_whole > 0 {
            self.tally.add("seen clear that has to be whole");
            self.tally.add_many("clear and whole", clear_and_whole);
            let mut behind = bits.iter().take(self.given.count).skip(64);
            if behind.any(|&bit| !bit) {
                self.tally.add("seen clear behind the first word");
            }
        }
    }

    fn is_whole(&self, sealer: &Sealer, number: usize) -> bool {
        let Sealed { local, tag, remote } = self.held(number);
        let held = Triple::from_bytes(&local, &tag, &remote);
        let judged = sealer.judge(self.given.volume, number as u64, &held);
        matches!(judged, Ok((Verdict::Whole, _)))
    }

    // Tallies.

    fn tally_on_map(&mut self, entry: &Entry, words: usize) {
        let &Entry::Call {
            call,
            count,
            answer,
            ..
        } = entry
        else {
            return;
        };
        self.tally.add(&format!("{call:?} answers {answer:02x}"));
        let own = self.given.count;
        if answer == 0 && words == self.map.len() && count != own {
            let how = if count < own { "fewer" } else { "more" };
            self.tally.add(&format!("{call:?} for {how} sectors"));
        }
    }

    /// Notes what became of the sector's bit.
    fn tally_mark(&mut self, made: &Made) {
        let request = &made.request;
        let (kind, number) = (request.kind, request.number);
        let answer = answer_number(&made.answer);
        self.tally.add(&format!("{kind:?} answers {answer:02x}"));
        if request.words != self.map.len() || number >= self.given.count {
            return;
        }
        let what = match (bits(&self.map)[number], bits(&made.map)[number]) {
            (true, false) => "clears a set bit",
            (false, true) => "sets a clear bit",
            (true, true) => "leaves a set bit",
            (false, false) => "leaves a clear bit",
        };
        self.tally.add(&format!("{kind:?} {answer:02x} {what}"));
        let started = self.log.started().expect("the map was started");
        if what == "sets a clear bit" && number >= started {
            self.tally.add("a call sets a bit past the start's n");
        }
    }
}

/// The calls and answers that clear a bit, that set one and that leave one alone.
const CLEAR: [&str; 11] = [
    "Blank 00", "Third 00", "Mend 00", "Mend 81", "Mend 82", "Mend 83", "Read 00", "Write 00",
    "Write 81", "Write 82", "Write 83",
];
const SET: [&str; 11] = [
    "First 00",
    "Second 00",
    "Read 81",
    "Read 82",
    "Read 83",
    "Read 06",
    "Read 07",
    "Mend 06",
    "Mend 07",
    "Write 06",
    "Write 07",
];
const LEAVE: [&str; 3] = ["First 0a", "Second 0a", "Third 0a"];

/// A mark shows only where the bit was another before, and both claims only where
/// there is something to be said.
pub fn insist_on_marks(tally: &Tally) {
    for call in CLEAR {
        insist_on(tally, &format!("{call} clears a set bit"));
    }
    for call in SET {
        insist_on(tally, &format!("{call} sets a clear bit"));
    }
    for call in LEAVE {
        insist_on(tally, &format!("{call} leaves a set bit"));
        insist_on(tally, &format!("{call} leaves a clear bit"));
    }
    for call in KINDS {
        insist_on(tally, &format!("{call} answers 0d"));
    }
    insist_on_calls_on_map(tally);
    for what in [
        "a call sets a bit past the start's n",
        "stretch of Cuts",
        "stretch of CallsAlone",
        "stretch of AnyWriter",
        "beside any writer, another call finished",
        "seen clear that has to be whole",
        "seen clear, not due and not whole",
    ] {
        insist_on(tally, what);
    }
}

fn insist_on_calls_on_map(tally: &Tally) {
    for call in ["Start", "Count"] {
        for answer in ["00", "08", "0d"] {
            insist_on(tally, &format!("{call} answers {answer}"));
        }
        for how in ["fewer", "more"] {
            insist_on(tally, &format!("{call} for {how} sectors"));
        }
    }
    for answer in ["00", "0b", "0d"] {
        insist_on(tally, &format!("Survey answers {answer}"));
    }
    insist_on(tally, "a count leaves out a set bit");
}

/// In volumes of more than one word of the map, clear bits behind the first.
pub fn insist_on_words(tally: &Tally) {
    insist_on(tally, "seen clear behind the first word");
}

pub(super) fn insist_on(tally: &Tally, what: &str) {
    assert!(tally.get(what) > 0, "{what}");
}
