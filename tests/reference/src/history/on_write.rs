//! The part of a history that is about writes in one call. Of a write the machine
//! is told the calls that it is made of, and the power may go in any of them or
//! between two.

use super::on_map::{insist_on, insist_on_rule};
use super::{how, History, Images, Kind, Made, Request, Stretch, Tally, FILL};
use crate::answer::{answer_number, Place, Refusal, Verdict};
use crate::machine::{Ending, Machine, Sector};
use crate::seal::sealed;
use crate::suspects::Entry;

/// The calls of a write onto a whole sector.
const WITHOUT_MEND: [Kind; 4] = [Kind::Read, Kind::First, Kind::Second, Kind::Third];

/// The calls of a write onto a doubtful one.
const WITH_MEND: [Kind; 5] = [
    Kind::Read,
    Kind::Mend,
    Kind::First,
    Kind::Second,
    Kind::Third,
];

/// Where the power goes in a write.
#[derive(Clone, Copy, PartialEq, Eq)]
enum Cut {
    /// In the call of this place in the list.
    In(usize),
    /// Between this call and the next.
    Behind(usize),
}

/// Everywhere in so many calls.
fn cuts(calls: usize) -> Vec<Cut> {
    let behind = (0..calls - 1).map(Cut::Behind);
    (0..calls).map(Cut::In).chain(behind).collect()
}

/// The position of a cut, by the names of the calls.
fn position(kinds: &[Kind], cut: Cut) -> String {
    let with = if kinds.contains(&Kind::Mend) {
        "with a mend"
    } else {
        "without a mend"
    };
    match cut {
        Cut::In(call) => format!("Write {with} cut in {:?}", kinds[call]),
        Cut::Behind(call) => format!("Write {with} cut behind {:?}", kinds[call]),
    }
}

impl History<'_> {
    // The event.

    pub(super) fn write(&mut self, request: &Request) {
        let write = self.make(request);
        let calls = self.calls_of(request);
        self.insist_on_calls(&write, &calls);
        if self.is_left_out(&write) {
            return;
        }
        self.insist_on_found(&write);
        let before = self.machine.clone();
        let cut = self.choose_cut(calls.len());
        match cut {
            Some(cut) => self.cut_write(&calls, cut),
            None => self.end_write(&write, &calls),
        }
        if self.stretch != Stretch::AnyWriter {
            self.insist_on_kept(&before, &write, cut.is_some());
        }
        self.tally.add("writes in one call");
        self.tally_call(request, how(&write.answer, cut.is_some()));
        self.tally_write(&before, &write, &calls, cut);
    }

    /// The calls that a write is made of, each made on what the one before left.
    fn calls_of(&self, write: &Request) -> Vec<Made> {
        let map = self.lent(write.words);
        let read = self.call_of(write, Kind::Read, &self.images, &map);
        let kinds = match read.answer {
            Err(_) => &WITHOUT_MEND[..1],
            Ok(Some(Verdict::Whole)) => &WITHOUT_MEND,
            Ok(_) => &WITH_MEND,
        };
        let found = read.answer;
        let mut calls = vec![read];
        for (last, &kind) in kinds[1..].iter().enumerate() {
            let made = self.call_of(write, kind, &calls[last].after, &calls[last].map);
            let due = if kind == Kind::Mend { found } else { Ok(None) };
            assert_eq!(made.answer, due, "{kind:?} of a write");
            calls.push(made);
        }
        calls
    }

    /// One of them.
    fn call_of(&self, write: &Request, kind: Kind, before: &Images, map: &[u64]) -> Made {
        let request = Request {
            kind,
            output: write.plaintext.len(),
            ..write.clone()
        };
        let (mut after, mut map) = (before.clone(), map.to_vec());
        let mut output = vec![FILL; request.output];
        let answer = self.calls.run(&request, &mut after, &mut map, &mut output);
        Made {
            request,
            answer,
            before: before.clone(),
            after,
            map,
        }
    }

    fn choose_cut(&mut self, calls: usize) -> Option<Cut> {
        let cut = self.stretch != Stretch::CallsAlone && self.rng.chance(60);
        cut.then(|| *self.rng.pick(&cuts(calls)))
    }

    /// A write that finishes or is refused.
    fn end_write(&mut self, write: &Made, calls: &[Made]) {
        self.images = write.after.clone();
        for made in calls {
            self.tell(made, Ending::Finished);
        }
        self.keep_map(write, false);
    }

    /// Some of the calls finish, the next may be cut, and the rest are never made.
    fn cut_write(&mut self, calls: &[Made], cut: Cut) {
        let (finished, begun) = match cut {
            Cut::In(call) => (call, Some(&calls[call])),
            Cut::Behind(call) => (call + 1, None),
        };
        for made in &calls[..finished] {
            let ending = self.end(made, false);
            self.tell(made, ending);
            self.take_map(made);
        }
        if let Some(made) = begun {
            let ending = self.end(made, true);
            self.tell(made, ending);
            self.log.push(Entry::Written);
        }
        if self.stretch == Stretch::Cuts {
            self.start_anew();
        }
    }

    // Checks.

    /// A write leaves what its calls leave, and answers what the read answers. A
    /// finished one leaves its plaintext sealed in all three places.
    fn insist_on_calls(&self, write: &Made, calls: &[Made]) {
        let (first, last) = (&calls[0], &calls[calls.len() - 1]);
        let request = &write.request;
        if request.words == self.map.len() {
            let entries = calls
                .iter()
                .map(|made| self.entry(&made.request, made.answer));
            let entries: Vec<Entry> = entries.collect();
            insist_on_rule(&last.map, &self.log, &entries);
        }
        assert_eq!(write.answer, first.answer, "a write answers as its read");
        let same_images = write.after == last.after;
        assert!(same_images, "a write left other images than its calls");
        assert_eq!(write.map, last.map, "a write left another map");
        if write.answer.is_ok() {
            let (given, number) = (&request.given, request.number);
            let address = number as u64;
            let sealed = sealed(&given.key, given.volume, address, &request.plaintext);
            for place in Place::ALL {
                let left = write.after.place(given.size, number, place);
                assert_eq!(left, sealed.place(place), "{place:?} after a write");
            }
        }
    }

    /// A proper write of a kept sector finds what a proper read must find there.
    fn insist_on_found(&self, write: &Made) {
        let request = &write.request;
        let is_proper = request.given == self.given
            && request.words == self.map.len()
            && request.number < self.given.count
            && request.plaintext.len() == self.given.size;
        if self.stretch == Stretch::AnyWriter || !is_proper {
            return;
        }
        if let Sector::Kept { plaintext, doubt } = self.machine.sector(request.number) {
            let due = self.found(request.number, plaintext, *doubt);
            assert_eq!(write.answer, due.map(Some), "found by a write");
        }
    }

    /// What is found of a sector that is kept so.
    fn found(
        &self,
        number: usize,
        plaintext: &[u8],
        doubt: Option<Place>,
    ) -> Result<Verdict, Refusal> {
        let Some(place) = doubt else {
            return Ok(Verdict::Whole);
        };
        if self.another_fits_two(number, plaintext) {
            return Err(Refusal::Clashing);
        }
        let sealed = self.sealed(number, plaintext);
        if sealed.place(place) == self.held(number).place(place) {
            Ok(Verdict::Whole)
        } else {
            Ok(Verdict::Doubtful(place))
        }
    }

    /// What the machine holds after a write. Of other sectors it is what it was, as
    /// it is of every one where the write is refused. After a finished write the new
    /// plaintext is kept, without doubt. After one that was cut a sector that was
    /// kept is kept, with the old plaintext or the new.
    fn insist_on_kept(&self, before: &Machine, write: &Made, cut: bool) {
        let (number, new) = (write.request.number, &write.request.plaintext);
        for other in 0..self.given.count {
            if other != number || write.answer.is_err() {
                let (was, is) = (before.sector(other), self.machine.sector(other));
                assert_eq!(was, is, "a write changed what is held of {other}");
            }
        }
        if write.answer.is_err() {
            return;
        }
        let is = self.machine.sector(number);
        if !cut {
            let due = Sector::Kept {
                plaintext: new.clone(),
                doubt: None,
            };
            assert_eq!(*is, due, "after a finished write");
        } else if let Sector::Kept { plaintext: old, .. } = before.sector(number) {
            let is_kept = kept(is).is_some_and(|text| text == old || text == new);
            assert!(is_kept, "neither the old plaintext nor the new is kept");
        }
    }

    // Tallies.

    fn tally_write(&mut self, before: &Machine, write: &Made, calls: &[Made], cut: Option<Cut>) {
        let Request {
            number, plaintext, ..
        } = &write.request;
        if self.stretch == Stretch::AnyWriter || *number >= self.given.count {
            return;
        }
        let was = before.sector(*number);
        let how = how(&write.answer, cut.is_some());
        let answer = answer_number(&write.answer);
        let onto = format!("Write {how} onto {}, {answer:02x}", state(was));
        self.tally.add(&onto);
        let (Ok(_), Some(cut)) = (write.answer, cut) else {
            return;
        };
        let kinds: Vec<Kind> = calls.iter().map(|made| made.request.kind).collect();
        let position = position(&kinds, cut);
        self.tally.add(&position);
        // Where both are the same nothing shows.
        if kept(was).is_some_and(|old| old != plaintext) {
            let is_new = kept(self.machine.sector(*number)) == Some(plaintext);
            let which = if is_new { "new" } else { "old" };
            self.tally.add(&format!("{position}, the {which} is kept"));
        }
    }
}

/// The plaintext that is kept of a sector, if one is.
fn kept(sector: &Sector) -> Option<&Vec<u8>> {
    match sector {
        Sector::Gone => None,
        Sector::Kept { plaintext, .. } => Some(plaintext),
    }
}

/// What is held of a sector, but for the plaintext.
fn state(sector: &Sector) -> String {
    match sector {
        Sector::Gone => "gone".to_string(),
        Sector::Kept { doubt: None, .. } => "kept".to_string(),
        Sector::Kept {
            doubt: Some(place), ..
        } => format!("doubt at {place:?}"),
    }
}

/// The sectors that writes are accepted on: what the machine holds, and the answer.
const ACCEPTED: [&str; 11] = [
    "kept, 00",
    "doubt at Local, 00",
    "doubt at Local, 81",
    "doubt at Tag, 00",
    "doubt at Tag, 82",
    "doubt at Remote, 00",
    "doubt at Remote, 83",
    "gone, 00",
    "gone, 81",
    "gone, 82",
    "gone, 83",
];

/// Those that they are refused on. With doubt at the tag there is no clash: no side
/// of the kept plaintext is, but by chance, one of another plaintext too.
const REFUSED: [&str; 4] = [
    "gone, 06",
    "gone, 07",
    "doubt at Local, 07",
    "doubt at Remote, 07",
];

/// Writes came to sectors in every state, and were cut in each of their calls and
/// between each two, with a mend and without.
pub fn insist_on_writes(tally: &Tally) {
    for onto in ACCEPTED {
        insist_on(tally, &format!("Write finished onto {onto}"));
        insist_on(tally, &format!("Write cut onto {onto}"));
    }
    for onto in REFUSED {
        insist_on(tally, &format!("Write refused onto {onto}"));
    }
    for kinds in [&WITHOUT_MEND[..], &WITH_MEND] {
        for cut in cuts(kinds.len()) {
            let position = position(kinds, cut);
            insist_on(tally, &position);
            insist_on_which(tally, &position, which(kinds, cut));
        }
    }
}

/// What may be kept after a cut there: the new plaintext from the second stage on,
/// in which the tag is old or new.
fn which(kinds: &[Kind], cut: Cut) -> &'static [&'static str] {
    let second = kinds.len() - 2;
    match cut {
        Cut::In(call) if call == second => &["old", "new"],
        Cut::In(call) | Cut::Behind(call) if call < second => &["old"],
        _ => &["new"],
    }
}

/// These were kept after a cut there, and nothing else was.
fn insist_on_which(tally: &Tally, position: &str, due: &[&str]) {
    for which in ["old", "new"] {
        let what = format!("{position}, the {which} is kept");
        assert_eq!(tally.get(&what) > 0, due.contains(&which), "{what}");
    }
}
