//! Random histories of small volumes through this package's own calls.

use std::cell::Cell;
use std::panic::{catch_unwind, AssertUnwindSafe};

use reference::answer::{answer_number, Refusal, Verdict};
use reference::history::{insist_on_marks, insist_on_variety, insist_on_words, insist_on_writes};
use reference::history::{insist_on_zero_h, run_histories};
use reference::history::{Answer, Calls, Given, Images, Kind, Reference, Request};
use reference::volume::Survey;

const KINDS: [Kind; 7] = [
    Kind::Blank,
    Kind::First,
    Kind::Second,
    Kind::Third,
    Kind::Mend,
    Kind::Read,
    Kind::Write,
];

#[test]
fn histories_keep_what_the_machine_keeps() {
    let volumes = [(16, 3), (32, 2), (48, 1), (64, 4)];
    let tally = run_histories(&Reference, 0..4, &volumes, 700);
    for (what, times) in &tally.0 {
        println!("{what}: {times}");
    }
    insist_on_variety(&tally);
    insist_on_marks(&tally);
    insist_on_writes(&tally);
    insist_on_zero_h(&tally);
    for what in ["number 0", "number 1", "largest number", "any number"] {
        assert!(tally.get(&format!("history under {what}")) > 0, "{what}");
    }
}

/// Volumes whose map has more words than one.
#[test]
fn histories_of_many_sectors() {
    let tally = run_histories(&Reference, 0..2, &[(16, 65), (16, 130)], 250);
    for (what, times) in &tally.0 {
        println!("{what}: {times}");
    }
    insist_on_words(&tally);
}

/// This package's calls, but the one of this kind, or the survey where there is
/// no kind, takes another number than it is given.
struct Deaf {
    kind: Option<Kind>,
    heard: fn(u64) -> u64,
}

impl Deaf {
    fn given(&self, given: &Given) -> Given {
        Given {
            volume: (self.heard)(given.volume),
            ..given.clone()
        }
    }
}

impl Calls for Deaf {
    fn run(
        &self,
        request: &Request,
        images: &mut Images,
        map: &mut [u64],
        output: &mut [u8],
    ) -> Answer {
        if self.kind != Some(request.kind) {
            return Reference.run(request, images, map, output);
        }
        let request = Request {
            given: self.given(&request.given),
            ..request.clone()
        };
        Reference.run(&request, images, map, output)
    }

    fn survey(
        &self,
        given: &Given,
        images: &Images,
        map: &[u64],
        list: &mut [u32],
    ) -> Result<Survey, Refusal> {
        match self.kind {
            Some(_) => Reference.survey(given, images, map, list),
            None => Reference.survey(&self.given(given), images, map, list),
        }
    }

    fn start_map(&self, count: usize, map: &mut [u64]) -> Result<(), Refusal> {
        Reference.start_map(count, map)
    }

    fn count_suspects(&self, count: usize, map: &[u64]) -> Result<u64, Refusal> {
        Reference.count_suspects(count, map)
    }
}

/// A call that is deaf to the number, or to half of it, does not pass.
#[test]
fn histories_notice_a_deaf_call() {
    let heard: [fn(u64) -> u64; 3] = [
        |_| 0,
        |volume| volume & 0xffff_ffff,
        |volume| volume & !0xffff_ffff,
    ];
    for heard in heard {
        for kind in KINDS.into_iter().map(Some).chain([None]) {
            let deaf = Deaf { kind, heard };
            let run = || run_histories(&deaf, 0..4, &[(16, 3), (32, 2)], 300);
            let passed = catch_unwind(AssertUnwindSafe(run)).is_ok();
            assert!(!passed, "{kind:?}");
        }
    }
}

/// This package's calls, but the one of this kind, or the survey where there is no
/// kind, looks at h too late or never.
struct Lax {
    kind: Option<Kind>,
    looks_late: bool,
}

impl Lax {
    /// The same with another h where it is zero.
    fn given(given: &Given) -> Option<Given> {
        let has_zero_h = given.key.len() == 32 && given.key[..16] == [0; 16];
        let key = [vec![1; 16], given.key[16..].to_vec()].concat();
        has_zero_h.then(|| Given {
            key,
            ..given.clone()
        })
    }
}

impl Calls for Lax {
    fn run(
        &self,
        request: &Request,
        images: &mut Images,
        map: &mut [u64],
        output: &mut [u8],
    ) -> Answer {
        let given = match Lax::given(&request.given) {
            Some(given) if self.kind == Some(request.kind) => given,
            _ => return Reference.run(request, images, map, output),
        };
        let request = Request {
            given,
            ..request.clone()
        };
        if self.looks_late {
            let (mut images, mut map) = (images.clone(), map.to_vec());
            let answer = Reference.run(&request, &mut images, &mut map, &mut output.to_vec());
            return answer.and(Err(Refusal::ZeroHashKey));
        }
        Reference.run(&request, images, map, output)
    }

    fn survey(
        &self,
        given: &Given,
        images: &Images,
        map: &[u64],
        list: &mut [u32],
    ) -> Result<Survey, Refusal> {
        let given = match Lax::given(given) {
            Some(given) if self.kind.is_none() => given,
            _ => return Reference.survey(given, images, map, list),
        };
        if self.looks_late {
            let answer = Reference.survey(&given, images, map, &mut list.to_vec());
            return answer.and(Err(Refusal::ZeroHashKey));
        }
        Reference.survey(&given, images, map, list)
    }

    fn start_map(&self, count: usize, map: &mut [u64]) -> Result<(), Refusal> {
        Reference.start_map(count, map)
    }

    fn count_suspects(&self, count: usize, map: &[u64]) -> Result<u64, Refusal> {
        Reference.count_suspects(count, map)
    }
}

#[test]
fn histories_notice_a_call_that_is_lax_about_h() {
    for looks_late in [false, true] {
        for kind in KINDS.into_iter().map(Some).chain([None]) {
            let lax = Lax { kind, looks_late };
            let run = || run_histories(&lax, 0..4, &[(16, 3), (32, 2)], 300);
            let passed = catch_unwind(AssertUnwindSafe(run)).is_ok();
            assert!(!passed, "{kind:?}");
        }
    }
}

/// A mistake about the map, or about the images alone.
#[derive(Clone, Copy, Debug)]
enum Mistake {
    /// The call with this answer leaves its bit other than it must be.
    OtherBit(Kind, u8),
    /// The call with this answer leaves the map alone.
    NoMark(Kind, u8),
    HighestBitFirst,
    NextSectorToo,
    StartsNothing,
    StartsPastTheCount,
    CountsPastTheCount,
    TakesLongerMaps,
    /// The call says that it is done, and writes no image.
    WritesNoImage(Kind),
    Write(Wrong),
}

/// A write in one call that is made wrongly.
#[derive(Clone, Copy, Debug, PartialEq, Eq)]
enum Wrong {
    NoMend,
    /// The verdict is that of the mended sector.
    VerdictAfterMend,
    SecondBeforeFirst,
    EndsAfterSecond,
    /// It marks the map as if it had made the third stage.
    PretendsThird,
    /// It blanks what is lost, and goes on.
    BlanksLost,
}

impl Wrong {
    fn write(self, request: &Request, images: &mut Images, map: &mut [u64]) -> Answer {
        let mut make = |kind, images: &mut Images| {
            let request = Request {
                kind,
                ..request.clone()
            };
            let mut output = vec![0; request.plaintext.len()];
            Reference.run(&request, images, map, &mut output)
        };
        let mut found = make(Kind::Read, images);
        if self == Wrong::BlanksLost && found == Err(Refusal::Lost) {
            make(Kind::Blank, images)?;
            found = Ok(Some(Verdict::Whole));
        }
        if self != Wrong::NoMend && found? != Some(Verdict::Whole) {
            make(Kind::Mend, images)?;
        }
        if self == Wrong::VerdictAfterMend {
            found = make(Kind::Read, images);
        }
        if self == Wrong::SecondBeforeFirst {
            make(Kind::Second, images)?;
        }
        make(Kind::First, images)?;
        make(Kind::Second, images)?;
        if self == Wrong::PretendsThird {
            make(Kind::Third, &mut images.clone())?;
        } else if self != Wrong::EndsAfterSecond {
            make(Kind::Third, images)?;
        }
        found
    }
}

/// This package's calls with a mistake.
struct Mistaken {
    mistake: Mistake,
    /// A write was made, and behind it its calls are made one by one.
    in_write: Cell<bool>,
}

fn flip(map: &mut [u64], number: usize) {
    map[number / 64] ^= 1 << (number % 64);
}

fn reversed(map: &[u64]) -> Vec<u64> {
    map.iter().map(|word| word.reverse_bits()).collect()
}

impl Calls for Mistaken {
    fn run(
        &self,
        request: &Request,
        images: &mut Images,
        map: &mut [u64],
        output: &mut [u8],
    ) -> Answer {
        if let (Mistake::Write(wrong), Kind::Write) = (self.mistake, request.kind) {
            return wrong.write(request, images, map);
        }
        let before = (images.clone(), map.to_vec());
        if matches!(self.mistake, Mistake::HighestBitFirst) {
            map.copy_from_slice(&reversed(map));
        }
        let answer = Reference.run(request, images, map, output);
        let this = (request.kind, answer_number(&answer));
        let number = request.number;
        match self.mistake {
            Mistake::OtherBit(kind, of) if this == (kind, of) => flip(map, number),
            Mistake::NoMark(kind, of) if this == (kind, of) => map.copy_from_slice(&before.1),
            Mistake::HighestBitFirst => map.copy_from_slice(&reversed(map)),
            Mistake::NextSectorToo if before.1 != map => flip(map, (number + 1) % 64),
            Mistake::WritesNoImage(kind) if kind == request.kind && !self.in_write.get() => {
                *images = before.0;
            }
            _ => {}
        }
        match request.kind {
            Kind::Write => self.in_write.set(answer.is_ok()),
            Kind::Third => self.in_write.set(false),
            _ => {}
        }
        answer
    }

    fn survey(
        &self,
        given: &Given,
        images: &Images,
        map: &[u64],
        list: &mut [u32],
    ) -> Result<Survey, Refusal> {
        Reference.survey(given, images, map, list)
    }

    fn start_map(&self, count: usize, map: &mut [u64]) -> Result<(), Refusal> {
        match self.mistake {
            Mistake::StartsNothing => Reference.start_map(count, &mut map.to_vec()),
            Mistake::HighestBitFirst => {
                let answer = Reference.start_map(count, map);
                map.copy_from_slice(&reversed(map));
                answer
            }
            Mistake::StartsPastTheCount => {
                let answer = Reference.start_map(count, map);
                map.fill(u64::MAX);
                answer
            }
            Mistake::TakesLongerMaps if map.len() > 1 => Reference.start_map(count, &mut map[..1]),
            _ => Reference.start_map(count, map),
        }
    }

    fn count_suspects(&self, count: usize, map: &[u64]) -> Result<u64, Refusal> {
        let found = Reference.count_suspects(count, map)?;
        match self.mistake {
            Mistake::CountsPastTheCount => {
                Ok(map.iter().map(|word| u64::from(word.count_ones())).sum())
            }
            _ => Ok(found),
        }
    }
}

/// What the histories of a seed say of calls with a mistake, if they notice it.
fn complaint(mistake: Mistake, seed: u64) -> Option<String> {
    let calls = Mistaken {
        mistake,
        in_write: Cell::new(false),
    };
    let run = || run_histories(&calls, seed..seed + 1, &[(16, 3), (32, 2)], 300);
    let payload = catch_unwind(AssertUnwindSafe(run)).err()?;
    let with_value = payload.downcast_ref::<String>().cloned();
    let without = || payload.downcast_ref::<&str>().map(|text| text.to_string());
    Some(with_value.or_else(without).expect("a text"))
}

/// Whether one of some seeds says this of the mistake.
fn is_noticed(mistake: Mistake, due: &str) -> bool {
    (0..8).any(|seed| complaint(mistake, seed).is_some_and(|text| text.contains(due)))
}

/// Each wrong mark is noticed by the first claim.
#[test]
fn histories_notice_a_wrong_mark() {
    let mut mistakes = vec![
        Mistake::HighestBitFirst,
        Mistake::NextSectorToo,
        Mistake::StartsNothing,
        Mistake::StartsPastTheCount,
    ];
    for (kind, answers) in [
        (Kind::Blank, &[0][..]),
        (Kind::First, &[0]),
        (Kind::Second, &[0]),
        (Kind::Third, &[0]),
        (Kind::Mend, &[0, 0x81, 0x82, 0x83, 6, 7]),
        (Kind::Read, &[0, 0x81, 0x82, 0x83, 6, 7]),
        (Kind::Write, &[0, 0x81, 0x82, 0x83, 6, 7]),
    ] {
        for &answer in answers {
            mistakes.push(Mistake::OtherBit(kind, answer));
            mistakes.push(Mistake::NoMark(kind, answer));
        }
    }
    for stage in [Kind::First, Kind::Second, Kind::Third] {
        mistakes.push(Mistake::OtherBit(stage, 10));
    }
    for kind in KINDS {
        mistakes.push(Mistake::OtherBit(kind, 14));
    }
    for mistake in mistakes {
        let due = "a bit is not as the rule says";
        assert!(is_noticed(mistake, due), "{mistake:?}");
    }
}

#[test]
fn histories_notice_a_wrong_call_on_the_map() {
    assert!(is_noticed(Mistake::CountsPastTheCount, "suspects of"));
    assert!(is_noticed(Mistake::TakesLongerMaps, "a start for"));
}

/// A call that is done but leaves a sector other than whole is noticed by the
/// second claim, though its bit is as the rule says. A mend that does so is
/// noticed earlier, by a mend of a copy. A stage that does so in a write only is
/// noticed by the write.
#[test]
fn histories_notice_a_clear_bit_that_is_not_whole() {
    for kind in [Kind::Blank, Kind::Third] {
        let mistake = Mistake::WritesNoImage(kind);
        assert!(is_noticed(mistake, "is clear, and not whole"), "{kind:?}");
    }
}

/// A write that is other than its calls is noticed by what it answers, by its bit
/// or by its images.
#[test]
fn histories_notice_a_wrong_write() {
    for (wrong, due) in [
        (Wrong::NoMend, "another answer to Write"),
        (Wrong::VerdictAfterMend, "another answer to Write"),
        (Wrong::SecondBeforeFirst, "another answer to Write"),
        (Wrong::EndsAfterSecond, "a bit is not as the rule says"),
        (Wrong::PretendsThird, "other images than its calls"),
        (Wrong::BlanksLost, "another answer to Write"),
    ] {
        assert!(is_noticed(Mistake::Write(wrong), due), "{wrong:?}");
    }
    let writes_nothing = Mistake::WritesNoImage(Kind::Write);
    assert!(is_noticed(writes_nothing, "other images than its calls"));
}
