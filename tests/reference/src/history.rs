//! Random histories of volumes, with the plain machine and a log beside them.
//!
//! Every event is staged as the rules of a cut and of damage allow, and after
//! every event each sector is held against what the machine says is kept, and
//! the map against what the log says of it. A history is that of one key and one
//! volume's number. The calls are a parameter, so that any implementation can be
//! put to the test.

mod on_map;
mod on_write;

use std::collections::BTreeMap;

use crate::answer::{Place, Refusal, Verdict};
use crate::collide::{blind_pair, steer};
use crate::field::{to_block, to_bytes, Block};
use crate::machine::{Call, Ending, Event, Machine, Sector};
use crate::rng::Rng;
use crate::seal::{sealed, Sealed};
use crate::suspects::{self, Entry, Log};
use crate::volume::Survey;
use crate::{map, seal, volume};

pub use crate::map::Kind;
use on_map::insist_on_rule;
pub use on_map::{insist_on_marks, insist_on_words};
pub use on_write::insist_on_writes;

const FILL: u8 = 0x5a;

/// What every call on a volume is given.
#[derive(Clone, PartialEq, Eq)]
pub struct Given {
    pub key: Vec<u8>,
    /// The volume's number.
    pub volume: u64,
    pub size: usize,
    pub count: usize,
}

impl Given {
    /// Whether the key has 32 bytes and the first 16 are zero.
    fn has_zero_h(&self) -> bool {
        self.key.len() == 32 && self.key.starts_with(&[0; 16])
    }
}

#[derive(Clone, Debug, PartialEq, Eq)]
pub struct Images {
    pub local: Vec<u8>,
    pub tag: Vec<u8>,
    pub remote: Vec<u8>,
}

/// What a call on one sector answers; only mend, read and write find a verdict.
pub type Answer = Result<Option<Verdict>, Refusal>;

/// An implementation of the calls.
pub trait Calls {
    /// Runs a call to its end. `output` is a read's.
    fn run(
        &self,
        request: &Request,
        images: &mut Images,
        map: &mut [u64],
        output: &mut [u8],
    ) -> Answer;

    fn survey(
        &self,
        given: &Given,
        images: &Images,
        map: &[u64],
        list: &mut [u32],
    ) -> Result<Survey, Refusal>;

    fn start_map(&self, count: usize, map: &mut [u64]) -> Result<(), Refusal>;

    fn count_suspects(&self, count: usize, map: &[u64]) -> Result<u64, Refusal>;
}

/// The calls of this package.
pub struct Reference;

impl Calls for Reference {
    fn run(
        &self,
        request: &Request,
        images: &mut Images,
        map: &mut [u64],
        output: &mut [u8],
    ) -> Answer {
        let Given {
            ref key,
            volume: v,
            size: s,
            count: n,
        } = request.given;
        let Images { local, tag, remote } = images;
        let (i, text) = (request.number, &request.plaintext);
        let done = |()| None;
        match request.kind {
            Kind::Blank => volume::blank(key, v, s, n, local, tag, remote, map, i).map(done),
            Kind::First => {
                volume::first_stage(key, v, s, n, local, tag, remote, map, i, text).map(done)
            }
            Kind::Second => {
                volume::second_stage(key, v, s, n, local, tag, remote, map, i, text).map(done)
            }
            Kind::Third => {
                volume::third_stage(key, v, s, n, local, tag, remote, map, i, text).map(done)
            }
            Kind::Mend => volume::mend(key, v, s, n, local, tag, remote, map, i).map(Some),
            Kind::Read => volume::read(key, v, s, n, local, tag, remote, map, i, output).map(Some),
            Kind::Write => volume::write(key, v, s, n, local, tag, remote, map, i, text).map(Some),
        }
    }

    fn survey(
        &self,
        given: &Given,
        images: &Images,
        map: &[u64],
        list: &mut [u32],
    ) -> Result<Survey, Refusal> {
        let Given {
            ref key,
            volume,
            size,
            count,
        } = *given;
        let Images { local, tag, remote } = images;
        volume::survey(key, volume, size, count, local, tag, remote, map, list)
    }

    fn start_map(&self, count: usize, map: &mut [u64]) -> Result<(), Refusal> {
        map::start(count, map)
    }

    fn count_suspects(&self, count: usize, map: &[u64]) -> Result<u64, Refusal> {
        map::count_suspects(count, map)
    }
}

impl Images {
    fn place(&self, size: usize, number: usize, place: Place) -> &[u8] {
        match place {
            Place::Local => &self.local[volume::part(number, size)],
            Place::Tag => &self.tag[volume::part(number, 16)],
            Place::Remote => &self.remote[volume::part(number, size)],
        }
    }

    fn place_mut(&mut self, size: usize, number: usize, place: Place) -> &mut [u8] {
        match place {
            Place::Local => &mut self.local[volume::part(number, size)],
            Place::Tag => &mut self.tag[volume::part(number, 16)],
            Place::Remote => &mut self.remote[volume::part(number, size)],
        }
    }
}

/// A call and all that it takes but the images and the map.
#[derive(Clone)]
pub struct Request {
    pub kind: Kind,
    pub given: Given,
    pub number: usize,
    pub plaintext: Vec<u8>,
    /// The length of a read's output.
    pub output: usize,
    /// The words of the map that it is lent.
    pub words: usize,
}

impl Request {
    /// The call as the machine is told of it. Of a write it is told the calls.
    fn call(&self) -> Call<'_> {
        match self.kind {
            Kind::Blank => Call::Blank,
            Kind::First => Call::FirstStage(&self.plaintext),
            Kind::Second => Call::SecondStage(&self.plaintext),
            Kind::Third => Call::ThirdStage(&self.plaintext),
            Kind::Mend => Call::Mend,
            Kind::Read => Call::Read,
            Kind::Write => panic!("a write is no event of its own"),
        }
    }

    /// The places that the accepted call writes.
    fn written(&self, found: Option<Verdict>) -> Vec<Place> {
        match (self.kind, found) {
            (Kind::Blank | Kind::Write, _) => Place::ALL.to_vec(),
            (Kind::First, _) => vec![Place::Local],
            (Kind::Second, _) => vec![Place::Tag],
            (Kind::Third, _) => vec![Place::Remote],
            (Kind::Mend, Some(Verdict::Doubtful(place))) => vec![place],
            (Kind::Mend, _) | (Kind::Read, _) => vec![],
        }
    }
}

/// A call that was made on copies of the images and the map.
struct Made {
    request: Request,
    answer: Answer,
    before: Images,
    after: Images,
    /// The map as it was left.
    map: Vec<u64>,
}

/// How often each thing was seen.
#[derive(Default)]
pub struct Tally(pub BTreeMap<String, usize>);

impl Tally {
    fn add(&mut self, what: &str) {
        self.add_many(what, 1);
    }

    fn add_many(&mut self, what: &str, times: usize) {
        *self.0.entry(what.to_string()).or_default() += times;
    }

    pub fn get(&self, what: &str) -> usize {
        self.0.get(what).copied().unwrap_or(0)
    }
}

/// What happens in a stretch of a history, besides finished and refused calls.
#[derive(Clone, Copy, Debug, PartialEq, Eq)]
enum Stretch {
    /// Damage, and cuts, after which the map is started anew.
    Cuts,
    /// Nothing.
    CallsAlone,
    /// Damage, cuts, and calls under another key or number that are accepted, and
    /// nothing starts the map anew. Of this the machine says nothing.
    AnyWriter,
}

/// So many sectors are all looked at after every event, of more only some.
const FEW: usize = 8;

/// Sectors of a volume of many that are often chosen: those at the ends of the
/// volume and about the ends of a word of the map.
const FREQUENT: [usize; 8] = [0, 1, 62, 63, 64, 65, 127, 128];

/// A volume with its map, its machine and log, and what the writers of it have in
/// mind.
struct History<'a> {
    calls: &'a dyn Calls,
    rng: Rng,
    given: Given,
    images: Images,
    map: Vec<u64>,
    machine: Machine,
    log: Log,
    stretch: Stretch,
    /// How many events of the stretch are to come.
    to_come: usize,
    /// What another writer to the images takes.
    other: Given,
    /// The sector that damage fell on last, until the next call.
    damaged: Option<usize>,
    /// Plaintexts to choose from, some with equal tags.
    pool: Vec<Vec<u8>>,
    /// The plaintext on its way into each sector.
    drafts: Vec<Vec<u8>>,
    tally: &'a mut Tally,
}

impl<'a> History<'a> {
    fn new(
        calls: &'a dyn Calls,
        mut rng: Rng,
        given: Given,
        pool: Vec<Vec<u8>>,
        tally: &'a mut Tally,
    ) -> Self {
        let Given { size, count, .. } = given;
        let images = Images {
            local: rng.bytes(count * size),
            tag: rng.bytes(count * 16),
            remote: rng.bytes(count * size),
        };
        let mut history = History {
            calls,
            images,
            map: vec![0; map::words(count)],
            machine: Machine::new(size, count),
            log: Log::default(),
            stretch: Stretch::Cuts,
            to_come: 0,
            other: given.clone(),
            damaged: None,
            drafts: vec![pool[0].clone(); count],
            pool,
            given,
            rng,
            tally,
        };
        history.other.volume = history.other_volume();
        if history.rng.chance(50) {
            history.other.key = history.rng.bytes(32);
        }
        history.start_anew();
        history
    }

    fn step(&mut self) {
        self.go_on();
        if self.rng.chance(10) {
            self.call_on_map();
        }
        let before = self.given.has_zero_h().then(|| self.images.clone());
        let number = self.event();
        if before.is_some_and(|images| images != self.images) {
            let by_another = self.damaged.is_some() || self.stretch == Stretch::AnyWriter;
            assert!(by_another, "a call under an h of zero wrote");
        }
        self.check_map();
        if self.stretch != Stretch::AnyWriter {
            for number in self.looked_at(number) {
                self.check(number);
            }
        }
        if self.given.count <= FEW || self.rng.chance(5) {
            self.check_survey();
        }
    }

    /// Goes on to another stretch where one is at its end. The machine begins anew
    /// behind one of which it says nothing, since a volume may begin with any
    /// bytes.
    fn go_on(&mut self) {
        if self.to_come == 0 {
            if self.stretch == Stretch::AnyWriter {
                self.machine = Machine::new(self.given.size, self.given.count);
            }
            self.stretch = match self.rng.below(10) {
                0..=4 => Stretch::Cuts,
                5..=6 => Stretch::CallsAlone,
                _ => Stretch::AnyWriter,
            };
            self.to_come = 10 + self.rng.below(60);
            if self.stretch == Stretch::CallsAlone {
                self.start_in_the_middle();
            }
            self.tally.add(&format!("stretch of {:?}", self.stretch));
        }
        self.to_come -= 1;
    }

    /// All sectors where there are few, else the one that an event named and some
    /// more.
    fn looked_at(&mut self, number: usize) -> Vec<usize> {
        if self.given.count <= FEW {
            return (0..self.given.count).collect();
        }
        let [one, another] = [(); 2].map(|()| self.choose_number());
        vec![number, one, another]
    }

    // Events.

    /// Makes one event and gives the sector that it was on, or some sector where
    /// it named none.
    fn event(&mut self) -> usize {
        let damage = match self.stretch {
            Stretch::Cuts => 10,
            Stretch::CallsAlone => 0,
            Stretch::AnyWriter => 20,
        };
        if self.rng.chance(damage) {
            return self.damage();
        }
        let request = self.choose_request();
        if request.kind == Kind::Write {
            self.write(&request);
        } else {
            self.call(&request);
        }
        request.number.min(self.given.count - 1)
    }

    fn choose_request(&mut self) -> Request {
        let (kind, number) = match (self.damaged.take(), self.stretch) {
            (Some(number), Stretch::AnyWriter) if self.rng.chance(80) => {
                let kinds = [Kind::Read, Kind::Read, Kind::Mend, Kind::Write];
                (*self.rng.pick(&kinds), number)
            }
            // So that writes often meet what damage left.
            (Some(number), Stretch::Cuts) if self.rng.chance(40) => (Kind::Write, number),
            _ => self.choose_call(),
        };
        let plaintext = self.choose_plaintext(kind, number);
        let mut request = self.request(kind, number, &plaintext);
        if self.stretch == Stretch::AnyWriter && self.rng.chance(40) {
            request.given = self.other.clone();
        }
        if self.rng.chance(15) {
            self.spoil(&mut request);
            // Two at once show the order of the refusals.
            if self.rng.chance(20) {
                self.spoil(&mut request);
            }
        }
        request
    }

    fn choose_call(&mut self) -> (Kind, usize) {
        let number = self.choose_number();
        (self.choose_kind(number), number)
    }

    fn choose_number(&mut self) -> usize {
        let count = self.given.count;
        if count > FEW && self.rng.chance(80) {
            let frequent = *self.rng.pick(&FREQUENT);
            return frequent.min(count - 1);
        }
        self.rng.below(count)
    }

    fn choose_kind(&mut self, number: usize) -> Kind {
        if *self.machine.sector(number) == Sector::Gone && self.rng.chance(30) {
            return Kind::Blank;
        }
        match self.rng.below(100) {
            0..=3 => Kind::Blank,
            4..=29 => Kind::First,
            30..=50 => Kind::Second,
            51..=67 => Kind::Third,
            68..=76 => Kind::Mend,
            77..=85 => Kind::Read,
            _ => Kind::Write,
        }
    }

    /// Later stages mostly go on with what the first, or a write, began.
    fn choose_plaintext(&mut self, kind: Kind, number: usize) -> Vec<u8> {
        let begins = matches!(kind, Kind::First | Kind::Write);
        if !begins && self.rng.chance(85) {
            return self.drafts[number].clone();
        }
        let plaintext = if self.rng.chance(20) {
            self.rng.bytes(self.given.size)
        } else {
            self.rng.pick(&self.pool).clone()
        };
        if begins {
            self.drafts[number] = plaintext.clone();
        }
        plaintext
    }

    /// Gives the call something that is not the volume's.
    fn spoil(&mut self, request: &mut Request) {
        match self.rng.below(20) {
            0 => request.given.key = self.rng.bytes(31),
            1 => request.given.key = self.rng.bytes(32),
            2 => request.given.size += 1,
            3 => request.given.size += 16,
            4 => request.given.count += 1,
            5 => request.given.count = 0,
            6 => request.number = request.given.count + self.rng.below(3),
            7 => {
                request.plaintext.push(0);
                request.output += 1;
            }
            8..=10 => request.words = self.wrong_words(),
            11..=12 => request.given.key[..16].fill(0),
            // Most often, since only the verdict can refuse it.
            _ => request.given.volume = self.other_volume(),
        }
    }

    /// A number that is not the volume's: one bit away, with its bytes in the
    /// other order, or anything.
    fn other_volume(&mut self) -> u64 {
        let own = self.given.volume;
        let other = match self.rng.below(5) {
            0 => 0,
            1 => u64::MAX,
            2 => own ^ (1 << self.rng.below(64)),
            3 => own.swap_bytes(),
            _ => self.rng.next_u64(),
        };
        if other == own {
            !own
        } else {
            other
        }
    }

    fn call(&mut self, request: &Request) {
        let made = self.make(request);
        if self.is_left_out(&made) {
            return;
        }
        let cut = self.stretch != Stretch::CallsAlone && self.rng.chance(30);
        let ending = self.end(&made, cut);
        self.tell(&made, ending);
        self.tally_call(request, how(&made.answer, cut));
        self.keep_map(&made, cut);
    }

    /// Makes a call on copies. What it refuses writes no image and no output, and
    /// what it accepts writes the places due and no other.
    fn make(&self, request: &Request) -> Made {
        let before = self.images.clone();
        let mut after = before.clone();
        let mut output = vec![FILL; request.output];
        let (answer, map) = self.run(request, &mut after, &mut output);
        self.insist_on_answer(request, answer);
        match answer {
            Ok(found) => {
                let written = request.written(found);
                self.insist_on_places(&before, &after, request.number, &written);
            }
            Err(_) => {
                let same_output = output.iter().all(|&byte| byte == FILL);
                assert!(after == before && same_output, "a refused call wrote");
            }
        }
        Made {
            request: request.clone(),
            answer,
            before,
            after,
            map,
        }
    }

    /// Only a call that is refused may come with another key or number.
    fn is_left_out(&self, made: &Made) -> bool {
        let own = made.request.given == self.given;
        made.answer.is_ok() && !own && self.stretch != Stretch::AnyWriter
    }

    /// Leaves the images as a call does that finishes, or as one that is cut may.
    fn end(&mut self, made: &Made, cut: bool) -> Ending {
        let Made { request, after, .. } = made;
        if !cut {
            self.images = after.clone();
            return Ending::Finished;
        }
        let written = made.answer.map_or(vec![], |found| request.written(found));
        self.images = self.cut(&made.before, after, request.number, written);
        let tag_is_new = if request.kind == Kind::Second && made.answer.is_ok() {
            self.images.tag == after.tag
        } else {
            self.rng.chance(50)
        };
        Ending::Cut { tag_is_new }
    }

    /// Tells the machine, if this is a stretch of which it says something.
    fn tell(&mut self, made: &Made, ending: Ending) {
        if self.stretch != Stretch::AnyWriter {
            self.machine.feed(&Event::Call {
                call: made.request.call(),
                number: made.request.number,
                ending,
                refused: made.answer.is_err(),
            });
        }
    }

    fn tally_call(&mut self, request: &Request, how: &str) {
        self.tally.add("events");
        if self.stretch == Stretch::AnyWriter {
            let own = request.given == self.given;
            let whose = if own { "its own" } else { "another" };
            self.tally
                .add(&format!("beside any writer, {whose} call {how}"));
            return;
        }
        self.tally.add(&format!("{:?} {how}", request.kind));
        if request.given.volume != self.given.volume
            && request.number < self.given.count
            && *self.machine.sector(request.number) != Sector::Gone
        {
            self.tally
                .add(&format!("{:?} {how} under another number", request.kind));
        }
    }

    /// The answer is this package's. The machine would not notice a call that
    /// takes one number for another: what it refuses changes nothing, and what
    /// it accepts under another number is left out. Exactly a key of 32 bytes whose
    /// h is zero is refused for that, whatever else is wrong.
    fn insist_on_answer(&self, request: &Request, answer: Answer) {
        let is_refused = answer == Err(Refusal::ZeroHashKey);
        let has_zero_h = request.given.has_zero_h();
        assert_eq!(is_refused, has_zero_h, "an h of zero in {:?}", request.kind);
        let mut output = vec![FILL; request.output];
        let (mut images, mut map) = (self.images.clone(), self.lent(request.words));
        let due = Reference.run(request, &mut images, &mut map, &mut output);
        assert_eq!(answer, due, "another answer to {:?}", request.kind);
    }

    /// No byte but those of the places due may differ.
    fn insist_on_places(&self, before: &Images, after: &Images, number: usize, written: &[Place]) {
        let size = self.given.size;
        let mut due = before.clone();
        for &place in written {
            due.place_mut(size, number, place)
                .copy_from_slice(after.place(size, number, place));
        }
        assert!(due == *after, "a call wrote elsewhere");
    }

    /// What a cut may leave: some of the writes had begun, in any order. A side
    /// then holds anything, a tag its old or its new value.
    fn cut(
        &mut self,
        before: &Images,
        after: &Images,
        number: usize,
        mut places: Vec<Place>,
    ) -> Images {
        let size = self.given.size;
        let mut images = before.clone();
        let begun = self.rng.below(places.len() + 1);
        for _ in 0..begun {
            let place = places.remove(self.rng.below(places.len()));
            let new = after.place(size, number, place);
            let bytes = images.place_mut(size, number, place);
            let how = self.rng.below(if place == Place::Tag { 2 } else { 5 });
            match how {
                0 => {}
                1 => bytes.copy_from_slice(new),
                2 => {
                    let torn = self.rng.below(bytes.len());
                    bytes[..torn].copy_from_slice(&new[..torn]);
                }
                3 => {
                    let torn = self.rng.below(bytes.len());
                    bytes[torn..].copy_from_slice(&new[torn..]);
                }
                _ => self.rng.fill(bytes),
            }
        }
        images
    }

    fn damage(&mut self) -> usize {
        let number = self.choose_damaged();
        let place = *self.rng.pick(&Place::ALL);
        let bytes = self.damaged_bytes(number, place);
        self.images
            .place_mut(self.given.size, number, place)
            .copy_from_slice(&bytes);
        self.machine.feed(&Event::Damage { number, place });
        self.log.push(Entry::Written);
        self.damaged = Some(number);
        self.tally.add("events");
        self.tally.add("Damage");
        number
    }

    /// Beside any writer mostly a sector that is clear in the map, if there is one:
    /// a read then shows what it does to a clear bit.
    fn choose_damaged(&mut self) -> usize {
        let bits = suspects::bits(&self.map);
        let clear: Vec<usize> = (0..self.given.count).filter(|&i| !bits[i]).collect();
        if self.stretch == Stretch::AnyWriter && !clear.is_empty() && self.rng.chance(60) {
            return *self.rng.pick(&clear);
        }
        self.choose_number()
    }

    /// Any bytes: random, nearly right, right, or right for something else.
    fn damaged_bytes(&mut self, number: usize, place: Place) -> Vec<u8> {
        let size = self.given.size;
        let mut bytes = self.images.place(size, number, place).to_vec();
        match self.rng.below(8) {
            0 => self.rng.fill(&mut bytes),
            1 => bytes.fill(0),
            2 => {
                let position = self.rng.below(bytes.len());
                bytes[position] ^= 1 << self.rng.below(8);
            }
            3 => {}
            4 => {
                let elsewhere = self.rng.below(self.given.count);
                bytes = self.images.place(size, elsewhere, place).to_vec();
            }
            5 => {
                let plaintext = self.rng.pick(&self.pool).clone();
                bytes = self.sealed(number, &plaintext).place(place).to_vec();
            }
            // Of a plaintext that begins with h this is another of the same tag.
            6 if bytes.len() >= 32 => self.rng.fill(&mut bytes[16..32]),
            _ => {
                let (key, other) = (self.given.key.clone(), self.other_volume());
                let plaintext = self.rng.pick(&self.pool);
                let sealed = sealed(&key, other, number as u64, plaintext);
                bytes = sealed.place(place).to_vec();
            }
        }
        bytes
    }

    // Checks.

    fn request(&self, kind: Kind, number: usize, plaintext: &[u8]) -> Request {
        Request {
            kind,
            given: self.given.clone(),
            number,
            plaintext: plaintext.to_vec(),
            output: self.given.size,
            words: self.map.len(),
        }
    }

    /// A copy of the map, cut or with more behind it, to be lent.
    fn lent(&self, words: usize) -> Vec<u64> {
        let mut map = self.map.clone();
        map.resize(words, u64::from_ne_bytes([FILL; 8]));
        map
    }

    /// Makes a call on a copy of the map, or on a map of another length, and gives
    /// what it leaves of it, which must be as the rule says.
    fn run(&self, request: &Request, images: &mut Images, output: &mut [u8]) -> (Answer, Vec<u64>) {
        let mut map = self.lent(request.words);
        let answer = self.calls.run(request, images, &mut map, output);
        if request.words == self.map.len() {
            insist_on_rule(&map, &self.log, &[self.entry(request, answer)]);
        } else {
            let lent = self.lent(request.words);
            assert_eq!(map, lent, "a map of another length was written");
        }
        (answer, map)
    }

    /// Reads, and insists that no image is changed and a refusal leaves the
    /// output alone.
    fn read(&self, images: &Images, number: usize) -> Result<(Verdict, Vec<u8>), Refusal> {
        let request = self.request(Kind::Read, number, &[]);
        let mut same = images.clone();
        let mut output = vec![FILL; self.given.size];
        let (answer, _) = self.run(&request, &mut same, &mut output);
        assert!(same == *images, "a read wrote");
        match answer {
            Ok(verdict) => Ok((verdict.expect("a read finds a verdict"), output)),
            Err(refusal) => {
                assert!(output.iter().all(|&byte| byte == FILL), "a refusal wrote");
                Err(refusal)
            }
        }
    }

    /// Mends a copy.
    fn mend(&self, number: usize) -> (Answer, Images) {
        let mut images = self.images.clone();
        let request = self.request(Kind::Mend, number, &[]);
        let (answer, _) = self.run(&request, &mut images, &mut []);
        (answer, images)
    }

    fn held(&self, number: usize) -> Sealed {
        let [local, tag, remote] =
            Place::ALL.map(|place| self.images.place(self.given.size, number, place).to_vec());
        Sealed { local, tag, remote }
    }

    /// What the three places hold where this plaintext is sealed.
    fn sealed(&self, number: usize, plaintext: &[u8]) -> Sealed {
        let Given {
            ref key, volume, ..
        } = self.given;
        sealed(key, volume, number as u64, plaintext)
    }

    fn check(&mut self, number: usize) {
        match self.machine.sector(number).clone() {
            Sector::Gone => self.tally.add("seen gone"),
            Sector::Kept { .. } if self.given.has_zero_h() => panic!("kept under an h of zero"),
            Sector::Kept {
                plaintext,
                doubt: None,
            } => self.check_without_doubt(number, plaintext),
            Sector::Kept {
                plaintext,
                doubt: Some(place),
            } => self.check_in_doubt(number, plaintext, place),
        }
    }

    fn check_without_doubt(&mut self, number: usize, plaintext: Vec<u8>) {
        self.tally.add("seen without doubt");
        let due = Ok((Verdict::Whole, plaintext));
        assert_eq!(self.read(&self.images, number), due);
        let (answer, images) = self.mend(number);
        assert_eq!(answer, Ok(Some(Verdict::Whole)));
        assert!(images == self.images);
        for new in [
            self.rng.bytes(self.given.size),
            self.rng.pick(&self.pool).clone(),
        ] {
            let mut images = self.images.clone();
            let first = self.request(Kind::First, number, &new);
            assert_eq!(self.run(&first, &mut images, &mut []).0, Ok(None));
            let sealed = self.sealed(number, &new);
            let local = images.place(self.given.size, number, Place::Local);
            assert_eq!(local, sealed.local);
            self.insist_on_places(&self.images, &images, number, &[Place::Local]);
        }
    }

    fn check_in_doubt(&mut self, number: usize, plaintext: Vec<u8>, place: Place) {
        let (mended, images) = self.mend(number);
        if self.another_fits_two(number, &plaintext) {
            self.tally.add("seen clashing");
            assert_eq!(self.read(&self.images, number), Err(Refusal::Clashing));
            assert_eq!(mended, Err(Refusal::Clashing));
            assert!(images == self.images);
            return;
        }
        let held = self.held(number);
        let sealed = self.sealed(number, &plaintext);
        let verdict = if sealed.place(place) == held.place(place) {
            self.tally.add("seen whole in doubt");
            Verdict::Whole
        } else {
            self.tally.add(&format!("seen doubtful {place:?}"));
            Verdict::Doubtful(place)
        };
        let due = Ok((verdict, plaintext.clone()));
        assert_eq!(self.read(&self.images, number), due);
        assert_eq!(mended, Ok(Some(verdict)));
        let due = Ok((Verdict::Whole, plaintext));
        assert_eq!(self.read(&images, number), due);
        self.insist_on_places(&self.images, &images, number, &[place]);
    }

    /// Whether a plaintext other than this one fits two places. What can fit
    /// two places is had from either side with the tag, or from both sides.
    fn another_fits_two(&self, number: usize, plaintext: &[u8]) -> bool {
        let Given {
            ref key, volume, ..
        } = self.given;
        let address = number as u64;
        let held = self.held(number);
        let mut output = vec![0; self.given.size];
        for (side, sector) in [(0, &held.local), (1, &held.remote)] {
            let opened = seal::open(key, volume, address, side, sector, &held.tag, &mut output);
            if opened.is_ok() && output != plaintext {
                return true;
            }
        }
        assert_eq!(
            seal::combine(&held.local, &held.remote, &mut output),
            Ok(())
        );
        let sealed = self.sealed(number, &output);
        sealed.local == held.local && sealed.remote == held.remote && output != plaintext
    }

    /// The survey says of all sectors what reads say of each, and lists them in
    /// repair order. Under an h of zero it is refused, as they are.
    fn check_survey(&mut self) {
        let count = self.given.count;
        let mut list = vec![u32::MAX; count];
        let found = self
            .calls
            .survey(&self.given, &self.images, &self.map, &mut list);
        if self.given.has_zero_h() {
            assert_eq!(found, Err(Refusal::ZeroHashKey));
            assert_eq!(list, vec![u32::MAX; count], "a refused survey wrote");
            return;
        }
        let found = found.expect("the volume's own shape");
        let urgencies: Vec<_> = (0..count)
            .map(|number| urgency(self.read(&self.images, number)))
            .collect();
        let [lost, clashing, doubtful, whole] =
            [0, 1, 2, 3].map(|kind| urgencies.iter().filter(|&&of| of == kind).count());
        let due = Survey {
            whole,
            doubtful,
            clashing,
            lost,
            health: 1000 * whole / count,
        };
        assert_eq!(found, due);

        let rising: Vec<u32> = (0..count as u32)
            .filter(|&number| urgencies[number as usize] < 3)
            .collect();
        let mut due = rising.clone();
        // This sort leaves numbers of one kind as they stand, rising.
        due.sort_by_key(|&number| urgencies[number as usize]);
        self.tally_list(&rising, &due, [lost, clashing, doubtful]);
        due.resize(count, u32::MAX);
        assert_eq!(list, due);
    }

    /// Notes the lists in which another order would show.
    fn tally_list(&mut self, rising: &[u32], due: &[u32], kinds: [usize; 3]) {
        if rising != due {
            self.tally.add("seen a list that does not rise");
        }
        if kinds.iter().all(|&sectors| sectors > 0) {
            self.tally.add("seen a list of all kinds");
        }
        if kinds.iter().any(|&sectors| sectors > 1) {
            self.tally.add("seen a list with two of a kind");
        }
    }
}

/// Where repair order puts a sector of which a read says this: lost 0, clashing
/// 1, doubtful 2, whole 3.
fn urgency(read: Result<(Verdict, Vec<u8>), Refusal>) -> usize {
    match read {
        Err(Refusal::Lost) => 0,
        Err(Refusal::Clashing) => 1,
        Ok((Verdict::Doubtful(_), _)) => 2,
        Ok((Verdict::Whole, _)) => 3,
        Err(refusal) => panic!("a read refuses {refusal:?}"),
    }
}

/// How a call ended, for the tally.
fn how(answer: &Answer, cut: bool) -> &'static str {
    match (answer, cut) {
        (Err(_), _) => "refused",
        (Ok(_), true) => "cut",
        (Ok(_), false) => "finished",
    }
}

/// A volume's number: either end of the range, the first that is not 0, or any.
fn draw_volume(rng: &mut Rng, tally: &mut Tally) -> u64 {
    let (what, volume) = match rng.below(4) {
        0 => ("number 0", 0),
        1 => ("number 1", 1),
        2 => ("largest number", u64::MAX),
        _ => ("any number", rng.next_u64()),
    };
    tally.add(&format!("history under {what}"));
    volume
}

/// What the keys and plaintexts of a history are.
#[derive(Clone, Copy, PartialEq, Eq)]
enum Draw {
    /// Any key, and some plaintexts of equal tags where there are two blocks.
    Any,
    /// Any key, and most plaintexts of two tags, so that clashes abound. Takes two
    /// blocks.
    TwoTags,
    /// A key whose h is zero, which every call refuses.
    ZeroH,
}

impl Draw {
    fn key(self, rng: &mut Rng) -> Vec<u8> {
        let mut key = rng.bytes(32);
        if self == Draw::ZeroH {
            key[..16].fill(0);
        }
        key
    }

    /// Plaintexts to choose from: zeros, ones, random ones, and from two blocks on a
    /// pair of equal tags. Or zeros and others of their tag, and more of another.
    fn pool(self, rng: &mut Rng, key: &[u8], size: usize) -> Vec<Vec<u8>> {
        let (h, zeros) = (to_block(&key[..16]), vec![0; size / 16]);
        let mut pool = vec![vec![0; size]];
        if self == Draw::TwoTags {
            for _ in 0..8 {
                pool.push(to_bytes(&of_the_tag_of_zeros(rng, h, &zeros)));
            }
            for _ in 0..3 {
                let (_, blind) = blind_pair(h, &zeros, rng.next_u128());
                pool.push(to_bytes(&blind));
            }
            return pool;
        }
        pool.push(vec![0xff; size]);
        for _ in 0..2 {
            pool.push(rng.bytes(size));
        }
        if size >= 32 {
            let (one, other) = blind_pair(h, &zeros, 1);
            pool.push(to_bytes(&one));
            pool.push(to_bytes(&other));
        }
        pool
    }
}

/// A plaintext whose tag is that of zeros wherever it is: the two differ in the
/// first two blocks alone, whose part of the hash the tweak does not enter.
fn of_the_tag_of_zeros(rng: &mut Rng, h: Block, zeros: &[Block]) -> Vec<Block> {
    let mut other = zeros.to_vec();
    other[0] = rng.next_u128();
    steer(h, 0, 0, zeros, &other).expect("a random block 1 is not h")
}

/// In front of what was seen in histories under an h of zero.
pub const UNDER_ZERO_H: &str = "under h zero: ";

/// Runs histories of `events` events on each of several volumes for each seed,
/// each under a number of its own: with any plaintexts, with most of two tags, and
/// shorter ones under an h of zero. Gives how often each thing was seen.
pub fn run_histories(
    calls: &dyn Calls,
    seeds: std::ops::Range<u64>,
    volumes: &[(usize, usize)],
    events: usize,
) -> Tally {
    let (mut tally, mut of_zero_h) = (Tally::default(), Tally::default());
    for seed in seeds {
        for &(size, count) in volumes {
            let seed = 1000 * seed + (size + 3 * count) as u64;
            let run = |draw, seed, size, events, tally: &mut Tally| {
                let mut history = begin(calls, draw, Rng::new(seed), size, count, tally);
                for _ in 0..events {
                    history.step();
                }
            };
            run(Draw::Any, seed, size, events, &mut tally);
            run(Draw::TwoTags, seed + 1, size.max(32), events, &mut tally);
            run(Draw::ZeroH, seed + 2, size, events / 5, &mut of_zero_h);
        }
    }
    for (what, times) in of_zero_h.0 {
        tally.add_many(&format!("{UNDER_ZERO_H}{what}"), times);
    }
    tally
}

fn begin<'a>(
    calls: &'a dyn Calls,
    draw: Draw,
    mut rng: Rng,
    size: usize,
    count: usize,
    tally: &'a mut Tally,
) -> History<'a> {
    let given = Given {
        key: draw.key(&mut rng),
        volume: draw_volume(&mut rng, tally),
        size,
        count,
    };
    let pool = draw.pool(&mut rng, &given.key, size);
    History::new(calls, rng, given, pool, tally)
}

const KINDS: [&str; 7] = ["Blank", "First", "Second", "Third", "Mend", "Read", "Write"];

/// A history that never comes to a case has not tested it.
pub fn insist_on_variety(tally: &Tally) {
    for kind in KINDS {
        for how in ["finished", "cut", "refused"] {
            assert!(tally.get(&format!("{kind} {how}")) > 0, "{kind} {how}");
        }
    }
    // A blank has no verdict to refuse another number by.
    for kind in ["First", "Second", "Third", "Mend", "Read", "Write"] {
        let what = format!("{kind} refused under another number");
        assert!(tally.get(&what) > 0, "{what}");
    }
    for what in [
        "Damage",
        "seen gone",
        "seen without doubt",
        "seen whole in doubt",
        "seen doubtful Local",
        "seen doubtful Tag",
        "seen doubtful Remote",
        "seen clashing",
        "seen a list that does not rise",
        "seen a list of all kinds",
        "seen a list with two of a kind",
    ] {
        assert!(tally.get(what) > 0, "{what}");
    }
    let [clashing, events] = ["seen clashing", "events"].map(|what| tally.get(what));
    assert!(
        10 * clashing > events,
        "few clashes: {clashing} in {events}"
    );
}

/// Calls whose h is zero came to volumes with another key, and left every bit. And
/// under an h of zero every call of the volume's own came, was refused, also where
/// it would have been cut, and nothing was ever kept.
pub fn insist_on_zero_h(tally: &Tally) {
    for kind in KINDS {
        for what in ["0e leaves a set bit", "0e leaves a clear bit"] {
            let what = format!("{kind} {what}");
            assert!(tally.get(&what) > 0, "{what}");
        }
    }
    assert!(tally.get("Survey answers 0e") > 0);
    let get = |what: &str| tally.get(&format!("{UNDER_ZERO_H}{what}"));
    for kind in KINDS {
        for what in ["refused", "answers 0e", "0e leaves a set bit"] {
            let what = format!("{kind} {what}");
            assert!(get(&what) > 0, "{what}");
        }
        for how in ["finished", "cut"] {
            assert_eq!(get(&format!("{kind} {how}")), 0, "{kind} {how}");
        }
    }
    for what in ["seen gone", "Damage", "Survey answers 0e"] {
        assert!(get(what) > 0, "{what}");
    }
    assert_eq!(get("beside any writer, its own call finished"), 0);
    assert_eq!(get("Survey answers 00"), 0);
}
