//! The map of suspects: what each call does to its sector's bit, the two calls on
//! a map alone, and a look at one bit.

use crate::common::{bytes, clashing, key, sealed, zero_hash_key, Triple, SIZE, VOLUME};
use mirror::{count_suspects, map_words, start_map};
use mirror::{Place, Refusal, Verdict, Volume, TAG_BYTES, VOLUME_SECTORS_MAX};

/// Sectors in three words, two of them in the last.
const COUNT: usize = 130;

/// Sectors at the ends of the words.
const NUMBERS: [usize; 5] = [0, 63, 64, 127, COUNT - 1];

/// A volume that owns its images and its map.
type Owned<'k> = Volume<'k, Vec<u8>, Vec<u64>>;

/// What a sector holds before a call.
#[derive(Clone, Copy, Debug)]
enum Before {
    Whole,
    Doubtful(Place),
    Lost,
    Clashing,
    /// The local sector of the plaintext to be written, and the rest of zeros.
    FirstStage,
    /// Local sector and tag of the plaintext to be written, and the rest of zeros.
    SecondStage,
}

/// The calls on one sector.
#[derive(Clone, Copy, Debug)]
enum Call {
    Blank,
    First,
    Second,
    Third,
    Read,
    Mend,
    Write,
}

/// What a call does to its sector's bit.
#[derive(Clone, Copy, Debug)]
enum Bit {
    Cleared,
    Set,
    AsItWas,
}

/// The answer of any call; one that only writes answers whole when it is done.
type Answer = Result<Verdict, Refusal>;

const WHOLE: Answer = Ok(Verdict::Whole);
const LOCAL: Answer = Ok(Verdict::Doubtful(Place::Local));
const TAG: Answer = Ok(Verdict::Doubtful(Place::Tag));
const REMOTE: Answer = Ok(Verdict::Doubtful(Place::Remote));
const LOST: Answer = Err(Refusal::Lost);
const CLASHING: Answer = Err(Refusal::Clashing);
const EARLY: Answer = Err(Refusal::StageOrder);

/// A call, what its sector holds before, the answer that is due, and the bit.
type Mark = (Call, Before, Answer, Bit);

#[rustfmt::skip]
const MARKS: [Mark; 34] = [
    (Call::Blank, Before::Whole, WHOLE, Bit::Cleared),
    (Call::Blank, Before::Lost, WHOLE, Bit::Cleared),
    (Call::Third, Before::SecondStage, WHOLE, Bit::Cleared),
    (Call::Mend, Before::Whole, WHOLE, Bit::Cleared),
    (Call::Mend, Before::Doubtful(Place::Local), LOCAL, Bit::Cleared),
    (Call::Mend, Before::Doubtful(Place::Tag), TAG, Bit::Cleared),
    (Call::Mend, Before::Doubtful(Place::Remote), REMOTE, Bit::Cleared),
    (Call::Write, Before::Whole, WHOLE, Bit::Cleared),
    (Call::Write, Before::Doubtful(Place::Local), LOCAL, Bit::Cleared),
    (Call::Write, Before::Doubtful(Place::Tag), TAG, Bit::Cleared),
    (Call::Write, Before::Doubtful(Place::Remote), REMOTE, Bit::Cleared),
    (Call::Write, Before::FirstStage, LOCAL, Bit::Cleared),
    (Call::Write, Before::SecondStage, REMOTE, Bit::Cleared),
    (Call::First, Before::Whole, WHOLE, Bit::Set),
    (Call::Second, Before::FirstStage, WHOLE, Bit::Set),
    (Call::Read, Before::Whole, WHOLE, Bit::Cleared),
    (Call::Read, Before::Doubtful(Place::Local), LOCAL, Bit::Set),
    (Call::Read, Before::Doubtful(Place::Tag), TAG, Bit::Set),
    (Call::Read, Before::Doubtful(Place::Remote), REMOTE, Bit::Set),
    (Call::Read, Before::Lost, LOST, Bit::Set),
    (Call::Read, Before::Clashing, CLASHING, Bit::Set),
    (Call::Mend, Before::Lost, LOST, Bit::Set),
    (Call::Mend, Before::Clashing, CLASHING, Bit::Set),
    (Call::Write, Before::Lost, LOST, Bit::Set),
    (Call::Write, Before::Clashing, CLASHING, Bit::Set),
    (Call::First, Before::Doubtful(Place::Local), EARLY, Bit::AsItWas),
    (Call::First, Before::Lost, EARLY, Bit::AsItWas),
    (Call::First, Before::Clashing, EARLY, Bit::AsItWas),
    (Call::Second, Before::Whole, EARLY, Bit::AsItWas),
    (Call::Second, Before::Lost, EARLY, Bit::AsItWas),
    (Call::Second, Before::Clashing, EARLY, Bit::AsItWas),
    (Call::Third, Before::FirstStage, EARLY, Bit::AsItWas),
    (Call::Third, Before::Lost, EARLY, Bit::AsItWas),
    (Call::Third, Before::Clashing, EARLY, Bit::AsItWas),
];

/// A volume of blanked sectors.
fn blanked(key: &[u8]) -> Owned<'_> {
    let (side, tags) = (vec![0; COUNT * SIZE], vec![0; COUNT * TAG_BYTES]);
    let map = vec![0; map_words(COUNT)];
    let mut volume = Volume::new(key, VOLUME, SIZE, COUNT, side.clone(), tags, side, map);
    for number in 0..COUNT {
        assert_eq!(volume.blank(number), Ok(()));
    }
    volume
}

/// The same volume with another map.
fn with_map<'k>(volume: &Owned<'k>, key: &'k [u8], map: Vec<u64>) -> Owned<'k> {
    let (local, tags, remote) = volume.clone().into_images();
    Volume::new(key, VOLUME, SIZE, COUNT, local, tags, remote, map)
}

/// Puts a sector into a state, without a call.
fn put(volume: &mut Owned, number: usize, before: Before) {
    let mut sector = sealed(number as u64, &[0; SIZE]);
    let Triple { local, tag, .. } = sealed(number as u64, &bytes(1));
    match before {
        Before::Whole => {}
        Before::Doubtful(Place::Local) => sector.local[0] ^= 1,
        Before::Doubtful(Place::Tag) => sector.tag[0] ^= 1,
        Before::Doubtful(Place::Remote) => sector.remote[0] ^= 1,
        Before::Lost => {
            sector.local[0] ^= 1;
            sector.tag[0] ^= 1;
        }
        Before::Clashing => sector = clashing(number as u64).0,
        Before::FirstStage => sector.local = local,
        Before::SecondStage => (sector.local, sector.tag) = (local, tag),
    }
    volume.local_mut()[number * SIZE..][..SIZE].copy_from_slice(&sector.local);
    volume.tags_mut()[number * TAG_BYTES..][..TAG_BYTES].copy_from_slice(&sector.tag);
    volume.remote_mut()[number * SIZE..][..SIZE].copy_from_slice(&sector.remote);
}

/// Makes a call, with a plaintext and an output of as many bytes.
fn make(call: Call, volume: &mut Owned, number: usize, bytes: &mut [u8]) -> Answer {
    let done = |answer: Result<(), Refusal>| answer.map(|()| Verdict::Whole);
    match call {
        Call::Blank => done(volume.blank(number)),
        Call::First => done(volume.first_stage(number, bytes)),
        Call::Second => done(volume.second_stage(number, bytes)),
        Call::Third => done(volume.third_stage(number, bytes)),
        Call::Read => volume.read(number, bytes),
        Call::Mend => volume.mend(number),
        Call::Write => volume.write(number, bytes),
    }
}

/// The mask of a sector's bit in its word.
fn mask(number: usize) -> u64 {
    1 << (number % 64)
}

/// The three images.
fn images(volume: &Owned) -> (Vec<u8>, Vec<u8>, Vec<u8>) {
    volume.clone().into_images()
}

/// Makes the call of a mark. It changes no other bit, and where it is refused no
/// image and no output.
fn insist_on_mark((call, before, due, bit): Mark, mut volume: Owned, number: usize) {
    put(&mut volume, number, before);
    let mut due_map = volume.map().to_vec();
    let of = format!("{call:?} of {number}, {before:?}, in {due_map:x?}");
    match bit {
        Bit::Cleared => due_map[number / 64] &= !mask(number),
        Bit::Set => due_map[number / 64] |= mask(number),
        Bit::AsItWas => {}
    }
    let (held, mut lent) = (images(&volume), bytes(1));
    assert_eq!(make(call, &mut volume, number, &mut lent), due, "{of}");
    assert_eq!(volume.map(), due_map, "{of}");
    if due.is_err() {
        assert!(images(&volume) == held, "{of}");
        assert_eq!(lent, bytes(1), "{of}");
    }
}

#[test]
fn each_call_marks_its_sector_by_its_answer() {
    let key = key();
    let blanked = blanked(&key);
    for mark in MARKS {
        for number in NUMBERS {
            for word in [0, u64::MAX] {
                let volume = with_map(&blanked, &key, vec![word; 3]);
                insist_on_mark(mark, volume, number);
            }
        }
    }
}

const CALLS: [Call; 7] = [
    Call::Blank,
    Call::First,
    Call::Second,
    Call::Third,
    Call::Read,
    Call::Mend,
    Call::Write,
];

/// A call on a lost sector that is refused for its arguments.
#[test]
fn other_refusals_leave_the_map() {
    let key = key();
    let mut volume = blanked(&key);
    put(&mut volume, 64, Before::Lost);
    let (local, tags, remote) = images(&volume);
    let (right, zero) = (&key[..], &zero_hash_key()[..]);
    // Key, size, count, words of the map, number, and bytes of the plaintext or the
    // output.
    let faults = [
        (&key[1..], SIZE, COUNT, 3, 64, SIZE, Refusal::KeyLength),
        (zero, SIZE, COUNT, 3, 64, SIZE, Refusal::ZeroHashKey),
        (right, 15, COUNT, 3, 64, SIZE, Refusal::SectorSize),
        (right, SIZE, COUNT + 1, 3, 64, SIZE, Refusal::VolumeShape),
        (right, SIZE, COUNT, 2, 64, SIZE, Refusal::MapLength),
        (right, SIZE, COUNT, 4, 64, SIZE, Refusal::MapLength),
        (right, SIZE, COUNT, 3, COUNT, SIZE, Refusal::SectorNumber),
        (right, SIZE, COUNT, 3, 64, SIZE - 1, Refusal::OtherLength),
    ];
    for (key, size, count, words, number, length, due) in faults {
        for word in [0, u64::MAX] {
            let map = vec![word; words];
            let (local, tags, remote) = (local.clone(), tags.clone(), remote.clone());
            let mut volume = Volume::new(key, VOLUME, size, count, local, tags, remote, map);
            for call in CALLS {
                // These two take no plaintext and no output.
                if due == Refusal::OtherLength && matches!(call, Call::Blank | Call::Mend) {
                    continue;
                }
                let answer = make(call, &mut volume, number, &mut vec![0; length]);
                assert_eq!(answer, Err(due), "{call:?}");
                assert_eq!(volume.map(), vec![word; words], "{call:?}, {due:?}");
            }
        }
    }
}

#[test]
fn a_survey_leaves_the_map() {
    let key = key();
    let mut damaged = blanked(&key);
    put(&mut damaged, 1, Before::Doubtful(Place::Tag));
    put(&mut damaged, 63, Before::Clashing);
    put(&mut damaged, 64, Before::Lost);
    for word in [0, u64::MAX] {
        let volume = with_map(&damaged, &key, vec![word; 3]);
        let mut list = [0; COUNT];
        let (survey, listed) = volume.survey(&mut list).expect("accepted");
        assert_eq!((survey.whole, listed), (COUNT - 3, &[64, 63, 1][..]));
        assert_eq!(volume.map(), [word; 3]);
    }
}

/// From a started map, through a write, damage, a mend and a blank.
#[test]
fn suspects_of_a_volume() {
    let (key, plaintext) = (key(), bytes(2));
    let mut volume = blanked(&key);
    assert_eq!(volume.start_map(), Ok(()));
    assert_eq!(volume.count_suspects(), Ok(COUNT as u64));
    for number in 0..COUNT {
        assert_eq!(volume.is_suspect(number), Some(true));
        assert_eq!(volume.read(number, &mut [0; SIZE]), WHOLE);
        assert_eq!(volume.is_suspect(number), Some(false));
        assert_eq!(volume.count_suspects(), Ok((COUNT - 1 - number) as u64));
    }
    let suspects = |volume: &Owned| volume.map().to_vec();
    assert_eq!(volume.first_stage(65, &plaintext), Ok(()));
    assert_eq!(suspects(&volume), [0, 0b10, 0]);
    assert_eq!(volume.second_stage(65, &plaintext), Ok(()));
    assert_eq!(suspects(&volume), [0, 0b10, 0]);
    assert_eq!(volume.third_stage(65, &plaintext), Ok(()));
    assert_eq!(suspects(&volume), [0; 3]);

    // A write in one call clears the bit, whatever it was.
    assert_eq!(volume.first_stage(66, &plaintext), Ok(()));
    assert_eq!(suspects(&volume), [0, 0b100, 0]);
    assert_eq!(volume.write(66, &bytes(3)), LOCAL);
    assert_eq!(suspects(&volume), [0; 3]);

    // Damage shows once a call has met it.
    put(&mut volume, 129, Before::Doubtful(Place::Local));
    put(&mut volume, 2, Before::Lost);
    assert_eq!(volume.count_suspects(), Ok(0));
    assert_eq!(volume.read(129, &mut [0; SIZE]), LOCAL);
    assert_eq!(volume.mend(2), LOST);
    assert_eq!(suspects(&volume), [0b100, 0, 0b10]);
    assert_eq!(volume.count_suspects(), Ok(2));
    assert_eq!(volume.mend(129), LOCAL);
    assert_eq!(volume.blank(2), Ok(()));
    assert_eq!(volume.count_suspects(), Ok(0));
}

/// Counts of sectors at the bounds of a word and of a volume, the words of their
/// maps, and the last word of a started one.
const SHAPES: [(usize, usize, u64); 5] = [
    (1, 1, 1),
    (63, 1, u64::MAX >> 1),
    (64, 1, u64::MAX),
    (65, 2, 1),
    (65_536, 1024, u64::MAX),
];

/// A volume without a key and images, which the calls on a map do not look at.
fn map_alone(count: usize, map: Vec<u64>) -> Volume<'static, (), Vec<u64>> {
    Volume::new(&[], 0, 0, count, (), (), (), map)
}

#[test]
fn words_of_a_map() {
    for (count, words, _) in SHAPES {
        assert_eq!(map_words(count), words);
    }
    assert_eq!(map_words(0), 0);
    assert_eq!(map_words(VOLUME_SECTORS_MAX + 1), 1025);
    assert_eq!(map_words(usize::MAX), 1 << 58);
    const WORDS: usize = map_words(COUNT);
    assert_eq!([0u64; WORDS].len(), 3);
}

#[test]
fn a_started_map_has_the_bits_of_all_sectors() {
    for (count, words, last) in SHAPES {
        let mut due = vec![u64::MAX; words];
        due[words - 1] = last;
        for word in [0, u64::MAX, 0x5a5a_5a5a_5a5a_5a5a] {
            let mut map = vec![word; words];
            assert_eq!(start_map(count, &mut map), Ok(()));
            assert_eq!(map, due);
            let mut volume = map_alone(count, vec![word; words]);
            assert_eq!(volume.start_map(), Ok(()));
            assert_eq!(volume.map(), due);
            assert_eq!(volume.count_suspects(), Ok(count as u64));
        }
    }
}

#[test]
fn suspects_are_counted_below_the_count() {
    for (count, words, last) in SHAPES {
        let counted = |map: &[u64]| count_suspects(count, map);
        let mut past = vec![0; words];
        past[words - 1] = !last;
        assert_eq!(counted(&past), Ok(0));
        assert_eq!(counted(&vec![u64::MAX; words]), Ok(count as u64));
        for number in [0, 1, 62, 63, 64, count / 2, count - 1] {
            if number < count {
                let mut map = past.clone();
                map[number / 64] |= mask(number);
                assert_eq!(counted(&map), Ok(1), "{number} of {count}");
                map.iter_mut().for_each(|word| *word = !*word);
                assert_eq!(counted(&map), Ok(count as u64 - 1), "{number} of {count}");
            }
        }
    }
    // Half of the bits of each word, and another number in each word.
    assert_eq!(count_suspects(128, &[0x5555_5555_5555_5555; 2]), Ok(64));
    let steps: Vec<u64> = (0..64).map(|bits| (1 << bits) - 1).collect();
    assert_eq!(count_suspects(4096, &steps), Ok(63 * 64 / 2));
}

/// The count is looked at before the map.
#[test]
fn calls_on_a_map_refuse_in_order() {
    let max = VOLUME_SECTORS_MAX;
    let shapes = [
        0,
        max + 1,
        1 << 32,
        (1 << 32) + 1,
        usize::MAX - 62,
        usize::MAX,
    ];
    let of_shape = shapes
        .iter()
        .flat_map(|&count| [0, 1, 1024, 1025].map(|words| (count, words, Refusal::VolumeShape)));
    let of_map = [(1, 0), (1, 2), (63, 2), (64, 0), (64, 2), (65, 1), (65, 3)];
    let of_largest = [(max - 64, 1024), (max, 1023), (max, 1025)];
    let of_map = of_map.iter().chain(&of_largest);
    let of_map = of_map.map(|&(count, words)| (count, words, Refusal::MapLength));
    for (count, words, due) in of_shape.chain(of_map) {
        for word in [0, u64::MAX] {
            let mut map = vec![word; words];
            assert_eq!(start_map(count, &mut map), Err(due), "{words} of {count}");
            assert_eq!(map, vec![word; words]);
            assert_eq!(count_suspects(count, &map), Err(due), "{words} of {count}");
            let mut volume = map_alone(count, map);
            assert_eq!(volume.start_map(), Err(due));
            assert_eq!(volume.count_suspects(), Err(due));
            assert_eq!(volume.map(), vec![word; words]);
        }
    }
}

#[test]
fn a_suspect_by_its_number() {
    for number in 0..COUNT {
        let mut map = vec![0; 3];
        map[number / 64] = mask(number);
        let volume = map_alone(COUNT, map);
        for other in 0..COUNT {
            assert_eq!(volume.is_suspect(other), Some(other == number));
        }
    }
    let volume = map_alone(COUNT, vec![u64::MAX; 3]);
    for number in [COUNT, COUNT + 1, 191, 192, usize::MAX] {
        assert_eq!(volume.is_suspect(number), None);
    }
    let short = map_alone(COUNT, vec![u64::MAX; 2]);
    assert_eq!(short.is_suspect(127), Some(true));
    assert_eq!(short.is_suspect(128), None);
    assert_eq!(map_alone(1, vec![]).is_suspect(0), None);
    assert_eq!(
        map_alone(usize::MAX, vec![]).is_suspect(usize::MAX - 1),
        None
    );
    // A map that is too long is refused by every call, and has the bit.
    assert_eq!(map_alone(1, vec![1, 0]).is_suspect(0), Some(true));
}
