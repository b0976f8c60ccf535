//! The calls on a volume: each answer as the wrapper names it.

use crate::common::{almost_zero_keys, bytes, clashing, key, sealed, zero_hash_key};
use crate::common::{Triple, COUNT, SIZE, VOLUME};
use mirror::{ByKind, Place, Refusal, Side, Survey, Verdict, Volume};
use mirror::{SECTOR_BYTES_MAX, SECTOR_BYTES_MIN, TAG_BYTES, VOLUME_SECTORS_MAX};

/// A volume whose images and map are lent.
type Lent<'a> = Volume<'a, &'a mut [u8], &'a mut [u64]>;

/// The three images, and the map beside them.
#[derive(Clone, Debug, PartialEq)]
struct Images {
    local: Vec<u8>,
    tags: Vec<u8>,
    remote: Vec<u8>,
    map: Vec<u64>,
}

impl Images {
    /// All sectors blanked, and none suspect.
    fn blanked() -> Images {
        let mut images = Images {
            local: vec![1; SIZE * COUNT],
            tags: vec![2; TAG_BYTES * COUNT],
            remote: vec![3; SIZE * COUNT],
            map: vec![0],
        };
        assert_eq!(images.volume(&key()).start_map(), Ok(()));
        for number in 0..COUNT {
            assert_eq!(images.volume(&key()).blank(number), Ok(()));
        }
        images
    }

    fn volume<'a>(&'a mut self, key: &'a [u8]) -> Lent<'a> {
        self.of_shape(key, SIZE, COUNT)
    }

    /// A volume that says it has this shape.
    fn of_shape<'a>(&'a mut self, key: &'a [u8], size: usize, count: usize) -> Lent<'a> {
        let Images {
            local,
            tags,
            remote,
            map,
        } = self;
        Volume::new(key, VOLUME, size, count, local, tags, remote, map)
    }

    fn put(&mut self, number: usize, triple: &Triple) {
        self.local[number * SIZE..][..SIZE].copy_from_slice(&triple.local);
        self.tags[number * TAG_BYTES..][..TAG_BYTES].copy_from_slice(&triple.tag);
        self.remote[number * SIZE..][..SIZE].copy_from_slice(&triple.remote);
    }
}

#[test]
fn blank_seals_zeros() {
    let mut due = Images {
        local: vec![0; SIZE * COUNT],
        tags: vec![0; TAG_BYTES * COUNT],
        remote: vec![0; SIZE * COUNT],
        map: vec![0],
    };
    for number in 0..COUNT {
        due.put(number, &sealed(number as u64, &[0; SIZE]));
    }
    assert_eq!(Images::blanked(), due);
}

#[test]
fn a_write_in_three_stages() {
    let (key, plaintext) = (key(), bytes(1));
    let mut images = Images::blanked();
    let mut volume = images.volume(&key);
    let mut output = [0xee; SIZE];
    let early = Err(Refusal::StageOrder);
    assert_eq!(volume.second_stage(1, &plaintext), early);
    assert_eq!(volume.third_stage(1, &plaintext), early);
    assert_eq!(volume.first_stage(1, &plaintext), Ok(()));

    let at_local = Ok(Verdict::Doubtful(Place::Local));
    assert_eq!(volume.read(1, &mut output), at_local);
    assert_eq!(output, [0; SIZE]);
    assert_eq!(volume.first_stage(1, &plaintext), early);
    assert_eq!(volume.second_stage(1, &plaintext), Ok(()));

    let at_remote = Ok(Verdict::Doubtful(Place::Remote));
    assert_eq!(volume.read(1, &mut output), at_remote);
    assert_eq!(output[..], plaintext);
    assert_eq!(volume.third_stage(1, &plaintext), Ok(()));
    assert_eq!(volume.read(1, &mut output), Ok(Verdict::Whole));

    let mut due = Images::blanked();
    due.put(1, &sealed(1, &plaintext));
    assert_eq!(images, due);
}

/// Damages one place of sector 1.
fn damage(images: &mut Images, place: Place) {
    match place {
        Place::Local => images.local[SIZE + 5] ^= 1,
        Place::Tag => images.tags[TAG_BYTES + 5] ^= 1,
        Place::Remote => images.remote[SIZE + 5] ^= 1,
    }
}

/// The verdict is the one found. Whatever it was, the sector is afterwards as the
/// plaintext seals, its bit is clear, and all else is as before.
#[test]
fn a_write_in_one_call() {
    let (key, plaintext) = (key(), bytes(1));
    let places = [Place::Local, Place::Tag, Place::Remote].map(Some);
    for place in [None].into_iter().chain(places) {
        let found = place.map_or(Verdict::Whole, Verdict::Doubtful);
        for map in [0b000, 0b111] {
            let mut images = Images::blanked();
            images.map = vec![map];
            let mut due = images.clone();
            due.put(1, &sealed(1, &plaintext));
            due.map = vec![map & !0b010];
            if let Some(place) = place {
                damage(&mut images, place);
            }
            assert_eq!(images.volume(&key).write(1, &plaintext), Ok(found));
            assert_eq!(images, due, "{found}");
        }
    }
}

/// Its plaintext has the size of a sector, however much longer another one is.
#[test]
fn a_write_in_one_call_at_the_bounds_of_the_size() {
    let key = key();
    for size in [SECTOR_BYTES_MIN, SECTOR_BYTES_MAX] {
        let (side, tag) = (vec![0; size], vec![0; TAG_BYTES]);
        let mut volume = Volume::new(&key, VOLUME, size, 1, side.clone(), tag, side, [0]);
        assert_eq!(volume.blank(0), Ok(()));
        let blank = volume.clone().into_images();
        let longer = [1, 16, SECTOR_BYTES_MAX].map(|more| SECTOR_BYTES_MAX + more);
        for length in [0, size - 1, size + 1].into_iter().chain(longer) {
            let refused = volume.write(0, &vec![1; length]);
            assert_eq!(refused, Err(Refusal::OtherLength), "{length} of {size}");
            assert_eq!(volume.clone().into_images(), blank);
        }
        let plaintext = vec![1; size];
        assert_eq!(volume.write(0, &plaintext), Ok(Verdict::Whole));
        let Triple { local, tag, remote } = sealed(0, &plaintext);
        assert_eq!(volume.into_images(), (local, tag, remote));
    }
}

/// What another write left behind is doubtful, and is mended on the way.
#[test]
fn a_write_in_one_call_over_one_that_was_left() {
    let (key, left, plaintext) = (key(), bytes(1), bytes(2));
    for (stages, found) in [(1, Place::Local), (2, Place::Remote)] {
        let mut images = Images::blanked();
        let mut volume = images.volume(&key);
        assert_eq!(volume.first_stage(1, &left), Ok(()));
        if stages == 2 {
            assert_eq!(volume.second_stage(1, &left), Ok(()));
        }
        let found = Ok(Verdict::Doubtful(found));
        assert_eq!(volume.write(1, &plaintext), found);
        let mut due = Images::blanked();
        due.put(1, &sealed(1, &plaintext));
        assert_eq!(images, due);
    }
}

/// Writes one place of sector 1 out from memory to the medium, or as a cut leaves
/// it: a side may hold anything, here zeros, and a tag is the old one or the new.
fn write_out(medium: &mut Images, memory: &Images, place: Place, cut: bool) {
    let (side, tag) = (SIZE..2 * SIZE, TAG_BYTES..2 * TAG_BYTES);
    let (to, from) = match place {
        Place::Local => (&mut medium.local[side.clone()], &memory.local[side]),
        Place::Tag => (&mut medium.tags[tag.clone()], &memory.tags[tag]),
        Place::Remote => (&mut medium.remote[side.clone()], &memory.remote[side]),
    };
    match (cut, place) {
        (true, Place::Tag) => {}
        (true, _) => to.fill(0),
        (false, _) => to.copy_from_slice(from),
    }
}

/// Whether no cut loses sector 1 where its places are written out in this order,
/// each flushed before the next.
fn is_right(order: [Place; 3], medium: &Images, memory: &Images) -> bool {
    let (key, mut medium) = (key(), medium.clone());
    order.into_iter().all(|place| {
        [true, false].into_iter().all(|cut| {
            write_out(&mut medium, memory, place, cut);
            let read = medium.clone().volume(&key).read(1, &mut [0; SIZE]);
            read != Err(Refusal::Lost)
        })
    })
}

/// Why images that are written out part by part need the three stages: after a
/// write in one call that has mended a tag, no order of writing out is right.
#[test]
fn after_a_write_in_one_call_an_order_may_lose_the_sector() {
    const ORDERS: [[Place; 3]; 6] = [
        [Place::Local, Place::Tag, Place::Remote],
        [Place::Local, Place::Remote, Place::Tag],
        [Place::Tag, Place::Local, Place::Remote],
        [Place::Tag, Place::Remote, Place::Local],
        [Place::Remote, Place::Local, Place::Tag],
        [Place::Remote, Place::Tag, Place::Local],
    ];
    let right = |medium: &Images| {
        let mut memory = medium.clone();
        assert!(memory.volume(&key()).write(1, &bytes(1)).is_ok());
        ORDERS.map(|order| is_right(order, medium, &memory))
    };
    let mut medium = Images::blanked();
    assert_eq!(right(&medium), [true, false, false, false, false, true]);
    damage(&mut medium, Place::Tag);
    assert_eq!(right(&medium), [false; 6]);
}

/// A volume whose sector 1 has a plaintext, and is about to be given another of
/// the same tag. They differ in both halves of block 2.
fn before_a_write_of_equal_tag() -> (Images, Vec<u8>, Vec<u8>) {
    let (_, old, mut new) = clashing(1);
    new[20] ^= 1;
    let (mut images, triple) = (Images::blanked(), sealed(1, &old));
    assert_eq!(sealed(1, &new).tag, triple.tag);
    images.put(1, &triple);
    (images, old, new)
}

/// Neither read nor mend, nor a write in one call, and no first stage.
fn insist_on_clash(volume: &mut Lent, plaintext: &[u8]) {
    let clashing = Err(Refusal::Clashing);
    assert_eq!(volume.read(1, &mut [0; SIZE]), clashing);
    assert_eq!(volume.mend(1), clashing);
    assert_eq!(volume.write(1, plaintext), clashing);
    let early = Err(Refusal::StageOrder);
    assert_eq!(volume.first_stage(1, plaintext), early);
}

#[test]
fn a_clash_between_stages_ends_with_the_third() {
    let key = key();
    let (mut images, _, new) = before_a_write_of_equal_tag();
    let mut volume = images.volume(&key);
    assert_eq!(volume.first_stage(1, &new), Ok(()));
    insist_on_clash(&mut volume, &new);
    assert_eq!(volume.second_stage(1, &new), Ok(()));
    insist_on_clash(&mut volume, &new);
    // As after a cut in the second stage, or in the third.
    assert_eq!(volume.second_stage(1, &new), Ok(()));
    assert_eq!(volume.third_stage(1, &new), Ok(()));
    let mut output = [0; SIZE];
    assert_eq!(volume.read(1, &mut output), Ok(Verdict::Whole));
    assert_eq!(output[..], new);
}

/// Its own stages do not stop where the sector clashes between them.
#[test]
fn a_write_in_one_call_of_equal_tag() {
    let key = key();
    let (mut images, _, new) = before_a_write_of_equal_tag();
    let mut due = images.clone();
    due.put(1, &sealed(1, &new));
    assert_eq!(images.volume(&key).write(1, &new), Ok(Verdict::Whole));
    assert_eq!(images, due);
}

/// A first stage that is cut within block 2 leaves the local sector of a third
/// plaintext of that tag. What fits tag and remote sector is still the old one.
#[test]
fn a_first_stage_cut_into_a_clash_is_undone_by_rebuilding() {
    let key = key();
    let (mut images, old, new) = before_a_write_of_equal_tag();
    let torn = SIZE..SIZE + 24;
    images.local[torn].copy_from_slice(&sealed(1, &new).local[..24]);
    let volume = &mut images.volume(&key);
    insist_on_clash(volume, &new);
    let early = Err(Refusal::StageOrder);
    assert_eq!(volume.second_stage(1, &new), early);
    assert_eq!(volume.third_stage(1, &new), early);

    let mut local = [0; SIZE];
    let (tag, remote) = (volume.tag_part(1), volume.remote_part(1));
    let (tag, remote) = (tag.expect("sector 1"), remote.expect("sector 1"));
    let rebuilt = mirror::rebuild(&key, VOLUME, 1, Side::Remote, remote, tag, &mut local);
    assert_eq!(rebuilt, Ok(()));
    volume.local_mut()[SIZE..2 * SIZE].copy_from_slice(&local);
    let mut output = [0; SIZE];
    assert_eq!(volume.read(1, &mut output), Ok(Verdict::Whole));
    assert_eq!(output[..], old);
}

/// One place of sector 1.
fn part(images: &mut Images, place: Place) -> &mut [u8] {
    match place {
        Place::Local => &mut images.local[SIZE..2 * SIZE],
        Place::Tag => &mut images.tags[TAG_BYTES..2 * TAG_BYTES],
        Place::Remote => &mut images.remote[SIZE..2 * SIZE],
    }
}

/// What a read of sector 1 says and gives.
fn read_of(mut images: Images) -> Result<(Verdict, Vec<u8>), Refusal> {
    let mut output = vec![0; SIZE];
    let verdict = images.volume(&key()).read(1, &mut output)?;
    Ok((verdict, output))
}

/// The plaintext that fits one side of sector 1 and its tag.
fn opened(mut images: Images, side: Side) -> Result<Vec<u8>, Refusal> {
    let (key, mut output) = (key(), vec![0; SIZE]);
    let volume = images.volume(&key);
    let sector = match side {
        Side::Local => volume.local_part(1),
        Side::Remote => volume.remote_part(1),
    };
    let (sector, tag) = (sector.expect("sector 1"), volume.tag_part(1));
    let tag = tag.expect("sector 1");
    mirror::open(&key, VOLUME, 1, side, sector, tag, &mut output)?;
    Ok(output)
}

/// Sector 1 with one side rebuilt from the other one.
fn rebuilt_from(side: Side, images: &Images) -> Images {
    let (mut images, mut output) = (images.clone(), vec![0; SIZE]);
    let (from, to) = match side {
        Side::Local => (Place::Local, Place::Remote),
        Side::Remote => (Place::Remote, Place::Local),
    };
    let tag = part(&mut images, Place::Tag).to_vec();
    let sector = part(&mut images, from);
    let rebuilt = mirror::rebuild(&key(), VOLUME, 1, side, sector, &tag, &mut output);
    assert_eq!(rebuilt, Ok(()));
    part(&mut images, to).copy_from_slice(&output);
    images
}

/// A clash is ended by a blank and a write in one call.
fn insist_on_blank_and_write(mut images: Images, plaintext: &[u8]) {
    let key = key();
    assert_eq!(images.volume(&key).blank(1), Ok(()));
    let written = images.volume(&key).write(1, plaintext);
    assert_eq!(written, Ok(Verdict::Whole));
    assert_eq!(read_of(images), Ok((Verdict::Whole, plaintext.to_vec())));
}

/// Why after a cut in a write in one call nothing is rebuilt from the remote side,
/// as it is after a first stage. The remote sector is damaged in blocks 1 and 2, and
/// the write's mend is cut when it has written block 1. What is left of block 2 is
/// that of another plaintext of the same tag.
#[test]
fn a_write_in_one_call_whose_mend_is_cut_into_a_clash() {
    let (key, new) = (key(), bytes(9));
    let (mut images, old, _) = before_a_write_of_equal_tag();
    let mended = part(&mut images, Place::Remote).to_vec();
    let remote = part(&mut images, Place::Remote);
    remote[5] ^= 1;
    remote[20] ^= 1;
    let found = Verdict::Doubtful(Place::Remote);
    assert_eq!(read_of(images.clone()), Ok((found, old.clone())));
    assert_eq!(images.clone().volume(&key).write(1, &new), Ok(found));
    part(&mut images, Place::Remote)[..16].copy_from_slice(&mended[..16]);

    insist_on_clash(&mut images.volume(&key), &new);
    let early = Err(Refusal::StageOrder);
    assert_eq!(images.volume(&key).second_stage(1, &new), early);

    let other = opened(images.clone(), Side::Remote).expect("another plaintext");
    assert!(other != old && other != new);
    let destroyed = rebuilt_from(Side::Remote, &images);
    assert_eq!(read_of(destroyed), Ok((Verdict::Whole, other)));

    assert_eq!(opened(images.clone(), Side::Local), Ok(old.clone()));
    let kept = rebuilt_from(Side::Local, &images);
    assert_eq!(read_of(kept), Ok((Verdict::Whole, old)));
    insist_on_blank_and_write(images, &new);
}

/// All that a power cut in a write in one call may leave of sector 1, where a side
/// that was being written holds that of one of these.
fn cuts(mut images: Images, new: &[u8], anything: &[Triple]) -> Vec<Images> {
    type Call = fn(&mut Lent, &[u8]) -> bool;
    let mut calls: Vec<(Place, Call)> = vec![
        (Place::Local, |v, new| v.first_stage(1, new).is_ok()),
        (Place::Tag, |v, new| v.second_stage(1, new).is_ok()),
        (Place::Remote, |v, new| v.third_stage(1, new).is_ok()),
    ];
    if let Ok((Verdict::Doubtful(place), _)) = read_of(images.clone()) {
        calls.insert(0, (place, |v, _| v.mend(1).is_ok()));
    }
    let mut left = vec![images.clone()];
    for (place, call) in calls {
        for Triple { local, remote, .. } in anything {
            let mut cut = images.clone();
            match place {
                Place::Local => part(&mut cut, place).copy_from_slice(local),
                Place::Remote => part(&mut cut, place).copy_from_slice(remote),
                Place::Tag => {}
            }
            left.push(cut);
        }
        assert!(call(&mut images.volume(&key()), new));
        left.push(images.clone());
    }
    left
}

/// What is advised after a cut in a write in one call leads to the old plaintext or
/// the new one. Gives the side that has the old one, where the sector clashes and
/// the new one has not reached it.
fn go_by_the_advice(cut: Images, old: &[u8], new: &[u8]) -> Option<Side> {
    let (key, sides) = (key(), [Side::Local, Side::Remote]);
    let mut on = cut.clone();
    let read = read_of(cut.clone());
    if let Ok((verdict, plaintext)) = read {
        assert!(plaintext == old || plaintext == new);
        assert_eq!(on.volume(&key).mend(1), Ok(verdict));
        assert_eq!(read_of(on), Ok((Verdict::Whole, plaintext)));
        return None;
    }
    assert_eq!(read, Err(Refusal::Clashing));
    let gives = |plaintext: &[u8]| {
        let opened = |side: &Side| opened(cut.clone(), *side);
        sides
            .into_iter()
            .find(|s| opened(s).is_ok_and(|p| p == plaintext))
    };
    assert!(gives(old).is_some() || gives(new).is_some());
    if on.volume(&key).second_stage(1, new).is_ok() {
        assert_eq!(on.volume(&key).third_stage(1, new), Ok(()));
        assert_eq!(read_of(on), Ok((Verdict::Whole, new.to_vec())));
        return None;
    }
    let side = gives(old).expect("the old plaintext fits the tag and a side");
    let kept = rebuilt_from(side, &cut);
    assert_eq!(read_of(kept), Ok((Verdict::Whole, old.to_vec())));
    insist_on_blank_and_write(cut, new);
    Some(side)
}

#[test]
fn after_a_cut_in_a_write_in_one_call() {
    let (before, old, of_equal_tag) = before_a_write_of_equal_tag();
    let mut other = of_equal_tag.clone();
    other[25] ^= 1;
    let places = [Place::Local, Place::Tag, Place::Remote].map(Some);
    let mut sides = Vec::new();
    for new in [of_equal_tag, bytes(9), old.clone()] {
        let mut anything = [&old, &new, &other].map(|p| sealed(1, p)).to_vec();
        anything.push(sealed(0, &new));
        for place in [None].into_iter().chain(places) {
            let mut images = before.clone();
            if let Some(place) = place {
                damage(&mut images, place);
            }
            let cuts = cuts(images, &new, &anything);
            sides.extend(
                cuts.into_iter()
                    .filter_map(|cut| go_by_the_advice(cut, &old, &new)),
            );
        }
    }
    // Neither side has it always.
    assert!(sides.contains(&Side::Local) && sides.contains(&Side::Remote));
}

/// Under another number than its own a volume is lost, and a call that needs what
/// is there changes no image.
#[test]
fn a_volume_under_another_number() {
    let (key, plaintext) = (key(), bytes(4));
    let mut images = Images::blanked();
    images.put(1, &sealed(1, &plaintext));
    let mut due = images.clone();
    due.map = vec![0b10];
    let Images {
        local,
        tags,
        remote,
        map,
    } = &mut images;
    for number in [0, VOLUME ^ 1, u64::MAX] {
        let (local, tags, remote) = (&mut local[..], &mut tags[..], &mut remote[..]);
        let map = &mut map[..];
        let mut volume = Volume::new(&key, number, SIZE, COUNT, local, tags, remote, map);
        assert_eq!(volume.number(), number);
        let mut output = [0xee; SIZE];
        assert_eq!(volume.read(1, &mut output), Err(Refusal::Lost));
        assert_eq!(output, [0xee; SIZE]);
        assert_eq!(volume.mend(1), Err(Refusal::Lost));
        assert_eq!(volume.write(1, &plaintext), Err(Refusal::Lost));
        let early = Err(Refusal::StageOrder);
        assert_eq!(volume.first_stage(1, &plaintext), early);
        assert_eq!(volume.second_stage(1, &plaintext), early);
        assert_eq!(volume.third_stage(1, &plaintext), early);
        let mut list = [9; COUNT];
        let (survey, listed) = volume.survey(&mut list).expect("accepted");
        assert_eq!((survey.lost, listed), (COUNT, &[0, 1, 2][..]));
    }
    assert_eq!(images, due);
}

/// Why a caller must rule these out: a stored tag that is a mixture of the old
/// and the new one, and a new tag beside a torn local sector, as two stages that
/// are both not on the medium may leave.
#[test]
fn a_mixed_tag_or_two_unfinished_stages_lose_a_sector() {
    let (key, new) = (key(), sealed(1, &bytes(1)));
    let lost = Err(Refusal::Lost);
    for stored in 1..TAG_BYTES {
        let mut images = Images::blanked();
        images.local[SIZE..2 * SIZE].copy_from_slice(&new.local);
        images.tags[TAG_BYTES..][..stored].copy_from_slice(&new.tag[..stored]);
        assert_eq!(images.volume(&key).read(1, &mut [0; SIZE]), lost);
    }
    let mut images = Images::blanked();
    images.local[SIZE..SIZE + 24].copy_from_slice(&new.local[..24]);
    images.tags[TAG_BYTES..2 * TAG_BYTES].copy_from_slice(&new.tag);
    assert_eq!(images.volume(&key).read(1, &mut [0; SIZE]), lost);
}

#[test]
fn mends_each_place() {
    let due = Images::blanked();
    let key = key();
    for place in [Place::Local, Place::Tag, Place::Remote] {
        let mut images = due.clone();
        match place {
            Place::Local => images.local[2 * SIZE] ^= 1,
            Place::Tag => images.tags[2 * TAG_BYTES] ^= 1,
            Place::Remote => images.remote[2 * SIZE] ^= 1,
        }
        let mut volume = images.volume(&key);
        assert_eq!(volume.mend(2), Ok(Verdict::Doubtful(place)));
        assert_eq!(volume.mend(2), Ok(Verdict::Whole));
        assert_eq!(images, due);
    }
}

/// Sector 0 clashing, 1 doubtful, 2 lost.
fn damaged() -> Images {
    let mut images = Images::blanked();
    images.put(0, &clashing(0).0);
    images.remote[SIZE] ^= 1;
    images.local[2 * SIZE] ^= 1;
    images.tags[2 * TAG_BYTES] ^= 1;
    images
}

#[test]
fn lost_and_clashing_change_one_bit() {
    let key = key();
    for (number, refusal) in [(0, Refusal::Clashing), (2, Refusal::Lost)] {
        let mut due = damaged();
        due.map = vec![1 << number];
        let mut read = damaged();
        let mut output = [0xee; SIZE];
        let answer = read.volume(&key).read(number, &mut output);
        assert_eq!((answer, &read), (Err(refusal), &due));
        assert_eq!(output, [0xee; SIZE]);
        let mut mended = damaged();
        let answer = mended.volume(&key).mend(number);
        assert_eq!((answer, &mended), (Err(refusal), &due));
        let mut written = damaged();
        let answer = written.volume(&key).write(number, &bytes(5));
        assert_eq!((answer, &written), (Err(refusal), &due));
    }
}

#[test]
fn surveys() {
    let key = key();
    let mut images = damaged();
    let mut volume = images.volume(&key);
    let mut list = [9; COUNT + 2];
    let mut due = Survey {
        whole: 0,
        doubtful: 1,
        clashing: 1,
        lost: 1,
        health: 0,
    };
    assert_eq!(volume.survey(&mut list), Ok((due, &[2, 0, 1][..])));
    assert_eq!(list, [2, 0, 1, 9, 9]);

    assert!(volume.mend(1).is_ok());
    let mut list = [9; COUNT];
    due = Survey {
        whole: 1,
        doubtful: 0,
        health: 333,
        ..due
    };
    assert_eq!(due.not_whole(), 2);
    assert_eq!(volume.survey(&mut list), Ok((due, &[2, 0][..])));
    assert_eq!(list, [2, 0, 9]);

    let short = volume.survey(&mut list[..COUNT - 1]);
    assert_eq!(short, Err(Refusal::ListLength));
    assert_eq!(list, [2, 0, 9]);
}

/// Each sector stands among those of the kind that a read of it says.
#[test]
fn a_survey_by_kind() {
    let key = key();
    let mut images = damaged();
    let mut volume = images.volume(&key);
    let mut list = [9; COUNT];
    let (survey, listed) = volume.survey(&mut list).expect("accepted");
    let ByKind {
        lost,
        clashing,
        doubtful,
    } = survey.by_kind(listed);
    assert_eq!((lost, clashing, doubtful), (&[2][..], &[0][..], &[1][..]));
    let mut read = |numbers: &[u32]| volume.read(numbers[0] as usize, &mut [0; SIZE]);
    assert_eq!(read(lost), Err(Refusal::Lost));
    assert_eq!(read(clashing), Err(Refusal::Clashing));
    assert_eq!(read(doubtful), Ok(Verdict::Doubtful(Place::Remote)));
}

/// Of these many sectors of each kind.
fn counted(lost: usize, clashing: usize, doubtful: usize) -> Survey {
    Survey {
        whole: 5,
        doubtful,
        clashing,
        lost,
        health: 0,
    }
}

#[test]
fn by_kind_takes_as_many_as_are_counted() {
    let listed = [7, 9, 2, 3, 8, 1, 4];
    let due = ByKind {
        lost: &[7, 9],
        clashing: &[2, 3, 8],
        doubtful: &[1],
    };
    // The entry behind is no kind's.
    assert_eq!(counted(2, 3, 1).by_kind(&listed), due);
    assert_eq!(counted(2, 3, 1).by_kind(&listed[..6]), due);
    let due = ByKind {
        lost: &[],
        clashing: &[],
        doubtful: &listed,
    };
    assert_eq!(counted(0, 0, 7).by_kind(&listed), due);
    let none = ByKind {
        doubtful: &[],
        ..due
    };
    assert_eq!(counted(0, 0, 0).by_kind(&[]), none);
}

#[test]
#[should_panic(expected = "fewer entries than the survey counts")]
fn by_kind_of_a_list_that_is_too_short() {
    counted(2, 1, 1).by_kind(&[1, 2, 3]);
}

/// These are no survey's counts, and their sum is no number.
#[test]
#[should_panic(expected = "fewer entries than the survey counts")]
fn by_kind_of_counts_beyond_every_list() {
    counted(1, usize::MAX, usize::MAX).by_kind(&[1, 2, 3]);
}

/// The answers of the eight calls on a volume, with an output and a plaintext of
/// no bytes and a list of no entries.
fn refusals(volume: &mut Lent, number: usize) -> [Option<Refusal>; 8] {
    [
        volume.blank(number).err(),
        volume.mend(number).err(),
        volume.first_stage(number, &[]).err(),
        volume.second_stage(number, &[]).err(),
        volume.third_stage(number, &[]).err(),
        volume.read(number, &mut []).err(),
        volume.write(number, &[]).err(),
        volume.survey(&mut []).err(),
    ]
}

/// Every call is refused for its shape, its size, its hash key and the length of
/// its key, the last of these first, whatever else is wrong.
fn insist_on_first_refusals(images: &mut Images) {
    let key = key();
    let due = [Some(Refusal::VolumeShape); 8];
    for count in [0, COUNT + 1, VOLUME_SECTORS_MAX + 1] {
        let volume = &mut images.of_shape(&key, SIZE, count);
        assert_eq!(refusals(volume, usize::MAX), due);
    }
    let volume = &mut images.of_shape(&key, 15, VOLUME_SECTORS_MAX + 1);
    let due = [Some(Refusal::SectorSize); 8];
    assert_eq!(refusals(volume, usize::MAX), due);
    let zero = zero_hash_key();
    let due = [Some(Refusal::ZeroHashKey); 8];
    for (size, count) in [(SIZE, COUNT), (SIZE, 0), (15, VOLUME_SECTORS_MAX + 1)] {
        for number in [0, usize::MAX] {
            let volume = &mut images.of_shape(&zero, size, count);
            assert_eq!(refusals(volume, number), due);
        }
    }
    for key in [&key[1..], &zero[1..], &zero[..16], &[]] {
        let volume = &mut images.of_shape(key, 15, VOLUME_SECTORS_MAX + 1);
        let due = [Some(Refusal::KeyLength); 8];
        assert_eq!(refusals(volume, usize::MAX), due);
    }
}

/// The answers of the eight calls with all other arguments right, and an output and
/// a list that none of them may write.
fn answers(volume: &mut Lent, number: usize) -> [Option<Refusal>; 8] {
    let plaintext = bytes(1);
    let (mut output, mut list) = ([0xee; SIZE], [9; COUNT]);
    let answers = [
        volume.blank(number).err(),
        volume.mend(number).err(),
        volume.first_stage(number, &plaintext).err(),
        volume.second_stage(number, &plaintext).err(),
        volume.third_stage(number, &plaintext).err(),
        volume.read(number, &mut output).err(),
        volume.write(number, &plaintext).err(),
        volume.survey(&mut list).err(),
    ];
    assert_eq!((output, list), ([0xee; SIZE], [9; COUNT]));
    answers
}

/// Whatever the sector holds, and however the rest of the key is. The calls on the
/// map alone take no key.
#[test]
fn a_zero_hash_key_is_refused_and_changes_nothing() {
    for zero in [zero_hash_key(), vec![0; 32]] {
        for (mut images, map) in [(Images::blanked(), 0), (damaged(), u64::MAX)] {
            images.map = vec![map];
            let before = images.clone();
            for number in 0..COUNT {
                let due = [Some(Refusal::ZeroHashKey); 8];
                assert_eq!(answers(&mut images.volume(&zero), number), due);
            }
            assert_eq!(images, before);
            assert_eq!(images.volume(&zero).start_map(), Ok(()));
            let suspects = images.volume(&zero).count_suspects();
            assert_eq!(suspects, Ok(COUNT as u64));
        }
    }
}

#[test]
fn any_other_hash_key_is_accepted() {
    let (old, new) = (bytes(1), bytes(2));
    for key in almost_zero_keys() {
        let mut images = Images::blanked();
        let mut volume = images.volume(&key);
        let mut output = [0; SIZE];
        assert_eq!(volume.blank(1), Ok(()));
        assert_eq!(volume.first_stage(1, &old), Ok(()));
        assert_eq!(volume.second_stage(1, &old), Ok(()));
        assert_eq!(volume.third_stage(1, &old), Ok(()));
        assert_eq!(volume.mend(1), Ok(Verdict::Whole));
        assert_eq!(volume.write(1, &new), Ok(Verdict::Whole));
        assert_eq!(volume.read(1, &mut output), Ok(Verdict::Whole));
        assert_eq!(output[..], new);
        let mut list = [9; COUNT];
        let (survey, listed) = volume.survey(&mut list).expect("accepted");
        assert_eq!((survey.whole, listed), (1, &[0, 2][..]));
    }
}

#[test]
fn refusals_in_order() {
    let key = key();
    let mut images = damaged();
    let [_, _, others @ .., survey] = refusals(&mut images.volume(&key), COUNT - 1);
    assert_eq!(others, [Some(Refusal::OtherLength); 5]);
    assert_eq!(survey, Some(Refusal::ListLength));

    // From here on every call is refused.
    for map in [0, u64::MAX] {
        images.map = vec![map];
        let before = images.clone();
        let [others @ .., _] = refusals(&mut images.volume(&key), COUNT);
        assert_eq!(others, [Some(Refusal::SectorNumber); 7]);
        insist_on_first_refusals(&mut images);
        assert_eq!(images, before);
    }
}

/// A word too few or too many, behind the shape and before all else.
#[test]
fn a_map_of_another_length_is_refused_in_order() {
    let key = key();
    for map in [vec![], vec![0; 2], vec![u64::MAX; 2]] {
        let mut images = damaged();
        images.map = map;
        let before = images.clone();
        for number in [0, COUNT] {
            let due = [Some(Refusal::MapLength); 8];
            assert_eq!(refusals(&mut images.volume(&key), number), due);
        }
        insist_on_first_refusals(&mut images);
        assert_eq!(images, before);
    }
}

#[test]
fn refused_calls_change_nothing() {
    let key = key();
    let mut images = Images::blanked();
    let mut volume = images.volume(&key);
    assert_eq!(volume.mend(COUNT), Err(Refusal::SectorNumber));
    assert_eq!(volume.blank(COUNT), Err(Refusal::SectorNumber));
    for plaintext in [&bytes(0)[1..], &[0; SIZE + 1]] {
        let due = Err(Refusal::OtherLength);
        assert_eq!(volume.first_stage(0, plaintext), due);
        assert_eq!(volume.second_stage(0, plaintext), due);
        assert_eq!(volume.third_stage(0, plaintext), due);
        assert_eq!(volume.write(0, plaintext).map(|_| ()), due);
    }
    assert_eq!(images, Images::blanked());
}

#[test]
fn each_image_has_its_length() {
    let key = key();
    for image in 0..3 {
        let mut images = Images::blanked();
        let Images {
            local,
            tags,
            remote,
            ..
        } = &mut images;
        [local, tags, remote][image].pop();
        let refused = images.volume(&key).blank(0);
        assert_eq!(refused, Err(Refusal::VolumeShape));
    }
}
