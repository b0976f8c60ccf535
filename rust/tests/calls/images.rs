//! What a volume is made of: images and a map that are owned, lent to be read
//! only, or of any type that gives what it holds, and a sector's parts of them.

use crate::common::{bytes, key, sealed, Triple, COUNT, SIZE, VOLUME};
use mirror::{Place, Refusal, Survey, Verdict, Volume, TAG_BYTES};
use std::cell::Cell;

/// A volume that owns its images and its map, all sectors blanked. The bits past
/// the count are set.
fn blanked(key: &[u8]) -> Volume<'_, Vec<u8>, Vec<u64>> {
    let (local, tags) = (vec![1; COUNT * SIZE], vec![2; COUNT * TAG_BYTES]);
    let (remote, map) = (vec![3; COUNT * SIZE], vec![u64::MAX]);
    let mut volume = Volume::new(key, VOLUME, SIZE, COUNT, local, tags, remote, map);
    for number in 0..COUNT {
        assert_eq!(volume.blank(number), Ok(()));
    }
    volume
}

#[test]
fn owned_images_are_given_back() {
    let (key, plaintext) = (key(), bytes(1));
    let mut volume = blanked(&key);
    assert_eq!(volume.number(), VOLUME);
    assert_eq!((volume.size(), volume.count()), (SIZE, COUNT));
    assert_eq!(volume.first_stage(1, &plaintext), Ok(()));
    assert_eq!(volume.second_stage(1, &plaintext), Ok(()));
    assert_eq!(volume.third_stage(1, &plaintext), Ok(()));
    let (local, tags, remote) = volume.clone().into_images();
    assert_eq!(local, volume.local());
    assert_eq!(tags, volume.tags());
    assert_eq!(remote, volume.remote());
    let images_and_map = volume.clone().into_images_and_map();
    let due = (local.clone(), tags.clone(), remote.clone(), vec![!0b111]);
    assert_eq!(images_and_map, due);
    assert_eq!(volume.map(), [!0b111]);

    let due = sealed(1, &plaintext);
    assert_eq!(local[SIZE..2 * SIZE], due.local);
    assert_eq!(tags[TAG_BYTES..2 * TAG_BYTES], due.tag);
    assert_eq!(remote[SIZE..2 * SIZE], due.remote);
}

#[test]
fn images_can_be_written_between_calls() {
    let key = key();
    let mut volume = blanked(&key);
    for place in [Place::Local, Place::Tag, Place::Remote] {
        let image = match place {
            Place::Local => volume.local_mut(),
            Place::Tag => volume.tags_mut(),
            Place::Remote => volume.remote_mut(),
        };
        image[0] ^= 1;
        assert_eq!(volume.mend(0), Ok(Verdict::Doubtful(place)));
        assert_eq!(volume.mend(0), Ok(Verdict::Whole));
    }
}

#[test]
fn images_that_are_only_read() {
    let (key, plaintext) = (key(), bytes(2));
    let Triple { local, tag, remote } = sealed(0, &plaintext);
    let (local, tag, remote) = (&local[..], &tag[..], &remote[..]);
    let map = &mut [1][..];
    let mut volume = Volume::new(&key, VOLUME, SIZE, 1, local, tag, remote, map);
    let mut output = [0; SIZE];
    assert_eq!(volume.read(0, &mut output), Ok(Verdict::Whole));
    assert_eq!(output[..], plaintext);
    let due = Survey {
        whole: 1,
        doubtful: 0,
        clashing: 0,
        lost: 0,
        health: 1000,
    };
    assert_eq!(volume.survey(&mut [9]), Ok((due, &[][..])));
    assert_eq!(volume.map(), [0]);

    let mut short = Volume::new(&key, VOLUME, SIZE, 1, local, &tag[1..], remote, [1]);
    let refused = Err(Refusal::VolumeShape);
    assert_eq!(short.read(0, &mut output), refused);
    assert_eq!(short.survey(&mut [9]).map(|_| Verdict::Whole), refused);
    assert_eq!(output[..], plaintext);
}

/// It is enough to survey and to look at.
#[test]
fn a_map_that_is_only_read() {
    let key = key();
    let (local, tags, remote) = blanked(&key).into_images();
    let map = [0b101];
    let volume = Volume::new(&key, VOLUME, SIZE, COUNT, local, tags, remote, &map[..]);
    let (survey, _) = volume.survey(&mut [9; COUNT]).expect("accepted");
    assert_eq!(survey.whole, COUNT);
    assert_eq!(volume.count_suspects(), Ok(2));
    let suspects = [0, 1, 2].map(|number| volume.is_suspect(number));
    assert_eq!(suspects, [Some(true), Some(false), Some(true)]);
    assert_eq!(volume.map(), [0b101]);
}

/// A read writes the map, so each thread has a volume with one of its own, over
/// images that all of them are lent.
#[test]
fn reads_in_two_threads() {
    let key = key();
    let mut volume = blanked(&key);
    volume.local_mut()[SIZE] ^= 1;
    let (local, tags, remote) = volume.into_images();
    let suspects = || {
        let map = [0];
        let mut reader = Volume::new(&key, VOLUME, SIZE, COUNT, &local, &tags, &remote, map);
        reader.start_map()?;
        for number in 0..COUNT {
            reader.read(number, &mut [0; SIZE])?;
        }
        Ok::<_, Refusal>(reader.map()[0])
    };
    std::thread::scope(|scope| {
        let threads = [(); 2].map(|()| scope.spawn(suspects));
        for thread in threads {
            assert_eq!(thread.join().expect("a thread ends"), Ok(0b10));
        }
    });
}

/// Bytes or words of which it is known how often they were asked for.
struct Counted<'c, T> {
    held: Vec<T>,
    asked: &'c Cell<usize>,
}

impl<T> AsRef<[T]> for Counted<'_, T> {
    fn as_ref(&self) -> &[T] {
        self.asked.set(self.asked.get() + 1);
        &self.held
    }
}

impl<T> AsMut<[T]> for Counted<'_, T> {
    fn as_mut(&mut self) -> &mut [T] {
        self.asked.set(self.asked.get() + 1);
        &mut self.held
    }
}

/// A type may give something else when it is asked again, so a pointer and its
/// length have to be of one answer.
#[test]
fn a_call_asks_for_each_image_and_for_the_map_once() {
    let (key, plaintext) = (key(), bytes(3));
    let counts = [(); 4].map(|()| Cell::new(0));
    let (local, tags, remote, map) = blanked(&key).into_images_and_map();
    let [local, tags, remote] = [
        (local, &counts[0]),
        (tags, &counts[1]),
        (remote, &counts[2]),
    ]
    .map(|(held, asked)| Counted { held, asked });
    let (held, asked) = (map, &counts[3]);
    let map = Counted { held, asked };
    let mut volume = Volume::new(&key, VOLUME, SIZE, COUNT, local, tags, remote, map);
    let asked = || counts.each_ref().map(Cell::take);
    let once = || assert_eq!(asked(), [1; 4]);

    assert_eq!(volume.blank(2), Ok(()));
    once();
    assert_eq!(volume.first_stage(2, &plaintext), Ok(()));
    once();
    assert_eq!(volume.second_stage(2, &plaintext), Ok(()));
    once();
    assert_eq!(volume.third_stage(2, &plaintext), Ok(()));
    once();
    assert_eq!(volume.read(2, &mut [0; SIZE]), Ok(Verdict::Whole));
    once();
    assert_eq!(volume.mend(2), Ok(Verdict::Whole));
    once();
    assert_eq!(volume.write(2, &plaintext), Ok(Verdict::Whole));
    once();
    assert!(volume.survey(&mut [0; COUNT]).is_ok());
    once();
    assert_eq!(volume.count_suspects(), Ok(0));
    assert_eq!(asked(), [0, 0, 0, 1]);
    assert_eq!(volume.start_map(), Ok(()));
    assert_eq!(asked(), [0, 0, 0, 1]);
}

#[test]
fn parts_are_those_of_the_sector() {
    let key = key();
    let volume = blanked(&key);
    for number in 0..COUNT {
        let Triple { local, tag, remote } = sealed(number as u64, &[0; SIZE]);
        assert_eq!(volume.local_part(number), Some(&local[..]));
        assert_eq!(volume.tag_part(number), Some(&tag[..]));
        assert_eq!(volume.remote_part(number), Some(&remote[..]));
    }
    for number in [COUNT, COUNT + 1, 1 << 60, usize::MAX] {
        assert_eq!(parts(&volume, number), [None; 3]);
    }
}

/// The three parts' lengths.
fn parts<I: AsRef<[u8]>, M>(volume: &Volume<I, M>, number: usize) -> [Option<usize>; 3] {
    let parts = [
        volume.local_part(number),
        volume.tag_part(number),
        volume.remote_part(number),
    ];
    parts.map(|part| part.map(<[u8]>::len))
}

#[test]
fn images_of_another_shape_have_no_such_part() {
    let (side, tags) = ([0; 2 * SIZE], [0; 2 * TAG_BYTES]);
    let (local, tags, remote) = (&side[..], &tags[..], &side[1..]);
    let of_shape = |size, count| Volume::new(&[], 0, size, count, local, tags, remote, ());
    let (sector, tag) = (Some(SIZE), Some(TAG_BYTES));
    assert_eq!(parts(&of_shape(SIZE, 2), 0), [sector, tag, sector]);
    // The remote image is a byte too short for sector 1.
    assert_eq!(parts(&of_shape(SIZE, 2), 1), [sector, tag, None]);
    // The images have the bytes of sector 1, but the volume has no such sector.
    assert_eq!(parts(&of_shape(SIZE, 1), 1), [None; 3]);
    assert_eq!(parts(&of_shape(SIZE, 3), 2), [None; 3]);
    assert_eq!(parts(&of_shape(SIZE, 0), 0), [None; 3]);
    // Where a product or a sum would wrap.
    for size in [1 << 63, usize::MAX] {
        for number in [1, 2, usize::MAX - 1] {
            let volume = of_shape(size, usize::MAX);
            assert_eq!(volume.local_part(number), None);
            assert_eq!(volume.remote_part(number), None);
        }
    }
    for number in [1 << 60, usize::MAX - 1] {
        assert_eq!(parts(&of_shape(SIZE, usize::MAX), number), [None; 3]);
    }
}

#[test]
fn neither_key_nor_images_are_shown() {
    let shown = format!("{:?}", blanked(&key()));
    let due = format!("Volume {{ number: {VOLUME}, size: 48, count: 3, .. }}");
    assert_eq!(shown, due);
}
