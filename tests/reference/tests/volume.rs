//! The volume calls: what each writes, and every refusal in its order.

use reference::answer::{answer_number, Place, Refusal, Verdict};
use reference::collide::blind_pair;
use reference::field::{to_block, to_bytes};
use reference::map;
use reference::rng::Rng;
use reference::seal::sealed;
use reference::volume::{
    blank, first_stage, mend, part, read, second_stage, survey, third_stage, write, Survey,
};

const FILL: u8 = 0x5a;

/// A volume and what its calls take.
#[derive(Clone, PartialEq, Debug)]
struct Volume {
    key: Vec<u8>,
    /// The volume's number.
    volume: u64,
    size: usize,
    count: usize,
    local: Vec<u8>,
    tag: Vec<u8>,
    remote: Vec<u8>,
    map: Vec<u64>,
}

impl Volume {
    fn random(rng: &mut Rng, size: usize, count: usize) -> Volume {
        Volume {
            key: rng.bytes(32),
            volume: 0,
            size,
            count,
            local: rng.bytes(size * count),
            tag: rng.bytes(16 * count),
            remote: rng.bytes(size * count),
            map: (0..map::words(count)).map(|_| rng.next_u64()).collect(),
        }
    }

    fn blanked(rng: &mut Rng, size: usize, count: usize) -> Volume {
        let mut volume = Volume::random(rng, size, count);
        for number in 0..count {
            assert_eq!(volume.blank(number), Ok(()));
        }
        volume
    }

    fn blank(&mut self, number: usize) -> Result<(), Refusal> {
        let (local, tag, remote) = (&mut self.local, &mut self.tag, &mut self.remote);
        let (key, v, s, n) = (&self.key, self.volume, self.size, self.count);
        blank(key, v, s, n, local, tag, remote, &mut self.map, number)
    }

    fn first(&mut self, number: usize, plaintext: &[u8]) -> Result<(), Refusal> {
        first_stage(
            &self.key,
            self.volume,
            self.size,
            self.count,
            &mut self.local,
            &self.tag,
            &self.remote,
            &mut self.map,
            number,
            plaintext,
        )
    }

    fn second(&mut self, number: usize, plaintext: &[u8]) -> Result<(), Refusal> {
        second_stage(
            &self.key,
            self.volume,
            self.size,
            self.count,
            &self.local,
            &mut self.tag,
            &self.remote,
            &mut self.map,
            number,
            plaintext,
        )
    }

    fn third(&mut self, number: usize, plaintext: &[u8]) -> Result<(), Refusal> {
        third_stage(
            &self.key,
            self.volume,
            self.size,
            self.count,
            &self.local,
            &self.tag,
            &mut self.remote,
            &mut self.map,
            number,
            plaintext,
        )
    }

    fn read(&mut self, number: usize, output: &mut [u8]) -> Result<Verdict, Refusal> {
        read(
            &self.key,
            self.volume,
            self.size,
            self.count,
            &self.local,
            &self.tag,
            &self.remote,
            &mut self.map,
            number,
            output,
        )
    }

    /// A read with an output of the right size.
    fn plain(&mut self, number: usize) -> Result<(Verdict, Vec<u8>), Refusal> {
        let mut output = vec![FILL; self.size];
        let verdict = self.read(number, &mut output)?;
        Ok((verdict, output))
    }

    fn mend(&mut self, number: usize) -> Result<Verdict, Refusal> {
        let (local, tag, remote) = (&mut self.local, &mut self.tag, &mut self.remote);
        let (key, v, s, n) = (&self.key, self.volume, self.size, self.count);
        mend(key, v, s, n, local, tag, remote, &mut self.map, number)
    }

    fn write(&mut self, number: usize, plaintext: &[u8]) -> Result<Verdict, Refusal> {
        write(
            &self.key,
            self.volume,
            self.size,
            self.count,
            &mut self.local,
            &mut self.tag,
            &mut self.remote,
            &mut self.map,
            number,
            plaintext,
        )
    }

    fn survey(&self, list: &mut [u32]) -> Result<Survey, Refusal> {
        survey(
            &self.key,
            self.volume,
            self.size,
            self.count,
            &self.local,
            &self.tag,
            &self.remote,
            &self.map,
            list,
        )
    }

    /// All calls but survey, each on a copy, which a refusal must not change.
    fn refusals(&self, number: usize, plaintext: usize) -> [u8; 7] {
        let plaintext = vec![7; plaintext];
        let mut copy = self.clone();
        let mut output = plaintext.clone();
        let answers = [
            answer_number(&copy.blank(number)),
            answer_number(&copy.first(number, &plaintext)),
            answer_number(&copy.second(number, &plaintext)),
            answer_number(&copy.third(number, &plaintext)),
            answer_number(&copy.read(number, &mut output)),
            answer_number(&copy.mend(number)),
            answer_number(&copy.write(number, &plaintext)),
        ];
        assert_eq!(copy, *self);
        assert_eq!(output, plaintext);
        answers
    }

    /// Writes one place of a sector, and sets its bit or clears it.
    fn put(&mut self, number: usize, place: Place, bytes: &[u8], suspect: bool) {
        self.place_mut(number, place).copy_from_slice(bytes);
        self.mark(number, suspect);
    }

    /// Sets or clears a sector's bit in the map.
    fn mark(&mut self, number: usize, suspect: bool) {
        let bit = 1 << (number % 64);
        self.map[number / 64] &= !bit;
        self.map[number / 64] |= if suspect { bit } else { 0 };
    }

    fn place_mut(&mut self, number: usize, place: Place) -> &mut [u8] {
        match place {
            Place::Local => &mut self.local[part(number, self.size)],
            Place::Tag => &mut self.tag[part(number, 16)],
            Place::Remote => &mut self.remote[part(number, self.size)],
        }
    }
}

#[test]
fn blank_seals_zeros() {
    let mut rng = Rng::new(30);
    for size in [16, 64, 4096] {
        let mut volume = Volume::random(&mut rng, size, 3);
        let mut due = volume.clone();
        let sealed = sealed(&due.key, 0, 1, &vec![0; size]);
        for place in Place::ALL {
            due.put(1, place, sealed.place(place), false);
        }
        assert_eq!(volume.blank(1), Ok(()));
        assert_eq!(volume, due);
        assert_eq!(volume.plain(1), Ok((Verdict::Whole, vec![0; size])));
        assert_eq!(volume.plain(0), Err(Refusal::Lost));
    }
}

#[test]
fn stages_write_one_place_each() {
    let mut rng = Rng::new(31);
    for size in [16, 48, 512] {
        let mut volume = Volume::blanked(&mut rng, size, 4);
        let zeros = vec![0; size];
        let plaintext = rng.bytes(size);
        let sealed = sealed(&volume.key, 0, 2, &plaintext);
        let mut due = volume.clone();

        // Out of turn, the later stages are refused.
        assert_eq!(volume.second(2, &plaintext), Err(Refusal::WrongStage));
        assert_eq!(volume.third(2, &plaintext), Err(Refusal::WrongStage));
        assert_eq!(volume, due);

        assert_eq!(volume.first(2, &plaintext), Ok(()));
        due.put(2, Place::Local, &sealed.local, true);
        assert_eq!(volume, due);
        let found = Ok((Verdict::Doubtful(Place::Local), zeros.clone()));
        assert_eq!(volume.plain(2), found);
        assert_eq!(volume.first(2, &plaintext), Err(Refusal::WrongStage));
        assert_eq!(volume.third(2, &plaintext), Err(Refusal::WrongStage));
        assert_eq!(volume.second(2, &zeros), Err(Refusal::WrongStage));
        assert_eq!(volume, due);

        assert_eq!(volume.second(2, &plaintext), Ok(()));
        due.put(2, Place::Tag, &sealed.tag, true);
        assert_eq!(volume, due);
        let found = Ok((Verdict::Doubtful(Place::Remote), plaintext.clone()));
        assert_eq!(volume.plain(2), found);
        assert_eq!(volume.first(2, &plaintext), Err(Refusal::WrongStage));
        assert_eq!(volume.third(2, &zeros), Err(Refusal::WrongStage));

        assert_eq!(volume.third(2, &plaintext), Ok(()));
        due.put(2, Place::Remote, &sealed.remote, false);
        assert_eq!(volume, due);
        assert_eq!(volume.plain(2), Ok((Verdict::Whole, plaintext.clone())));
    }
}

#[test]
fn mend_restores_the_doubtful_place() {
    let mut rng = Rng::new(32);
    for size in [16, 32, 4096] {
        let volume = Volume::blanked(&mut rng, size, 2);
        let mut same = volume.clone();
        assert_eq!(same.mend(1), Ok(Verdict::Whole));
        assert_eq!(same, volume);
        for place in Place::ALL {
            let mut damaged = volume.clone();
            rng.fill(damaged.place_mut(1, place));
            assert_eq!(damaged.mend(1), Ok(Verdict::Doubtful(place)));
            assert_eq!(damaged, volume);
        }
    }
}

impl Volume {
    /// A volume of sectors of these kinds: w whole, d doubtful, c clashing, l
    /// lost. Clashes take two blocks.
    fn of_kinds(rng: &mut Rng, size: usize, kinds: &str) -> Volume {
        let mut volume = Volume::blanked(rng, size, kinds.len());
        for (number, kind) in kinds.bytes().enumerate() {
            // The place goes by the number.
            let [one, another, _] = [0, 1, 2].map(|step| Place::ALL[(number + step) % 3]);
            match kind {
                b'w' => {}
                b'd' => volume.place_mut(number, one)[3] ^= 4,
                b'c' => volume.clash(number),
                b'l' => {
                    rng.fill(volume.place_mut(number, one));
                    rng.fill(volume.place_mut(number, another));
                }
                _ => panic!("no kind {kind}"),
            }
        }
        volume
    }

    /// Puts into a sector the sides of two plaintexts of equal tag.
    fn clash(&mut self, number: usize) {
        let zeros = vec![0; self.size / 16];
        let (one, other) = blind_pair(to_block(&self.key[..16]), &zeros, 1);
        let mut held = sealed(&self.key, self.volume, number as u64, &to_bytes(&one));
        held.remote = sealed(&self.key, self.volume, number as u64, &to_bytes(&other)).remote;
        for place in Place::ALL {
            self.place_mut(number, place)
                .copy_from_slice(held.place(place));
        }
    }

    /// Whole, doubtful, clashing and lost sectors, and the list.
    fn surveyed(&self) -> ([usize; 4], Vec<u32>) {
        let filler = u32::MAX;
        let mut list = vec![filler; self.count + 2];
        let found = self.survey(&mut list).expect("accepted");
        let listed = self.count - found.whole;
        assert!(list[listed..].iter().all(|&entry| entry == filler));
        list.truncate(listed);
        let counts = [found.whole, found.doubtful, found.clashing, found.lost];
        (counts, list)
    }
}

/// A volume of four sectors: whole, doubtful, clashing, lost.
fn one_of_each(rng: &mut Rng) -> Volume {
    Volume::of_kinds(rng, 32, "wdcl")
}

#[test]
fn read_and_mend_refuse_lost_and_clashing() {
    let mut volume = one_of_each(&mut Rng::new(33));
    let mut due = volume.clone();
    for (number, refusal) in [(2, Refusal::Clashing), (3, Refusal::Lost)] {
        let mut output = [FILL; 32];
        let plaintext = [0; 32];
        assert_eq!(volume.first(number, &plaintext), Err(Refusal::WrongStage));
        assert_eq!(volume, due);
        // A refused read or mend changes the sector's bit, and nothing else.
        due.mark(number, true);
        assert_eq!(volume.read(number, &mut output), Err(refusal));
        assert_eq!(output, [FILL; 32]);
        assert_eq!(volume, due);
        volume.mark(number, false);
        assert_eq!(volume.mend(number), Err(refusal));
        assert_eq!(volume, due);
    }
}

#[test]
fn survey_counts_and_lists() {
    let mut volume = one_of_each(&mut Rng::new(34));
    let mut list = [99; 6];
    let due = Survey {
        whole: 1,
        doubtful: 1,
        clashing: 1,
        lost: 1,
        health: 250,
    };
    assert_eq!(volume.survey(&mut list), Ok(due));
    assert_eq!(list, [3, 2, 1, 99, 99, 99]);

    let mut exact = [99; 4];
    assert_eq!(volume.survey(&mut exact), Ok(due));
    assert_eq!(exact, [3, 2, 1, 99]);
    let mut short = [99; 3];
    assert_eq!(volume.survey(&mut short), Err(Refusal::ShortList));
    assert_eq!(short, [99; 3]);

    for number in [2, 3] {
        assert_eq!(volume.blank(number), Ok(()));
    }
    assert_eq!(volume.mend(1), Ok(Verdict::Doubtful(Place::Tag)));
    let found = volume.survey(&mut list).expect("accepted");
    assert_eq!((found.whole, found.health), (4, 1000));
    assert_eq!(list, [3, 2, 1, 99, 99, 99]);
}

#[test]
fn the_list_is_in_repair_order() {
    let mut rng = Rng::new(40);
    let volume = Volume::of_kinds(&mut rng, 48, "dlcwcdlwldcdwlc");
    let (lost, clashing, doubtful) = ([1, 6, 8, 13], [2, 4, 10, 14], [0, 5, 9, 11]);
    let due = [lost, clashing, doubtful].concat();
    assert_eq!(volume.surveyed(), ([3, 4, 4, 4], due));
}

#[test]
fn two_kinds_in_repair_order() {
    let mut rng = Rng::new(41);
    for (kinds, counts, due) in [
        ("ccdd", [0, 2, 2, 0], [0, 1, 2, 3]),
        ("ddcc", [0, 2, 2, 0], [2, 3, 0, 1]),
        ("dcdc", [0, 2, 2, 0], [1, 3, 0, 2]),
        ("lldd", [0, 2, 0, 2], [0, 1, 2, 3]),
        ("ddll", [0, 2, 0, 2], [2, 3, 0, 1]),
        ("dldl", [0, 2, 0, 2], [1, 3, 0, 2]),
        ("llcc", [0, 0, 2, 2], [0, 1, 2, 3]),
        ("ccll", [0, 0, 2, 2], [2, 3, 0, 1]),
        ("clcl", [0, 0, 2, 2], [1, 3, 0, 2]),
    ] {
        let volume = Volume::of_kinds(&mut rng, 32, kinds);
        assert_eq!(volume.surveyed(), (counts, due.to_vec()), "{kinds}");
    }
}

#[test]
fn numbers_of_one_kind_rise() {
    let mut rng = Rng::new(42);
    for (kinds, counts, due) in [
        ("lllll", [0, 0, 0, 5], &[0, 1, 2, 3, 4][..]),
        ("ccccc", [0, 0, 5, 0], &[0, 1, 2, 3, 4]),
        ("ddddd", [0, 5, 0, 0], &[0, 1, 2, 3, 4]),
        ("wlwwl", [3, 0, 0, 2], &[1, 4]),
        ("wcwwc", [3, 0, 2, 0], &[1, 4]),
        ("wdwwd", [3, 2, 0, 0], &[1, 4]),
        ("wwwww", [5, 0, 0, 0], &[]),
    ] {
        let volume = Volume::of_kinds(&mut rng, 32, kinds);
        assert_eq!(volume.surveyed(), (counts, due.to_vec()), "{kinds}");
    }
}

#[test]
fn health_is_rounded_down() {
    let mut rng = Rng::new(35);
    let mut volume = Volume::random(&mut rng, 16, 3);
    let mut list = [0; 3];
    assert_eq!(volume.survey(&mut list).map(|s| s.health), Ok(0));
    for (number, health) in [(0, 333), (2, 666), (1, 1000)] {
        assert_eq!(volume.blank(number), Ok(()));
        assert_eq!(volume.survey(&mut list).map(|s| s.health), Ok(health));
    }
}

#[test]
fn the_largest_volume() {
    let mut rng = Rng::new(36);
    let count = 65_536;
    let mut volume = Volume::random(&mut rng, 16, count);
    for number in [0, 1, 65_534, 65_535] {
        assert_eq!(volume.blank(number), Ok(()));
    }
    assert_eq!(volume.blank(count), Err(Refusal::SectorNumber));
    let mut list = vec![0; count];
    let found = volume.survey(&mut list).expect("accepted");
    assert_eq!((found.whole, found.lost, found.health), (4, 65_532, 0));
    let due: Vec<u32> = (2..65_534).collect();
    assert_eq!(list[..65_532], due);
    let found = volume.survey(&mut list[..count - 1]);
    assert_eq!(found, Err(Refusal::ShortList));
}

/// Every third sector is damaged, with the kinds by turns.
#[test]
fn the_largest_volume_in_repair_order() {
    // Ten and not nine, so that each kind has each place.
    let kinds: String = "wdwwcwwlww".chars().cycle().take(65_536).collect();
    let volume = Volume::of_kinds(&mut Rng::new(43), 32, &kinds);
    let every_tenth_from = |first| (first..65_536).step_by(10);
    let due: Vec<u32> = every_tenth_from(7)
        .chain(every_tenth_from(4))
        .chain(every_tenth_from(1))
        .collect();
    assert_eq!(due.len(), 19_661);
    let (counts, list) = volume.surveyed();
    assert_eq!(counts, [45_875, 6_554, 6_554, 6_553]);
    assert!(list == due, "another list");
}

#[test]
fn refusals_in_order() {
    let mut rng = Rng::new(37);
    let good = Volume::blanked(&mut rng, 32, 3);

    let mut bad_key = good.clone();
    for len in [0, 31, 33] {
        bad_key.key = vec![1; len];
        assert_eq!(bad_key.refusals(0, 32), [1; 7]);
        assert_eq!(bad_key.survey(&mut [0; 3]), Err(Refusal::KeyLength));
    }
    bad_key.size = 15;
    bad_key.count = 0;
    assert_eq!(bad_key.refusals(9, 0), [1; 7]);

    for size in [0, 15, 17, 4112] {
        let mut bad_size = Volume::random(&mut rng, size, 3);
        assert_eq!(bad_size.refusals(0, size), [2; 7]);
        bad_size.count = 0;
        assert_eq!(bad_size.refusals(9, 0), [2; 7]);
        assert_eq!(bad_size.survey(&mut []), Err(Refusal::SectorSize));
    }

    for words in [0, 2, 3] {
        let mut bad_map = good.clone();
        bad_map.map.resize(words, 7);
        assert_eq!(bad_map.refusals(0, 32), [13; 7]);
        assert_eq!(bad_map.refusals(9, 31), [13; 7]);
        assert_eq!(bad_map.survey(&mut [0; 3]), Err(Refusal::MapLength));
        assert_eq!(bad_map.survey(&mut []), Err(Refusal::MapLength));
    }

    for number in [3, 4, usize::MAX] {
        assert_eq!(good.refusals(number, 31), [9; 7]);
    }
}

#[test]
fn refusal_8_on_count_and_images() {
    let mut rng = Rng::new(38);
    let good = Volume::blanked(&mut rng, 32, 3);
    let mut bad = vec![
        Volume::random(&mut rng, 32, 0),
        Volume::random(&mut rng, 16, 65_537),
    ];
    for count in [0, 1, 2, 4, 65_537, usize::MAX] {
        bad.push(Volume {
            count,
            ..good.clone()
        });
    }
    for size in [16, 48] {
        bad.push(Volume {
            size,
            ..good.clone()
        });
    }
    for change in [-1isize, 1, 16, 32, -16, -32] {
        for image in 0..3 {
            let mut volume = good.clone();
            let bytes = [&mut volume.local, &mut volume.tag, &mut volume.remote]
                .into_iter()
                .nth(image)
                .expect("three images");
            bytes.resize(bytes.len().saturating_add_signed(change), 0);
            bad.push(volume);
        }
    }
    for mut volume in bad {
        for words in [1, 0, 2] {
            volume.map.resize(words, 7);
            assert_eq!(volume.refusals(usize::MAX, 31), [8; 7]);
            assert_eq!(volume.refusals(0, 32), [8; 7]);
            assert_eq!(volume.survey(&mut []), Err(Refusal::VolumeShape));
        }
    }
}

#[test]
fn refusal_3_goes_before_6_7_and_10() {
    let mut rng = Rng::new(39);
    let volume = one_of_each(&mut rng);
    for number in [1, 2, 3] {
        for len in [0, 16, 31, 33, 48] {
            let answers = volume.clone().refusals_without_blank_and_mend(number, len);
            assert_eq!(answers, [3; 5]);
        }
    }
}

impl Volume {
    /// The calls that take a plaintext or an output.
    fn refusals_without_blank_and_mend(&mut self, number: usize, len: usize) -> [u8; 5] {
        let before = self.clone();
        let plaintext = vec![0; len];
        let mut output = vec![FILL; len];
        let answers = [
            answer_number(&self.first(number, &plaintext)),
            answer_number(&self.second(number, &plaintext)),
            answer_number(&self.third(number, &plaintext)),
            answer_number(&self.read(number, &mut output)),
            answer_number(&self.write(number, &plaintext)),
        ];
        assert_eq!(*self, before);
        assert_eq!(output, vec![FILL; len]);
        answers
    }
}

/// Reads, mends, stages and writes are refused and change nothing but that all
/// sectors are suspect then, and a survey counts them all lost.
fn insist_on_foreign(volume: &Volume, plaintexts: &[Vec<u8>]) {
    let mut copy = volume.clone();
    let mut due = volume.clone();
    for (number, plaintext) in plaintexts.iter().enumerate() {
        let mut output = vec![FILL; volume.size];
        assert_eq!(copy.read(number, &mut output), Err(Refusal::Lost));
        assert_eq!(output, vec![FILL; volume.size]);
        assert_eq!(copy.mend(number), Err(Refusal::Lost));
        due.mark(number, true);
        for text in [plaintext, &vec![0; volume.size]] {
            assert_eq!(copy.first(number, text), Err(Refusal::WrongStage));
            assert_eq!(copy.second(number, text), Err(Refusal::WrongStage));
            assert_eq!(copy.third(number, text), Err(Refusal::WrongStage));
            assert_eq!(copy.write(number, text), Err(Refusal::Lost));
        }
    }
    let all: Vec<u32> = (0..volume.count as u32).collect();
    assert_eq!(copy.surveyed(), ([0, 0, 0, volume.count], all));
    assert_eq!(copy, due);
}

#[test]
fn under_another_number_all_is_lost() {
    let mut rng = Rng::new(44);
    for (own, other) in [
        (0, 1),
        (1, 0),
        (u64::MAX, 0),
        (0xff, 0xff << 56),
        (7, 7 ^ (1 << 63)),
        (0x0102_0304_0506_0708, 0x0807_0605_0403_0201),
    ] {
        for size in [16, 32, 512] {
            let mut volume = Volume::random(&mut rng, size, 5);
            volume.volume = own;
            let plaintexts: Vec<_> = (0..5).map(|_| rng.bytes(size)).collect();
            // Each sector after one more stage, and the last one damaged.
            for (number, plaintext) in plaintexts.iter().enumerate() {
                assert_eq!(volume.blank(number), Ok(()));
                if number > 0 {
                    assert_eq!(volume.first(number, plaintext), Ok(()));
                }
                if number > 1 {
                    assert_eq!(volume.second(number, plaintext), Ok(()));
                }
                if number > 2 {
                    assert_eq!(volume.third(number, plaintext), Ok(()));
                }
            }
            volume.place_mut(4, Place::Tag)[5] ^= 1;
            assert_eq!(volume.surveyed(), ([2, 3, 0, 0], vec![1, 2, 4]));
            let foreign = Volume {
                volume: other,
                ..volume.clone()
            };
            insist_on_foreign(&foreign, &plaintexts);
        }
    }
}

/// Two volumes under one key with the same plaintexts share no place.
#[test]
fn mirrors_under_two_numbers_share_nothing() {
    let mut rng = Rng::new(45);
    let mut one = Volume::random(&mut rng, 48, 3);
    one.volume = 1;
    let mut two = Volume {
        volume: 2,
        ..one.clone()
    };
    for number in 0..3 {
        let plaintext = rng.bytes(48);
        for volume in [&mut one, &mut two] {
            assert_eq!(volume.blank(number), Ok(()));
            assert_eq!(volume.first(number, &plaintext), Ok(()));
            assert_eq!(volume.second(number, &plaintext), Ok(()));
            assert_eq!(volume.third(number, &plaintext), Ok(()));
            assert_eq!(
                volume.plain(number),
                Ok((Verdict::Whole, plaintext.clone()))
            );
        }
        for place in Place::ALL {
            assert_ne!(one.place_mut(number, place), two.place_mut(number, place));
        }
    }
}

/// All calls under a number write what sealing under it gives.
#[test]
fn calls_seal_under_the_number() {
    let mut rng = Rng::new(46);
    for own in [1, 0xff, 0xff << 56, u64::MAX] {
        let mut volume = Volume::random(&mut rng, 32, 2);
        volume.volume = own;
        assert_eq!(volume.blank(1), Ok(()));
        for plaintext in [vec![0; 32], rng.bytes(32)] {
            assert_eq!(volume.first(1, &plaintext), Ok(()));
            assert_eq!(volume.second(1, &plaintext), Ok(()));
            assert_eq!(volume.third(1, &plaintext), Ok(()));
            let due = sealed(&volume.key, own, 1, &plaintext);
            for place in Place::ALL {
                assert_eq!(volume.place_mut(1, place), due.place(place));
                volume.place_mut(1, place)[0] ^= 0x80;
                assert_eq!(volume.mend(1), Ok(Verdict::Doubtful(place)));
                assert_eq!(volume.place_mut(1, place), due.place(place));
            }
        }
    }
}

/// A number changes no refusal that goes before the verdict.
#[test]
fn refusals_in_order_under_a_number() {
    let mut rng = Rng::new(47);
    let mut volume = one_of_each(&mut rng);
    for own in [1, u64::MAX] {
        volume.volume = own;
        let with = |change: fn(&mut Volume)| {
            let mut changed = volume.clone();
            change(&mut changed);
            changed
        };
        assert_eq!(with(|v| v.key = vec![1; 31]).refusals(9, 31), [1; 7]);
        assert_eq!(with(|v| v.size = 31).refusals(9, 31), [2; 7]);
        assert_eq!(with(|v| v.count += 1).refusals(9, 31), [8; 7]);
        assert_eq!(with(|v| v.map.push(0)).refusals(9, 31), [13; 7]);
        assert_eq!(volume.refusals(4, 31), [9; 7]);
        let answers = volume.clone().refusals_without_blank_and_mend(0, 31);
        assert_eq!(answers, [3; 5]);
        assert_eq!(volume.survey(&mut [0; 3]), Err(Refusal::ShortList));
    }
}
