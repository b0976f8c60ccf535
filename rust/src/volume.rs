//! A volume, and the calls on it.

use core::fmt;

use crate::answer::{done, judged};
use crate::{ffi, map, Refusal, Verdict, TAG_BYTES};

/// A volume: its key, its number, its shape, its three images and its map of
/// suspects.
///
/// Key and number belong to one volume: give each volume under a key a number of
/// its own, and never use it again for another volume under that key. Volumes
/// made by releases before 0.3.0 have the number 0. It is not secret, and not
/// stored: keep it beside the volume, as size and count.
///
/// The images are lent or owned, and all of one type: `&mut [u8]`, `Vec<u8>` or
/// any other that gives its bytes by [`AsRef`] and [`AsMut`]. To read and survey,
/// [`AsRef`] is enough, as `&[u8]` has it.
///
/// The map is lent or owned by itself: `&mut [u64]`, `Vec<u64>` or any other type
/// that gives its words by [`AsRef`] and [`AsMut`]. [Start](Self::start_map) it
/// before the first call. Calls on one sector write its bit, and a read does too:
/// so it takes the volume by `&mut`. To survey and to look at the map, [`AsRef`]
/// is enough, as `&[u64]` has it. See [the map of
/// suspects](crate#the-map-of-suspects) for what a bit says.
///
/// The images are private memory, not a shared mapping of the medium, and the
/// caller writes out what a call changed. A call is finished only once that is
/// on the medium; a power cut before is a cut in that call. Flush before the next
/// call on the volume, and see [power cuts](crate#power-cuts) for what else a
/// medium has to keep, and for images that are the medium themselves.
///
/// ```
/// use mirror::{map_words, Refusal, Volume, KEY_BYTES, TAG_BYTES};
///
/// let (key, volume, size, count) = ([7; KEY_BYTES], 1, 512, 4);
/// let local = vec![0; count * size];
/// let (tags, remote) = (vec![0; count * TAG_BYTES], local.clone());
/// let mut map = vec![0; map_words(count)];
///
/// let mut reader = Volume::new(&key, volume, size, count, &local, &tags, &remote, &mut map);
/// reader.start_map()?;
/// assert_eq!(reader.read(0, &mut [0; 512]), Err(Refusal::Lost));
///
/// let mut owner = Volume::new(&key, volume, size, count, local, tags, remote, map);
/// owner.blank(0)?;
/// assert_eq!(owner.count_suspects()?, 3);
/// let (local, tags, remote, map) = owner.into_images_and_map();
/// assert_eq!(map, [0b1110]);
/// # Ok::<(), Refusal>(())
/// ```
#[derive(Clone)]
pub struct Volume<'k, I, M> {
    key: &'k [u8],
    number: u64,
    size: usize,
    count: usize,
    local: I,
    tags: I,
    remote: I,
    map: M,
}

/// Number and shape alone: the key is a secret, and local and remote image
/// together give the plaintexts.
impl<I, M> fmt::Debug for Volume<'_, I, M> {
    fn fmt(&self, f: &mut fmt::Formatter<'_>) -> fmt::Result {
        f.debug_struct("Volume")
            .field("number", &self.number)
            .field("size", &self.size)
            .field("count", &self.count)
            .finish_non_exhaustive()
    }
}

impl<'k, I, M> Volume<'k, I, M> {
    /// The volume of number `volume`, with `count` sectors of `size` bytes, under a
    /// key of 32 bytes. The local and the remote image have `count` times `size`
    /// bytes, the tag image `count` times 16, and the map
    /// [`map_words(count)`](crate::map_words) words.
    ///
    /// Nothing is checked or written here: every call checks for itself, and
    /// refuses what is wrong. Every number is accepted. Under another one than the
    /// volume's a sector is lost, unless its plaintext has one tag under both.
    // What the calls on a volume take, one parameter for each.
    #[allow(clippy::too_many_arguments)]
    pub const fn new(
        key: &'k [u8],
        volume: u64,
        size: usize,
        count: usize,
        local: I,
        tags: I,
        remote: I,
        map: M,
    ) -> Self {
        Volume {
            key,
            number: volume,
            size,
            count,
            local,
            tags,
            remote,
            map,
        }
    }

    /// The volume's own number, not a sector's.
    pub const fn number(&self) -> u64 {
        self.number
    }

    /// The bytes of a sector.
    pub const fn size(&self) -> usize {
        self.size
    }

    /// How many sectors there are.
    pub const fn count(&self) -> usize {
        self.count
    }

    /// Gives the images back: local, tags, remote. The map is dropped;
    /// [`into_images_and_map`](Self::into_images_and_map) gives it too.
    pub fn into_images(self) -> (I, I, I) {
        (self.local, self.tags, self.remote)
    }

    /// Gives the images and the map back: local, tags, remote, map.
    pub fn into_images_and_map(self) -> (I, I, I, M) {
        (self.local, self.tags, self.remote, self.map)
    }

    /// The sector's part of an image with `bytes` for each sector.
    fn part<'i>(&self, image: &'i [u8], number: usize, bytes: usize) -> Option<&'i [u8]> {
        if number >= self.count {
            return None;
        }
        let start = number.checked_mul(bytes)?;
        image.get(start..start.checked_add(bytes)?)
    }
}

impl<I: AsRef<[u8]>, M> Volume<'_, I, M> {
    /// The local image.
    pub fn local(&self) -> &[u8] {
        self.local.as_ref()
    }

    /// The tag image.
    pub fn tags(&self) -> &[u8] {
        self.tags.as_ref()
    }

    /// The remote image.
    pub fn remote(&self) -> &[u8] {
        self.remote.as_ref()
    }

    /// One sector's part of the local image, which is to be written out after
    /// the first stage. None if the number is not below the count, or the image
    /// is too short for that part.
    pub fn local_part(&self, number: usize) -> Option<&[u8]> {
        self.part(self.local(), number, self.size)
    }

    /// One sector's tag, which is to be written out after the second stage. None
    /// as [`local_part`](Self::local_part).
    pub fn tag_part(&self, number: usize) -> Option<&[u8]> {
        self.part(self.tags(), number, TAG_BYTES)
    }

    /// One sector's part of the remote image, which is to be written out after
    /// the third stage. None as [`local_part`](Self::local_part).
    pub fn remote_part(&self, number: usize) -> Option<&[u8]> {
        self.part(self.remote(), number, self.size)
    }
}

impl<I, M: AsRef<[u64]>> Volume<'_, I, M> {
    /// The map of suspects: sector `i` is bit `i` mod 64, lowest first, of word
    /// `i` / 64.
    pub fn map(&self) -> &[u64] {
        self.map.as_ref()
    }

    /// How many sectors are suspect, by [the map](crate#the-map-of-suspects): its
    /// set bits below the count. No sector is judged.
    ///
    /// # Errors
    ///
    /// As [`start_map`](Self::start_map).
    pub fn count_suspects(&self) -> Result<u64, Refusal> {
        map::count_suspects(self.count, self.map())
    }

    /// Whether one sector is suspect, by [the map](crate#the-map-of-suspects). None
    /// if the number is not below the count, or the map is too short for its bit.
    pub fn is_suspect(&self, number: usize) -> Option<bool> {
        if number >= self.count {
            return None;
        }
        map::bit(self.map(), number)
    }
}

impl<I, M: AsMut<[u64]>> Volume<'_, I, M> {
    /// Starts the map: sets the bits of all sectors, and clears those past them.
    /// Do so before the first call on the volume, and anew after a [power
    /// cut](crate#power-cuts). It looks at no key and no image.
    ///
    /// # Errors
    ///
    /// In this order: [`VolumeShape`](Refusal::VolumeShape) of the count;
    /// [`MapLength`](Refusal::MapLength).
    pub fn start_map(&mut self) -> Result<(), Refusal> {
        map::start_map(self.count, self.map.as_mut())
    }
}

impl<I: AsRef<[u8]>, M: AsMut<[u64]>> Volume<'_, I, M> {
    /// Reads one sector: judges it and writes its plaintext to the output.
    ///
    /// It mends nothing. If the sector is doubtful, [`mend`](Self::mend) it soon:
    /// damage to a second place can lose it. If it clashes and a write was under
    /// way, go on with the write's next stage.
    ///
    /// It clears the sector's bit of the map where the verdict is whole, and sets
    /// it where it is doubtful.
    ///
    /// # Errors
    ///
    /// Those of [`blank`](Self::blank), [`MapLength`](Refusal::MapLength) among
    /// them, then in this order: [`OtherLength`](Refusal::OtherLength) of the
    /// output; [`Lost`](Refusal::Lost); [`Clashing`](Refusal::Clashing). The last
    /// two set the sector's bit of the map, and change nothing else.
    pub fn read(&mut self, number: usize, output: &mut [u8]) -> Result<Verdict, Refusal> {
        let local = self.local.as_ref();
        let tags = self.tags.as_ref();
        let remote = self.remote.as_ref();
        let map = self.map.as_mut();
        // SAFETY: as in `blank`.
        judged(unsafe {
            ffi::mirror_read(
                self.key.as_ptr(),
                self.key.len(),
                self.number,
                self.size,
                self.count,
                number,
                local.as_ptr(),
                local.len(),
                tags.as_ptr(),
                tags.len(),
                remote.as_ptr(),
                remote.len(),
                map.as_mut_ptr(),
                map.len(),
                output.as_mut_ptr(),
                output.len(),
            )
        })
    }
}

impl<I: AsRef<[u8]>, M: AsRef<[u64]>> Volume<'_, I, M> {
    /// Surveys the volume: judges every sector and counts the verdicts.
    ///
    /// The number of each sector that is not whole is written once to the front
    /// of the list, which is given back cut to these. Entries behind are
    /// untouched. The numbers come in repair order: first the lost sectors, then
    /// the clashing, then the doubtful; within a kind they rise. So the list is
    /// one value for a key, a volume's number and three images, and
    /// [`Survey::by_kind`] tells the kinds without a read.
    ///
    /// It checks the map's length, and leaves the map alone.
    ///
    /// # Errors
    ///
    /// In this order: [`KeyLength`](Refusal::KeyLength);
    /// [`ZeroHashKey`](Refusal::ZeroHashKey);
    /// [`SectorSize`](Refusal::SectorSize);
    /// [`VolumeShape`](Refusal::VolumeShape);
    /// [`MapLength`](Refusal::MapLength); [`ListLength`](Refusal::ListLength).
    pub fn survey<'l>(&self, list: &'l mut [u32]) -> Result<(Survey, &'l [u32]), Refusal> {
        let (local, tags, remote) = (self.local(), self.tags(), self.remote());
        let map = self.map();
        let mut counts = [0; 5];
        // SAFETY: as in `blank`, and the counts live through the call.
        done(unsafe {
            ffi::mirror_survey(
                self.key.as_ptr(),
                self.key.len(),
                self.number,
                self.size,
                self.count,
                local.as_ptr(),
                local.len(),
                tags.as_ptr(),
                tags.len(),
                remote.as_ptr(),
                remote.len(),
                map.as_ptr(),
                map.len(),
                list.as_mut_ptr(),
                list.len(),
                &mut counts,
            )
        })?;
        let survey = Survey::from_counts(counts);
        Ok((survey, &list[..survey.not_whole()]))
    }
}

impl<I: AsMut<[u8]>, M> Volume<'_, I, M> {
    /// The local image, to be loaded from the medium.
    pub fn local_mut(&mut self) -> &mut [u8] {
        self.local.as_mut()
    }

    /// The tag image, to be loaded from the medium.
    pub fn tags_mut(&mut self) -> &mut [u8] {
        self.tags.as_mut()
    }

    /// The remote image, to be loaded from the medium.
    pub fn remote_mut(&mut self) -> &mut [u8] {
        self.remote.as_mut()
    }
}

impl<I: AsRef<[u8]> + AsMut<[u8]>, M: AsMut<[u64]>> Volume<'_, I, M> {
    /// Blanks one sector: seals zeros into its part of all three images, whatever
    /// was there. Each sector of a new volume is blanked before its first write.
    /// A cut leaves anything in the sector: blank it again.
    ///
    /// It clears the sector's bit of the map.
    ///
    /// # Errors
    ///
    /// In this order: [`KeyLength`](Refusal::KeyLength);
    /// [`ZeroHashKey`](Refusal::ZeroHashKey);
    /// [`SectorSize`](Refusal::SectorSize);
    /// [`VolumeShape`](Refusal::VolumeShape);
    /// [`MapLength`](Refusal::MapLength);
    /// [`SectorNumber`](Refusal::SectorNumber).
    pub fn blank(&mut self, number: usize) -> Result<(), Refusal> {
        let local = self.local.as_mut();
        let tags = self.tags.as_mut();
        let remote = self.remote.as_mut();
        let map = self.map.as_mut();
        // SAFETY: each image and the map are asked for what they hold once, since a
        // type may give something else when asked again. Each pointer and length
        // is that of one slice, which lives through the call; those that are
        // written are borrowed alone, so none overlaps.
        done(unsafe {
            ffi::mirror_blank(
                self.key.as_ptr(),
                self.key.len(),
                self.number,
                self.size,
                self.count,
                number,
                local.as_mut_ptr(),
                local.len(),
                tags.as_mut_ptr(),
                tags.len(),
                remote.as_mut_ptr(),
                remote.len(),
                map.as_mut_ptr(),
                map.len(),
            )
        })
    }

    /// The first stage of a write: writes the plaintext's local sector. Write out
    /// [`local_part`](Self::local_part), and flush.
    ///
    /// The three stages take one plaintext. What each wrote is on the medium
    /// before the next begins; see [power cuts](crate#power-cuts), also for what
    /// a read gives in between: the old plaintext until the tag is written, then
    /// the new one, or [`Clashing`](Refusal::Clashing) until the write goes on.
    ///
    /// It sets the sector's bit of the map; the third stage clears it.
    ///
    /// # Errors
    ///
    /// Those of [`blank`](Self::blank), [`MapLength`](Refusal::MapLength) among
    /// them, then in this order: [`OtherLength`](Refusal::OtherLength) of the
    /// plaintext; [`StageOrder`](Refusal::StageOrder) if the sector is not whole:
    /// go by what [`read`](Self::read) answers.
    pub fn first_stage(&mut self, number: usize, plaintext: &[u8]) -> Result<(), Refusal> {
        let local = self.local.as_mut();
        let tags = self.tags.as_ref();
        let remote = self.remote.as_ref();
        let map = self.map.as_mut();
        // SAFETY: as in `blank`.
        done(unsafe {
            ffi::mirror_first_stage(
                self.key.as_ptr(),
                self.key.len(),
                self.number,
                self.size,
                self.count,
                number,
                plaintext.as_ptr(),
                plaintext.len(),
                local.as_mut_ptr(),
                local.len(),
                tags.as_ptr(),
                tags.len(),
                remote.as_ptr(),
                remote.len(),
                map.as_mut_ptr(),
                map.len(),
            )
        })
    }

    /// The second stage of a write: writes the plaintext's tag. Write out
    /// [`tag_part`](Self::tag_part) in one write, and flush.
    ///
    /// It is accepted after the first stage with this plaintext also where a read
    /// refuses [`Clashing`](Refusal::Clashing). It sets the sector's bit of the map.
    ///
    /// # Errors
    ///
    /// Those of [`blank`](Self::blank), [`MapLength`](Refusal::MapLength) among
    /// them, then in this order: [`OtherLength`](Refusal::OtherLength) of the
    /// plaintext; [`StageOrder`](Refusal::StageOrder) if the plaintext does not fit
    /// the local sector.
    pub fn second_stage(&mut self, number: usize, plaintext: &[u8]) -> Result<(), Refusal> {
        let local = self.local.as_ref();
        let tags = self.tags.as_mut();
        let remote = self.remote.as_ref();
        let map = self.map.as_mut();
        // SAFETY: as in `blank`.
        done(unsafe {
            ffi::mirror_second_stage(
                self.key.as_ptr(),
                self.key.len(),
                self.number,
                self.size,
                self.count,
                number,
                plaintext.as_ptr(),
                plaintext.len(),
                local.as_ptr(),
                local.len(),
                tags.as_mut_ptr(),
                tags.len(),
                remote.as_ptr(),
                remote.len(),
                map.as_mut_ptr(),
                map.len(),
            )
        })
    }

    /// The third stage of a write: writes the plaintext's remote sector. Write
    /// out [`remote_part`](Self::remote_part), and flush.
    ///
    /// It is accepted after the second stage with this plaintext also where a
    /// read refuses [`Clashing`](Refusal::Clashing), and ends the clash. It clears
    /// the sector's bit of the map.
    ///
    /// # Errors
    ///
    /// Those of [`blank`](Self::blank), [`MapLength`](Refusal::MapLength) among
    /// them, then in this order: [`OtherLength`](Refusal::OtherLength) of the
    /// plaintext; [`StageOrder`](Refusal::StageOrder) if the plaintext does not fit
    /// both the local sector and the tag.
    pub fn third_stage(&mut self, number: usize, plaintext: &[u8]) -> Result<(), Refusal> {
        let local = self.local.as_ref();
        let tags = self.tags.as_ref();
        let remote = self.remote.as_mut();
        let map = self.map.as_mut();
        // SAFETY: as in `blank`.
        done(unsafe {
            ffi::mirror_third_stage(
                self.key.as_ptr(),
                self.key.len(),
                self.number,
                self.size,
                self.count,
                number,
                plaintext.as_ptr(),
                plaintext.len(),
                local.as_ptr(),
                local.len(),
                tags.as_ptr(),
                tags.len(),
                remote.as_mut_ptr(),
                remote.len(),
                map.as_mut_ptr(),
                map.len(),
            )
        })
    }

    /// Mends one sector: writes the doubtful place anew, as the one plaintext
    /// seals, and nothing if the sector is whole.
    ///
    /// The verdict is what it found before; afterwards the sector is whole, and its
    /// bit of the map clear. Write out the part that it names, and flush. After a
    /// cut, mend again.
    ///
    /// # Errors
    ///
    /// Those of [`blank`](Self::blank), [`MapLength`](Refusal::MapLength) among
    /// them, then in this order: [`Lost`](Refusal::Lost);
    /// [`Clashing`](Refusal::Clashing). These two set the sector's bit of the map,
    /// and change nothing else.
    pub fn mend(&mut self, number: usize) -> Result<Verdict, Refusal> {
        let local = self.local.as_mut();
        let tags = self.tags.as_mut();
        let remote = self.remote.as_mut();
        let map = self.map.as_mut();
        // SAFETY: as in `blank`.
        judged(unsafe {
            ffi::mirror_mend(
                self.key.as_ptr(),
                self.key.len(),
                self.number,
                self.size,
                self.count,
                number,
                local.as_mut_ptr(),
                local.len(),
                tags.as_mut_ptr(),
                tags.len(),
                remote.as_mut_ptr(),
                remote.len(),
                map.as_mut_ptr(),
                map.len(),
            )
        })
    }

    /// Writes one sector in one call: [reads](Self::read) it, [mends](Self::mend)
    /// it if it is doubtful, and makes the three stages with the plaintext.
    ///
    /// The verdict is what it found before. A doubtful one is no failure: the
    /// plaintext is written then too. Afterwards the sector is whole, sealed as the
    /// plaintext in all three places, and its bit of the map is clear.
    ///
    /// **It is for three cases only**: power cannot go within the call, since a
    /// battery lasts until what it stored is safe; or the images are themselves a
    /// medium that keeps the order in which its calls store, a tag landing whole; or
    /// the images are in memory and are saved between calls, all three in one step
    /// that is done whole or not at all, and a cut leaves the last save. Where images
    /// are written out to a medium part by part, use the three stages with a flush
    /// after each. [A write in one call](crate#a-write-in-one-call) says more, also of
    /// what to do after a cut in it.
    ///
    /// ```
    /// use mirror::{Place, Refusal, Verdict, Volume, KEY_BYTES};
    ///
    /// let key = [7; KEY_BYTES];
    /// let mut volume = Volume::new(&key, 1, 16, 4, [0; 64], [0; 64], [0; 64], [0]);
    /// volume.start_map()?;
    /// volume.blank(2)?;
    /// assert_eq!(volume.write(2, &[42; 16])?, Verdict::Whole);
    /// volume.tags_mut()[2 * 16] ^= 1;
    /// assert_eq!(volume.write(2, &[43; 16])?, Verdict::Doubtful(Place::Tag));
    ///
    /// let mut output = [0; 16];
    /// assert_eq!(volume.read(2, &mut output)?, Verdict::Whole);
    /// assert_eq!(output, [43; 16]);
    /// assert_eq!(volume.write(3, &[44; 16]), Err(Refusal::Lost)); // never blanked
    /// # Ok::<(), Refusal>(())
    /// ```
    ///
    /// # Errors
    ///
    /// Those of [`blank`](Self::blank), [`MapLength`](Refusal::MapLength) among
    /// them, then in this order: [`OtherLength`](Refusal::OtherLength) of the
    /// plaintext; [`Lost`](Refusal::Lost); [`Clashing`](Refusal::Clashing). The last
    /// two set the sector's bit of the map, and change nothing else. No stage in it
    /// refuses, so [`StageOrder`](Refusal::StageOrder) never comes.
    pub fn write(&mut self, number: usize, plaintext: &[u8]) -> Result<Verdict, Refusal> {
        let local = self.local.as_mut();
        let tags = self.tags.as_mut();
        let remote = self.remote.as_mut();
        let map = self.map.as_mut();
        // SAFETY: as in `blank`.
        judged(unsafe {
            ffi::mirror_write(
                self.key.as_ptr(),
                self.key.len(),
                self.number,
                self.size,
                self.count,
                number,
                plaintext.as_ptr(),
                plaintext.len(),
                local.as_mut_ptr(),
                local.len(),
                tags.as_mut_ptr(),
                tags.len(),
                remote.as_mut_ptr(),
                remote.len(),
                map.as_mut_ptr(),
                map.len(),
            )
        })
    }
}

/// What a survey counts. The first four add up to the count of sectors. The list
/// that comes with it has the kinds in another order; see
/// [`by_kind`](Survey::by_kind).
#[derive(Clone, Copy, Debug, PartialEq, Eq, Hash)]
pub struct Survey {
    /// How many sectors are whole.
    pub whole: usize,
    /// How many are doubtful: mend them.
    pub doubtful: usize,
    /// How many are clashing.
    pub clashing: usize,
    /// How many are lost.
    pub lost: usize,
    /// The whole ones in thousandths, rounded down: 1,000 only if all are whole.
    pub health: usize,
}

impl Survey {
    /// How many sectors are not whole.
    pub fn not_whole(&self) -> usize {
        self.doubtful + self.clashing + self.lost
    }

    /// The listed numbers by kind: the first [`lost`](Self::lost) entries are the
    /// lost sectors, the next [`clashing`](Self::clashing) the clashing ones, and
    /// the next [`doubtful`](Self::doubtful) the doubtful ones.
    ///
    /// Give the list that came with these counts. Entries behind are left out. Of
    /// another list it takes as many entries, whatever sectors they name.
    ///
    /// ```
    /// use mirror::{ByKind, Refusal, Volume, KEY_BYTES};
    ///
    /// let key = [7; KEY_BYTES];
    /// let mut volume = Volume::new(&key, 1, 16, 4, [0; 64], [0; 64], [0; 64], [0]);
    /// volume.start_map()?;
    /// for number in [0, 1, 3] {
    ///     volume.blank(number)?;
    /// }
    /// volume.local_mut()[0] ^= 1;
    ///
    /// let mut list = [0; 4];
    /// let (survey, listed) = volume.survey(&mut list)?;
    /// let ByKind { lost, clashing, doubtful } = survey.by_kind(listed);
    /// assert_eq!(lost, [2]); // never blanked
    /// assert!(clashing.is_empty());
    /// assert_eq!(doubtful, [0]);
    /// # Ok::<(), Refusal>(())
    /// ```
    ///
    /// # Panics
    ///
    /// If the list is shorter than [`not_whole`](Self::not_whole): it is not the
    /// one that came with these counts.
    #[track_caller]
    pub fn by_kind<'l>(&self, listed: &'l [u32]) -> ByKind<'l> {
        let (lost, others) = first_of(listed, self.lost);
        let (clashing, others) = first_of(others, self.clashing);
        let (doubtful, _) = first_of(others, self.doubtful);
        ByKind {
            lost,
            clashing,
            doubtful,
        }
    }

    /// The library's counts by their names. Each is at most 65,536, so no bits
    /// are lost.
    fn from_counts(counts: [u64; 5]) -> Survey {
        let [whole, doubtful, clashing, lost, health] = counts.map(|number| number as usize);
        Survey {
            whole,
            doubtful,
            clashing,
            lost,
            health,
        }
    }
}

/// So many entries, and those behind.
#[track_caller]
fn first_of(list: &[u32], count: usize) -> (&[u32], &[u32]) {
    list.split_at_checked(count)
        .expect("the list has fewer entries than the survey counts: give the one that came with it")
}

/// A survey's list by kind, in the order of the list; see [`Survey::by_kind`].
/// Within a kind the numbers rise.
#[derive(Clone, Copy, Debug, PartialEq, Eq, Hash)]
pub struct ByKind<'l> {
    /// The lost sectors: no plaintext fits two places. If no sector is whole, look
    /// for the right key and volume's number first: under wrong ones sectors are
    /// lost. Otherwise blank them, and write them from a backup.
    pub lost: &'l [u32],
    /// The clashing ones: more than one plaintext fits two places. If a write was
    /// under way, go on with its second and third stage; otherwise, or if the second
    /// is refused, see [`Refusal::Clashing`].
    pub clashing: &'l [u32],
    /// The doubtful ones: [`mend`](Volume::mend) them.
    pub doubtful: &'l [u32],
}
