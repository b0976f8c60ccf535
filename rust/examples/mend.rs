//! A small volume: blanked, written in three stages, damaged, judged, mended,
//! surveyed, and written in one call. Each survey is printed with the suspects by
//! the map.
//!
//! `cargo run --example mend`

use mirror::{map_words, ByKind, Refusal, KEY_BYTES, TAG_BYTES};

/// A volume that owns its images and its map.
type Volume<'k> = mirror::Volume<'k, Vec<u8>, Vec<u64>>;

/// The volume's number: each volume under a key has its own.
const VOLUME: u64 = 1;
const SIZE: usize = 64;
const COUNT: usize = 4;

pub fn main() -> Result<(), Refusal> {
    let mut key = [0; KEY_BYTES];
    for (byte, value) in key.iter_mut().zip(1..) {
        *byte = value;
    }
    let local = vec![0; COUNT * SIZE];
    let (tags, remote) = (vec![0; COUNT * TAG_BYTES], local.clone());
    let map = vec![0; map_words(COUNT)];
    let mut volume = Volume::new(&key, VOLUME, SIZE, COUNT, local, tags, remote, map);
    volume.start_map()?;
    show(&volume, "a new volume")?;
    for number in 0..COUNT {
        volume.blank(number)?;
    }
    show(&volume, "all sectors blanked")?;
    write(&mut volume, 2, b"the plaintext of sector 2")?;
    damage_and_mend(&mut volume)?;
    lose(&mut volume)
}

/// Writes a text to a sector: three stages with one plaintext. This volume is in
/// memory only; on a medium, the part that is named behind a stage is written
/// out and flushed before the next call.
fn write(volume: &mut Volume, number: usize, text: &[u8]) -> Result<(), Refusal> {
    let mut plaintext = [0; SIZE];
    plaintext[..text.len()].copy_from_slice(text);
    volume.first_stage(number, &plaintext)?; // volume.local_part(number)
    show(volume, "first stage done")?;
    volume.second_stage(number, &plaintext)?; // volume.tag_part(number), in one write
    show(volume, "second stage done")?;
    volume.third_stage(number, &plaintext)?; // volume.remote_part(number)
    show(volume, "third stage done")
}

/// Changes a byte of sector 2's local place, and mends it.
fn damage_and_mend(volume: &mut Volume) -> Result<(), Refusal> {
    volume.local_mut()[2 * SIZE + 9] ^= 0xff;
    let mut plaintext = [0; SIZE];
    let verdict = volume.read(2, &mut plaintext)?;
    let text = String::from_utf8_lossy(&plaintext);
    println!(
        "sector 2 is {verdict} and gives {:?}",
        text.trim_end_matches('\0')
    );
    show(volume, "sector 2 damaged")?;
    println!("mending sector 2, which was {}", volume.mend(2)?);
    show(volume, "sector 2 mended")
}

/// Damages two places of sector 3: no call can tell what it held. It is suspect
/// once a call on it has met the damage; a survey leaves the map alone.
fn lose(volume: &mut Volume) -> Result<(), Refusal> {
    volume.local_mut()[3 * SIZE] ^= 1;
    volume.tags_mut()[3 * TAG_BYTES] ^= 1;
    show(volume, "two places of sector 3 damaged")?;
    match volume.mend(3) {
        Ok(verdict) => println!("mending sector 3, which was {verdict}"),
        Err(refusal) => println!("sector 3 cannot be mended: {refusal}"),
    }
    show(volume, "the damage met")?;
    volume.blank(3)?;
    show(volume, "sector 3 blanked")?;
    // In one call: nothing is written out here. See `Volume::write` for when it may
    // be used.
    let found = volume.write(3, &[3; SIZE])?;
    show(volume, &format!("sector 3, which was {found}, written"))
}

/// Prints a survey, and the suspects by the map.
fn show(volume: &Volume, when: &str) -> Result<(), Refusal> {
    let mut list = [0; COUNT];
    let (survey, listed) = volume.survey(&mut list)?;
    let ByKind {
        lost,
        clashing,
        doubtful,
    } = survey.by_kind(listed);
    let suspects = (0..COUNT).filter(|&number| volume.is_suspect(number) == Some(true));
    println!(
        "{when}: {} whole, health {}; lost {lost:?}, clashing {clashing:?}, doubtful {doubtful:?}; \
         {} suspect: {:?}",
        survey.whole,
        survey.health,
        volume.count_suspects()?,
        suspects.collect::<Vec<_>>()
    );
    Ok(())
}
