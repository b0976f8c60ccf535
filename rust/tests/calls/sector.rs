//! The calls on one sector: each answer as the wrapper names it.

use crate::common::{almost_zero_keys, bytes, clashing, key, sealed, zero_hash_key};
use crate::common::{Triple, SIZE, VOLUME};
use mirror::{combine, judge, open, rebuild, seal};
use mirror::{Place, Refusal, Side, Verdict};
use mirror::{SECTOR_BYTES_MAX, SECTOR_BYTES_MIN, TAG_BYTES};

const ADDRESS: u64 = 0x0123_4567_89ab_cdef;

fn judge_triple(triple: &Triple, address: u64) -> (Result<Verdict, Refusal>, Vec<u8>) {
    let mut output = vec![0xee; triple.local.len()];
    let Triple { local, tag, remote } = triple;
    let verdict = judge(&key(), VOLUME, address, local, tag, remote, &mut output);
    (verdict, output)
}

#[test]
fn whole() {
    let plaintext = bytes(1);
    let triple = sealed(ADDRESS, &plaintext);
    assert_eq!(
        judge_triple(&triple, ADDRESS),
        (Ok(Verdict::Whole), plaintext)
    );
}

#[test]
fn doubtful_at_each_place() {
    let plaintext = bytes(2);
    for place in [Place::Local, Place::Tag, Place::Remote] {
        let mut triple = sealed(ADDRESS, &plaintext);
        match place {
            Place::Local => triple.local[20] ^= 1,
            Place::Tag => triple.tag[15] ^= 1,
            Place::Remote => triple.remote[47] ^= 1,
        }
        let due = (Ok(Verdict::Doubtful(place)), plaintext.clone());
        assert_eq!(judge_triple(&triple, ADDRESS), due);
    }
}

#[test]
fn lost_and_clashing_leave_the_output() {
    let unwritten = vec![0xee; SIZE];
    let triple = sealed(ADDRESS, &bytes(3));
    let due = (Err(Refusal::Lost), unwritten.clone());
    assert_eq!(judge_triple(&triple, ADDRESS ^ 1), due);
    let (triple, _, _) = clashing(ADDRESS);
    let due = (Err(Refusal::Clashing), unwritten);
    assert_eq!(judge_triple(&triple, ADDRESS), due);
}

#[test]
fn each_side_of_a_clash_opens() {
    let (triple, one, other) = clashing(ADDRESS);
    let sides = [
        (Side::Local, &triple.local, one),
        (Side::Remote, &triple.remote, other),
    ];
    for (side, sector, plaintext) in sides {
        let mut output = vec![0; SIZE];
        let opened = open(
            &key(),
            VOLUME,
            ADDRESS,
            side,
            sector,
            &triple.tag,
            &mut output,
        );
        assert_eq!((opened, output), (Ok(()), plaintext));
    }
}

#[test]
fn rebuilds_each_side() {
    let Triple { local, tag, remote } = sealed(ADDRESS, &bytes(4));
    for (side, sector, missing) in [
        (Side::Local, &local, &remote),
        (Side::Remote, &remote, &local),
    ] {
        let mut output = vec![0; SIZE];
        let rebuilt = rebuild(&key(), VOLUME, ADDRESS, side, sector, &tag, &mut output);
        assert_eq!((rebuilt, &output), (Ok(()), missing));
    }
}

/// Lost under every other number, and also where number and address are
/// exchanged.
#[test]
fn a_sector_under_another_number() {
    let triple = sealed(ADDRESS, &bytes(8));
    let Triple { local, tag, remote } = &triple;
    let others = [0, 1, VOLUME ^ 1, VOLUME ^ (1 << 63), VOLUME.swap_bytes()];
    let others = others.map(|volume| (volume, ADDRESS));
    for (volume, address) in [&others[..], &[(ADDRESS, VOLUME)]].concat() {
        let mut output = vec![0xee; SIZE];
        let judged = judge(&key(), volume, address, local, tag, remote, &mut output);
        assert_eq!(judged, Err(Refusal::Lost));
        for (side, sector) in [(Side::Local, local), (Side::Remote, remote)] {
            for call in [open, rebuild] {
                let refused = call(&key(), volume, address, side, sector, tag, &mut output);
                assert_eq!(refused, Err(Refusal::NoneFits));
            }
        }
        assert_eq!(output, [0xee; SIZE]);
    }
}

#[test]
fn combines() {
    let Triple { local, remote, .. } = sealed(ADDRESS, &bytes(5));
    let mut output = vec![0; SIZE];
    assert_eq!(combine(&local, &remote, &mut output), Ok(()));
    assert_eq!(output, bytes(5));
    let wrong = combine(&local, &remote[1..], &mut output);
    assert_eq!(wrong, Err(Refusal::OtherLength));
    let wrong = combine(&local[1..], &remote, &mut output);
    assert_eq!(wrong, Err(Refusal::SectorSize));
    assert_eq!(output, bytes(5));
}

#[test]
fn seal_and_judge_refuse_in_order() {
    let plaintext = bytes(6);
    let whole = sealed(ADDRESS, &plaintext);
    let (right, zero) = (key(), zero_hash_key());
    for (key, size, tag_length, due) in [
        (&zero[1..], 40, 15, Refusal::KeyLength),
        (&zero, 40, 15, Refusal::ZeroHashKey),
        (&zero, 48, 15, Refusal::ZeroHashKey),
        (&zero, 48, 16, Refusal::ZeroHashKey),
        (&right, 40, 15, Refusal::SectorSize),
        (&right, 48, 15, Refusal::OtherLength),
    ] {
        let mut triple = whole.clone();
        let Triple { local, tag, remote } = &mut triple;
        let refused = seal(
            key,
            VOLUME,
            ADDRESS,
            &plaintext[..size],
            local,
            &mut tag[..tag_length],
            remote,
        );
        assert_eq!(refused, Err(due));
        assert_eq!(triple, whole);

        let Triple { local, tag, remote } = &whole;
        let mut output = vec![0xee; SIZE];
        let (local, tag) = (&local[..size], &tag[..tag_length]);
        let refused = judge(key, VOLUME, ADDRESS, local, tag, remote, &mut output);
        assert_eq!((refused, output), (Err(due), vec![0xee; SIZE]));
    }
}

#[test]
fn open_and_rebuild_refuse_in_order() {
    let whole = sealed(ADDRESS, &bytes(7));
    let (sector, tag) = (&whole.remote, &whole.tag);
    let (right, zero) = (key(), zero_hash_key());
    for (key, size, tag_length, due) in [
        (&[][..], 0, 0, Refusal::KeyLength),
        (&zero[..16], 0, 0, Refusal::KeyLength),
        (&zero, 0, 0, Refusal::ZeroHashKey),
        (&zero, 48, 0, Refusal::ZeroHashKey),
        (&zero, 48, 16, Refusal::ZeroHashKey),
        (&right, 0, 0, Refusal::SectorSize),
        (&right, 48, 0, Refusal::OtherLength),
        (&right, 48, 16, Refusal::NoneFits),
    ] {
        for call in [open, rebuild] {
            let (sector, tag) = (&sector[..size], &tag[..tag_length]);
            let mut output = vec![0xee; SIZE];
            let refused = call(key, VOLUME, ADDRESS, Side::Local, sector, tag, &mut output);
            assert_eq!((refused, output), (Err(due), vec![0xee; SIZE]));
        }
    }
}

#[test]
fn any_other_hash_key_is_accepted() {
    let plaintext = bytes(9);
    for key in almost_zero_keys() {
        let (mut local, mut remote) = ([0; SIZE], [0; SIZE]);
        let (mut tag, mut output) = ([0; TAG_BYTES], [0; SIZE]);
        let done = seal(
            &key,
            VOLUME,
            ADDRESS,
            &plaintext,
            &mut local,
            &mut tag,
            &mut remote,
        );
        assert_eq!(done, Ok(()));
        let judged = judge(&key, VOLUME, ADDRESS, &local, &tag, &remote, &mut output);
        assert_eq!((judged, &output[..]), (Ok(Verdict::Whole), &plaintext[..]));
        let done = rebuild(
            &key,
            VOLUME,
            ADDRESS,
            Side::Local,
            &local,
            &tag,
            &mut output,
        );
        assert_eq!((done, output), (Ok(()), remote));
        let done = open(
            &key,
            VOLUME,
            ADDRESS,
            Side::Remote,
            &remote,
            &tag,
            &mut output,
        );
        assert_eq!((done, &output[..]), (Ok(()), &plaintext[..]));
    }
}

#[test]
fn sizes_at_the_bounds() {
    for (size, accepted) in [
        (0, false),
        (SECTOR_BYTES_MIN - 1, false),
        (SECTOR_BYTES_MIN, true),
        (SECTOR_BYTES_MAX, true),
        (SECTOR_BYTES_MAX + 16, false),
    ] {
        let (mut local, mut remote) = (vec![0; size], vec![0; size]);
        let answer = seal(
            &key(),
            VOLUME,
            ADDRESS,
            &vec![9; size],
            &mut local,
            &mut [0; TAG_BYTES],
            &mut remote,
        );
        assert_eq!(answer.is_ok(), accepted);
    }
}
