//! The rules of the plain machine, one by one.

use reference::answer::Place;
use reference::machine::{Call, Ending, Event, Machine, Sector};

const SIZE: usize = 16;
const OLD: [u8; SIZE] = [1; SIZE];
const NEW: [u8; SIZE] = [2; SIZE];
const CUT: Ending = Ending::Cut { tag_is_new: false };
const CUT_NEW: Ending = Ending::Cut { tag_is_new: true };
const DOUBTS: [Option<Place>; 4] = [
    None,
    Some(Place::Local),
    Some(Place::Tag),
    Some(Place::Remote),
];

fn kept(plaintext: [u8; SIZE], doubt: Option<Place>) -> Sector {
    Sector::Kept {
        plaintext: plaintext.to_vec(),
        doubt,
    }
}

fn call(call: Call, ending: Ending, refused: bool) -> Event {
    Event::Call {
        call,
        number: 1,
        ending,
        refused,
    }
}

/// Machines of two sectors whose sector 1 holds every possible state.
fn machines() -> Vec<(Machine, Sector)> {
    let mut machines = vec![(Machine::new(SIZE, 2), Sector::Gone)];
    for doubt in DOUBTS {
        let mut machine = Machine::new(SIZE, 2);
        machine.feed(&call(Call::ThirdStage(&OLD), Ending::Finished, false));
        if let Some(place) = doubt {
            machine.feed(&Event::Damage { number: 1, place });
        }
        machines.push((machine, kept(OLD, doubt)));
    }
    machines
}

/// Feeds the event in every state and compares sector 1 with what is due.
fn insist(event: Event, due: impl Fn(&Sector) -> Sector) {
    for (mut machine, before) in machines() {
        assert_eq!(*machine.sector(1), before);
        machine.feed(&event);
        assert_eq!(*machine.sector(1), due(&before));
        assert_eq!(*machine.sector(0), Sector::Gone);
    }
}

fn with_doubt(sector: &Sector, new: Option<Place>) -> Sector {
    match sector {
        Sector::Gone => Sector::Gone,
        Sector::Kept { .. } => kept(OLD, new),
    }
}

#[test]
fn blank() {
    insist(call(Call::Blank, Ending::Finished, false), |_| {
        kept([0; SIZE], None)
    });
    insist(call(Call::Blank, CUT, false), |_| Sector::Gone);
}

#[test]
fn stages() {
    for ending in [Ending::Finished, CUT, CUT_NEW] {
        let event = call(Call::FirstStage(&NEW), ending, false);
        insist(event, |before| with_doubt(before, Some(Place::Local)));
    }
    for ending in [Ending::Finished, CUT_NEW] {
        let event = call(Call::SecondStage(&NEW), ending, false);
        insist(event, |_| kept(NEW, Some(Place::Remote)));
    }
    insist(call(Call::SecondStage(&NEW), CUT, false), Sector::clone);
    let event = call(Call::ThirdStage(&NEW), Ending::Finished, false);
    insist(event, |_| kept(NEW, None));
    let event = call(Call::ThirdStage(&NEW), CUT, false);
    insist(event, |_| kept(NEW, Some(Place::Remote)));
}

#[test]
fn mend_and_read() {
    let event = call(Call::Mend, Ending::Finished, false);
    insist(event, |before| with_doubt(before, None));
    insist(call(Call::Mend, CUT, false), Sector::clone);
    insist(call(Call::Read, Ending::Finished, false), Sector::clone);
    insist(call(Call::Read, CUT, false), Sector::clone);
}

#[test]
fn refused_calls_change_nothing() {
    for kind in [
        Call::Blank,
        Call::FirstStage(&NEW),
        Call::SecondStage(&NEW),
        Call::ThirdStage(&NEW),
        Call::Mend,
        Call::Read,
    ] {
        for ending in [Ending::Finished, CUT, CUT_NEW] {
            insist(call(kind, ending, true), Sector::clone);
            let elsewhere = Event::Call {
                call: kind,
                number: usize::MAX,
                ending,
                refused: true,
            };
            insist(elsewhere, Sector::clone);
        }
    }
}

#[test]
fn damage() {
    for place in Place::ALL {
        insist(Event::Damage { number: 1, place }, |before| match before {
            Sector::Gone => Sector::Gone,
            Sector::Kept { doubt: None, .. } => kept(OLD, Some(place)),
            Sector::Kept { doubt, .. } if *doubt == Some(place) => before.clone(),
            Sector::Kept { .. } => Sector::Gone,
        });
    }
}

/// The calls of a write, as they finish.
fn calls_of_write(with_mend: bool) -> Vec<Call<'static>> {
    let stages = [
        Call::FirstStage(&NEW),
        Call::SecondStage(&NEW),
        Call::ThirdStage(&NEW),
    ];
    let before: &[Call] = if with_mend {
        &[Call::Read, Call::Mend]
    } else {
        &[Call::Read]
    };
    [before, &stages].concat()
}

/// Feeds some calls of a write, of which all finish but the last, and gives what
/// is held then.
fn fed(machine: &Machine, calls: &[Call<'static>], last: Ending) -> Sector {
    let mut machine = machine.clone();
    for (index, &kind) in calls.iter().enumerate() {
        let is_last = index + 1 == calls.len();
        let ending = if is_last { last } else { Ending::Finished };
        machine.feed(&call(kind, ending, false));
        assert_eq!(*machine.sector(0), Sector::Gone);
    }
    machine.sector(1).clone()
}

/// What a cut write may leave: the old plaintext where one was kept, or the new.
fn is_old_or_new(before: &Sector, after: &Sector) -> bool {
    let is_kept = |text| DOUBTS.iter().any(|&doubt| *after == kept(text, doubt));
    let is_old = match before {
        Sector::Gone => *after == Sector::Gone,
        Sector::Kept { .. } => is_kept(OLD),
    };
    is_old || is_kept(NEW)
}

/// A write in every state, cut behind or in each of its calls, and finished.
#[test]
fn a_write_keeps_the_old_or_the_new() {
    for (machine, before) in machines() {
        for with_mend in [false, true] {
            let calls = calls_of_write(with_mend);
            for made in 1..=calls.len() {
                for ending in [Ending::Finished, CUT, CUT_NEW] {
                    let after = fed(&machine, &calls[..made], ending);
                    assert!(is_old_or_new(&before, &after), "{before:?}, {after:?}");
                }
            }
            let after = fed(&machine, &calls, Ending::Finished);
            assert_eq!(after, kept(NEW, None));
        }
    }
}

/// From the first stage to the second the old plaintext is kept, and then the new.
#[test]
fn where_a_write_changes_what_is_kept() {
    let (machine, _) = &machines()[1];
    let calls = calls_of_write(false);
    for (made, ending, due) in [
        (1, CUT, kept(OLD, None)),
        (1, Ending::Finished, kept(OLD, None)),
        (2, CUT, kept(OLD, Some(Place::Local))),
        (2, Ending::Finished, kept(OLD, Some(Place::Local))),
        (3, CUT, kept(OLD, Some(Place::Local))),
        (3, CUT_NEW, kept(NEW, Some(Place::Remote))),
        (3, Ending::Finished, kept(NEW, Some(Place::Remote))),
        (4, CUT, kept(NEW, Some(Place::Remote))),
        (4, Ending::Finished, kept(NEW, None)),
    ] {
        assert_eq!(fed(machine, &calls[..made], ending), due, "{made} calls");
    }
}
