//! What a log says of a map, and when a clear bit has to be a whole sector's.

use reference::map::Kind;
use reference::suspects::{answer_on_map, bits, Call, Entry, Log};

/// A start for so many sectors.
fn start(count: usize, answer: u8) -> Entry {
    Entry::Call {
        call: Call::Start,
        number: 0,
        count,
        answer,
        own: true,
    }
}

/// A call on one of four sectors.
fn on(kind: Kind, number: usize, answer: u8) -> Entry {
    Entry::Call {
        call: Call::OnSector(kind),
        number,
        count: 4,
        answer,
        own: true,
    }
}

/// The same under another key.
fn foreign(kind: Kind, number: usize, answer: u8) -> Entry {
    Entry::Call {
        call: Call::OnSector(kind),
        number,
        count: 4,
        answer,
        own: false,
    }
}

fn log(entries: &[Entry]) -> Log {
    let mut log = Log::default();
    for &entry in entries {
        log.push(entry);
    }
    log
}

/// The first six bits that are due, as digits from sector 0 on.
fn due(entries: &[Entry]) -> String {
    let bits = log(entries).due(&[], 6).expect("a start");
    bits.iter()
        .map(|&bit| if bit { '1' } else { '0' })
        .collect()
}

#[test]
fn bits_of_words() {
    assert_eq!(bits(&[]), []);
    let bits = bits(&[0b1010, 1 << 63]);
    assert_eq!(bits.len(), 128);
    let set: Vec<usize> = (0..128).filter(|&bit| bits[bit]).collect();
    assert_eq!(set, [1, 3, 127]);
}

#[test]
fn answers_of_the_calls_on_a_map() {
    for (count, words, due) in [
        (0, 0, 8),
        (0, 1, 8),
        (65_537, 1025, 8),
        (usize::MAX, 1, 8),
        (1, 1, 0),
        (1, 0, 13),
        (1, 2, 13),
        (64, 1, 0),
        (64, 2, 13),
        (65, 1, 13),
        (65, 2, 0),
        (128, 2, 0),
        (128, 3, 13),
        (65_536, 1024, 0),
        (65_536, 1023, 13),
        (65_536, 1025, 13),
    ] {
        assert_eq!(answer_on_map(count, words), due, "{count}, {words}");
    }
}

#[test]
fn a_log_without_a_start_says_nothing() {
    assert_eq!(log(&[]).due(&[], 6), None);
    let refused = log(&[start(0, 8), start(4, 13), on(Kind::Blank, 1, 0)]);
    assert_eq!(refused.due(&[], 6), None);
    assert_eq!(refused.started(), None);
    assert!(!refused.clear_is_whole(4));
}

#[test]
fn the_last_that_says_something_of_a_bit_decides() {
    let begun = [start(4, 0), on(Kind::Blank, 1, 0)];
    assert_eq!(due(&begun[..1]), "111100");
    assert_eq!(due(&begun), "101100");
    let with = |then: &[Entry]| due(&[&begun, then].concat());
    // By each answer, on sector 1, which is clear, and on 2, which is set.
    for (kind, answer, bits) in [
        (Kind::Blank, 0, "100100"),
        (Kind::First, 0, "111100"),
        (Kind::Second, 0, "111100"),
        (Kind::Third, 0, "100100"),
        (Kind::Mend, 0, "100100"),
        (Kind::Mend, 0x81, "100100"),
        (Kind::Mend, 0x83, "100100"),
        (Kind::Mend, 6, "111100"),
        (Kind::Mend, 7, "111100"),
        (Kind::Read, 0, "100100"),
        (Kind::Read, 0x81, "111100"),
        (Kind::Read, 0x82, "111100"),
        (Kind::Read, 6, "111100"),
        (Kind::Read, 7, "111100"),
        (Kind::Write, 0, "100100"),
        (Kind::Write, 0x81, "100100"),
        (Kind::Write, 0x82, "100100"),
        (Kind::Write, 0x83, "100100"),
        (Kind::Write, 6, "111100"),
        (Kind::Write, 7, "111100"),
        (Kind::Write, 3, "101100"),
        (Kind::First, 10, "101100"),
        (Kind::Third, 3, "101100"),
        (Kind::Read, 13, "101100"),
        (Kind::Mend, 8, "101100"),
        (Kind::Blank, 14, "101100"),
        (Kind::First, 14, "101100"),
        (Kind::Read, 14, "101100"),
        (Kind::Mend, 14, "101100"),
        (Kind::Write, 14, "101100"),
    ] {
        let said = with(&[on(kind, 1, answer), on(kind, 2, answer)]);
        assert_eq!(said, bits, "{kind:?} {answer}");
    }
    assert_eq!(with(&[Entry::Written]), "101100");
    assert_eq!(with(&[on(Kind::Read, 9, 9)]), "101100");
    assert_eq!(with(&[start(2, 0)]), "110000");
    assert_eq!(with(&[start(2, 13)]), "101100");
    assert_eq!(with(&[start(2, 0), on(Kind::Read, 3, 6)]), "110100");
    assert_eq!(with(&[foreign(Kind::Blank, 0, 0)]), "001100");
    let then = [on(Kind::Blank, 0, 0)];
    let bits = log(&begun).due(&then, 4).expect("a start");
    assert_eq!(bits, [false, false, true, true]);
}

#[test]
fn when_clear_is_whole() {
    let holds = |then: &[Entry]| log(&[&[start(4, 0)], then].concat()).clear_is_whole(4);
    assert!(holds(&[]));
    assert!(holds(&[on(Kind::Blank, 1, 0), on(Kind::Read, 1, 0x82)]));
    assert!(holds(&[
        foreign(Kind::Read, 1, 6),
        foreign(Kind::First, 1, 10)
    ]));
    assert!(holds(&[foreign(Kind::Blank, 1, 14)]));
    assert!(!holds(&[Entry::Written]));
    assert!(!holds(&[foreign(Kind::Blank, 1, 0)]));
    assert!(!holds(&[foreign(Kind::Mend, 1, 0x81)]));
    assert!(holds(&[
        on(Kind::Write, 1, 0x83),
        foreign(Kind::Write, 1, 7)
    ]));
    assert!(!holds(&[foreign(Kind::Write, 1, 0)]));
    assert!(!holds(&[foreign(Kind::Blank, 1, 0), on(Kind::Blank, 1, 0)]));
    assert!(!holds(&[start(3, 0)]));
    assert!(!holds(&[start(64, 0), on(Kind::Blank, 1, 0)]));
    assert!(holds(&[Entry::Written, start(4, 0)]));
    assert!(!holds(&[Entry::Written, start(4, 13)]));
    assert!(holds(&[
        foreign(Kind::Blank, 1, 0),
        start(4, 0),
        on(Kind::Read, 2, 0)
    ]));
    // These write nothing.
    for call in [Call::Count, Call::Survey] {
        let entry = Entry::Call {
            call,
            number: 0,
            count: 3,
            answer: 0,
            own: false,
        };
        assert!(holds(&[entry]));
    }
}
