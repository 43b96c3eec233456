//! Stylings as numbers and as the wrapper's values (document 02, Q-1): which are written, what is
//! written for them, and that it is the shortest.

use differential::both::shown;
use differential::interface::StylingNumbers;
use differential::stylings::{short_styling, styling, styling_of};
use differential::{cases, Both, Charset, Interface, Random};
use halofret::{StylingRecord, LONGEST_STYLING};
use std::ops::Range;
use Charset::Fsw;

const EMPTY: StylingRecord = [0; 3_472];
const BAD: [u64; 3] = [1, 0, 0];

/// The record of a styling, if it is good.
fn record_of(styling: &[u8]) -> Option<StylingRecord> {
    let text = [b"M500x500", styling].concat();
    let (_, StylingNumbers(record), answer) = Both.read_styled(Fsw, &text);
    (answer == [0, 0]).then_some(record)
}

/// What is written for a record, if it is good.
fn written(record: &StylingRecord) -> Option<Vec<u8>> {
    let mut out = [b'?'; LONGEST_STYLING];
    match Both.write_styling(record, &mut out) {
        [0, 0, length] => Some(out[..length as usize].to_vec()),
        answer => {
            assert_eq!((answer, out), (BAD, [b'?'; LONGEST_STYLING]));
            None
        }
    }
}

/// Whether the styling reads as the record, by the reference alone.
fn reads_as(styling: &[u8], record: &StylingRecord) -> bool {
    let text = [b"M500x500", styling].concat();
    let answer = reference::read_styled(reference::Charset::Fsw, &text);
    answer.is_ok_and(|(_, read)| read.record() == *record)
}

#[test]
fn rooms() {
    let mut good = 0;
    cases(900_000, 3_000, |random| {
        let Some(record) = record_of(&styling(random)) else {
            return;
        };
        good += 1;
        let text = written(&record).unwrap();
        let needed = text.len();
        for room in 0..needed + 3 {
            if room > 9 && room + 3 < needed && !random.once_in(20) {
                continue;
            }
            let mut out = vec![b'?'; room];
            let answer = Both.write_styling(&record, &mut out);
            if room < needed {
                assert_eq!(answer, [6, needed as u64, 0]);
            } else {
                assert_eq!(answer, [0, 0, needed as u64]);
                assert_eq!(out, [&text, &b"???"[..room - needed]].concat());
            }
        }
    });
    assert!(good > 300, "{good}");
}

#[test]
fn read_after_write() {
    let mut good = 0;
    cases(910_000, 12_000, |random| {
        let styling = styling(random);
        let Some(record) = record_of(&styling) else {
            return;
        };
        good += 1;
        let text = written(&record).unwrap();
        assert_eq!(record_of(&text), Some(record), "{}", shown(&text));
        assert!(text.len() <= styling.len(), "{}", shown(&styling));
        assert_eq!(written(&record), Some(text));
    });
    assert!(good > 1_200, "{good}");
}

/// The text without each stretch of it that is so long.
fn without_stretches(text: &[u8], length: usize) -> impl Iterator<Item = Vec<u8>> + '_ {
    let starts = 0..(text.len() + 1).saturating_sub(length);
    starts.map(move |start| [&text[..start], &text[start + length..]].concat())
}

/// No stretch of what is written can be left out. A text that is not the written one has one or
/// two bytes that can, so leaving out is a test of what is needless.
#[test]
fn the_shortest_spelling() {
    cases(930_000, 400, |random| {
        let styling = short_styling(random);
        let record = record_of(&styling).unwrap();
        let text = written(&record).unwrap();
        let mut shorter = (1..=text.len()).flat_map(|length| without_stretches(&text, length));
        let same = shorter.find(|shorter| reads_as(shorter, &record));
        assert_eq!(same, None, "{}", shown(&text));
        let mut shorter = (1..=2).flat_map(|length| without_stretches(&styling, length));
        let can_be_shorter = shorter.any(|shorter| reads_as(&shorter, &record));
        assert_eq!(can_be_shorter, styling != text, "{}", shown(&styling));
    });
}

/// Numbers near the one that stands there, and those at the ends of what may stand somewhere.
fn others(random: &mut Random, number: u16) -> Vec<u16> {
    let some = [
        0, 1, 2, 3, 24, 25, 53, 64, 65, 95, 99, 100, 101, 9_999, 10_000, 65_535,
    ];
    let letters = [b'0', b'9', b'A', b'G', b'_', b',', b'a', b'g', b'z', b'-'].map(u16::from);
    let mut others = vec![number.wrapping_add(1), number.wrapping_sub(1), number ^ 256];
    others.extend((0..3).map(|_| *random.pick(&some)));
    others.extend((0..3).map(|_| *random.pick(&letters)));
    others.push(random.bits() as u16);
    others
}

/// Each number of a record changed: what is still written reads as the changed record.
#[test]
fn damage_at_every_number() {
    let (mut good, mut bad) = (0, 0);
    cases(940_000, 8, |random| {
        let styles = *random.pick(&[0, 1, 2, 5, 63, 64]);
        let record = record_of(&styling_of(random, styles)).unwrap();
        for place in 0..record.len() {
            for number in others(random, record[place]) {
                let mut changed = record;
                changed[place] = number;
                match written(&changed) {
                    None => bad += 1,
                    Some(text) => {
                        good += 1;
                        assert!(reads_as(&text, &changed), "{}", shown(&text));
                    }
                }
            }
        }
    });
    assert!(good > 5_000 && bad > 50_000, "{good} good, {bad} bad");
}

/// A number, a colour or a symbol style, or several of them.
fn part(random: &mut Random) -> Range<usize> {
    let style = 80 + 53 * random.below(4);
    let parts = [
        0..1,
        1..2,
        2..3,
        3..4,
        4..5,
        5..30,
        30..55,
        55..80,
        3..80,
        4..3_472,
        style..style + 1,
        style + 1..style + 2,
        style + 2..style + 3,
        style + 3..style + 28,
        style + 28..style + 53,
        style..style + 53,
    ];
    random.pick(&parts).clone()
}

/// Parts taken from another record.
#[test]
fn mixed_records() {
    let (mut good, mut bad) = (0, 0);
    cases(960_000, 20_000, |random| {
        let record_with = |random: &mut Random| {
            let styles = random.below(4);
            record_of(&styling_of(random, styles)).unwrap()
        };
        let (mut record, other) = (record_with(random), record_with(random));
        for _ in 0..random.between(1, 3) {
            let part = part(random);
            record[part.clone()].copy_from_slice(&other[part]);
        }
        match written(&record) {
            None => bad += 1,
            Some(text) => {
                good += 1;
                assert!(reads_as(&text, &record), "{}", shown(&text));
            }
        }
    });
    assert!(good > 3_000 && bad > 3_000, "{good} good, {bad} bad");
}

const GOOD: &[u8] = b"-CP05G_blue_D_red,0f0_Z1.5-D01_abc_D02_d,E_Z99,2";

/// A place in the record of `GOOD` and a number that makes it one that no styling reads as.
const SPOILT: [(usize, u16); 24] = [
    (0, 2),
    (1, 101),
    (2, 10_000),
    (3, 0),
    (3, 1),
    (3, 3),
    (4, 2),
    (4, 4),
    (4, 65),
    (5, 0),
    (5, 3),
    (5, 5),
    (5, 25),
    (6, 256 + 98),
    (6, 95),
    (29, 1),
    (80, 0),
    (80, 2),
    (80, 3),
    (81, 100),
    (82, 100),
    (83, 0),
    (188, 0),
    (3_471, 1),
];

#[test]
fn bad_records() {
    let good = record_of(GOOD).unwrap();
    assert_eq!(written(&good).as_deref(), Some(GOOD));
    assert_eq!(written(&EMPTY).as_deref(), Some(&b"-"[..]));
    for (place, number) in SPOILT {
        let mut record = good;
        record[place] = number;
        assert_eq!(written(&record), None, "{number} at {place}");
    }
    // A zoom before colours.
    let mut record = EMPTY;
    record[4] = 2;
    record[80..83].copy_from_slice(&[2, 1, 100]);
    record[133..138].copy_from_slice(&[1, 1, 0, 1, b'a'.into()]);
    assert_eq!(written(&record), None);
    // A bad record is refused before too little room.
    assert_eq!(Both.write_styling(&record, &mut []), BAD);
    let needed = GOOD.len() as u64;
    assert_eq!(Both.write_styling(&good, &mut []), [6, needed, 0]);
}
