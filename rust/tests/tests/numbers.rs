//! A wrong coordinate number is refused at its first byte, in FSW signs and in FSW queries of both
//! editions (document 02, Q-5). All other places go byte by byte, in SWU signs group by group.

use differential::both::shown;
use differential::editions::query_of_in;
use differential::generate::{in_swu, query, short_sign};
use differential::{cases, Both, Charset, Edition, Interface, Random};
use reference::Refusal;
use Charset::{Fsw, Swu};
use Edition::{First, Second};

const SIGNS: [(&str, [u64; 2]); 13] = [
    ("M749x750", [1, 5]),
    ("M75", [1, 1]),
    ("M24", [1, 1]),
    ("M74", [2, 3]),
    ("M8", [1, 1]),
    ("M74y", [1, 1]),
    ("M749y", [1, 4]),
    ("M500x5000", [1, 8]),
    ("M500x500S10000750x500", [1, 14]),
    ("M500x500S10000500x5y0", [1, 18]),
    ("M500x500S10000500x24", [1, 18]),
    ("M500x500S10000500x25", [2, 20]),
    // The third digit of a base.
    ("M500x500S37f00500x500", [1, 11]),
];

const QUERIES: [(&str, [u64; 2]); 9] = [
    ("QS10000750x500", [1, 7]),
    ("QS1000060x", [1, 7]),
    ("QS100006", [2, 8]),
    ("QS10000500x24", [1, 11]),
    ("QS10000500x5000", [1, 14]),
    ("QS10000S9", [1, 8]),
    // Digits of a variance and of a range.
    ("QV1234", [1, 5]),
    ("QV1x", [1, 3]),
    ("QR100t38c", [1, 8]),
];

#[test]
fn worked_answers() {
    for (text, expected) in SIGNS {
        assert_eq!(Both.read(Fsw, text.as_bytes()).1, expected, "{text}");
    }
    for (text, expected) in QUERIES {
        for edition in [First, Second(Fsw)] {
            let answer = Both.read_query(edition, text.as_bytes());
            assert_eq!(answer, expected, "{text}");
        }
    }
    assert_eq!(Both.key_to_code(b"S38c00"), [1, 3, 0]);
    assert_eq!(Both.key_to_code(b"S38b60"), [1, 4, 0]);
}

#[test]
fn every_entry_tells_the_place() {
    let text = b"M500x500S10000500x750";
    let sizes = [9; 125_184];
    let out = &mut [0; 40];
    assert_eq!(Both.read(Fsw, text).1, [1, 18]);
    assert_eq!(Both.transcribe(Fsw, text, out), [1, 18, 0]);
    assert_eq!(Both.boxes(Fsw, text, &sizes).1[..3], [1, 18, 0]);
    assert_eq!(Both.shift(Fsw, text, (1, 1), out), [1, 18, 0]);
    assert_eq!(Both.centred(Fsw, text, &sizes, out), [1, 18, 0]);
    assert_eq!(Both.verdict(Fsw, First, b"Q", text)[..3], [1, 18, 0]);
    every_entry_tells_the_place_of(First, b"QS10000500x500S20500490x5x0");
    every_entry_tells_the_place_of(Second(Fsw), b"QS10000500x500S20500490x5x0");
    every_entry_tells_the_place_of(Second(Fsw), b"QS10000S10000oS20500490x8");
}

/// The second number of the query's last coordinate, at 24, is wrong.
fn every_entry_tells_the_place_of(edition: Edition, sought: &[u8]) {
    assert_eq!(Both.read_query(edition, sought), [1, 24]);
    for (set, sign) in [
        (Fsw, b"M500x500".to_vec()),
        (Swu, in_swu(b"M500x500").unwrap()),
    ] {
        assert_eq!(Both.verdict(set, edition, sought, &sign)[..3], [1, 24, 0]);
        let dictionary = [&sign[..], b"\n"].concat();
        let answer = Both.narrow(set, &dictionary, &mut [1], 1, edition, sought);
        assert_eq!(answer, [1, 24, 0, 0]);
    }
}

/// A number is one group there, so its place is that of the group.
#[test]
fn swu_goes_group_by_group() {
    let sign = in_swu(b"M500x500S10000500x500").unwrap();
    let after_749 = [0xf0, 0x9d, 0xa8, 0x80];
    for at in [4, 8, 16, 20] {
        let mut text = sign.clone();
        text[at..at + 4].copy_from_slice(&after_749);
        assert_eq!(Both.read(Swu, &text).1, [1, at as u64]);
        assert_eq!(Both.read(Swu, &text[..at + 3]).1, [2, at as u64 + 3]);
    }
}

/// Whether some well-formed text begins so, limits and range order aside.
type Begins = fn(&[u8]) -> bool;

fn begins_sign(text: &[u8]) -> bool {
    let answer = reference::read(reference::Charset::Fsw, text);
    !matches!(answer, Err(Refusal { number: 1, .. }))
}

fn begins_query(text: &[u8]) -> bool {
    let answer = reference::read_query(reference::Edition::First, text);
    !matches!(answer, Err(Refusal { number: 1, .. }))
}

fn begins_second_query(text: &[u8]) -> bool {
    let edition = reference::Edition::Second(reference::Charset::Fsw);
    let answer = reference::read_query(edition, text);
    !matches!(answer, Err(Refusal { number: 1, .. }))
}

/// The first byte of the number that the wrong byte stands in, or else the wrong byte. A number
/// begins where 669 could stand and 1 could not, as no digit of a key or of the variance does.
fn place_for(text: &[u8], wrong: usize, begins: Begins) -> usize {
    let could_be = |at: usize, next: &[u8]| begins(&[&text[..at], next].concat());
    let number_at =
        |&at: &usize| text[at].is_ascii_digit() && could_be(at, b"669") && !could_be(at, b"1");
    let before = wrong.saturating_sub(2)..wrong;
    before.into_iter().find(number_at).unwrap_or(wrong)
}

/// How often the place stood no, one or two bytes before the wrong byte.
#[derive(Debug, Default)]
struct Moved([usize; 3]);

impl Moved {
    /// Finds the wrong byte by trying the beginnings of the text one after another.
    fn check(&mut self, text: &[u8], answer: [u64; 2], begins: Begins) {
        let wrong = (0..text.len()).find(|&at| !begins(&text[..=at]));
        let expected = wrong.map(|wrong| place_for(text, wrong, begins));
        let place = (answer[0] == 1).then_some(answer[1] as usize);
        assert_eq!(place, expected, "{}", shown(text));
        if let (Some(wrong), Some(place)) = (wrong, place) {
            self.0[wrong - place] += 1;
        }
    }
}

/// Each byte replaced in turn: the text whole, and cut off after that byte or the next.
fn damages(random: &mut Random, text: &[u8]) -> Vec<Vec<u8>> {
    let mut damages = vec![];
    for at in 0..text.len() {
        let mut whole = text.to_vec();
        whole[at] = *random.pick(b"0123456789xMSRVT\n");
        let ends = [at + 1, text.len().min(at + 2), text.len()];
        damages.extend(ends.map(|end| whole[..end].to_vec()));
    }
    damages
}

#[test]
fn places_move_inside_numbers_alone() {
    let (mut in_signs, mut in_queries) = (Moved::default(), [(); 2].map(|()| Moved::default()));
    cases(600_000, 300, |random| {
        let (sign, query) = (short_sign(random), query(random));
        let (prefix, items) = (random.below(3), random.between(3, 8));
        let second = query_of_in(random, Second(Fsw), prefix, items);
        for text in damages(random, &sign) {
            in_signs.check(&text, Both.read(Fsw, &text).1, begins_sign);
        }
        for text in damages(random, &query) {
            in_queries[0].check(&text, Both.read_query(First, &text), begins_query);
        }
        for text in damages(random, &second) {
            let answer = Both.read_query(Second(Fsw), &text);
            in_queries[1].check(&text, answer, begins_second_query);
        }
    });
    for moved in [&in_signs].into_iter().chain(&in_queries) {
        assert!(moved.0.iter().all(|&times| times > 1_000), "{moved:?}");
    }
}
