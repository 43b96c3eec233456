//! Signs with stylings in both sets, good and damaged, at and over the limits (document 02, Q-1).

use differential::both::shown;
use differential::damage::damaged;
use differential::generate::{in_swu, short_sign, sign_of};
use differential::interface::{StylingNumbers, OFFSETS};
use differential::stylings::{
    damaged_from, short_styling, sign_to_style, styling, styling_of, TELLING,
};
use differential::{cases, Both, Charset, Edition, Interface, Random, Tally, BOTH_SETS};
use Charset::{Fsw, Swu};

/// Reads and transcribes a text with rooms about the length it needs; answers the refusal number.
fn check(random: &mut Random, set: Charset, text: &[u8]) -> u64 {
    let (sign, _, [number, place]) = Both.read_styled(set, text);
    let answer = Both.transcribe_styled(set, text, &mut []);
    if number != 0 {
        assert_eq!(answer, [number, place, 0]);
        let mut out = vec![b'?'; random.below(200)];
        Both.transcribe_styled(set, text, &mut out);
        return number;
    }
    let [6, needed, 0] = answer else {
        panic!("{answer:?} where room was needed");
    };
    let needed = needed as usize;
    let about = needed - 3..needed + 3;
    for room in about.chain([random.below(needed), needed + 70]) {
        let mut out = vec![b'?'; room];
        let answer = Both.transcribe_styled(set, text, &mut out);
        assert_eq!(answer[0], if room < needed { 6 } else { 0 });
        let unused = out.get(needed..).unwrap_or(&out);
        assert!(unused.iter().all(|&byte| byte == b'?'));
    }
    let dash = dash(text);
    assert_eq!(Both.read(set, &text[..dash]), (sign, [0, 0]));
    refused_without_styling(set, text, dash);
    there_and_back(set, text, needed);
    number
}

/// Where the styling begins: a sign has no dash in either set.
fn dash(text: &[u8]) -> usize {
    text.iter().position(|&byte| byte == b'-').unwrap()
}

/// The plain reader takes no dash, and the styled one needs it.
fn refused_without_styling(set: Charset, text: &[u8], dash: usize) {
    let place = dash as u64;
    let length = text.len() as u64;
    let expected = match set {
        Swu if text.len() - dash < 4 => [2, length],
        _ => [1, place],
    };
    assert_eq!(Both.read(set, text).1, expected, "{}", shown(text));
    assert_eq!(Both.read_styled(set, &text[..dash]).2, [2, place]);
}

/// The transcription is that of the sign and the styling's bytes, reads as equal in all but
/// offsets, and transcribes back to the same bytes.
fn there_and_back(set: Charset, text: &[u8], needed: usize) {
    let dash = dash(text);
    let mut out = vec![0; needed];
    assert_eq!(Both.transcribe_styled(set, text, &mut out)[0], 0);
    let (sign, styling) = out.split_at(needed - (text.len() - dash));
    let mut alone = vec![0; sign.len()];
    assert_eq!(Both.transcribe(set, &text[..dash], &mut alone)[0], 0);
    assert_eq!((sign, styling), (&alone[..], &text[dash..]));

    let other = if set == Fsw { Swu } else { Fsw };
    let (sign, styling, _) = Both.read_styled(set, text);
    let (other_sign, other_styling, answer) = Both.read_styled(other, &out);
    assert_eq!(answer, [0, 0]);
    assert_eq!(sign[..OFFSETS], other_sign[..OFFSETS]);
    assert_eq!(styling, other_styling);
    let mut back = vec![0; text.len()];
    assert_eq!(Both.transcribe_styled(other, &out, &mut back)[0], 0);
    assert_eq!(back, text);
}

/// The styled sign in FSW and in SWU.
fn in_both(sign: &[u8], styling: &[u8]) -> [Vec<u8>; 2] {
    [sign, &in_swu(sign).unwrap()].map(|sign| [sign, styling].concat())
}

#[test]
fn undamaged_stylings() {
    let mut tally = Tally::default();
    cases(700_000, 12_000, |random| {
        let (sign, styling) = (sign_to_style(random), styling(random));
        let [fsw, swu] = in_both(&sign, &styling);
        let number = check(random, Fsw, &fsw);
        assert_eq!(number, check(random, Swu, &swu));
        tally.note(number);
        // A text in the other set than is said.
        check(random, Swu, &fsw);
        check(random, Fsw, &swu);
    });
    tally.expect(&[0, 3, 4, 17, 18, 19]);
}

#[test]
fn damaged_stylings() {
    for set in BOTH_SETS {
        let mut tally = Tally::default();
        cases(720_000, 40_000, |random| {
            let (sign, styling) = (sign_to_style(random), styling(random));
            let [fsw, swu] = in_both(&sign, &styling);
            let text = if set == Fsw { fsw } else { swu };
            let start = dash(&text);
            let text = match random.below(6) {
                0 => damaged(random, &text),
                1 => damaged_from(random, &text, 0),
                _ => damaged_from(random, &text, start),
            };
            tally.note(check(random, set, &text));
        });
        tally.expect(&[0, 1, 2, 3, 4, 17, 18, 19]);
    }
}

/// From the dash on a styling is refused at the same byte in both sets.
#[test]
fn the_same_places_in_both_sets() {
    cases(780_000, 20_000, |random| {
        let (sign, styling) = (short_sign(random), styling(random));
        let styling = damaged_from(random, &styling, 1);
        let [fsw, swu] = in_both(&sign, &styling);
        let (_, in_fsw, [number, place]) = Both.read_styled(Fsw, &fsw);
        let (_, in_swu, [swu_number, swu_place]) = Both.read_styled(Swu, &swu);
        assert_eq!((number, in_fsw), (swu_number, in_swu));
        let from_dash = |place, text: &[u8]| match number {
            1 | 2 => place - dash(text) as u64,
            _ => place,
        };
        assert_eq!(from_dash(place, &fsw), from_dash(swu_place, &swu));
    });
}

/// Each byte changed, left out or doubled, a byte put before it, and the text cut there.
#[test]
fn damage_at_every_place() {
    cases(810_000, 150, |random| {
        let (sign, styling) = (short_sign(random), short_styling(random));
        for (set, text) in BOTH_SETS.into_iter().zip(in_both(&sign, &styling)) {
            for at in 0..text.len() {
                let (before, after) = text.split_at(at);
                Both.read_styled(set, before);
                Both.read_styled(set, &[before, &after[1..]].concat());
                Both.read_styled(set, &[before, &after[..1], after].concat());
                for &byte in &[*random.pick(TELLING), *random.pick(TELLING), b'-'] {
                    Both.read_styled(set, &[before, &[byte], after].concat());
                    Both.read_styled(set, &[before, &[byte], &after[1..]].concat());
                }
            }
        }
    });
}

/// Stylings with all parts, for every byte to stand everywhere.
const ALL_PARTS: [&[u8]; 3] = [
    b"-CP10G_lightblue_D_red,0f0_Z1.5-D01_blue_D02_F00,a_Z02,0.75",
    b"-D_ABCDEF_Z9-Z00,12Z01,3",
    b"-P00G_09f_-",
];

#[test]
fn every_byte_at_every_place() {
    for styling in ALL_PARTS {
        for (set, text) in BOTH_SETS.into_iter().zip(in_both(b"M500x500", styling)) {
            for place in dash(&text)..text.len() {
                for byte in 0..=255 {
                    let mut changed = text.to_vec();
                    changed[place] = byte;
                    Both.read_styled(set, &changed);
                    Both.read_styled(set, &changed[..=place]);
                }
            }
        }
    }
}

/// The dashes anywhere in the text, one or both of them.
#[test]
fn every_dash_at_every_place() {
    for styling in ALL_PARTS {
        for (set, text) in BOTH_SETS.into_iter().zip(in_both(b"M500x500", styling)) {
            let bare: Vec<u8> = text.iter().copied().filter(|&byte| byte != b'-').collect();
            for first in 0..=bare.len() {
                let mut one = bare.clone();
                one.insert(first, b'-');
                Both.read_styled(set, &one);
                for second in first + 1..=one.len() {
                    let mut two = one.clone();
                    two.insert(second, b'-');
                    Both.read_styled(set, &two);
                }
            }
        }
    }
}

/// What can finish a styling that stops early, wherever it stops.
const ENDS: [&[u8]; 18] = [
    b"_", b"0_", b"00_", b"a_", b"_a_", b"0_a_", b"00_a_", b"0", b"00", b"000_", b",1", b"0,1",
    b"00,1", b"1", b"1_", b"11_", b",a_", b"a",
];

fn well_formed(text: &[u8]) -> bool {
    !matches!(Both.read_styled(Fsw, text).2, [1 | 2, _])
}

/// The place of 1 is the length of the longest beginning that some well-formed text shares, and a
/// text is 2 exactly where it is such a beginning and not well-formed.
#[test]
fn places_are_longest_beginnings() {
    let mut seen = Tally::default();
    cases(830_000, 2_500, |random| {
        let text = [&b"M500x500"[..], &short_styling(random)].concat();
        let text = damaged_from(random, &text, 9);
        let can_end = |cut: usize| {
            let begins = |end: &&[u8]| well_formed(&[&text[..cut], end].concat());
            well_formed(&text[..cut]) || ENDS.iter().any(begins)
        };
        let shared = (9..=text.len()).rev().find(|&cut| can_end(cut)).unwrap();
        let [number, place] = Both.read_styled(Fsw, &text).2;
        let expected = match shared == text.len() {
            false => Some((1, shared as u64)),
            true if !well_formed(&text) => Some((2, shared as u64)),
            true => None,
        };
        assert_eq!(
            (number < 3 && number > 0).then_some((number, place)),
            expected
        );
        seen.note(number);
    });
    seen.expect(&[0, 1, 2, 17, 18]);
}

/// Counts never move a place: stylings with very many parts, cut and damaged far beyond them.
#[test]
fn limits() {
    let mut random = Random::new(850_000);
    for styles in [0, 1, 63, 64, 65, 66, 300] {
        for (prefix, symbols) in [(0, 0), (32, 64), (33, 0), (0, 65), (33, 65)] {
            let sign = sign_of(&mut random, prefix, symbols);
            let styling = styling_of(&mut random, styles);
            let expected = match (styles, prefix, symbols) {
                (65.., _, _) => 19,
                (_, 33.., _) => 3,
                (_, _, 65..) => 4,
                _ => 0,
            };
            for (set, text) in BOTH_SETS.into_iter().zip(in_both(&sign, &styling)) {
                assert_eq!(check(&mut random, set, &text), expected);
                for _ in 0..25 {
                    let damaged = damaged_from(&mut random, &text, dash(&text));
                    check(&mut random, set, &damaged);
                }
            }
        }
    }
}

#[test]
fn every_cut_of_the_longest_styling() {
    let name = "n".repeat(24);
    let styles = format!("D99_{name},{name}_").repeat(64);
    let styling = format!("-CP99G_{name}_D_{name},{name}_Z99.99-{styles}");
    assert_eq!(styling.len(), halofret::LONGEST_STYLING);
    let text = format!("M500x500{styling}");
    for cut in 0..=text.len() {
        Both.read_styled(Fsw, &text.as_bytes()[..cut]);
    }
    let (_, StylingNumbers(record), answer) = Both.read_styled(Fsw, text.as_bytes());
    assert_eq!(answer, [0, 0]);
    let mut out = vec![0; styling.len()];
    let written = Both.write_styling(&record, &mut out);
    assert_eq!(written, [0, 0, styling.len() as u64]);
    assert_eq!(out, styling.as_bytes());
}

/// Every other entry takes a plain sign, and so does a line of a dictionary.
#[test]
fn no_other_entry_takes_a_styling() {
    let sizes = vec![1; 125_184];
    let fsw = b"M500x500S10000490x485-CZ2".to_vec();
    let swu = [in_swu(&fsw[..21]).unwrap(), fsw[21..].to_vec()].concat();
    for (set, text, dash) in [(Fsw, fsw, 21), (Swu, swu, 24)] {
        let refused = [1, dash, 0];
        let mut out = [9; 99];
        assert_eq!(Both.read(set, &text).1, [1, dash]);
        assert_eq!(Both.transcribe(set, &text, &mut out), refused);
        assert_eq!(Both.shift(set, &text, (1, 1), &mut out), refused);
        assert_eq!(Both.centred(set, &text, &sizes, &mut out), refused);
        assert_eq!(Both.boxes(set, &text, &sizes).1[..2], [1, dash]);
        assert_eq!(
            Both.verdict(set, Edition::First, b"Q", &text)[..2],
            [1, dash]
        );
        let plain = &text[..dash as usize];
        let dictionary = [plain, b"\n", &text, b"\n"].concat();
        let mut list = [7; 3];
        let answer = Both.search(set, &dictionary, &mut list, Edition::First, b"Q");
        assert_eq!((answer, list), ([13, 2, 0, 0], [7; 3]));
        let mut list = [2];
        let answer = Both.narrow(set, &dictionary, &mut list, 1, Edition::First, b"Q");
        assert_eq!((answer, list), ([13, 2, 0, 0], [2]));
    }
}
