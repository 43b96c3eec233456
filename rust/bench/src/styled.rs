//! Signs with stylings: one pass over all of them for each way to read them.

use crate::dictionary::Dictionary;
use crate::entries::{timed, Pass};
use differential::Random;
use halofret::raw;
use reference::{Charset, Sign, Styling};
use std::hint::black_box;

const COLOURS: [&str; 8] = [
    "red",
    "blue",
    "lightblue",
    "0f0",
    "CC0000",
    "black",
    "884411",
    "mediumvioletred",
];
const ZOOMS: [&str; 6] = ["1.5", "2", "0.75", "15.7", "3.25", "10"];

fn detail(random: &mut Random) -> String {
    let line = random.pick(&COLOURS).to_string();
    match random.below(2) {
        0 => format!("_{line}_"),
        _ => format!("_{line},{}_", random.pick(&COLOURS)),
    }
}

/// Such as `-CP10G_lightblue_D_red,0f0_Z1.5-D01_blue_Z02,0.75`: each option of the whole sign in
/// every second styling, then none to three symbol styles.
fn styling(random: &mut Random) -> String {
    let mut text = String::from("-");
    let options = [
        String::from("C"),
        format!("P{:02}", random.between(1, 20)),
        format!("G_{}_", random.pick(&COLOURS)),
        format!("D{}", detail(random)),
        format!("Z{}", random.pick(&ZOOMS)),
    ];
    for option in options {
        if random.once_in(2) {
            text += &option;
        }
    }
    let styles = random.below(4);
    if styles > 0 {
        text.push('-');
    }
    let details = random.below(styles + 1);
    for symbol in 1..=details {
        text += &format!("D{symbol:02}{}", detail(random));
    }
    for symbol in details + 1..=styles {
        text += &format!("Z{symbol:02},{}", random.pick(&ZOOMS));
    }
    text
}

/// The signs of a dictionary, each with a styling.
pub struct StyledSigns {
    text: Vec<u8>,
    /// Where each begins, has its dash and ends.
    places: Vec<[usize; 3]>,
}

impl StyledSigns {
    pub fn new(dictionary: &Dictionary) -> StyledSigns {
        let mut random = Random::new(dictionary.count() as u64);
        let (mut text, mut places) = (vec![], vec![]);
        for line in dictionary.lines() {
            let start = text.len();
            text.extend_from_slice(line);
            let dash = text.len();
            text.extend(styling(&mut random).bytes());
            places.push([start, dash, text.len()]);
        }
        StyledSigns { text, places }
    }

    fn whole(&self) -> impl Iterator<Item = &[u8]> {
        let places = self.places.iter();
        places.map(|&[start, _, end]| &self.text[start..end])
    }

    fn halves(&self) -> impl Iterator<Item = (&[u8], &[u8])> {
        let places = self.places.iter();
        places.map(|&[start, dash, end]| (&self.text[start..dash], &self.text[dash..end]))
    }
}

pub fn read_styled_library(signs: &StyledSigns, set: Charset) -> Pass {
    let swu = set == Charset::Swu;
    let (mut sign, mut answer) = ([0; raw::HALOFRET_SIGN], [0; 2]);
    let mut styling = [0; raw::HALOFRET_STYLING];
    timed(|| {
        let mut sum = 0;
        for text in signs.whole() {
            let (start, len) = (text.as_ptr(), text.len());
            // SAFETY: here and below, each pointer goes with its slice's own length, and all of
            // them live through the call and do not overlap.
            unsafe {
                raw::halofret_read_styled(swu, start, len, &mut sign, &mut styling, &mut answer)
            };
            black_box((&sign, &styling, &answer));
            sum += u64::from(sign[4]);
        }
        sum
    })
}

/// Both records are cleared, as the library leaves zeros in unused places of its own. Colours
/// are not copied: they stay parts of the text.
pub fn read_styled_reference(signs: &StyledSigns, set: Charset) -> Pass {
    timed(|| {
        let mut sum = 0;
        for text in signs.whole() {
            let (mut sign, mut styling) = (Sign::EMPTY, Styling::EMPTY);
            let answer = reference::read_styled_into(set, text, &mut sign, &mut styling);
            black_box((&sign, &styling, &answer));
            sum += sign.symbols().len() as u64;
        }
        sum
    })
}

/// The library reads the sign alone, and the class of each byte of the styling is found.
pub fn read_and_classify(signs: &StyledSigns, set: Charset) -> Pass {
    read_and(signs, set, |styling| u64::from(classify(styling)[0]))
}

/// The library reads the sign alone, and the styling is followed by its grammar, keeping nothing.
pub fn read_and_follow(signs: &StyledSigns, set: Charset) -> Pass {
    read_and(signs, set, |styling| {
        let good = Walk::over(styling).styling();
        assert!(good, "the bench's stylings are good");
        u64::from(good)
    })
}

fn read_and(signs: &StyledSigns, set: Charset, then: impl Fn(&[u8]) -> u64) -> Pass {
    let swu = set == Charset::Swu;
    let (mut sign, mut answer) = ([0; raw::HALOFRET_SIGN], [0; 2]);
    timed(|| {
        let mut sum = 0;
        for (text, styling) in signs.halves() {
            unsafe { raw::halofret_read(swu, text.as_ptr(), text.len(), &mut sign, &mut answer) };
            black_box((&sign, &answer, then(styling)));
            sum += u64::from(sign[4]);
        }
        sum
    })
}

/// Follows a styling byte by byte, once.
struct Walk<'a> {
    bytes: &'a [u8],
    at: usize,
}

impl<'a> Walk<'a> {
    fn over(bytes: &'a [u8]) -> Walk<'a> {
        Walk { bytes, at: 0 }
    }

    fn mark(&mut self, byte: u8) -> bool {
        let there = self.bytes.get(self.at) == Some(&byte);
        self.at += usize::from(there);
        there
    }

    /// How many bytes pass the test from here on.
    fn run(&mut self, test: impl Fn(&u8) -> bool) -> usize {
        let count = self.bytes[self.at..].iter().take_while(|b| test(b)).count();
        self.at += count;
        count
    }

    fn two_digits(&mut self) -> bool {
        let rest = &self.bytes[self.at..];
        let good = rest.len() >= 2 && rest[0].is_ascii_digit() && rest[1].is_ascii_digit();
        self.at += 2 * usize::from(good);
        good
    }

    fn colour(&mut self) -> bool {
        let start = self.at;
        let letters = self.run(u8::is_ascii_alphabetic);
        let digits = self.run(u8::is_ascii_hexdigit);
        let colour = &self.bytes[start..self.at];
        letters > 0 && digits == 0
            || matches!(colour.len(), 3 | 6) && colour.iter().all(u8::is_ascii_hexdigit)
    }

    fn detail(&mut self) -> bool {
        let line = self.mark(b'_') && self.colour();
        line && (!self.mark(b',') || self.colour()) && self.mark(b'_')
    }

    fn zoom(&mut self) -> bool {
        let digit = u8::is_ascii_digit;
        self.run(digit) > 0 && (!self.mark(b'.') || self.run(digit) > 0)
    }

    fn symbols(&mut self) -> bool {
        let mut good = true;
        while good && self.mark(b'D') {
            good = self.two_digits() && self.detail();
        }
        while good && self.mark(b'Z') {
            good = self.two_digits() && self.mark(b',') && self.zoom();
        }
        good
    }

    /// Whether all of it is a styling; its limits are not asked for.
    fn styling(&mut self) -> bool {
        let dash = self.mark(b'-');
        self.mark(b'C');
        dash && (!self.mark(b'P') || self.two_digits())
            && (!self.mark(b'G') || self.mark(b'_') && self.colour() && self.mark(b'_'))
            && (!self.mark(b'D') || self.detail())
            && (!self.mark(b'Z') || self.zoom())
            && (!self.mark(b'-') || self.symbols())
            && self.at == self.bytes.len()
    }
}

/// How many bytes there are of each class.
fn classify(styling: &[u8]) -> [u32; 7] {
    let mut counts = [0; 7];
    for &byte in styling {
        counts[CLASSES[usize::from(byte)] as usize] += 1;
    }
    counts
}

/// A table, since the classes alternate too freely for a branch to be foreseen.
const CLASSES: [u8; 256] = {
    let mut classes = [0; 256];
    let mut byte = 0;
    while byte < classes.len() {
        classes[byte] = match byte as u8 {
            b'-' => 0,
            b'_' => 1,
            b',' => 2,
            b'.' => 3,
            b'0'..=b'9' => 4,
            b'A'..=b'Z' | b'a'..=b'z' => 5,
            _ => 6,
        };
        byte += 1;
    }
    classes
};
