//! The reference and the safe wrapper, laid out as the C interface.
//!
//! The two are separate crates with separate types, but their names and shapes agree, so one
//! macro lays out both.

use crate::interface::{numbers, sign_record, Interface, SignRecord, NO_SIGN};
use crate::interface::{StyledAnswer, StylingNumbers, NO_STYLING};
use halofret::{Charset, Edition, StylingRecord};

pub struct Reference;
pub struct Wrapper;

fn reference_set(set: Charset) -> reference::Charset {
    match set {
        Charset::Fsw => reference::Charset::Fsw,
        Charset::Swu => reference::Charset::Swu,
    }
}

fn wrapper_set(set: Charset) -> Charset {
    set
}

fn reference_edition(edition: Edition) -> reference::Edition {
    match edition {
        Edition::First => reference::Edition::First,
        Edition::Second(set) => reference::Edition::Second(reference_set(set)),
    }
}

fn wrapper_edition(edition: Edition) -> Edition {
    edition
}

fn reference_styling(styling: &reference::Styling) -> StylingNumbers {
    StylingNumbers(styling.record())
}

fn wrapper_styling(styling: &halofret::Styling) -> StylingNumbers {
    StylingNumbers(styling.record().expect("what was read has a record"))
}

/// The numbers of an answer, by a function from its value to the numbers after the place.
macro_rules! lay_out {
    ($answer:expr, $values:expr) => {
        numbers($answer.map($values).map_err(|r| (r.number, r.place)))
    };
}

fn one(value: impl TryInto<u64>) -> Vec<u64> {
    vec![value.try_into().ok().expect("a value below 2 to the 64")]
}

macro_rules! bounds {
    ($bounds:expr) => {
        $bounds.map_or([0; 5], |b| {
            [1, b.left, b.top, b.right, b.bottom].map(u64::from)
        })
    };
}

macro_rules! sign_numbers {
    ($sign:expr) => {{
        let sign = $sign;
        let prefix = [sign.prefix(), sign.prefix_offsets()];
        let symbols = sign.symbols().into_iter();
        let symbols = symbols.map(|s| [s.code, s.x, s.y, s.offset]);
        sign_record(sign.marker(), sign.maximum(), prefix, symbols)
    }};
}

macro_rules! side {
    ($side:ident, $of:ident, $set_of:ident, $edition_of:ident, $styling_of:ident) => {
        impl Interface for $side {
            fn key_to_code(&self, key: &[u8]) -> [u64; 3] {
                lay_out!($of::key_to_code(key), one)
            }

            fn char_to_code(&self, character: &[u8]) -> [u64; 3] {
                lay_out!($of::char_to_code(character), one)
            }

            fn code_to_key(&self, code: u64, out: &mut [u8]) -> [u64; 3] {
                lay_out!($of::code_to_key(code, out), one)
            }

            fn code_to_char(&self, code: u64, out: &mut [u8]) -> [u64; 3] {
                lay_out!($of::code_to_char(code, out), one)
            }

            fn read(&self, set: Charset, text: &[u8]) -> (SignRecord, [u64; 2]) {
                let answer = $of::read($set_of(set), text);
                let record = answer.as_ref().map_or(NO_SIGN, |sign| sign_numbers!(sign));
                (record, lay_out!(answer, |_| vec![]))
            }

            fn read_styled(&self, set: Charset, text: &[u8]) -> StyledAnswer {
                let answer = $of::read_styled($set_of(set), text);
                let (sign, styling) = match &answer {
                    Ok((sign, styling)) => (sign_numbers!(sign), $styling_of(styling)),
                    Err(_) => (NO_SIGN, NO_STYLING),
                };
                (sign, styling, lay_out!(answer, |_| vec![]))
            }

            fn transcribe_styled(&self, set: Charset, text: &[u8], out: &mut [u8]) -> [u64; 3] {
                lay_out!($of::transcribe_styled($set_of(set), text, out), one)
            }

            fn write_styling(&self, styling: &StylingRecord, out: &mut [u8]) -> [u64; 3] {
                lay_out!($of::write_styling_record(styling, out), one)
            }

            fn transcribe(&self, set: Charset, text: &[u8], out: &mut [u8]) -> [u64; 3] {
                lay_out!($of::transcribe($set_of(set), text, out), one)
            }

            fn boxes(&self, set: Charset, text: &[u8], sizes: &[u8]) -> ([f32; 2], [u64; 19]) {
                let answer = $of::boxes($set_of(set), text, sizes);
                let centre = answer.map_or([0.0; 2], |boxes| boxes.centre().into());
                let values = |boxes: $of::Boxes| {
                    let head = bounds!(boxes.head);
                    let head_and_trunk = bounds!(boxes.head_and_trunk);
                    let all = bounds!(Some(boxes.all));
                    let (x, y) = boxes.doubled_centre();
                    let doubled = [x, y].map(u64::from);
                    [&head[..], &head_and_trunk, &all, &doubled].concat()
                };
                (centre, lay_out!(answer, values))
            }

            fn shift(&self, set: Charset, text: &[u8], by: (i32, i32), out: &mut [u8]) -> [u64; 3] {
                lay_out!($of::shift($set_of(set), text, by.0, by.1, out), one)
            }

            fn centred(&self, set: Charset, text: &[u8], sizes: &[u8], out: &mut [u8]) -> [u64; 3] {
                lay_out!($of::centred($set_of(set), text, sizes, out), one)
            }

            fn read_query(&self, edition: Edition, query: &[u8]) -> [u64; 2] {
                lay_out!($of::read_query($edition_of(edition), query), |_| vec![])
            }

            fn verdict(
                &self,
                set: Charset,
                edition: Edition,
                query: &[u8],
                text: &[u8],
            ) -> [u64; 36] {
                let values = |verdict| match verdict {
                    $of::Verdict::Unmet(condition) => vec![0, condition as u64],
                    $of::Verdict::Met(witnesses) => {
                        let witnesses = witnesses.map(u64::from);
                        [&[1, 0], &witnesses[..]].concat()
                    }
                };
                let (set, edition) = ($set_of(set), $edition_of(edition));
                lay_out!($of::verdict(set, edition, query, text), values)
            }

            fn search(
                &self,
                set: Charset,
                dictionary: &[u8],
                list: &mut [u16],
                edition: Edition,
                query: &[u8],
            ) -> [u64; 4] {
                let (set, edition) = ($set_of(set), $edition_of(edition));
                let answer = $of::search(set, dictionary, list, edition, query);
                let values =
                    |searched: $of::Searched| vec![searched.lines as u64, searched.written as u64];
                lay_out!(answer, values)
            }

            fn narrow(
                &self,
                set: Charset,
                dictionary: &[u8],
                list: &mut [u16],
                count: usize,
                edition: Edition,
                query: &[u8],
            ) -> [u64; 4] {
                let (set, edition) = ($set_of(set), $edition_of(edition));
                let answer = $of::narrow(set, dictionary, list, count, edition, query);
                let values =
                    |narrowed: $of::Narrowed| vec![narrowed.kept as u64, narrowed.dropped as u64];
                lay_out!(answer, values)
            }

            fn sort(
                &self,
                set: Charset,
                dictionary: &[u8],
                list: &mut [u16],
                count: usize,
                spare: &mut [u16],
            ) -> [u64; 2] {
                let answer = $of::sort($set_of(set), dictionary, list, count, spare);
                lay_out!(answer, |_| vec![])
            }

            fn narrow_sorted(
                &self,
                set: Charset,
                dictionary: &[u8],
                list: &mut [u16],
                count: usize,
                edition: Edition,
                query: &[u8],
            ) -> [u64; 4] {
                let (set, edition) = ($set_of(set), $edition_of(edition));
                let answer = $of::narrow_sorted(set, dictionary, list, count, edition, query);
                let values =
                    |narrowed: $of::Narrowed| vec![narrowed.kept as u64, narrowed.dropped as u64];
                lay_out!(answer, values)
            }

            fn fetch(&self, first: &[u8], second: &[u8], number: usize) -> [u64; 4] {
                match $of::fetch(first, second, number) {
                    Err(refusal) => [refusal.number.into(), refusal.place as u64, 0, 0],
                    Ok(found) => {
                        let holder = if found.in_second { second } else { first };
                        let end = found.start + found.line.len();
                        assert_eq!(found.line, &holder[found.start..end]);
                        let which = found.in_second.into();
                        [0, which, found.start as u64, found.line.len() as u64]
                    }
                }
            }
        }
    };
}

side!(
    Reference,
    reference,
    reference_set,
    reference_edition,
    reference_styling
);
side!(
    Wrapper,
    halofret,
    wrapper_set,
    wrapper_edition,
    wrapper_styling
);
