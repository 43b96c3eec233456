//! Refusals (document 01, "Refusal numbers"; 17 to 19 and 22 by document 02).

use std::fmt;

/// Why a call was refused. A refused call changed no byte it was lent.
#[derive(Clone, Copy, Debug, PartialEq, Eq)]
pub struct Refusal {
    /// From 1 to 19, or 22.
    pub number: u8,
    /// An offset, a count or 0, as the number says.
    pub place: usize,
}

impl Refusal {
    /// The refusal that an answer starts with, if it is one.
    pub(crate) fn check(answer: &[u64]) -> Result<(), Refusal> {
        match answer[0] {
            0 => Ok(()),
            number => Err(Refusal {
                number: number as u8,
                place: answer[1] as usize,
            }),
        }
    }
}

impl fmt::Display for Refusal {
    fn fmt(&self, f: &mut fmt::Formatter) -> fmt::Result {
        let Refusal { number, place } = *self;
        match number {
            1 if place == 0 => write!(
                f,
                "The text is wrong at its first byte, or no text reads as the styling to be written."
            ),
            1 => write!(f, "The text is wrong at byte offset {place}."),
            2 => write!(f, "The text stops too early, after {place} bytes."),
            5 => write!(
                f,
                "The range at byte offset {place} ends below its own start."
            ),
            6 => write!(f, "The output or list is too short: {place} are needed."),
            8 => write!(f, "Symbol {place} of the signbox has no size."),
            13 => write!(f, "Line {place} of the dictionary does not read as a sign."),
            _ => match without_place(number) {
                Some(sentence) => f.write_str(sentence),
                None => write!(f, "Refusal {number} at {place} is unknown."),
            },
        }
    }
}

/// The sentence of a number whose place is always 0.
fn without_place(number: u8) -> Option<&'static str> {
    Some(match number {
        3 => "The prefix has more than 32 symbols or items.",
        4 => "The signbox has more than 64 symbols, or the query more than 32 signbox items.",
        7 => "The size list does not have 125,184 bytes.",
        9 => "A sign without symbols has no box and no centre.",
        10 => "A number to be written would leave 250 to 749.",
        11 => {
            "The entries are more than the list holds, or do not rise within 1 to the line count, \
             or where they need not rise one is not within it or stands twice."
        }
        12 => "The dictionary's last line is not ended by byte 10.",
        14 => "The dictionary is over its limits, such as 65,535 lines.",
        15 => "The symbol code is over 62,592.",
        16 => "Neither dictionary has an entry of that number.",
        17 => "A zoom of the styling is not from 0.01 to 99.99, or has more than two decimals.",
        18 => "A colour name of the styling has more than 24 letters.",
        19 => "The styling has more than 64 symbol styles.",
        22 => "An item of the query has more than eight alternatives.",
        _ => return None,
    })
}

impl std::error::Error for Refusal {}
