//! A plain implementation of document 01 and of requests of
//! document 02, to hold the proved library against.
//!
//! It was written from the papers alone and shares no code with the library. It is
//! simple first, but allocates nothing for a line, so that its speed is a fair measure.
//!
//! - `symbol`: symbol codes, keys and characters
//! - `text`: the tokens of both character sets, read one after another
//! - `sign`: reading, writing and transcribing a sign
//! - `styling`, `styling_record`: the same for a sign with a styling, and a styling as numbers
//! - `geometry`: boxes, centres, shifting and centring
//! - `query`, `query_text`: a query and its verdict on a sign; reading one in both editions
//! - `dictionary`: searching, narrowing and fetching
//! - `sorting`: sorting a list, and narrowing one in any order

mod dictionary;
mod geometry;
mod query;
mod query_text;
mod sign;
mod sorting;
mod styling;
mod styling_record;
mod symbol;
mod text;

pub use dictionary::{fetch, narrow, search, Fetched, Narrowed, Searched, MOST_LINES};
pub use geometry::{boxes, centred, shift, Bounds, Boxes, SIZE_LIST_LENGTH};
pub use query::{verdict, Query, Verdict, MOST_ALTERNATIVES, MOST_ITEMS};
pub use query_text::{read_query, read_query_into};
pub use sign::{read, read_into, transcribe, Placed, Sign, MOST_PREFIX, MOST_SYMBOLS};
pub use sorting::{narrow_sorted, sort};
pub use styling::{read_styled, read_styled_into, transcribe_styled};
pub use styling::{Detail, Styling, SymbolStyle, LONGEST_NAME, MOST_STYLES, MOST_ZOOM};
pub use styling_record::{write_styling_record, StylingRecord};
pub use symbol::{char_to_code, code_to_char, code_to_key, key_to_code, LAST_CODE};

/// The two ways to write a sign: ASCII or Unicode.
#[derive(Clone, Copy, Debug, PartialEq, Eq)]
pub enum Charset {
    Fsw,
    Swu,
}

impl Charset {
    /// The set that transcription writes.
    pub fn other(self) -> Charset {
        match self {
            Charset::Fsw => Charset::Swu,
            Charset::Swu => Charset::Fsw,
        }
    }
}

/// The two ways to write a query.
#[derive(Clone, Copy, Debug, PartialEq, Eq)]
pub enum Edition {
    /// That of document 01, in FSW form.
    First,
    /// That of draft -10, section 1.5, in either character set: an item may have alternatives,
    /// and null may be sought in the prefix.
    Second(Charset),
}

/// Why a call was refused (document 01, "Refusal numbers").
#[derive(Clone, Copy, Debug, PartialEq, Eq)]
pub struct Refusal {
    pub number: u8,
    pub place: usize,
}

pub type Answer<T> = Result<T, Refusal>;

pub(crate) fn refuse<T>(number: u8, place: usize) -> Answer<T> {
    Err(Refusal { number, place })
}
