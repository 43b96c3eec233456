//! Written signs in Formal SignWriting: a safe wrapper over the proved static library.
//!
//! A call takes slices and answers a value or a [`Refusal`]. A refused call changes none
//! of the memory it was lent. Nothing is ever cut short: where there is too little room
//! the call is refused as 6, with the room needed as its place.
//!
//! ```
//! use halofret::{transcribe, Charset};
//!
//! let mut out = [0; 912];
//! let length = transcribe(Charset::Fsw, b"M500x500", &mut out)?;
//! assert_eq!(&out[..length], "𝠃𝤆𝤆".as_bytes());
//!
//! let refusal = transcribe(Charset::Fsw, b"M500x500", &mut []).unwrap_err();
//! assert_eq!((refusal.number, refusal.place), (6, 12));
//! # Ok::<(), halofret::Refusal>(())
//! ```

#![deny(missing_docs)]

mod answers;
mod dictionaries;
mod found;
pub mod raw;
mod refusal;
mod styling;

pub use answers::{Bounds, Boxes, Fetched, Narrowed, Placed, Searched, Sign, Verdict};
pub use dictionaries::{fetch, narrow, narrow_sorted, search, sort};
pub use found::Found;
pub use refusal::Refusal;
pub use styling::{Detail, Styling, StylingRecord, SymbolStyle, Zoom, LONGEST_STYLING};

/// The bytes of a size list: width and height for each code from 1 to 62,592.
pub const SIZE_LIST_LENGTH: usize = 125_184;

/// The character set of a text.
#[derive(Clone, Copy, Debug, PartialEq, Eq)]
pub enum Charset {
    /// ASCII.
    Fsw,
    /// Unicode, as UTF-8.
    Swu,
}

impl Charset {
    fn is_swu(self) -> bool {
        self == Charset::Swu
    }
}

/// How a query is written.
///
/// A query that is well-formed in the first edition is so in the second as FSW, and says the same.
#[derive(Clone, Copy, Debug, PartialEq, Eq)]
pub enum Edition {
    /// In FSW form, one symbol or range for each item: `QAS100uuTS20500490x485V30`.
    First,
    /// In the character set named, which need not be that of the signs. An item may have up to
    /// eight alternatives, joined by `o`, and takes one coordinate for all of them:
    /// `QS20500oR100t105490x485`. In the prefix the null symbol may be sought: `QAS00000T`.
    ///
    /// In SWU a symbol and a number are the characters that they are in a sign, a range is `R` and
    /// two symbols of which only the bases count, and all else is ASCII. After a symbol `f` stands
    /// for any fill and then `r` for any rotation, whatever its own are.
    Second(Charset),
}

impl Edition {
    /// Whether it is the second, and whether the query is SWU.
    fn flags(self) -> (bool, bool) {
        match self {
            Edition::First => (false, false),
            Edition::Second(charset) => (true, charset.is_swu()),
        }
    }
}

/// The code of a symbol key such as `S10000`.
pub fn key_to_code(key: &[u8]) -> Result<u16, Refusal> {
    let mut answer = [0; 3];
    // SAFETY: here and below, each pointer goes with the length of its slice, every slice
    // lives through the call, and Rust's borrows keep lent slices apart.
    unsafe { raw::halofret_key_to_code(key.as_ptr(), key.len(), &mut answer) };
    Refusal::check(&answer)?;
    Ok(answer[2] as u16)
}

/// The code of a symbol character, as UTF-8.
pub fn char_to_code(character: &[u8]) -> Result<u16, Refusal> {
    let mut answer = [0; 3];
    unsafe { raw::halofret_char_to_code(character.as_ptr(), character.len(), &mut answer) };
    Refusal::check(&answer)?;
    Ok(answer[2] as u16)
}

/// Writes the key of a code at the start of `out`; answers its length, 6.
pub fn code_to_key(code: u64, out: &mut [u8]) -> Result<usize, Refusal> {
    let mut answer = [0; 3];
    unsafe { raw::halofret_code_to_key(code, out.as_mut_ptr(), out.len(), &mut answer) };
    written(&answer)
}

/// Writes the character of a code at the start of `out`; answers its length, 4.
pub fn code_to_char(code: u64, out: &mut [u8]) -> Result<usize, Refusal> {
    let mut answer = [0; 3];
    unsafe { raw::halofret_code_to_char(code, out.as_mut_ptr(), out.len(), &mut answer) };
    written(&answer)
}

fn written(answer: &[u64; 3]) -> Result<usize, Refusal> {
    Refusal::check(answer)?;
    Ok(answer[2] as usize)
}

/// Reads a sign. It tells where in the text each of its symbols stands.
///
/// ```
/// use halofret::{read, Charset};
///
/// let text = b"AS10000M500x500S20500490x485";
/// let sign = read(Charset::Fsw, text)?;
/// let mark = sign.symbols().next().unwrap();
/// assert_eq!(&text[mark.offset.into()..][..6], b"S20500");
/// assert_eq!(sign.prefix_offsets(), [1]);
/// # Ok::<(), halofret::Refusal>(())
/// ```
pub fn read(charset: Charset, text: &[u8]) -> Result<Sign, Refusal> {
    let mut sign = Sign::default();
    let mut answer = [0; 2];
    unsafe {
        raw::halofret_read(
            charset.is_swu(),
            text.as_ptr(),
            text.len(),
            sign.record_mut(),
            &mut answer,
        )
    };
    Refusal::check(&answer)?;
    Ok(sign)
}

/// Writes a sign in the other character set; answers the length.
pub fn transcribe(charset: Charset, text: &[u8], out: &mut [u8]) -> Result<usize, Refusal> {
    let mut answer = [0; 3];
    unsafe {
        raw::halofret_transcribe(
            charset.is_swu(),
            text.as_ptr(),
            text.len(),
            out.as_mut_ptr(),
            out.len(),
            &mut answer,
        )
    };
    written(&answer)
}

/// Reads a sign and the styling after it, which begins with a dash.
///
/// ```
/// use halofret::{read_styled, Charset, Zoom};
///
/// let (sign, styling) = read_styled(Charset::Fsw, b"M500x500-CG_lightblue_Z1.50")?;
/// assert_eq!(sign.maximum(), (500, 500));
/// assert!(styling.colorize);
/// assert_eq!(styling.background.as_deref(), Some("lightblue"));
/// assert_eq!(styling.zoom, Some(Zoom { hundredths: 150 }));
/// # Ok::<(), halofret::Refusal>(())
/// ```
pub fn read_styled(charset: Charset, text: &[u8]) -> Result<(Sign, Styling), Refusal> {
    let mut sign = Sign::default();
    let mut record = [0; raw::HALOFRET_STYLING];
    let mut answer = [0; 2];
    unsafe {
        raw::halofret_read_styled(
            charset.is_swu(),
            text.as_ptr(),
            text.len(),
            sign.record_mut(),
            &mut record,
            &mut answer,
        )
    };
    Refusal::check(&answer)?;
    Ok((sign, Styling::of(&record)))
}

/// Writes a sign in the other character set and after it the bytes of its styling as they are;
/// answers the length.
pub fn transcribe_styled(charset: Charset, text: &[u8], out: &mut [u8]) -> Result<usize, Refusal> {
    let mut answer = [0; 3];
    unsafe {
        raw::halofret_transcribe_styled(
            charset.is_swu(),
            text.as_ptr(),
            text.len(),
            out.as_mut_ptr(),
            out.len(),
            &mut answer,
        )
    };
    written(&answer)
}

/// Writes the shortest text of a styling, its dash first; answers the length, at most
/// [`LONGEST_STYLING`]. A styling that no text reads as is refused as 1 at 0.
pub fn write_styling(styling: &Styling, out: &mut [u8]) -> Result<usize, Refusal> {
    write_styling_record(&styling.record()?, out)
}

/// The same for a styling as numbers, which may be any.
pub fn write_styling_record(record: &StylingRecord, out: &mut [u8]) -> Result<usize, Refusal> {
    let mut answer = [0; 3];
    unsafe { raw::halofret_write_styling(record, out.as_mut_ptr(), out.len(), &mut answer) };
    written(&answer)
}

/// The boxes and the centre of a sign.
pub fn boxes(charset: Charset, text: &[u8], sizes: &[u8]) -> Result<Boxes, Refusal> {
    let mut centre = [0.0; 2];
    let mut answer = [0; 19];
    unsafe {
        raw::halofret_boxes(
            charset.is_swu(),
            text.as_ptr(),
            text.len(),
            sizes.as_ptr(),
            sizes.len(),
            &mut centre,
            &mut answer,
        )
    };
    Refusal::check(&answer)?;
    Ok(Boxes::of(&answer, centre))
}

/// Writes a sign moved by a pair, in its own character set; answers the length.
pub fn shift(
    charset: Charset,
    text: &[u8],
    dx: i32,
    dy: i32,
    out: &mut [u8],
) -> Result<usize, Refusal> {
    let mut answer = [0; 3];
    unsafe {
        raw::halofret_shift(
            charset.is_swu(),
            text.as_ptr(),
            text.len(),
            dx,
            dy,
            out.as_mut_ptr(),
            out.len(),
            &mut answer,
        )
    };
    written(&answer)
}

/// Writes a sign with its centre, rounded down, moved to 500 by 500 and its maximum computed, in
/// its own character set; answers the length. Centring that text again with the same sizes and
/// room gives it again.
pub fn centred(
    charset: Charset,
    text: &[u8],
    sizes: &[u8],
    out: &mut [u8],
) -> Result<usize, Refusal> {
    let mut answer = [0; 3];
    unsafe {
        raw::halofret_centred(
            charset.is_swu(),
            text.as_ptr(),
            text.len(),
            sizes.as_ptr(),
            sizes.len(),
            out.as_mut_ptr(),
            out.len(),
            &mut answer,
        )
    };
    written(&answer)
}

/// Says whether a query is well-formed and within its limits.
pub fn read_query(edition: Edition, query: &[u8]) -> Result<(), Refusal> {
    let (second, query_swu) = edition.flags();
    let mut answer = [0; 2];
    unsafe {
        raw::halofret_read_query(second, query_swu, query.as_ptr(), query.len(), &mut answer)
    };
    Refusal::check(&answer)
}

/// Whether a sign in the character set meets a query.
///
/// ```
/// use halofret::{verdict, Charset, Edition, Verdict};
///
/// let sign = b"M510x515S10000490x485S20500500x495";
/// let query = b"QS20501oS205uuS20500500x515";
/// let second = Edition::Second(Charset::Fsw);
/// let Verdict::Met(witnesses) = verdict(Charset::Fsw, second, query, sign)? else {
///     panic!("the sign has what is sought");
/// };
/// assert_eq!(witnesses[..3], [2, 2, 0]);
///
/// let refusal = verdict(Charset::Fsw, Edition::First, query, sign).unwrap_err();
/// assert_eq!((refusal.number, refusal.place), (1, 7));
/// # Ok::<(), halofret::Refusal>(())
/// ```
pub fn verdict(
    charset: Charset,
    edition: Edition,
    query: &[u8],
    text: &[u8],
) -> Result<Verdict, Refusal> {
    let (second, query_swu) = edition.flags();
    let mut answer = [0; 36];
    unsafe {
        raw::halofret_verdict(
            charset.is_swu(),
            second,
            query_swu,
            query.as_ptr(),
            query.len(),
            text.as_ptr(),
            text.len(),
            &mut answer,
        )
    };
    Refusal::check(&answer)?;
    Ok(Verdict::of(&answer))
}
