//! Styling strings, and signs that have one (document 001, section 2.5; document 02, Q-1).
//!
//! A styling is ASCII in both character sets, and its places go byte by byte. It begins with the
//! dash after a whole sign.

use crate::sign::{read_tokens, write, written_length, Counts, Sign};
use crate::text::{Bytes, Groups, Tokens};
use crate::{refuse, Answer, Charset};

pub const LONGEST_NAME: usize = 24;
pub const MOST_STYLES: usize = 64;
/// The greatest zoom in hundredths; the least is 1.
pub const MOST_ZOOM: u32 = 9_999;

/// The colours of lines and of what they enclose, as spelled: letters, or 3 or 6 hex digits.
#[derive(Clone, Copy, Debug, PartialEq, Eq)]
pub struct Detail<'a> {
    pub line: &'a [u8],
    pub fill: Option<&'a [u8]>,
}

/// What one signbox symbol is given. No symbol need have that number.
#[derive(Clone, Copy, Debug, PartialEq, Eq)]
pub enum SymbolStyle<'a> {
    Detail { symbol: u8, detail: Detail<'a> },
    Zoom { symbol: u8, hundredths: u16 },
}

/// A styling that was read; its colours are parts of the text.
#[derive(Clone, Debug)]
pub struct Styling<'a> {
    pub colorize: bool,
    pub padding: Option<u8>,
    pub background: Option<&'a [u8]>,
    pub detail: Option<Detail<'a>>,
    /// In hundredths.
    pub zoom: Option<u16>,
    symbols: [SymbolStyle<'a>; MOST_STYLES],
    symbol_count: usize,
}

impl<'a> Styling<'a> {
    pub const EMPTY: Styling<'static> = Styling {
        colorize: false,
        padding: None,
        background: None,
        detail: None,
        zoom: None,
        symbols: [SymbolStyle::Zoom {
            symbol: 0,
            hundredths: 0,
        }; MOST_STYLES],
        symbol_count: 0,
    };

    /// The symbol styles in their order, repeats too.
    pub fn symbols(&self) -> &[SymbolStyle<'a>] {
        &self.symbols[..self.symbol_count]
    }

    /// A style too many is counted, not stored.
    fn add(&mut self, style: SymbolStyle<'a>) {
        if let Some(place) = self.symbols.get_mut(self.symbol_count) {
            *place = style;
        }
        self.symbol_count += 1;
    }
}

pub fn read_styled(charset: Charset, text: &[u8]) -> Answer<(Sign, Styling<'_>)> {
    let (mut sign, mut styling) = (Sign::EMPTY, Styling::EMPTY);
    read_styled_into(charset, text, &mut sign, &mut styling)?;
    Ok((sign, styling))
}

/// Reads into an empty sign and an empty styling. What a refusal leaves there is neither.
pub fn read_styled_into<'a>(
    charset: Charset,
    text: &'a [u8],
    sign: &mut Sign,
    styling: &mut Styling<'a>,
) -> Answer<()> {
    read_to_end(charset, text, sign, styling)?;
    Ok(())
}

/// Reads both and answers where the styling begins.
fn read_to_end<'a>(
    charset: Charset,
    text: &'a [u8],
    sign: &mut Sign,
    styling: &mut Styling<'a>,
) -> Answer<usize> {
    let (counts, dash) = match charset {
        Charset::Fsw => read_to_dash(Bytes::over(text), sign)?,
        Charset::Swu => read_to_dash(Groups::over(text), sign)?,
    };
    read_styling(Bytes::from(text, dash), styling)?;
    counts.check(sign)?;
    Ok(dash)
}

/// Reads a sign that a dash must follow, and answers where the dash is.
fn read_to_dash<'a, T: Tokens<'a>>(mut tokens: T, sign: &mut Sign) -> Answer<(Counts, usize)> {
    let counts = read_tokens(&mut tokens, sign, T::at_dash)?;
    Ok((counts, tokens.offset()))
}

/// Reads a styling from its dash to the end of the text.
pub(crate) fn read_styling<'a>(bytes: Bytes<'a>, styling: &mut Styling<'a>) -> Answer<()> {
    let mut reader = Reader {
        bytes,
        zoom_refused: false,
        name_refused: false,
    };
    reader.whole_sign(styling)?;
    if reader.bytes.mark(b'-') {
        reader.each_symbol(styling)?;
    }
    reader.bytes.end()?;
    if reader.zoom_refused {
        return refuse(17, 0);
    }
    if reader.name_refused {
        return refuse(18, 0);
    }
    if styling.symbol_count > MOST_STYLES {
        return refuse(19, 0);
    }
    Ok(())
}

/// Reads on after a zoom or a name that is refused, since a later wrong byte comes first.
struct Reader<'a> {
    bytes: Bytes<'a>,
    zoom_refused: bool,
    name_refused: bool,
}

impl<'a> Reader<'a> {
    fn whole_sign(&mut self, styling: &mut Styling<'a>) -> Answer<()> {
        self.bytes.literal(b'-')?;
        styling.colorize = self.bytes.mark(b'C');
        if self.bytes.mark(b'P') {
            styling.padding = Some(self.two_digits()?);
        }
        if self.bytes.mark(b'G') {
            self.bytes.literal(b'_')?;
            styling.background = Some(self.colour()?);
            self.bytes.literal(b'_')?;
        }
        if self.bytes.mark(b'D') {
            styling.detail = Some(self.detail()?);
        }
        if self.bytes.mark(b'Z') {
            styling.zoom = Some(self.zoom()?);
        }
        Ok(())
    }

    /// All colours stand before all zooms.
    fn each_symbol(&mut self, styling: &mut Styling<'a>) -> Answer<()> {
        while self.bytes.mark(b'D') {
            let symbol = self.two_digits()?;
            let detail = self.detail()?;
            styling.add(SymbolStyle::Detail { symbol, detail });
        }
        while self.bytes.mark(b'Z') {
            let symbol = self.two_digits()?;
            self.bytes.literal(b',')?;
            let hundredths = self.zoom()?;
            styling.add(SymbolStyle::Zoom { symbol, hundredths });
        }
        Ok(())
    }

    fn two_digits(&mut self) -> Answer<u8> {
        let tens = self.bytes.digit(10)?;
        let ones = self.bytes.digit(10)?;
        Ok((tens * 10 + ones) as u8)
    }

    fn detail(&mut self) -> Answer<Detail<'a>> {
        self.bytes.literal(b'_')?;
        let line = self.colour()?;
        let fill = match self.bytes.mark(b',') {
            true => Some(self.colour()?),
            false => None,
        };
        self.bytes.literal(b'_')?;
        Ok(Detail { line, fill })
    }

    /// Goes on while the bytes can begin a name or a hex colour, and refuses what is neither.
    fn colour(&mut self) -> Answer<&'a [u8]> {
        let start = self.bytes.at;
        let (mut name, mut hex) = (true, true);
        while let Some(byte) = self.bytes.peek() {
            let still_name = name && byte.is_ascii_alphabetic();
            let still_hex = hex && byte.is_ascii_hexdigit() && self.bytes.at - start < 6;
            if !still_name && !still_hex {
                break;
            }
            (name, hex) = (still_name, still_hex);
            self.bytes.at += 1;
        }
        let colour = self.bytes.since(start);
        let length = colour.len();
        if length == 0 || !name && length != 3 && length != 6 {
            return Err(self.bytes.refusal(0));
        }
        self.name_refused |= length > LONGEST_NAME;
        Ok(colour)
    }

    /// In hundredths, cut to 16 bits where it is refused.
    fn zoom(&mut self) -> Answer<u16> {
        let whole = self.digits()?;
        let decimals = match self.bytes.mark(b'.') {
            true => self.digits()?,
            false => &[],
        };
        let hundredths = hundredths(whole, decimals);
        self.zoom_refused |= decimals.len() > 2 || !(1..=MOST_ZOOM).contains(&hundredths);
        Ok(hundredths as u16)
    }

    /// One digit or more.
    fn digits(&mut self) -> Answer<&'a [u8]> {
        let start = self.bytes.at;
        self.bytes.digit(10)?;
        while self.bytes.peek().is_some_and(|byte| byte.is_ascii_digit()) {
            self.bytes.at += 1;
        }
        Ok(self.bytes.since(start))
    }
}

/// A hundred times the number, by its first two decimals. A whole part over 100 counts as 100,
/// which is already too much, so that any number of digits can be taken.
fn hundredths(whole: &[u8], decimals: &[u8]) -> u32 {
    let digit = |byte: u8| u32::from(byte - b'0');
    let whole = whole
        .iter()
        .fold(0, |value, &byte| (value * 10 + digit(byte)).min(100));
    let decimal = |index: usize| decimals.get(index).map_or(0, |&byte| digit(byte));
    whole * 100 + decimal(0) * 10 + decimal(1)
}

/// Writes the sign in the other character set and after it the styling's bytes as they are;
/// answers the length.
pub fn transcribe_styled(charset: Charset, text: &[u8], out: &mut [u8]) -> Answer<usize> {
    let (mut sign, mut styling) = (Sign::EMPTY, Styling::EMPTY);
    let dash = read_to_end(charset, text, &mut sign, &mut styling)?;
    let styling = &text[dash..];
    let sign_length = written_length(charset.other(), &sign);
    let needed = sign_length + styling.len();
    let Some(out) = out.get_mut(..needed) else {
        return refuse(6, needed);
    };
    write(charset.other(), &sign, out)?;
    out[sign_length..].copy_from_slice(styling);
    Ok(needed)
}
