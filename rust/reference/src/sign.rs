//! A sign: reading, writing, transcription (document 01, "A sign"; offsets by
//! document 02, Q-8).

use crate::symbol::{character_bytes, four_bytes, key_bytes};
use crate::text::{Bytes, Groups, Tokens, LEAST_NUMBER};
use crate::{refuse, Answer, Charset};

pub const MOST_PREFIX: usize = 32;
pub const MOST_SYMBOLS: usize = 64;

/// By number; an empty sign has none.
const MARKERS: &[u8; 5] = b"-BLMR";

/// A signbox symbol at its coordinate.
#[derive(Clone, Copy, Debug, PartialEq, Eq)]
pub struct Placed {
    pub code: u16,
    pub x: u16,
    pub y: u16,
    /// Where its key, in SWU its character, begins in the text.
    pub offset: u16,
}

/// A sign that was read. Places of the arrays beyond the counts are not part of it.
#[derive(Clone, Debug)]
pub struct Sign {
    /// B, L, M, R as 1, 2, 3, 4.
    marker: u8,
    pub(crate) maximum: (u16, u16),
    prefix: [u16; MOST_PREFIX],
    prefix_offsets: [u16; MOST_PREFIX],
    prefix_count: usize,
    symbols: [Placed; MOST_SYMBOLS],
    symbol_count: usize,
}

impl Sign {
    pub const EMPTY: Sign = Sign {
        marker: 0,
        maximum: (0, 0),
        prefix: [0; MOST_PREFIX],
        prefix_offsets: [0; MOST_PREFIX],
        prefix_count: 0,
        symbols: [Placed {
            code: 0,
            x: 0,
            y: 0,
            offset: 0,
        }; MOST_SYMBOLS],
        symbol_count: 0,
    };

    pub fn marker(&self) -> char {
        char::from(MARKERS[usize::from(self.marker)])
    }

    /// The stated maximum, as read.
    pub fn maximum(&self) -> (u16, u16) {
        self.maximum
    }

    pub fn prefix(&self) -> &[u16] {
        &self.prefix[..self.prefix_count]
    }

    /// Where the keys of the prefix, in SWU its characters, begin in the text.
    pub fn prefix_offsets(&self) -> &[u16] {
        &self.prefix_offsets[..self.prefix_count]
    }

    pub fn symbols(&self) -> &[Placed] {
        &self.symbols[..self.symbol_count]
    }

    pub(crate) fn symbols_mut(&mut self) -> &mut [Placed] {
        &mut self.symbols[..self.symbol_count]
    }
}

pub fn read(charset: Charset, text: &[u8]) -> Answer<Sign> {
    let mut sign = Sign::EMPTY;
    read_into(charset, text, &mut sign)?;
    Ok(sign)
}

/// Reads over an older sign, so that a dictionary is read into one record. What a refusal
/// leaves there is no sign.
pub fn read_into(charset: Charset, text: &[u8], sign: &mut Sign) -> Answer<()> {
    let counts = match charset {
        Charset::Fsw => read_tokens(&mut Bytes::over(text), sign, Tokens::at_end)?,
        Charset::Swu => read_tokens(&mut Groups::over(text), sign, Tokens::at_end)?,
    };
    counts.check(sign)
}

/// How many symbols a text has, those over the limits too.
pub(crate) struct Counts {
    prefix: usize,
    symbols: usize,
}

impl Counts {
    /// The limits come after the whole text, so that a later wrong byte is still the answer.
    pub fn check(self, sign: &mut Sign) -> Answer<()> {
        if self.prefix > MOST_PREFIX {
            return refuse(3, 0);
        }
        if self.symbols > MOST_SYMBOLS {
            return refuse(4, 0);
        }
        sign.prefix_count = self.prefix;
        sign.symbol_count = self.symbols;
        Ok(())
    }
}

/// Reads symbols until the sign has ended. A symbol too many is counted, not stored. An offset
/// is cut to 16 bits, which hold those of every sign within the limits.
pub(crate) fn read_tokens<'a, T: Tokens<'a>>(
    tokens: &mut T,
    sign: &mut Sign,
    has_ended: impl Fn(&T) -> bool,
) -> Answer<Counts> {
    let mut prefix = 0;
    if tokens.prefix_mark() {
        while prefix == 0 || tokens.at_symbol() {
            let offset = tokens.offset();
            let code = tokens.prefix_symbol()?;
            if prefix < MOST_PREFIX {
                sign.prefix[prefix] = code;
                sign.prefix_offsets[prefix] = offset as u16;
            }
            prefix += 1;
        }
    }
    sign.marker = tokens.box_marker()?;
    sign.maximum = tokens.coordinate()?;
    let mut symbols = 0;
    while !has_ended(tokens) {
        let offset = tokens.offset();
        let code = tokens.box_symbol()?;
        let (x, y) = tokens.coordinate()?;
        if let Some(place) = sign.symbols.get_mut(symbols) {
            let offset = offset as u16;
            *place = Placed { code, x, y, offset };
        }
        symbols += 1;
    }
    Ok(Counts { prefix, symbols })
}

/// Writes the sign in the other character set and answers the length.
pub fn transcribe(charset: Charset, text: &[u8], out: &mut [u8]) -> Answer<usize> {
    let mut sign = Sign::EMPTY;
    read_into(charset, text, &mut sign)?;
    write(charset.other(), &sign, out)
}

/// Writes at the start of the output, if there is room, and answers the length.
pub(crate) fn write(charset: Charset, sign: &Sign, out: &mut [u8]) -> Answer<usize> {
    let needed = written_length(charset, sign);
    let Some(out) = out.get_mut(..needed) else {
        return refuse(6, needed);
    };
    match charset {
        Charset::Fsw => write_fsw(sign, Output { rest: out }),
        Charset::Swu => write_swu(sign, Output { rest: out }),
    }
    Ok(needed)
}

pub(crate) fn written_length(charset: Charset, sign: &Sign) -> usize {
    let (mark, symbol, coordinate) = match charset {
        Charset::Fsw => (1, 6, 7),
        Charset::Swu => (4, 4, 8),
    };
    let prefix = match sign.prefix_count {
        0 => 0,
        count => mark + count * symbol,
    };
    prefix + mark + coordinate + sign.symbol_count * (symbol + coordinate)
}

/// What is left to be written.
struct Output<'a> {
    rest: &'a mut [u8],
}

impl Output<'_> {
    fn put<const N: usize>(&mut self, bytes: [u8; N]) {
        let (here, rest) = std::mem::take(&mut self.rest).split_at_mut(N);
        here.copy_from_slice(&bytes);
        self.rest = rest;
    }
}

fn write_fsw(sign: &Sign, mut out: Output) {
    if sign.prefix_count > 0 {
        out.put([b'A']);
    }
    for &code in sign.prefix() {
        out.put(key_bytes(code));
    }
    out.put([MARKERS[usize::from(sign.marker)]]);
    out.put(fsw_coordinate(sign.maximum.0, sign.maximum.1));
    for symbol in sign.symbols() {
        out.put(key_bytes(symbol.code));
        out.put(fsw_coordinate(symbol.x, symbol.y));
    }
}

fn fsw_coordinate(x: u16, y: u16) -> [u8; 7] {
    let digit = |number: u16| b'0' + (number % 10) as u8;
    [
        digit(x / 100),
        digit(x / 10),
        digit(x),
        b'x',
        digit(y / 100),
        digit(y / 10),
        digit(y),
    ]
}

fn write_swu(sign: &Sign, mut out: Output) {
    let mark = |marker: u8| four_bytes(0x1d800 + u32::from(marker));
    let number = |value: u16| four_bytes(0x1d80c + u32::from(value - LEAST_NUMBER));
    if sign.prefix_count > 0 {
        out.put(mark(0));
    }
    for &code in sign.prefix() {
        out.put(character_bytes(code));
    }
    out.put(mark(sign.marker));
    out.put(number(sign.maximum.0));
    out.put(number(sign.maximum.1));
    for symbol in sign.symbols() {
        out.put(character_bytes(symbol.code));
        out.put(number(symbol.x));
        out.put(number(symbol.y));
    }
}
