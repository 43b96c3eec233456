//! The tokens of both character sets, read one after another.
//!
//! Places follow document 01, "Refusal numbers": FSW goes byte by byte, SWU in groups
//! of four bytes. A text that ends where more was needed is 2 at its length. A wrong
//! coordinate number of FSW is 1 at its first byte (document 02, Q-5). In queries the
//! characters of SWU go byte by byte too (document 02, Q-9).

use crate::symbol::{
    four_bytes, last_code_of, Key, CHARACTER_LENGTH, FIRST_BASE, LAST_LOCATION_BASE,
    LAST_WRITING_BASE,
};
use crate::{refuse, Answer, Refusal};

pub(crate) const LEAST_NUMBER: u16 = 250;
pub(crate) const GREATEST_NUMBER: u16 = 749;

/// What the sign reader needs of a character set. Each reader steps over what it
/// read, or refuses with the place.
pub(crate) trait Tokens<'a> {
    fn over(text: &'a [u8]) -> Self;
    /// The bytes stepped over so far: where the next token begins.
    fn offset(&self) -> usize;
    fn at_end(&self) -> bool;
    /// Whether the byte here is a dash.
    fn at_dash(&self) -> bool;
    /// Steps over the mark `A` if it stands here.
    fn prefix_mark(&mut self) -> bool;
    /// A null, writing or location symbol.
    fn prefix_symbol(&mut self) -> Answer<u16>;
    /// Whether a symbol, and so no box marker, is what can be read here.
    fn at_symbol(&self) -> bool;
    /// B, L, M, R as 1, 2, 3, 4.
    fn box_marker(&mut self) -> Answer<u8>;
    fn coordinate(&mut self) -> Answer<(u16, u16)>;
    /// A writing symbol.
    fn box_symbol(&mut self) -> Answer<u16>;
    /// Refuses what follows a finished text.
    fn end(&self) -> Answer<()>;
}

/// A cursor over FSW, over a query or over a styling.
pub(crate) struct Bytes<'a> {
    text: &'a [u8],
    pub at: usize,
}

impl<'a> Bytes<'a> {
    /// A cursor that has stepped over the bytes before `at`.
    pub fn from(text: &'a [u8], at: usize) -> Bytes<'a> {
        Bytes { text, at }
    }

    pub fn peek(&self) -> Option<u8> {
        self.text.get(self.at).copied()
    }

    fn rest(&self) -> &[u8] {
        &self.text[self.at..]
    }

    /// The bytes stepped over since `start`.
    pub fn since(&self, start: usize) -> &'a [u8] {
        &self.text[start..self.at]
    }

    /// Steps over the mark if it stands here.
    pub fn mark(&mut self, mark: u8) -> bool {
        let marked = self.peek() == Some(mark);
        self.at += usize::from(marked);
        marked
    }

    /// The refusal where only `shared` bytes from here begin something well-formed.
    #[cold]
    pub fn refusal(&self, shared: usize) -> Refusal {
        let place = self.at + shared;
        let number = if place == self.text.len() { 2 } else { 1 };
        Refusal { number, place }
    }

    pub fn literal(&mut self, expected: u8) -> Answer<()> {
        if self.peek() != Some(expected) {
            return Err(self.refusal(0));
        }
        self.at += 1;
        Ok(())
    }

    /// One hex digit below the radix.
    pub fn digit(&mut self, radix: u16) -> Answer<u16> {
        match self.peek().map(digit_value) {
            Some(digit) if digit < radix => {
                self.at += 1;
                Ok(digit)
            }
            _ => Err(self.refusal(0)),
        }
    }

    /// A coordinate number. Whichever byte is wrong, the place is its first.
    pub fn number(&mut self) -> Answer<u16> {
        let number = self.numeral(10, LEAST_NUMBER, GREATEST_NUMBER);
        number.map_err(|refusal| match refusal.number {
            1 => self.refusal(0),
            _ => refusal,
        })
    }

    pub fn base(&mut self, last: u16) -> Answer<u16> {
        self.numeral(16, FIRST_BASE, last)
    }

    /// Three digits whose value lies between the two, ends included.
    fn numeral(&mut self, radix: u16, least: u16, greatest: u16) -> Answer<u16> {
        if let &[a, b, c, ..] = self.rest() {
            let value = three_digits([a, b, c], radix);
            if least <= value && value <= greatest {
                self.at += 3;
                return Ok(value);
            }
        }
        Err(self.refusal(numeral_beginning(self.rest(), radix, least, greatest)))
    }

    /// A whole key behind one test of the length; the parts say where it goes wrong.
    #[inline(always)]
    pub fn symbol(&mut self, last_base: u16) -> Answer<u16> {
        if let &[b'S', a, b, c, fill, rotation, ..] = self.rest() {
            let key = Key {
                base: three_digits([a, b, c], 16),
                fill: digit_value(fill),
                rotation: digit_value(rotation),
            };
            let based = FIRST_BASE <= key.base && key.base <= last_base;
            if based && key.fill < 6 && key.rotation < 16 {
                self.at += 6;
                return Ok(key.code());
            }
        }
        self.symbol_by_parts(last_base)
    }

    #[cold]
    fn symbol_by_parts(&mut self, last_base: u16) -> Answer<u16> {
        self.literal(b'S')?;
        let base = self.base(last_base)?;
        let fill = self.digit(6)?;
        let rotation = self.digit(16)?;
        let key = Key {
            base,
            fill,
            rotation,
        };
        Ok(key.code())
    }

    pub fn symbol_or_null(&mut self, last_base: u16) -> Answer<u16> {
        if !self.at_null_key() {
            return self.symbol(last_base);
        }
        self.null_key()?;
        Ok(0)
    }

    /// Whether null's key, and so no other, is what can be read here.
    pub fn at_null_key(&self) -> bool {
        self.rest().starts_with(b"S0")
    }

    pub fn null_key(&mut self) -> Answer<()> {
        for byte in *b"S00000" {
            self.literal(byte)?;
        }
        Ok(())
    }

    /// The code of a symbol character, between the two, ends included.
    pub fn symbol_character(&mut self, least: u16, greatest: u16) -> Answer<u16> {
        self.character(NULL_SYMBOL, least, greatest)
    }

    pub fn number_character(&mut self) -> Answer<u16> {
        let above_least = self.character(NUMBER_250, 0, GREATEST_NUMBER - LEAST_NUMBER)?;
        Ok(LEAST_NUMBER + above_least)
    }

    /// How far the character here lies after `first`, if that is from `least` to `greatest`.
    fn character(&mut self, first: u32, least: u16, greatest: u16) -> Answer<u16> {
        if let &[a, b, c, d, ..] = self.rest() {
            let distance = point([a, b, c, d]).wrapping_sub(first);
            if u32::from(least) <= distance && distance <= u32::from(greatest) {
                self.at += CHARACTER_LENGTH;
                return Ok(distance as u16);
            }
        }
        let (least, greatest) = (first + u32::from(least), first + u32::from(greatest));
        Err(self.refusal(character_beginning(self.rest(), least, greatest)))
    }
}

/// The value of a lower case hex digit, or 16, which is beyond every radix. A table, since
/// letters and digits alternate too freely for a branch to be foreseen.
const DIGIT_VALUES: [u8; 256] = {
    let mut values = [16; 256];
    let digits = b"0123456789abcdef";
    let mut value = 0;
    while value < digits.len() {
        values[digits[value] as usize] = value as u8;
        value += 1;
    }
    values
};

/// The value of a numeral, or one beyond every limit if a byte is no digit.
fn three_digits(bytes: [u8; 3], radix: u16) -> u16 {
    let [a, b, c] = bytes.map(digit_value);
    if a < radix && b < radix && c < radix {
        (a * radix + b) * radix + c
    } else {
        u16::MAX
    }
}

fn digit_value(byte: u8) -> u16 {
    DIGIT_VALUES[usize::from(byte)].into()
}

/// How many bytes begin some three-digit numeral between the two values: after each
/// digit, the values that can still follow must meet the allowed ones.
fn numeral_beginning(text: &[u8], radix: u16, least: u16, greatest: u16) -> usize {
    let mut value = 0;
    let mut span = radix * radix * radix;
    for (index, &byte) in text.iter().take(3).enumerate() {
        let digit = digit_value(byte);
        value = value * radix + digit;
        span /= radix;
        let first = value * span;
        if digit >= radix || first > greatest || first + (span - 1) < least {
            return index;
        }
    }
    text.len().min(3)
}

/// How many bytes begin some character between the two, each of four bytes. The order of such
/// characters is that of their bytes, so what begins one lies between the beginnings of the two.
#[cold]
fn character_beginning(text: &[u8], least: u32, greatest: u32) -> usize {
    let (least, greatest) = (four_bytes(least), four_bytes(greatest));
    let begins = |length: &usize| {
        let (start, last) = (&text[..*length], text[*length - 1]);
        let continues = *length == 1 || last & 0xc0 == 0x80;
        continues && least[..*length] <= *start && *start <= greatest[..*length]
    };
    let lengths = 1..=text.len().min(CHARACTER_LENGTH);
    lengths.take_while(begins).count()
}

impl<'a> Tokens<'a> for Bytes<'a> {
    fn over(text: &'a [u8]) -> Self {
        Bytes { text, at: 0 }
    }

    fn offset(&self) -> usize {
        self.at
    }

    fn at_end(&self) -> bool {
        self.at == self.text.len()
    }

    fn at_dash(&self) -> bool {
        self.peek() == Some(b'-')
    }

    fn prefix_mark(&mut self) -> bool {
        self.mark(b'A')
    }

    fn prefix_symbol(&mut self) -> Answer<u16> {
        self.symbol_or_null(LAST_LOCATION_BASE)
    }

    fn at_symbol(&self) -> bool {
        self.peek() == Some(b'S')
    }

    fn box_marker(&mut self) -> Answer<u8> {
        let marker = match self.peek() {
            Some(b'B') => 1,
            Some(b'L') => 2,
            Some(b'M') => 3,
            Some(b'R') => 4,
            _ => return Err(self.refusal(0)),
        };
        self.at += 1;
        Ok(marker)
    }

    #[inline(always)]
    fn coordinate(&mut self) -> Answer<(u16, u16)> {
        if let &[a, b, c, b'x', d, e, f, ..] = self.rest() {
            let (x, y) = (three_digits([a, b, c], 10), three_digits([d, e, f], 10));
            let on = LEAST_NUMBER..=GREATEST_NUMBER;
            if on.contains(&x) && on.contains(&y) {
                self.at += 7;
                return Ok((x, y));
            }
        }
        let x = self.number()?;
        self.literal(b'x')?;
        let y = self.number()?;
        Ok((x, y))
    }

    fn box_symbol(&mut self) -> Answer<u16> {
        self.symbol(LAST_WRITING_BASE)
    }

    fn end(&self) -> Answer<()> {
        if self.at_end() {
            Ok(())
        } else {
            refuse(1, self.at)
        }
    }
}

const MARK_A: u32 = 0x1d800;
const NUMBER_250: u32 = 0x1d80c;
const NULL_SYMBOL: u32 = 0x40000;

/// The code point of four bytes; 0, which no token is, if they are no character.
fn point(bytes: [u8; CHARACTER_LENGTH]) -> u32 {
    let bits = u32::from_be_bytes(bytes);
    if bits & 0xf8c0_c0c0 != 0xf080_8080 {
        return 0;
    }
    let high = (bits >> 24 & 7) << 18 | (bits >> 16 & 0x3f) << 12;
    high | (bits >> 8 & 0x3f) << 6 | bits & 0x3f
}

/// A cursor over SWU, where every character is a group of four bytes.
pub(crate) struct Groups<'a> {
    text: &'a [u8],
    at: usize,
}

impl Groups<'_> {
    /// The character here; 0, which no token is, for a group that is no such character.
    fn peek(&self) -> Option<u32> {
        let group = self.text.get(self.at..self.at + CHARACTER_LENGTH)?;
        Some(point(group.try_into().unwrap()))
    }

    /// How far the character here lies after `first`, if that is from `least` to `greatest`.
    fn take(&mut self, first: u32, least: u16, greatest: u16) -> Answer<u16> {
        let Some(character) = self.peek() else {
            return refuse(2, self.text.len());
        };
        let distance = character.wrapping_sub(first);
        if distance < u32::from(least) || distance > u32::from(greatest) {
            return refuse(1, self.at);
        }
        self.at += CHARACTER_LENGTH;
        Ok(distance as u16)
    }

    pub fn symbol_in(&mut self, least: u16, greatest: u16) -> Answer<u16> {
        self.take(NULL_SYMBOL, least, greatest)
    }

    fn number(&mut self) -> Answer<u16> {
        let above_least = self.take(NUMBER_250, 0, GREATEST_NUMBER - LEAST_NUMBER)?;
        Ok(LEAST_NUMBER + above_least)
    }
}

impl<'a> Tokens<'a> for Groups<'a> {
    fn over(text: &'a [u8]) -> Self {
        Groups { text, at: 0 }
    }

    fn offset(&self) -> usize {
        self.at
    }

    fn at_end(&self) -> bool {
        self.at == self.text.len()
    }

    fn at_dash(&self) -> bool {
        self.text.get(self.at) == Some(&b'-')
    }

    fn prefix_mark(&mut self) -> bool {
        self.take(MARK_A, 0, 0).is_ok()
    }

    fn prefix_symbol(&mut self) -> Answer<u16> {
        self.symbol_in(0, last_code_of(LAST_LOCATION_BASE))
    }

    fn at_symbol(&self) -> bool {
        self.peek()
            .is_some_and(|character| character >= NULL_SYMBOL)
    }

    fn box_marker(&mut self) -> Answer<u8> {
        Ok(self.take(MARK_A, 1, 4)? as u8)
    }

    fn coordinate(&mut self) -> Answer<(u16, u16)> {
        let x = self.number()?;
        let y = self.number()?;
        Ok((x, y))
    }

    fn box_symbol(&mut self) -> Answer<u16> {
        self.symbol_in(1, last_code_of(LAST_WRITING_BASE))
    }

    fn end(&self) -> Answer<()> {
        match self.text.len() - self.at {
            0 => Ok(()),
            1..=3 => refuse(2, self.text.len()),
            _ => refuse(1, self.at),
        }
    }
}
