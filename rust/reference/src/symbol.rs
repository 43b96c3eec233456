//! Symbol codes, keys and characters (document 01, "Symbols and numbers").

use crate::text::{Bytes, Groups, Tokens};
use crate::{refuse, Answer};

/// The code of `S38b5f`. Code 0 is the null symbol.
pub const LAST_CODE: u16 = 62_592;

pub(crate) const FIRST_BASE: u16 = 0x100;
/// Writing symbols, which may stand in a signbox, end here.
pub(crate) const LAST_WRITING_BASE: u16 = 0x37e;
/// Location symbols, which may stand in a prefix too, end here.
pub(crate) const LAST_LOCATION_BASE: u16 = 0x386;
/// Punctuation, and with it all symbols, end here.
pub(crate) const LAST_BASE: u16 = 0x38b;

const CODES_A_BASE: u16 = 96;
const KEY_LENGTH: usize = 6;
pub(crate) const CHARACTER_LENGTH: usize = 4;

/// A symbol in its three parts.
#[derive(Clone, Copy, Debug, PartialEq, Eq)]
pub(crate) struct Key {
    pub base: u16,
    pub fill: u16,
    pub rotation: u16,
}

impl Key {
    pub fn code(self) -> u16 {
        first_code_of(self.base) + self.fill * 16 + self.rotation
    }

    /// The key of a code other than null's.
    pub fn of(code: u16) -> Key {
        let index = code - 1;
        Key {
            base: base_of(code),
            fill: index % CODES_A_BASE / 16,
            rotation: rotation_of(code),
        }
    }
}

/// The rotation of a code other than null's.
pub(crate) fn rotation_of(code: u16) -> u16 {
    (code - 1) % 16
}

/// The base of a code other than null's.
pub(crate) fn base_of(code: u16) -> u16 {
    FIRST_BASE + (code - 1) / CODES_A_BASE
}

/// The first code of a base.
pub(crate) const fn first_code_of(base: u16) -> u16 {
    (base - FIRST_BASE) * CODES_A_BASE + 1
}

/// The last code of a base.
pub(crate) const fn last_code_of(base: u16) -> u16 {
    (base - FIRST_BASE + 1) * CODES_A_BASE
}

pub fn key_to_code(key: &[u8]) -> Answer<u16> {
    let mut bytes = Bytes::over(key);
    let code = bytes.symbol_or_null(LAST_BASE)?;
    bytes.end()?;
    Ok(code)
}

pub fn char_to_code(character: &[u8]) -> Answer<u16> {
    let mut groups = Groups::over(character);
    let code = groups.symbol_in(0, LAST_CODE)?;
    groups.end()?;
    Ok(code)
}

/// Writes the key and answers its length.
pub fn code_to_key(code: u64, out: &mut [u8]) -> Answer<usize> {
    let code = checked(code)?;
    let Some(place) = out.get_mut(..KEY_LENGTH) else {
        return refuse(6, KEY_LENGTH);
    };
    place.copy_from_slice(&key_bytes(code));
    Ok(KEY_LENGTH)
}

/// Writes the character and answers its length.
pub fn code_to_char(code: u64, out: &mut [u8]) -> Answer<usize> {
    let code = checked(code)?;
    let Some(place) = out.get_mut(..CHARACTER_LENGTH) else {
        return refuse(6, CHARACTER_LENGTH);
    };
    place.copy_from_slice(&character_bytes(code));
    Ok(CHARACTER_LENGTH)
}

fn checked(code: u64) -> Answer<u16> {
    match u16::try_from(code) {
        Ok(code) if code <= LAST_CODE => Ok(code),
        _ => refuse(15, 0),
    }
}

pub(crate) fn key_bytes(code: u16) -> [u8; KEY_LENGTH] {
    if code == 0 {
        return *b"S00000";
    }
    let key = Key::of(code);
    [
        b'S',
        hex(key.base >> 8),
        hex(key.base >> 4 & 15),
        hex(key.base & 15),
        hex(key.fill),
        hex(key.rotation),
    ]
}

fn hex(digit: u16) -> u8 {
    let digit = digit as u8;
    if digit < 10 {
        b'0' + digit
    } else {
        b'a' + digit - 10
    }
}

/// Symbols start at U+40000.
pub(crate) fn character_bytes(code: u16) -> [u8; CHARACTER_LENGTH] {
    four_bytes(0x40000 + u32::from(code))
}

/// The UTF-8 form of a code point above U+FFFF (RFC 3629).
pub(crate) fn four_bytes(point: u32) -> [u8; CHARACTER_LENGTH] {
    [
        0xf0 | (point >> 18) as u8,
        0x80 | (point >> 12 & 0x3f) as u8,
        0x80 | (point >> 6 & 0x3f) as u8,
        0x80 | (point & 0x3f) as u8,
    ]
}
