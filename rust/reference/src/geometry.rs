//! Boxes, centres, shifting and centring (document 01, "Boxes, shifting, centring"; the centre
//! by document 02, Q-4).

use crate::sign::{read_into, write, Placed, Sign};
use crate::symbol::{base_of, LAST_CODE};
use crate::text::{GREATEST_NUMBER, LEAST_NUMBER};
use crate::{refuse, Answer, Charset};

/// Two bytes, width and height, for each code from 1.
pub const SIZE_LIST_LENGTH: usize = 2 * LAST_CODE as usize;

/// Least x and y of some symbols, and greatest x + width and y + height.
#[derive(Clone, Copy, Debug, PartialEq, Eq)]
pub struct Bounds {
    pub left: u16,
    pub top: u16,
    pub right: u16,
    pub bottom: u16,
}

impl Bounds {
    fn grow(self, other: Bounds) -> Bounds {
        Bounds {
            left: self.left.min(other.left),
            top: self.top.min(other.top),
            right: self.right.max(other.right),
            bottom: self.bottom.max(other.bottom),
        }
    }
}

/// The boxes of a sign that has a symbol.
#[derive(Clone, Copy, Debug, PartialEq, Eq)]
pub struct Boxes {
    pub head: Option<Bounds>,
    pub head_and_trunk: Option<Bounds>,
    pub all: Bounds,
}

impl Boxes {
    /// Twice the centre, x then y: whole numbers. The head serves x, and head with trunk y.
    pub fn doubled_centre(&self) -> (u16, u16) {
        let across = self.head.unwrap_or(self.all);
        let down = self.head_and_trunk.unwrap_or(self.all);
        (across.left + across.right, down.top + down.bottom)
    }

    pub fn centre(&self) -> (f32, f32) {
        let (x, y) = self.doubled_centre();
        (f32::from(x) * 0.5, f32::from(y) * 0.5)
    }
}

pub fn boxes(charset: Charset, text: &[u8], sizes: &[u8]) -> Answer<Boxes> {
    let mut sign = Sign::EMPTY;
    read_into(charset, text, &mut sign)?;
    measure(&sign, sizes)
}

fn measure(sign: &Sign, sizes: &[u8]) -> Answer<Boxes> {
    if sizes.len() != SIZE_LIST_LENGTH {
        return refuse(7, 0);
    }
    let (mut head, mut head_and_trunk, mut all) = (None, None, None);
    for (index, symbol) in sign.symbols().iter().enumerate() {
        let Some(bounds) = bounds_of(symbol, sizes) else {
            return refuse(8, index + 1);
        };
        let base = base_of(symbol.code);
        if (0x2ff..=0x36c).contains(&base) {
            grow(&mut head, bounds);
        }
        if (0x2ff..=0x375).contains(&base) {
            grow(&mut head_and_trunk, bounds);
        }
        grow(&mut all, bounds);
    }
    match all {
        None => refuse(9, 0),
        Some(all) => Ok(Boxes {
            head,
            head_and_trunk,
            all,
        }),
    }
}

/// None where the size list has no glyph for the symbol.
fn bounds_of(symbol: &Placed, sizes: &[u8]) -> Option<Bounds> {
    let at = 2 * (usize::from(symbol.code) - 1);
    let (width, height) = (u16::from(sizes[at]), u16::from(sizes[at + 1]));
    let bounds = Bounds {
        left: symbol.x,
        top: symbol.y,
        right: symbol.x + width,
        bottom: symbol.y + height,
    };
    (width > 0 && height > 0).then_some(bounds)
}

fn grow(group: &mut Option<Bounds>, bounds: Bounds) {
    *group = Some(match *group {
        None => bounds,
        Some(before) => before.grow(bounds),
    });
}

/// Moves all coordinates and the stated maximum, and answers the length written.
pub fn shift(charset: Charset, text: &[u8], dx: i32, dy: i32, out: &mut [u8]) -> Answer<usize> {
    let mut sign = Sign::EMPTY;
    read_into(charset, text, &mut sign)?;
    let maximum = sign.maximum;
    write_moved(charset, &mut sign, maximum, (dx.into(), dy.into()), out)
}

/// Moves the centre, rounded down, to 500 by 500; the stated maximum becomes that of
/// the moved box. Answers the length written.
pub fn centred(charset: Charset, text: &[u8], sizes: &[u8], out: &mut [u8]) -> Answer<usize> {
    let mut sign = Sign::EMPTY;
    read_into(charset, text, &mut sign)?;
    let boxes = measure(&sign, sizes)?;
    let (x, y) = boxes.doubled_centre();
    let by = (500 - i64::from(x / 2), 500 - i64::from(y / 2));
    let maximum = (boxes.all.right, boxes.all.bottom);
    write_moved(charset, &mut sign, maximum, by, out)
}

/// A moved number keeps its length, so the sign's offsets hold in the text written too.
fn write_moved(
    charset: Charset,
    sign: &mut Sign,
    maximum: (u16, u16),
    by: (i64, i64),
    out: &mut [u8],
) -> Answer<usize> {
    sign.maximum = (moved(maximum.0, by.0)?, moved(maximum.1, by.1)?);
    for symbol in sign.symbols_mut() {
        symbol.x = moved(symbol.x, by.0)?;
        symbol.y = moved(symbol.y, by.1)?;
    }
    write(charset, sign, out)
}

/// The moved number, if it can be written.
fn moved(number: u16, by: i64) -> Answer<u16> {
    let sum = i64::from(number) + by;
    if sum < i64::from(LEAST_NUMBER) || sum > i64::from(GREATEST_NUMBER) {
        return refuse(10, 0);
    }
    Ok(sum as u16)
}
