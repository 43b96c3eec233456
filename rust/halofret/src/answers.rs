//! What the calls answer, taken from the numbers of the C interface.

/// A signbox symbol at its coordinate. Two are equal only if their offsets are.
#[derive(Clone, Copy, Debug, PartialEq, Eq)]
pub struct Placed {
    /// From 1 to 61,344: a writing symbol.
    pub code: u16,
    /// From 250 to 749, as read.
    pub x: u16,
    /// From 250 to 749, as read.
    pub y: u16,
    /// The byte offset in the text where its key, in SWU its character, begins.
    pub offset: u16,
}

const PREFIX: usize = 5;
const CODES: usize = PREFIX + 32;
const XS: usize = CODES + 64;
const YS: usize = XS + 64;
const PREFIX_OFFSETS: usize = YS + 64;
const SYMBOL_OFFSETS: usize = PREFIX_OFFSETS + 32;
const RECORD: usize = SYMBOL_OFFSETS + 64;

/// A sign that was read, kept as the C interface wrote it.
///
/// Offsets are part of it, and the first symbol stands at 1 or 8 in FSW but at 4 or 12 in SWU:
/// signs that have a symbol are equal only within one character set.
/// [`Sign::equals_but_offsets`] compares signs of both.
#[derive(Clone, Debug, PartialEq, Eq)]
pub struct Sign {
    record: [u16; RECORD],
}

impl Default for Sign {
    fn default() -> Sign {
        Sign {
            record: [0; RECORD],
        }
    }
}

impl Sign {
    pub(crate) fn record_mut(&mut self) -> &mut [u16; RECORD] {
        &mut self.record
    }

    /// `B`, `L`, `M` or `R`.
    pub fn marker(&self) -> char {
        ['-', 'B', 'L', 'M', 'R'][usize::from(self.record[0])]
    }

    /// The stated maximum, as read.
    pub fn maximum(&self) -> (u16, u16) {
        (self.record[1], self.record[2])
    }

    /// The codes of the prefix; 0 is the null symbol.
    pub fn prefix(&self) -> &[u16] {
        &self.record[PREFIX..][..usize::from(self.record[3])]
    }

    /// For each symbol of the prefix the byte offset in the text where its key, in SWU its
    /// character, begins.
    pub fn prefix_offsets(&self) -> &[u16] {
        &self.record[PREFIX_OFFSETS..][..usize::from(self.record[3])]
    }

    /// The signbox symbols in overlap order.
    pub fn symbols(&self) -> impl ExactSizeIterator<Item = Placed> + '_ {
        (0..usize::from(self.record[4])).map(|index| Placed {
            code: self.record[CODES + index],
            x: self.record[XS + index],
            y: self.record[YS + index],
            offset: self.record[SYMBOL_OFFSETS + index],
        })
    }

    /// Whether the two are equal in all but offsets, as a sign and its transcription are.
    pub fn equals_but_offsets(&self, other: &Sign) -> bool {
        self.record[..PREFIX_OFFSETS] == other.record[..PREFIX_OFFSETS]
    }
}

/// Least x and y of some symbols, and greatest x + width and y + height.
#[derive(Clone, Copy, Debug, PartialEq, Eq)]
pub struct Bounds {
    /// The least x.
    pub left: u16,
    /// The least y.
    pub top: u16,
    /// The greatest x + width.
    pub right: u16,
    /// The greatest y + height.
    pub bottom: u16,
}

impl Bounds {
    /// From the five numbers of a group: present, left, top, right, bottom.
    fn of(group: &[u64]) -> Bounds {
        Bounds {
            left: group[1] as u16,
            top: group[2] as u16,
            right: group[3] as u16,
            bottom: group[4] as u16,
        }
    }

    fn if_present(group: &[u64]) -> Option<Bounds> {
        (group[0] == 1).then(|| Bounds::of(group))
    }
}

/// The boxes and the centre of a sign that has a symbol.
#[derive(Clone, Copy, Debug, PartialEq)]
pub struct Boxes {
    /// The box of the head symbols, if there is one.
    pub head: Option<Bounds>,
    /// The box of the head and trunk symbols, if there is one.
    pub head_and_trunk: Option<Bounds>,
    /// The box of all symbols.
    pub all: Bounds,
    centre: (f32, f32),
    doubled_centre: (u16, u16),
}

impl Boxes {
    pub(crate) fn of(answer: &[u64; 19], centre: [f32; 2]) -> Boxes {
        Boxes {
            head: Bounds::if_present(&answer[2..7]),
            head_and_trunk: Bounds::if_present(&answer[7..12]),
            all: Bounds::of(&answer[12..17]),
            centre: (centre[0], centre[1]),
            doubled_centre: (answer[17] as u16, answer[18] as u16),
        }
    }

    /// The centre: x is the middle of the head box, y that of the box of head and trunk; each
    /// that of the box of all symbols where its own is absent.
    pub fn centre(&self) -> (f32, f32) {
        self.centre
    }

    /// Twice the centre, a whole number on each axis.
    pub fn doubled_centre(&self) -> (u16, u16) {
        self.doubled_centre
    }
}

/// Whether a sign meets a query.
#[derive(Clone, Copy, Debug, PartialEq, Eq)]
pub enum Verdict {
    /// For each signbox item its first fitting symbol, from 1; then zeros.
    Met([u8; 32]),
    /// The first condition that does not hold: 0 is the prefix, then the signbox items.
    Unmet(usize),
}

impl Verdict {
    pub(crate) fn of(answer: &[u64; 36]) -> Verdict {
        if answer[2] == 0 {
            return Verdict::Unmet(answer[3] as usize);
        }
        let mut witnesses = [0; 32];
        for (witness, &symbol) in witnesses.iter_mut().zip(&answer[4..]) {
            *witness = symbol as u8;
        }
        Verdict::Met(witnesses)
    }
}

/// The counts of a search.
#[derive(Clone, Copy, Debug, PartialEq, Eq)]
pub struct Searched {
    /// How many lines the dictionary has.
    pub lines: usize,
    /// How many of them meet the query: their entries come first in the list.
    pub written: usize,
}

/// The counts of a narrowing call: together the count that it was given.
#[derive(Clone, Copy, Debug, PartialEq, Eq)]
pub struct Narrowed {
    /// How many entries meet the query: they come first in the list.
    pub kept: usize,
    /// How many do not: as many zeros follow.
    pub dropped: usize,
}

/// A line and where it lies.
#[derive(Clone, Copy, Debug, PartialEq, Eq)]
pub struct Fetched<'a> {
    /// Whether the second dictionary holds it, and not the first.
    pub in_second: bool,
    /// Where it starts there.
    pub start: usize,
    /// The line without its byte 10, as a part of its dictionary.
    pub line: &'a [u8],
}
