//! Stylings, and how they lie in the numbers of the C interface.

use crate::raw::HALOFRET_STYLING;
use crate::Refusal;

/// A styling as the C interface has it; `include/halofret.h` names its places.
pub type StylingRecord = [u16; HALOFRET_STYLING];

/// The bytes of the longest text that is written for a styling.
pub const LONGEST_STYLING: usize = 3_547;

/// How a sign is to look: what stands after it from a dash on.
///
/// Any value can be made. One that no text reads as, such as a colour of 25 letters or a zoom of
/// 0, is refused by [`write_styling`](crate::write_styling) as 1 at 0.
///
/// ```
/// use halofret::{write_styling, Detail, Styling, SymbolStyle, Zoom};
///
/// let red = Detail { line: "red".into(), fill: None };
/// let styling = Styling {
///     colorize: true,
///     background: Some("lightblue".into()),
///     zoom: Some(Zoom { hundredths: 150 }),
///     symbols: vec![SymbolStyle::Detail { symbol: 1, detail: red }],
///     ..Styling::default()
/// };
/// let mut out = [0; 100];
/// let length = write_styling(&styling, &mut out)?;
/// assert_eq!(&out[..length], b"-CG_lightblue_Z1.5-D01_red_");
/// # Ok::<(), halofret::Refusal>(())
/// ```
#[derive(Clone, Debug, Default, PartialEq, Eq)]
pub struct Styling {
    /// Whether each symbol has the colour of its class.
    pub colorize: bool,
    /// The space around the sign, from 0 to 99.
    pub padding: Option<u8>,
    /// A colour name of at most 24 letters, or 3 or 6 hex digits, as spelled.
    pub background: Option<String>,
    /// The colours of all symbols.
    pub detail: Option<Detail>,
    /// The size of the sign.
    pub zoom: Option<Zoom>,
    /// What single symbols are given, colours before zooms; at most 64.
    pub symbols: Vec<SymbolStyle>,
}

/// The colours of a symbol, each spelled as a background is.
#[derive(Clone, Debug, PartialEq, Eq)]
pub struct Detail {
    /// The colour of its lines.
    pub line: String,
    /// The colour of what they enclose.
    pub fill: Option<String>,
}

/// How many times larger than usual.
#[derive(Clone, Copy, Debug, PartialEq, Eq, PartialOrd, Ord)]
pub struct Zoom {
    /// From 1 to 9,999.
    pub hundredths: u16,
}

/// What one symbol is given.
#[derive(Clone, Debug, PartialEq, Eq)]
pub enum SymbolStyle {
    /// Its colours.
    Detail {
        /// Which symbol of the signbox, from 1; any two digits are taken, whatever the sign has.
        symbol: u8,
        /// Its colours.
        detail: Detail,
    },
    /// Its size.
    Zoom {
        /// Which symbol of the signbox, as above.
        symbol: u8,
        /// Its size.
        zoom: Zoom,
    },
}

const COLORIZE: usize = 0;
const PADDING: usize = 1;
const ZOOM: usize = 2;
const DETAIL_COUNT: usize = 3;
const STYLE_COUNT: usize = 4;
const BACKGROUND: usize = 5;
const DETAIL: usize = BACKGROUND + COLOUR_LENGTH;
const STYLES: usize = DETAIL + 2 * COLOUR_LENGTH;

/// A colour is its length and 24 bytes.
const COLOUR_LENGTH: usize = 25;

/// A symbol style is kind, symbol and zoom, then two colours.
const STYLE_LENGTH: usize = STYLE_DETAIL + 2 * COLOUR_LENGTH;
const STYLE_DETAIL: usize = 3;
const MOST_STYLES: usize = 64;
const KIND_DETAIL: u16 = 1;
const KIND_ZOOM: u16 = 2;

/// What writing answers for a record that no styling reads as.
const NO_RECORD: Refusal = Refusal {
    number: 1,
    place: 0,
};

impl Styling {
    /// The numbers of the C interface.
    ///
    /// What they cannot hold is refused here as 1 at 0, as the library refuses a bad record: a
    /// colour that is empty or over 24 bytes, a zoom of 0, over 64 symbol styles. All else is
    /// left to the library to judge.
    pub fn record(&self) -> Result<StylingRecord, Refusal> {
        if self.symbols.len() > MOST_STYLES {
            return Err(NO_RECORD);
        }
        let mut record = [0; HALOFRET_STYLING];
        record[COLORIZE] = self.colorize.into();
        record[PADDING] = self.padding.map_or(0, |padding| 1 + u16::from(padding));
        if let Some(zoom) = self.zoom {
            record[ZOOM] = zoom.number()?;
        }
        record[STYLE_COUNT] = self.symbols.len() as u16;
        if let Some(colour) = &self.background {
            put_colour(&mut record[BACKGROUND..], colour)?;
        }
        if let Some(detail) = &self.detail {
            record[DETAIL_COUNT] = 1 + u16::from(detail.fill.is_some());
            detail.put(&mut record[DETAIL..])?;
        }
        let places = record[STYLES..].chunks_exact_mut(STYLE_LENGTH);
        for (place, style) in places.zip(&self.symbols) {
            style.put(place)?;
        }
        Ok(record)
    }

    /// From a record that reading wrote.
    pub(crate) fn of(record: &StylingRecord) -> Styling {
        let styles = record[STYLES..].chunks_exact(STYLE_LENGTH);
        Styling {
            colorize: record[COLORIZE] == 1,
            padding: record[PADDING].checked_sub(1).map(|padding| padding as u8),
            background: colour_at(&record[BACKGROUND..]),
            detail: Detail::at(&record[DETAIL..]),
            zoom: Zoom::of(record[ZOOM]),
            symbols: styles.map_while(SymbolStyle::at).collect(),
        }
    }
}

impl SymbolStyle {
    fn put(&self, place: &mut [u16]) -> Result<(), Refusal> {
        match self {
            SymbolStyle::Detail { symbol, detail } => {
                place[..2].copy_from_slice(&[KIND_DETAIL, u16::from(*symbol)]);
                detail.put(&mut place[STYLE_DETAIL..])
            }
            SymbolStyle::Zoom { symbol, zoom } => {
                place[..3].copy_from_slice(&[KIND_ZOOM, u16::from(*symbol), zoom.number()?]);
                Ok(())
            }
        }
    }

    /// None in an unused place.
    fn at(place: &[u16]) -> Option<SymbolStyle> {
        let symbol = place[1] as u8;
        match place[0] {
            KIND_DETAIL => {
                let detail = Detail::at(&place[STYLE_DETAIL..])?;
                Some(SymbolStyle::Detail { symbol, detail })
            }
            KIND_ZOOM => {
                let zoom = Zoom::of(place[2])?;
                Some(SymbolStyle::Zoom { symbol, zoom })
            }
            _ => None,
        }
    }
}

impl Detail {
    fn put(&self, place: &mut [u16]) -> Result<(), Refusal> {
        put_colour(place, &self.line)?;
        match &self.fill {
            Some(fill) => put_colour(&mut place[COLOUR_LENGTH..], fill),
            None => Ok(()),
        }
    }

    fn at(place: &[u16]) -> Option<Detail> {
        let line = colour_at(place)?;
        let fill = colour_at(&place[COLOUR_LENGTH..]);
        Some(Detail { line, fill })
    }
}

impl Zoom {
    /// A zoom of 0 has no number, since 0 stands for none.
    fn number(self) -> Result<u16, Refusal> {
        match self.hundredths {
            0 => Err(NO_RECORD),
            hundredths => Ok(hundredths),
        }
    }

    fn of(number: u16) -> Option<Zoom> {
        (number != 0).then_some(Zoom { hundredths: number })
    }
}

fn put_colour(place: &mut [u16], colour: &str) -> Result<(), Refusal> {
    if colour.is_empty() || colour.len() >= COLOUR_LENGTH {
        return Err(NO_RECORD);
    }
    place[0] = colour.len() as u16;
    for (place, byte) in place[1..].iter_mut().zip(colour.bytes()) {
        *place = byte.into();
    }
    Ok(())
}

fn colour_at(place: &[u16]) -> Option<String> {
    let length = usize::from(place[0]);
    let bytes = place[1..COLOUR_LENGTH].iter().take(length);
    (length != 0).then(|| bytes.map(|&byte| char::from(byte as u8)).collect())
}
