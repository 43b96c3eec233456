//! A styling as the numbers that the C interface hands out, and the shortest text of such a
//! record (document 02, Q-1).

use crate::styling::{read_styling, Detail, Styling, SymbolStyle, LONGEST_NAME, MOST_STYLES};
use crate::text::{Bytes, Tokens};
use crate::{refuse, Answer};

const BACKGROUND: usize = 5;
const DETAIL: usize = BACKGROUND + COLOUR_LENGTH;
const STYLES: usize = DETAIL + 2 * COLOUR_LENGTH;
/// A colour is its length and its bytes.
const COLOUR_LENGTH: usize = 1 + LONGEST_NAME;
/// A symbol style is its kind, symbol and zoom, then two colours.
const STYLE_LENGTH: usize = 3 + 2 * COLOUR_LENGTH;
const STYLING_LENGTH: usize = STYLES + MOST_STYLES * STYLE_LENGTH;

pub type StylingRecord = [u16; STYLING_LENGTH];

impl Styling<'_> {
    /// Zeros in every unused place.
    pub fn record(&self) -> StylingRecord {
        let mut record = [0; STYLING_LENGTH];
        record[0] = self.colorize.into();
        record[1] = self.padding.map_or(0, |padding| 1 + u16::from(padding));
        record[2] = self.zoom.unwrap_or(0);
        record[3] = match self.detail {
            None => 0,
            Some(Detail { fill: None, .. }) => 1,
            Some(Detail { fill: Some(_), .. }) => 2,
        };
        record[4] = self.symbols().len() as u16;
        put_colour(&mut record[BACKGROUND..], self.background);
        if let Some(detail) = self.detail {
            put_detail(&mut record[DETAIL..], detail);
        }
        let places = record[STYLES..].chunks_exact_mut(STYLE_LENGTH);
        for (place, &style) in places.zip(self.symbols()) {
            put_style(place, style);
        }
        record
    }
}

fn put_style(place: &mut [u16], style: SymbolStyle) {
    match style {
        SymbolStyle::Detail { symbol, detail } => {
            place[..2].copy_from_slice(&[1, symbol.into()]);
            put_detail(&mut place[3..], detail);
        }
        SymbolStyle::Zoom { symbol, hundredths } => {
            place[..3].copy_from_slice(&[2, symbol.into(), hundredths]);
        }
    }
}

fn put_detail(place: &mut [u16], detail: Detail) {
    put_colour(place, Some(detail.line));
    put_colour(&mut place[COLOUR_LENGTH..], detail.fill);
}

fn put_colour(place: &mut [u16], colour: Option<&[u8]>) {
    let colour = colour.unwrap_or_default();
    place[0] = colour.len() as u16;
    for (place, &byte) in place[1..].iter_mut().zip(colour) {
        *place = byte.into();
    }
}

/// Writes the shortest text and answers its length. A record is good if a styling reads as it,
/// so the text is read again and must give the very same numbers.
pub fn write_styling_record(record: &StylingRecord, out: &mut [u8]) -> Answer<usize> {
    let Some(text) = spelled(record) else {
        return refuse(1, 0);
    };
    let mut styling = Styling::EMPTY;
    let reads = read_styling(Bytes::over(&text), &mut styling).is_ok();
    if !reads || styling.record() != *record {
        return refuse(1, 0);
    }
    let Some(out) = out.get_mut(..text.len()) else {
        return refuse(6, text.len());
    };
    out.copy_from_slice(&text);
    Ok(text.len())
}

/// The text of a good record; of another one some text that does not read as it, or none.
fn spelled(record: &StylingRecord) -> Option<Vec<u8>> {
    let mut text = vec![b'-'];
    if record[0] != 0 {
        text.push(b'C');
    }
    if record[1] != 0 {
        text.extend(format!("P{:02}", record[1] - 1).bytes());
    }
    if record[BACKGROUND] != 0 {
        text.extend(b"G_");
        text.extend(colour_at(&record[BACKGROUND..])?);
        text.push(b'_');
    }
    if record[3] != 0 {
        text.extend(b"D_");
        text.extend(detail_at(&record[DETAIL..])?);
        text.push(b'_');
    }
    if record[2] != 0 {
        text.extend(format!("Z{}", decimal(record[2])).bytes());
    }
    if record[4] != 0 {
        text.push(b'-');
    }
    let styles = record[STYLES..].chunks_exact(STYLE_LENGTH);
    for style in styles.take(record[4].into()) {
        text.extend(style_at(style)?);
    }
    Some(text)
}

fn style_at(style: &[u16]) -> Option<Vec<u8>> {
    let (kind, symbol, zoom) = (style[0], style[1], style[2]);
    match kind {
        1 => {
            let start = format!("D{symbol:02}_").into_bytes();
            Some([&start, &detail_at(&style[3..])?[..], b"_"].concat())
        }
        2 => Some(format!("Z{symbol:02},{}", decimal(zoom)).into_bytes()),
        _ => None,
    }
}

fn detail_at(place: &[u16]) -> Option<Vec<u8>> {
    let line = colour_at(place)?;
    let fill = colour_at(&place[COLOUR_LENGTH..])?;
    match fill.is_empty() {
        true => Some(line),
        false => Some([&line[..], b",", &fill].concat()),
    }
}

fn colour_at(place: &[u16]) -> Option<Vec<u8>> {
    let bytes = place[1..COLOUR_LENGTH].get(..place[0].into())?;
    bytes.iter().map(|&byte| byte.try_into().ok()).collect()
}

/// Without needless zeros.
fn decimal(hundredths: u16) -> String {
    let (whole, rest) = (hundredths / 100, hundredths % 100);
    match (rest / 10, rest % 10) {
        (0, 0) => format!("{whole}"),
        (tenths, 0) => format!("{whole}.{tenths}"),
        _ => format!("{whole}.{rest:02}"),
    }
}
