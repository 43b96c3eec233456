//! A query and its verdict on a sign (document 01, "A query"; alternatives and null by
//! document 02, Q-9).

use crate::query_text::fill;
use crate::sign::{read_into, Placed, Sign};
use crate::symbol::{first_code_of, last_code_of, Key};
use crate::{Answer, Charset, Edition};

/// The most items in the prefix, and again in the signbox.
pub const MOST_ITEMS: usize = 32;
/// The most alternatives in an item.
pub const MOST_ALTERNATIVES: usize = 8;

const MOST_IN_ALL: usize = 2 * MOST_ITEMS * MOST_ALTERNATIVES;
pub(crate) const USUAL_VARIANCE: u16 = 20;

/// What one symbol must be: its code lies at most `extent` above `first` and has none of the
/// bits of `barred` in that distance. Null, code 0, does so only where it is itself what is sought.
#[derive(Clone, Copy, Debug)]
pub(crate) struct Alternative {
    first: u16,
    extent: u16,
    /// 15 where the fill may be anything but the rotation may not, as fills are 16 codes apart;
    /// else 0.
    barred: u16,
}

impl Alternative {
    pub const NULL: Alternative = Alternative {
        first: 0,
        extent: 0,
        barred: 0,
    };

    /// A part that is `None` may be anything.
    pub fn symbol(base: u16, fill: Option<u16>, rotation: Option<u16>) -> Alternative {
        let key = Key {
            base,
            fill: fill.unwrap_or(0),
            rotation: rotation.unwrap_or(0),
        };
        let (extent, barred) = match (fill, rotation) {
            (Some(_), Some(_)) => (0, 0),
            (Some(_), None) => (15, 0),
            (None, Some(_)) => (80, 15),
            (None, None) => (95, 0),
        };
        Alternative {
            first: key.code(),
            extent,
            barred,
        }
    }

    /// Bases, both ends included. One that ends below its start is refused after the whole text.
    pub fn range(first: u16, last: u16) -> Alternative {
        let first = first_code_of(first);
        Alternative {
            first,
            extent: last_code_of(last).saturating_sub(first),
            barred: 0,
        }
    }

    /// The distance of a code below the first wraps round, and is then beyond every extent.
    fn fits(self, code: u16) -> bool {
        let above = code.wrapping_sub(self.first);
        above <= self.extent && above & self.barred == 0
    }
}

/// What a query asks of the prefix.
#[derive(Clone, Copy, Debug)]
pub(crate) enum Prefix {
    Anything,
    Present,
    /// The first so many symbols satisfy so many items.
    Begins(usize),
}

/// Which of a query's alternatives are those of one item.
#[derive(Clone, Copy, Debug)]
pub(crate) struct Span {
    pub start: u16,
    pub end: u16,
}

impl Span {
    const NONE: Span = Span { start: 0, end: 0 };
}

/// A query that was read, with room for so many alternatives in all. Places of the arrays beyond
/// the counts are not part of it.
#[derive(Clone, Debug)]
pub struct Query<const ROOM: usize = MOST_IN_ALL> {
    pub(crate) prefix: Prefix,
    pub(crate) prefix_items: [Span; MOST_ITEMS],
    /// Each with its coordinate, which is that of all its alternatives.
    pub(crate) items: [(Span, Option<(u16, u16)>); MOST_ITEMS],
    pub(crate) item_count: usize,
    pub(crate) variance: u16,
    pub(crate) alternatives: [Alternative; ROOM],
}

impl<const ROOM: usize> Query<ROOM> {
    pub const EMPTY: Query<ROOM> = Query {
        prefix: Prefix::Anything,
        prefix_items: [Span::NONE; MOST_ITEMS],
        items: [(Span::NONE, None); MOST_ITEMS],
        item_count: 0,
        variance: USUAL_VARIANCE,
        alternatives: [Alternative::NULL; ROOM],
    };

    fn alternatives(&self, of: Span) -> &[Alternative] {
        &self.alternatives[of.start.into()..of.end.into()]
    }
}

/// Whether a sign meets a query.
#[derive(Clone, Copy, Debug, PartialEq, Eq)]
pub enum Verdict {
    /// For each signbox item its first fitting symbol, from 1; then zeros.
    Met([u8; MOST_ITEMS]),
    /// The first condition that does not hold: 0 is the prefix.
    Unmet(usize),
}

/// A refusal of the query comes before one of the sign.
pub fn verdict(charset: Charset, edition: Edition, query: &[u8], text: &[u8]) -> Answer<Verdict> {
    // To clear room for the most alternatives would take a fourth of the time of a usual verdict.
    // Each takes at least four bytes, so a short query has few.
    const FEW: usize = 32;
    if query.len() < 4 * FEW {
        verdict_in::<FEW>(charset, edition, query, text)
    } else {
        verdict_in::<MOST_IN_ALL>(charset, edition, query, text)
    }
}

fn verdict_in<const ROOM: usize>(
    charset: Charset,
    edition: Edition,
    query: &[u8],
    text: &[u8],
) -> Answer<Verdict> {
    let mut asked = Query::<ROOM>::EMPTY;
    fill(edition, query, &mut asked)?;
    let mut sign = Sign::EMPTY;
    read_into(charset, text, &mut sign)?;
    Ok(judge(&asked, &sign))
}

pub(crate) fn judge<const ROOM: usize>(query: &Query<ROOM>, sign: &Sign) -> Verdict {
    if !prefix_holds(query, sign.prefix()) {
        return Verdict::Unmet(0);
    }
    let mut witnesses = [0; MOST_ITEMS];
    let items = &query.items[..query.item_count];
    for (index, &(item, coordinate)) in items.iter().enumerate() {
        let alternatives = query.alternatives(item);
        let fits = |symbol: &Placed| {
            alternatives.iter().any(|a| a.fits(symbol.code))
                && coordinate.is_none_or(|at| near(symbol, at, query.variance))
        };
        match sign.symbols().iter().position(fits) {
            Some(symbol) => witnesses[index] = symbol as u8 + 1,
            None => return Verdict::Unmet(index + 1),
        }
    }
    Verdict::Met(witnesses)
}

fn prefix_holds<const ROOM: usize>(query: &Query<ROOM>, prefix: &[u16]) -> bool {
    match query.prefix {
        Prefix::Anything => true,
        Prefix::Present => !prefix.is_empty(),
        Prefix::Begins(count) => {
            let mut pairs = query.prefix_items[..count].iter().zip(prefix);
            let fits = |item: Span, code| query.alternatives(item).iter().any(|a| a.fits(code));
            prefix.len() >= count && pairs.all(|(&item, &code)| fits(item, code))
        }
    }
}

/// Each axis by itself, the variance included.
fn near(symbol: &Placed, at: (u16, u16), variance: u16) -> bool {
    symbol.x.abs_diff(at.0) <= variance && symbol.y.abs_diff(at.1) <= variance
}
