//! The text of a query (document 01, "A query"; its second edition by document 02, Q-9, and draft
//! -10, section 1.5).

use crate::query::{Alternative, Prefix, Query, Span};
use crate::query::{MOST_ALTERNATIVES, MOST_ITEMS, USUAL_VARIANCE};
use crate::symbol::{base_of, Key, LAST_BASE, LAST_CODE};
use crate::text::{Bytes, Tokens};
use crate::{refuse, Answer, Charset, Edition};
use std::marker::PhantomData;

pub fn read_query(edition: Edition, text: &[u8]) -> Answer<Query> {
    let mut query = Query::EMPTY;
    fill(edition, text, &mut query)?;
    Ok(query)
}

/// Reads over an older query. What a refusal leaves there is no query.
pub fn read_query_into(edition: Edition, text: &[u8], query: &mut Query) -> Answer<()> {
    fill(edition, text, query)
}

/// The same for a query with room for a fourth of the text's bytes, or for the most alternatives.
pub(crate) fn fill<const ROOM: usize>(
    edition: Edition,
    text: &[u8],
    query: &mut Query<ROOM>,
) -> Answer<()> {
    match edition {
        Edition::First => Reader::<Fsw<false>>::over(text).query(query),
        Edition::Second(Charset::Fsw) => Reader::<Fsw<true>>::over(text).query(query),
        Edition::Second(Charset::Swu) => Reader::<Swu>::over(text).query(query),
    }
}

/// How an edition spells the parts of a query in its character set. Each reader steps over what
/// it read, or refuses with the place.
trait Spelling {
    /// Whether `o` may join alternatives.
    const JOINS: bool;
    fn begins_box_symbol(byte: u8) -> bool;
    fn box_symbol(bytes: &mut Bytes) -> Answer<Alternative>;
    /// Null too where it may be sought.
    fn prefix_symbol(bytes: &mut Bytes) -> Answer<Alternative>;
    /// The two bases of a range, after its `R`.
    fn bases(bytes: &mut Bytes) -> Answer<(u16, u16)>;
    fn begins_coordinate(byte: u8) -> bool;
    fn coordinate(bytes: &mut Bytes) -> Answer<(u16, u16)>;
}

struct Fsw<const SECOND: bool>;

impl<const SECOND: bool> Spelling for Fsw<SECOND> {
    const JOINS: bool = SECOND;

    fn begins_box_symbol(byte: u8) -> bool {
        byte == b'S'
    }

    fn box_symbol(bytes: &mut Bytes) -> Answer<Alternative> {
        bytes.literal(b'S')?;
        let base = bytes.base(LAST_BASE)?;
        let mut digit_or_any = |radix| match bytes.mark(b'u') {
            true => Ok(None),
            false => bytes.digit(radix).map(Some),
        };
        let fill = digit_or_any(6)?;
        let rotation = digit_or_any(16)?;
        Ok(Alternative::symbol(base, fill, rotation))
    }

    fn prefix_symbol(bytes: &mut Bytes) -> Answer<Alternative> {
        if SECOND && bytes.at_null_key() {
            bytes.null_key()?;
            return Ok(Alternative::NULL);
        }
        Self::box_symbol(bytes)
    }

    fn bases(bytes: &mut Bytes) -> Answer<(u16, u16)> {
        let first = bytes.base(LAST_BASE)?;
        bytes.literal(b't')?;
        let last = bytes.base(LAST_BASE)?;
        Ok((first, last))
    }

    fn begins_coordinate(byte: u8) -> bool {
        matches!(byte, b'2'..=b'7')
    }

    fn coordinate(bytes: &mut Bytes) -> Answer<(u16, u16)> {
        bytes.coordinate()
    }
}

struct Swu;

impl Swu {
    /// After a character other than null's, marks say that its own fill or rotation does not
    /// count.
    fn symbol_from(least: u16, bytes: &mut Bytes) -> Answer<Alternative> {
        let code = bytes.symbol_character(least, LAST_CODE)?;
        if code == 0 {
            return Ok(Alternative::NULL);
        }
        let key = Key::of(code);
        let fill = (!bytes.mark(b'f')).then_some(key.fill);
        let rotation = (!bytes.mark(b'r')).then_some(key.rotation);
        Ok(Alternative::symbol(key.base, fill, rotation))
    }
}

impl Spelling for Swu {
    const JOINS: bool = true;

    fn begins_box_symbol(byte: u8) -> bool {
        byte == 0xf1
    }

    fn box_symbol(bytes: &mut Bytes) -> Answer<Alternative> {
        Swu::symbol_from(1, bytes)
    }

    fn prefix_symbol(bytes: &mut Bytes) -> Answer<Alternative> {
        Swu::symbol_from(0, bytes)
    }

    fn bases(bytes: &mut Bytes) -> Answer<(u16, u16)> {
        let first = bytes.symbol_character(1, LAST_CODE)?;
        let last = bytes.symbol_character(1, LAST_CODE)?;
        Ok((base_of(first), base_of(last)))
    }

    fn begins_coordinate(byte: u8) -> bool {
        byte == 0xf0
    }

    fn coordinate(bytes: &mut Bytes) -> Answer<(u16, u16)> {
        let x = bytes.number_character()?;
        let y = bytes.number_character()?;
        Ok((x, y))
    }
}

/// Limits and range order are judged after the whole text, so items and alternatives beyond the
/// limits are counted and not kept, and the first reversed range is only noted.
struct Reader<'a, S> {
    bytes: Bytes<'a>,
    /// How many there were so far.
    alternatives: usize,
    /// Whether an item had too many of them.
    crowded: bool,
    first_reversed: Option<usize>,
    spelling: PhantomData<S>,
}

impl<'a, S: Spelling> Reader<'a, S> {
    fn over(text: &'a [u8]) -> Self {
        Reader {
            bytes: Bytes::over(text),
            alternatives: 0,
            crowded: false,
            first_reversed: None,
            spelling: PhantomData,
        }
    }

    fn query<const ROOM: usize>(&mut self, query: &mut Query<ROOM>) -> Answer<()> {
        self.bytes.literal(b'Q')?;
        let prefix_count = self.prefix(query)?;
        query.item_count = self.signbox(query)?;
        query.variance = self.variance()?;
        self.bytes.end()?;
        if prefix_count > MOST_ITEMS {
            return refuse(3, 0);
        }
        if query.item_count > MOST_ITEMS {
            return refuse(4, 0);
        }
        if self.crowded {
            return refuse(22, 0);
        }
        match self.first_reversed {
            Some(place) => refuse(5, place),
            None => Ok(()),
        }
    }

    /// Answers the number of prefix items.
    fn prefix<const ROOM: usize>(&mut self, query: &mut Query<ROOM>) -> Answer<usize> {
        let mut count = 0;
        query.prefix = Prefix::Anything;
        if self.bytes.mark(b'T') {
            query.prefix = Prefix::Present;
        } else if self.bytes.mark(b'A') {
            while count == 0 || !self.bytes.mark(b'T') {
                let item = self.item(query, S::prefix_symbol)?;
                if let Some(place) = query.prefix_items.get_mut(count) {
                    *place = item;
                }
                count += 1;
            }
            query.prefix = Prefix::Begins(count);
        }
        Ok(count)
    }

    /// Answers the number of signbox items.
    fn signbox<const ROOM: usize>(&mut self, query: &mut Query<ROOM>) -> Answer<usize> {
        let begins_item = |byte: u8| byte == b'R' || S::begins_box_symbol(byte);
        let mut count = 0;
        while self.bytes.peek().is_some_and(begins_item) {
            let item = self.item(query, S::box_symbol)?;
            let coordinate = match self.bytes.peek().is_some_and(S::begins_coordinate) {
                true => Some(S::coordinate(&mut self.bytes)?),
                false => None,
            };
            if let Some(place) = query.items.get_mut(count) {
                *place = (item, coordinate);
            }
            count += 1;
        }
        Ok(count)
    }

    /// Keeps the alternatives of an item. Their places are cut to 16 bits, which hold those of
    /// every query within the limits.
    fn item<const ROOM: usize>(
        &mut self,
        query: &mut Query<ROOM>,
        symbol: impl Fn(&mut Bytes) -> Answer<Alternative>,
    ) -> Answer<Span> {
        let start = self.alternatives;
        while self.alternatives == start || S::JOINS && self.bytes.mark(b'o') {
            let alternative = self.alternative(&symbol)?;
            if let Some(place) = query.alternatives.get_mut(self.alternatives) {
                *place = alternative;
            }
            self.alternatives += 1;
        }
        self.crowded |= self.alternatives - start > MOST_ALTERNATIVES;
        Ok(Span {
            start: start as u16,
            end: self.alternatives as u16,
        })
    }

    fn alternative(
        &mut self,
        symbol: impl Fn(&mut Bytes) -> Answer<Alternative>,
    ) -> Answer<Alternative> {
        let place = self.bytes.at;
        if !self.bytes.mark(b'R') {
            return symbol(&mut self.bytes);
        }
        let (first, last) = S::bases(&mut self.bytes)?;
        if last < first {
            self.first_reversed.get_or_insert(place);
        }
        Ok(Alternative::range(first, last))
    }

    fn variance(&mut self) -> Answer<u16> {
        if !self.bytes.mark(b'V') {
            return Ok(USUAL_VARIANCE);
        }
        let mut variance = self.bytes.digit(10)?;
        for _ in 1..3 {
            if let Ok(digit) = self.bytes.digit(10) {
                variance = variance * 10 + digit;
            }
        }
        Ok(variance)
    }
}
