//! What a search found, kept with its dictionary, its list and the count of its entries.

use crate::{narrow, narrow_sorted, search, sort, Charset, Edition, Narrowed, Refusal};
use std::fmt;

/// The entries of a dictionary that meet the query of a search and every query narrowed by. They
/// rise, until they are sorted; after that narrowing keeps them in dictionary order.
///
/// ```
/// use halofret::{Charset, Edition, Found};
///
/// let dictionary = b"M500x500\nM510x515S10000490x485S20500500x495\nM515x515S20500500x500\n";
/// let mut list = [0; 3];
/// let mut found = Found::search(Charset::Fsw, dictionary, &mut list, Edition::First, b"QS20500")?;
/// assert!(found.entries().eq([2, 3]));
///
/// found.narrow(Edition::First, b"QS10000")?;
/// let mut lines = found.lines();
/// assert_eq!(lines.len(), 1);
/// assert_eq!(lines.next(), Some((2, &b"M510x515S10000490x485S20500500x495"[..])));
/// # Ok::<(), halofret::Refusal>(())
/// ```
///
/// In dictionary order:
///
/// ```
/// use halofret::{Charset, Edition, Found};
///
/// let dictionary = b"M500x500\nAS20500M500x500\nAS10000S20500M500x500\nAS10000M500x500\n";
/// let (mut list, mut spare) = ([0; 4], [0; 4]);
/// let mut found = Found::search(Charset::Fsw, dictionary, &mut list, Edition::First, b"Q")?;
/// found.sort(&mut spare)?;
/// assert!(found.entries().eq([4, 3, 2, 1]));
///
/// found.narrow(Edition::First, b"QT")?;
/// assert!(found.entries().eq([4, 3, 2]));
/// # Ok::<(), halofret::Refusal>(())
/// ```
pub struct Found<'d, 'l> {
    charset: Charset,
    dictionary: &'d [u8],
    list: &'l mut [u16],
    line_count: usize,
    /// How many entries there are: they come first in the list.
    count: usize,
    /// Whether they were sorted; else they rise.
    sorted: bool,
}

impl<'d, 'l> Found<'d, 'l> {
    /// Searches the dictionary, as [`search`] does.
    pub fn search(
        charset: Charset,
        dictionary: &'d [u8],
        list: &'l mut [u16],
        edition: Edition,
        query: &[u8],
    ) -> Result<Found<'d, 'l>, Refusal> {
        let searched = search(charset, dictionary, list, edition, query)?;
        Ok(Found {
            charset,
            dictionary,
            list,
            line_count: searched.lines,
            count: searched.written,
            sorted: false,
        })
    }

    /// Puts the entries in dictionary order, as [`sort`] does, where they stay. The spare list
    /// needs as many places as there are entries: a shorter one is refused as 6, and nothing else
    /// is.
    pub fn sort(&mut self, spare: &mut [u16]) -> Result<(), Refusal> {
        sort(self.charset, self.dictionary, self.list, self.count, spare)?;
        self.sorted = true;
        Ok(())
    }

    /// Keeps the entries that meet the query too, in their order, as [`narrow`] does and, once they
    /// are sorted, [`narrow_sorted`]. Only the query can be refused, and then all entries are kept.
    pub fn narrow(&mut self, edition: Edition, query: &[u8]) -> Result<Narrowed, Refusal> {
        let narrow = if self.sorted { narrow_sorted } else { narrow };
        let (list, count) = (&mut *self.list, self.count);
        let narrowed = narrow(self.charset, self.dictionary, list, count, edition, query)?;
        self.count = narrowed.kept;
        Ok(narrowed)
    }

    /// How many lines the dictionary has.
    pub fn line_count(&self) -> usize {
        self.line_count
    }

    /// The entries in their order: rising or, once they are sorted, in dictionary order.
    pub fn entries(&self) -> impl ExactSizeIterator<Item = u16> + '_ {
        self.list[..self.count].iter().copied()
    }

    /// Each entry with its line, in the order of the entries. A line is a part of the dictionary
    /// without byte 10, which may be kept when the list is lent again. The dictionary is passed
    /// through once, up to the last line told, and where its lines lie is kept until then.
    pub fn lines(&self) -> impl ExactSizeIterator<Item = (u16, &'d [u8])> + '_ {
        let mut rest = self.dictionary.split(|&byte| byte == 10);
        let mut passed: Vec<&'d [u8]> = vec![];
        self.entries().map(move |entry| {
            let ahead = usize::from(entry).saturating_sub(passed.len());
            passed.extend(rest.by_ref().take(ahead));
            (entry, passed[usize::from(entry) - 1])
        })
    }
}

/// The dictionary is left out.
impl fmt::Debug for Found<'_, '_> {
    fn fmt(&self, f: &mut fmt::Formatter) -> fmt::Result {
        f.debug_struct("Found")
            .field("charset", &self.charset)
            .field("line_count", &self.line_count)
            .field("entries", &&self.list[..self.count])
            .finish_non_exhaustive()
    }
}
