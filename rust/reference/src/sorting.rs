//! Sorting a list, and narrowing one in any order (document 02, Q-12).

use crate::dictionary::{checked_lines, keep_meeting, lines_of, Narrowed};
use crate::query_text::read_query;
use crate::sign::{read_into, Sign};
use crate::{refuse, Answer, Charset, Edition};

/// An entry, and which of the kept codes are its prefix.
struct Keyed {
    entry: u16,
    count: u16,
    start: u32,
}

/// Puts the first `count` entries in the order of their prefixes, each of which is read once.
pub fn sort(
    charset: Charset,
    dictionary: &[u8],
    list: &mut [u16],
    count: usize,
    spare: &mut [u16],
) -> Answer<()> {
    let line_count = checked_lines(dictionary)?;
    let list = listed(list, count, line_count)?;
    let lines = each_line(dictionary, line_count);
    let mut sign = Sign::EMPTY;
    let mut codes: Vec<u16> = vec![];
    let mut keyed = Vec::with_capacity(count);
    for &entry in list.iter() {
        if read_into(charset, lines[usize::from(entry) - 1], &mut sign).is_err() {
            return refuse(13, usize::from(entry));
        }
        let prefix = sign.prefix();
        keyed.push(Keyed {
            entry,
            count: prefix.len() as u16,
            start: codes.len() as u32,
        });
        codes.extend_from_slice(prefix);
    }
    let Some(spare) = spare.get_mut(..count) else {
        return refuse(6, count);
    };
    // Slices are ordered as prefixes are, but for the empty ones, which here come last.
    keyed.sort_by_key(|key| {
        let prefix = &codes[key.start as usize..][..usize::from(key.count)];
        (prefix.is_empty(), prefix)
    });
    for (place, key) in list.iter_mut().zip(&keyed) {
        *place = key.entry;
    }
    spare.fill(0);
    Ok(())
}

/// Keeps those of the first `count` entries that meet the query, in the order they stand.
pub fn narrow_sorted(
    charset: Charset,
    dictionary: &[u8],
    list: &mut [u16],
    count: usize,
    edition: Edition,
    query: &[u8],
) -> Answer<Narrowed> {
    let query = read_query(edition, query)?;
    let line_count = checked_lines(dictionary)?;
    let list = listed(list, count, line_count)?;
    let lines = each_line(dictionary, line_count);
    keep_meeting(charset, &query, list, |entry| lines[usize::from(entry) - 1])
}

/// The lines are found once, since the entries may ask for them in any order.
fn each_line(dictionary: &[u8], line_count: usize) -> Vec<&[u8]> {
    let mut lines = Vec::with_capacity(line_count);
    lines.extend(lines_of(dictionary));
    lines
}

/// The first `count` entries, if each is one of 1 to the line count and none stands twice.
fn listed(list: &mut [u16], count: usize, line_count: usize) -> Answer<&mut [u16]> {
    let mut seen = vec![false; line_count + 1];
    // There is no entry 0, so it counts as seen.
    seen[0] = true;
    let mut is_new = |entry: u16| {
        let seen = seen.get_mut(usize::from(entry));
        seen.is_some_and(|seen| !std::mem::replace(seen, true))
    };
    match list.get_mut(..count) {
        Some(list) if list.iter().all(|&entry| is_new(entry)) => Ok(list),
        _ => refuse(11, 0),
    }
}
