//! Searching, narrowing and fetching (document 01, "The dictionary and its list"; searching by
//! document 02, Q-10).

use crate::query::{judge, Query, Verdict};
use crate::query_text::read_query;
use crate::sign::{read_into, Sign};
use crate::{refuse, Answer, Charset, Edition};

pub const MOST_LINES: usize = 65_535;
const LINE_END: u8 = 10;
const BLOCK: usize = 192;

/// The number of lines of a dictionary that is ended. A block's count fits a byte, so that the
/// compiler adds many bytes at once.
fn count_lines(dictionary: &[u8]) -> usize {
    let ends = |block: &[u8]| -> u8 { block.iter().map(|&byte| u8::from(byte == LINE_END)).sum() };
    dictionary
        .chunks(BLOCK)
        .map(|block| usize::from(ends(block)))
        .sum()
}

fn is_ended(dictionary: &[u8]) -> bool {
    dictionary.last().is_none_or(|&last| last == LINE_END)
}

/// The line count of a dictionary that is neither 12 nor 14.
pub(crate) fn checked_lines(dictionary: &[u8]) -> Answer<usize> {
    if !is_ended(dictionary) {
        return refuse(12, 0);
    }
    let lines = count_lines(dictionary);
    if lines > MOST_LINES {
        return refuse(14, 0);
    }
    Ok(lines)
}

/// The lines of a dictionary that is ended, each as a part of it, without its byte 10.
pub(crate) struct Lines<'a> {
    rest: &'a [u8],
}

impl<'a> Iterator for Lines<'a> {
    type Item = &'a [u8];

    fn next(&mut self) -> Option<&'a [u8]> {
        let (line, rest) = self.rest.split_at_checked(line_length(self.rest))?;
        self.rest = rest.get(1..)?;
        Some(line)
    }
}

/// How many bytes stand before the first byte 10: whole blocks without one, which the compiler
/// tests at once, then the bytes of the next.
fn line_length(text: &[u8]) -> usize {
    let has_end = |block: &[u8]| {
        block
            .iter()
            .fold(false, |found, &byte| found | (byte == LINE_END))
    };
    let blocks = text.chunks_exact(32).take_while(|block| !has_end(block));
    let passed = 32 * blocks.count();
    let in_block = text[passed..].iter().take_while(|&&byte| byte != LINE_END);
    passed + in_block.count()
}

pub(crate) fn lines_of(dictionary: &[u8]) -> Lines<'_> {
    Lines { rest: dictionary }
}

/// How many lines the dictionary has, and how many entries searching wrote.
#[derive(Clone, Copy, Debug, PartialEq, Eq)]
pub struct Searched {
    pub lines: usize,
    pub written: usize,
}

/// Reads every line, then writes the entries of those that meet the query.
pub fn search(
    charset: Charset,
    dictionary: &[u8],
    list: &mut [u16],
    edition: Edition,
    query: &[u8],
) -> Answer<Searched> {
    let query = read_query(edition, query)?;
    if !is_ended(dictionary) {
        return refuse(12, 0);
    }
    // A bad line may be the last one, so nothing is written before all are read.
    let mut found = vec![];
    let mut sign = Sign::EMPTY;
    let mut last: u16 = 0;
    for line in lines_of(dictionary) {
        let Some(entry) = last.checked_add(1) else {
            return refuse(14, 0);
        };
        last = entry;
        if read_into(charset, line, &mut sign).is_err() {
            // 14 comes before 13, so where a line is bad all of them are counted.
            checked_lines(dictionary)?;
            return refuse(13, entry.into());
        }
        if matches!(judge(&query, &sign), Verdict::Met(_)) {
            found.push(entry);
        }
    }
    let (lines, written) = (last.into(), found.len());
    let Some(list) = list.get_mut(..written) else {
        return refuse(6, written);
    };
    list.copy_from_slice(&found);
    Ok(Searched { lines, written })
}

/// How many entries narrowing kept, and how many it dropped.
#[derive(Clone, Copy, Debug, PartialEq, Eq)]
pub struct Narrowed {
    pub kept: usize,
    pub dropped: usize,
}

/// Keeps those of the first `count` entries that meet the query.
pub fn narrow(
    charset: Charset,
    dictionary: &[u8],
    list: &mut [u16],
    count: usize,
    edition: Edition,
    query: &[u8],
) -> Answer<Narrowed> {
    let query = read_query(edition, query)?;
    let line_count = checked_lines(dictionary)?;
    let Some(list) = list.get_mut(..count).filter(|list| rises(list, line_count)) else {
        return refuse(11, 0);
    };
    let mut lines = lines_of(dictionary);
    let mut last = 0;
    keep_meeting(charset, &query, list, |entry| {
        let between = usize::from(entry - last - 1);
        last = entry;
        lines.nth(between).unwrap_or_default()
    })
}

/// Keeps those of the entries whose lines meet the query, in the order they stand.
pub(crate) fn keep_meeting<'a>(
    charset: Charset,
    query: &Query,
    list: &mut [u16],
    mut line_of: impl FnMut(u16) -> &'a [u8],
) -> Answer<Narrowed> {
    // A bad line may be the last one listed, so nothing is written before all are read.
    let mut meets = vec![false; list.len()];
    let mut sign = Sign::EMPTY;
    for (meets, &entry) in meets.iter_mut().zip(list.iter()) {
        if read_into(charset, line_of(entry), &mut sign).is_err() {
            return refuse(13, usize::from(entry));
        }
        *meets = matches!(judge(query, &sign), Verdict::Met(_));
    }
    let kept = compact(list, &meets);
    let dropped = list.len() - kept;
    Ok(Narrowed { kept, dropped })
}

/// Strictly rising in 1 to the line count.
fn rises(list: &[u16], line_count: usize) -> bool {
    list.first().is_none_or(|&first| first > 0)
        && list
            .last()
            .is_none_or(|&last| usize::from(last) <= line_count)
        && list.windows(2).all(|pair| pair[0] < pair[1])
}

/// Moves the kept entries to the front, zeros after them, and counts them.
fn compact(list: &mut [u16], keep: &[bool]) -> usize {
    let mut kept = 0;
    for index in 0..list.len() {
        if keep[index] {
            list[kept] = list[index];
            kept += 1;
        }
    }
    list[kept..].fill(0);
    kept
}

/// A line and where it lies.
#[derive(Clone, Copy, Debug, PartialEq, Eq)]
pub struct Fetched<'a> {
    pub in_second: bool,
    pub start: usize,
    pub line: &'a [u8],
}

/// Line `number` of the first dictionary and, running on, of the second.
pub fn fetch<'a>(first: &'a [u8], second: &'a [u8], number: usize) -> Answer<Fetched<'a>> {
    if !is_ended(first) || !is_ended(second) {
        return refuse(12, 0);
    }
    let (in_first, in_second) = (count_lines(first), count_lines(second));
    if in_first > MOST_LINES || in_second > MOST_LINES {
        return refuse(14, 0);
    }
    if number == 0 || number > in_first + in_second {
        return refuse(16, 0);
    }
    let beyond = number > in_first;
    let (holder, before) = match beyond {
        false => (first, number - 1),
        true => (second, number - 1 - in_first),
    };
    let mut start = 0;
    for line in lines_of(holder).take(before) {
        start += line.len() + 1;
    }
    let line = lines_of(&holder[start..]).next().unwrap_or_default();
    Ok(Fetched {
        in_second: beyond,
        start,
        line,
    })
}
