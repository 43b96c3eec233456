//! Dictionaries: searching one into a list of entries, narrowing and sorting the list, and fetching
//! lines.

use crate::{raw, Charset, Edition, Fetched, Narrowed, Refusal, Searched};

/// Reads every line and writes the entries of those that meet the query at the start of the list,
/// rising. Nothing after them is changed. By `Q` they are 1 to the line count.
///
/// An entry is the number of a line, from 1. [`Found`](crate::Found) keeps the count of them for the narrowing
/// that follows.
///
/// ```
/// use halofret::{search, Charset, Edition};
///
/// let dictionary = b"M500x500\nM510x515S10000490x485S20500500x495\nM515x515S20500500x500\n";
/// let mut list = [9; 4];
/// let searched = search(Charset::Fsw, dictionary, &mut list, Edition::First, b"QS20500")?;
/// assert_eq!((searched.lines, searched.written), (3, 2));
/// assert_eq!(list, [2, 3, 9, 9]);
///
/// let short = &mut list[..1];
/// let refusal = search(Charset::Fsw, dictionary, short, Edition::First, b"QS20500").unwrap_err();
/// assert_eq!((refusal.number, refusal.place), (6, 2));
/// # Ok::<(), halofret::Refusal>(())
/// ```
pub fn search(
    charset: Charset,
    dictionary: &[u8],
    list: &mut [u16],
    edition: Edition,
    query: &[u8],
) -> Result<Searched, Refusal> {
    let (second, query_swu) = edition.flags();
    let mut answer = [0; 4];
    unsafe {
        raw::halofret_search(
            charset.is_swu(),
            dictionary.as_ptr(),
            dictionary.len(),
            list.as_mut_ptr(),
            list.len(),
            second,
            query_swu,
            query.as_ptr(),
            query.len(),
            &mut answer,
        )
    };
    Refusal::check(&answer)?;
    Ok(Searched {
        lines: answer[2] as usize,
        written: answer[3] as usize,
    })
}

/// Keeps those of the first `count` entries of the list that meet the query, zeros after them. The
/// entries must rise.
pub fn narrow(
    charset: Charset,
    dictionary: &[u8],
    list: &mut [u16],
    count: usize,
    edition: Edition,
    query: &[u8],
) -> Result<Narrowed, Refusal> {
    let (second, query_swu) = edition.flags();
    let mut answer = [0; 4];
    unsafe {
        raw::halofret_narrow(
            charset.is_swu(),
            dictionary.as_ptr(),
            dictionary.len(),
            list.as_mut_ptr(),
            list.len(),
            count,
            second,
            query_swu,
            query.as_ptr(),
            query.len(),
            &mut answer,
        )
    };
    narrowed(&answer)
}

fn narrowed(answer: &[u64; 4]) -> Result<Narrowed, Refusal> {
    Refusal::check(answer)?;
    Ok(Narrowed {
        kept: answer[2] as usize,
        dropped: answer[3] as usize,
    })
}

/// Puts the first `count` entries of the list in dictionary order: by the temporal prefixes of
/// their signs, symbol code by symbol code, a shorter prefix before those that go on after it,
/// signs without prefix last, and equal prefixes as they stood. Null has code 0.
///
/// The entries may stand in any order, each once. The spare list needs `count` places too, which
/// hold zeros afterwards. [`Found::sort`](crate::Found::sort) keeps the count and the order for the narrowing that
/// follows.
///
/// ```
/// use halofret::{sort, Charset};
///
/// let dictionary = b"M500x500\nAS20500M500x500\nAS10000S20500M500x500\nAS10000M500x500\n";
/// let (mut list, mut spare) = ([1, 2, 3, 4, 77], [9; 5]);
/// sort(Charset::Fsw, dictionary, &mut list, 4, &mut spare)?;
/// assert_eq!(list, [4, 3, 2, 1, 77]);
/// assert_eq!(spare, [0, 0, 0, 0, 9]);
///
/// let refusal = sort(Charset::Fsw, dictionary, &mut list, 4, &mut spare[..3]).unwrap_err();
/// assert_eq!((refusal.number, refusal.place), (6, 4));
/// # Ok::<(), halofret::Refusal>(())
/// ```
pub fn sort(
    charset: Charset,
    dictionary: &[u8],
    list: &mut [u16],
    count: usize,
    spare: &mut [u16],
) -> Result<(), Refusal> {
    let mut answer = [0; 2];
    unsafe {
        raw::halofret_sort(
            charset.is_swu(),
            dictionary.as_ptr(),
            dictionary.len(),
            list.as_mut_ptr(),
            list.len(),
            count,
            spare.as_mut_ptr(),
            spare.len(),
            &mut answer,
        )
    };
    Refusal::check(&answer)
}

/// Does as [`narrow`] does with entries in any order, each once, and keeps them in it: so a list
/// stays sorted, which [`narrow`] would refuse as 11.
pub fn narrow_sorted(
    charset: Charset,
    dictionary: &[u8],
    list: &mut [u16],
    count: usize,
    edition: Edition,
    query: &[u8],
) -> Result<Narrowed, Refusal> {
    let (second, query_swu) = edition.flags();
    let mut answer = [0; 4];
    unsafe {
        raw::halofret_narrow_sorted(
            charset.is_swu(),
            dictionary.as_ptr(),
            dictionary.len(),
            list.as_mut_ptr(),
            list.len(),
            count,
            second,
            query_swu,
            query.as_ptr(),
            query.len(),
            &mut answer,
        )
    };
    narrowed(&answer)
}

/// Line `number` of the first dictionary and, running on, of the second.
pub fn fetch<'a>(first: &'a [u8], second: &'a [u8], number: usize) -> Result<Fetched<'a>, Refusal> {
    let mut answer = [0; 4];
    unsafe {
        raw::halofret_fetch(
            first.as_ptr(),
            first.len(),
            second.as_ptr(),
            second.len(),
            number,
            &mut answer,
        )
    };
    let [number, which, start, length] = answer;
    // This answer has no place: every refusal of fetching has place 0.
    Refusal::check(&[number, 0])?;
    let in_second = which == 1;
    let holder = if in_second { second } else { first };
    let start = start as usize;
    Ok(Fetched {
        in_second,
        start,
        line: &holder[start..start + length as usize],
    })
}
