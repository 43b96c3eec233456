//! Seeded dictionaries and lists to be sorted and to be narrowed in any order (document 02, Q-12),
//! and what is stated of both from the lines that are read one by one.

use crate::both::Both;
use crate::damage::{damaged, noise};
use crate::generate::{dictionary_of, in_swu, sign_of};
use crate::interface::Interface;
use crate::random::Random;
use halofret::{Charset, Edition};
use std::cmp::Ordering;

/// The code of `S3865f`, the last that a prefix may have.
const LAST_IN_PREFIX: usize = 62_112;

/// How the prefixes of a dictionary are chosen.
#[derive(Clone, Copy, Debug)]
pub enum Prefixes {
    /// None to three symbols of a few codes, so that many prefixes are equal or go on after others.
    Few,
    /// None to eight symbols of any codes.
    Many,
    /// 31 or 32 symbols, all alike up to the last two.
    Long,
}

pub const PREFIXES: [Prefixes; 3] = [Prefixes::Few, Prefixes::Many, Prefixes::Long];

/// Null, the next codes, codes of which one has the lesser low byte, and the last.
const FEW: [u16; 6] = [0, 1, 2, 511, 512, LAST_IN_PREFIX as u16];

fn prefix(random: &mut Random, prefixes: Prefixes) -> Vec<u16> {
    let few = |random: &mut Random| *random.pick(&FEW);
    match prefixes {
        Prefixes::Few => (0..random.below(4)).map(|_| few(random)).collect(),
        Prefixes::Many => (0..random.below(9))
            .map(|_| random.between(0, LAST_IN_PREFIX) as u16)
            .collect(),
        Prefixes::Long => {
            let mut prefix = vec![7; 30];
            prefix.extend((0..random.between(1, 2)).map(|_| few(random)));
            prefix
        }
    }
}

/// A sign in FSW with this prefix and a few symbols.
pub fn sign_after(random: &mut Random, prefix: &[u16]) -> Vec<u8> {
    let mut text = vec![];
    if !prefix.is_empty() {
        text.push(b'A');
    }
    for &code in prefix {
        let mut key = [0; 6];
        reference::code_to_key(code.into(), &mut key).expect("a code of a prefix");
        text.extend(key);
    }
    let symbols = random.below(7);
    text.extend(sign_of(random, 0, symbols));
    text
}

/// So many lines that read, in FSW and in SWU.
pub fn prefixed_dictionary(random: &mut Random, prefixes: Prefixes, lines: usize) -> [Vec<u8>; 2] {
    let fsw: Vec<Vec<u8>> = (0..lines)
        .map(|_| prefixed_sign(random, prefixes))
        .collect();
    let swu: Vec<Vec<u8>> = fsw.iter().map(|line| in_swu(line).unwrap()).collect();
    [dictionary_of(&fsw), dictionary_of(&swu)]
}

/// A sign in FSW with a prefix that is so chosen.
pub fn prefixed_sign(random: &mut Random, prefixes: Prefixes) -> Vec<u8> {
    let prefix = prefix(random, prefixes);
    sign_after(random, &prefix)
}

/// A sign that is well-formed in FSW, in the set.
pub fn in_set(set: Charset, fsw: Vec<u8>) -> Vec<u8> {
    match set {
        Charset::Fsw => fsw,
        Charset::Swu => in_swu(&fsw).unwrap(),
    }
}

/// A dictionary, most often good, sometimes with some bad lines or other damage.
pub fn any_dictionary(random: &mut Random, set: Charset) -> Vec<u8> {
    let count = *random.pick(&[0, 1, 2, 3, 5, 13, 34, 70]);
    let prefixes = *random.pick(&PREFIXES);
    let mut lines: Vec<Vec<u8>> = (0..count)
        .map(|_| in_set(set, prefixed_sign(random, prefixes)))
        .collect();
    if count > 0 && random.once_in(3) {
        for _ in 0..random.between(1, 3) {
            let bad = random.below(count);
            lines[bad] = damaged(random, &lines[bad]);
        }
    }
    let dictionary = dictionary_of(&lines);
    match random.below(12) {
        0 => damaged(random, &dictionary),
        1 => dictionary[..dictionary.len().saturating_sub(1)].to_vec(),
        _ => dictionary,
    }
}

/// The entries of so many lines in any order.
pub fn shuffled(random: &mut Random, lines: usize) -> Vec<u16> {
    let mut list: Vec<u16> = (1..=lines as u16).collect();
    random.shuffle(&mut list);
    list
}

/// Entries of so many lines, some dropped, in any order, sometimes spoilt, with some more numbers
/// after them; and how many are meant, most often the entries.
pub fn any_list(random: &mut Random, lines: usize) -> (Vec<u16>, usize) {
    let dropped_once_in = *random.pick(&[1_000, 4, 2]);
    let mut list: Vec<u16> = (1..=lines as u16)
        .filter(|_| !random.once_in(dropped_once_in))
        .collect();
    match random.below(8) {
        0 => {}
        1 => list.reverse(),
        _ => random.shuffle(&mut list),
    }
    if !list.is_empty() && random.once_in(6) {
        let (at, other) = (random.below(list.len()), random.below(list.len()));
        match random.below(4) {
            0 => list[at] = 0,
            1 => list[at] = lines as u16 + 1,
            2 => list[at] = list[other],
            _ => list[at] = random.bits() as u16,
        }
    }
    let entries = list.len();
    list.extend(noise(random, 3).iter().map(|&byte| u16::from(byte)));
    let count = match random.below(16) {
        0 => list.len() + 1,
        1 => *random.pick(&[usize::MAX, 65_536, 1 << 32]),
        2 => 0,
        3 => random.below(list.len() + 1),
        4..=7 => random.below(entries + 1),
        _ => entries,
    };
    (list, count)
}

/// Bytes 10 in a text.
pub fn lines_of(text: &[u8]) -> usize {
    text.iter().filter(|&&byte| byte == 10).count()
}

/// The lines of a dictionary that is ended, each without its byte 10.
pub fn split(dictionary: &[u8]) -> Vec<&[u8]> {
    let lines = dictionary.split_inclusive(|&byte| byte == 10);
    lines.map(|line| &line[..line.len() - 1]).collect()
}

/// Why the first `count` entries of the list can neither be sorted nor narrowed in any order, but
/// for 14.
pub fn stated_refusal(
    set: Charset,
    dictionary: &[u8],
    list: &[u16],
    count: usize,
) -> Option<[u64; 2]> {
    if dictionary.last().is_some_and(|&last| last != 10) {
        return Some([12, 0]);
    }
    let lines = split(dictionary);
    let Some(entries) = list.get(..count) else {
        return Some([11, 0]);
    };
    for (index, &entry) in entries.iter().enumerate() {
        let absent = entry == 0 || usize::from(entry) > lines.len();
        if absent || entries[..index].contains(&entry) {
            return Some([11, 0]);
        }
    }
    let is_bad = |&&entry: &&u16| Both.read(set, lines[usize::from(entry) - 1]).1[0] != 0;
    let bad = entries.iter().find(is_bad)?;
    Some([13, (*bad).into()])
}

/// Whether the one prefix comes before the other.
fn compare(one: &[u16], other: &[u16]) -> Ordering {
    match (one, other) {
        ([], []) => Ordering::Equal,
        ([], _) => Ordering::Greater,
        (_, []) => Ordering::Less,
        _ => {
            let differing = one.iter().zip(other).find(|(a, b)| a != b);
            differing.map_or(one.len().cmp(&other.len()), |(a, b)| a.cmp(b))
        }
    }
}

/// The entries in dictionary order. Each of their lines reads.
pub fn stated_order(set: Charset, dictionary: &[u8], entries: &[u16]) -> Vec<u16> {
    let lines = split(dictionary);
    let prefix = |entry: u16| {
        let (record, answer) = Both.read(set, lines[usize::from(entry) - 1]);
        assert_eq!(answer, [0, 0]);
        record[5..][..usize::from(record[3])].to_vec()
    };
    let mut keyed: Vec<(Vec<u16>, u16)> = entries.iter().map(|&e| (prefix(e), e)).collect();
    keyed.sort_by(|(one, _), (other, _)| compare(one, other));
    keyed.into_iter().map(|(_, entry)| entry).collect()
}

/// Those of the entries that meet the query, in their order. Query and lines read.
pub fn stated_kept(
    set: Charset,
    dictionary: &[u8],
    entries: &[u16],
    edition: Edition,
    query: &[u8],
) -> Vec<u16> {
    let lines = split(dictionary);
    let meets = |&entry: &u16| {
        let line = lines[usize::from(entry) - 1];
        Both.verdict(set, edition, query, line)[2] == 1
    };
    entries.iter().copied().filter(meets).collect()
}

/// Sorts the whole list, with a spare list that is longer than it need be, and holds both to what
/// is stated of them.
pub fn expect_sorted(set: Charset, dictionary: &[u8], list: &mut [u16]) {
    let count = list.len();
    let expected = stated_order(set, dictionary, list);
    let mut spare = vec![5_555; count + 3];
    let answer = Both.sort(set, dictionary, list, count, &mut spare);
    assert_eq!(answer, [0, 0]);
    assert!(list == expected, "{list:?} is not in order: {expected:?}");
    assert!(spare[..count].iter().all(|&place| place == 0));
    assert_eq!(spare[count..], [5_555; 3]);
}

/// Narrows the whole list in its order, and holds it to what is stated of it. Answers how many
/// entries are kept.
pub fn expect_narrowed(
    set: Charset,
    dictionary: &[u8],
    list: &mut [u16],
    edition: Edition,
    query: &[u8],
) -> usize {
    let count = list.len();
    let mut expected = stated_kept(set, dictionary, list, edition, query);
    let kept = expected.len();
    expected.resize(count, 0);
    let answer = Both.narrow_sorted(set, dictionary, list, count, edition, query);
    assert_eq!(answer, [0, 0, kept as u64, (count - kept) as u64]);
    assert!(
        list == expected,
        "{list:?} is not what is kept: {expected:?}"
    );
    kept
}
