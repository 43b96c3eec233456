//! Seeded queries of every edition, and the spelling of the second in SWU.

use crate::damage::damaged;
use crate::generate::{query, query_about, query_about_from, query_item, query_of, wide_query};
use crate::random::Random;
use halofret::{Charset, Edition};

const NULL: &str = "S00000";

/// A query of the edition, within its limits or a little over.
pub fn query_in(random: &mut Random, edition: Edition) -> Vec<u8> {
    let first = query(random);
    spelled(random, edition, first)
}

/// A query of the edition with so many items.
pub fn query_of_in(random: &mut Random, edition: Edition, prefix: usize, items: usize) -> Vec<u8> {
    let first = query_of(random, prefix, items);
    spelled(random, edition, first)
}

/// A query of the edition that many signs meet.
pub fn wide_query_in(random: &mut Random, edition: Edition) -> Vec<u8> {
    let first = wide_query(random);
    spelled(random, edition, first)
}

/// A query of the edition made from the symbols of the sign, in the second null too, so that it
/// is often met or nearly met.
pub fn query_about_in(random: &mut Random, edition: Edition, fsw: &[u8]) -> Vec<u8> {
    let about = match edition {
        Edition::First => query_about(random, fsw),
        Edition::Second(_) => query_about_from(random, fsw, 0),
    };
    spelled(random, edition, about)
}

/// A query of the edition, most often good.
pub fn any_query(random: &mut Random, edition: Edition) -> Vec<u8> {
    match random.below(6) {
        0 => query_in(random, edition),
        1 => {
            let sought = query_in(random, edition);
            damaged(random, &sought)
        }
        _ => wide_query_in(random, edition),
    }
}

/// The refusals of queries that the edition has.
pub fn query_refusals(edition: Edition) -> &'static [usize] {
    match edition {
        Edition::First => &[1, 2, 3, 4, 5],
        Edition::Second(_) => &[1, 2, 3, 4, 5, 22],
    }
}

/// A query in FSW, in the second edition with alternatives and in its character set.
fn spelled(random: &mut Random, edition: Edition, query: Vec<u8>) -> Vec<u8> {
    let Edition::Second(set) = edition else {
        return query;
    };
    let fsw = with_alternatives(random, &query);
    match set {
        Charset::Fsw => fsw,
        Charset::Swu => query_in_swu(random, &fsw).expect("the query is well-formed"),
    }
}

/// The length in FSW of what begins so: a symbol, a range or one other byte.
fn part_length(text: &str) -> usize {
    match text.as_bytes()[0] {
        b'S' => 6,
        b'R' => 8,
        _ => 1,
    }
}

/// The query, each item of which is now one of some alternatives, seldom one too many. In the
/// prefix null may be among them.
fn with_alternatives(random: &mut Random, query: &[u8]) -> Vec<u8> {
    let mut rest = std::str::from_utf8(query).unwrap();
    let mut in_prefix = rest.starts_with("QA");
    let mut text = String::new();
    while !rest.is_empty() {
        let (part, after) = rest.split_at(part_length(rest));
        in_prefix &= part != "T";
        text += &match part.len() {
            1 => part.to_string(),
            _ => alternatives(random, part, in_prefix),
        };
        rest = after;
    }
    text.into_bytes()
}

fn alternatives(random: &mut Random, item: &str, in_prefix: bool) -> String {
    let count = match random.below(80) {
        0 => 9,
        1..=4 => 8,
        _ => *random.pick(&[1, 1, 1, 2, 2, 3, 4]),
    };
    let kept = random.below(count);
    let any = |random: &mut Random| match in_prefix && random.once_in(6) {
        true => NULL.to_string(),
        false => query_item(random),
    };
    let each: Vec<String> = (0..count)
        .map(|index| match index == kept {
            true => item.to_string(),
            false => any(random),
        })
        .collect();
    each.join("o")
}

/// The same query in SWU, if it is well-formed in FSW. A fill or rotation that does not count is
/// any, as it is at both ends of a range.
pub fn query_in_swu(random: &mut Random, fsw: &[u8]) -> Option<Vec<u8>> {
    let edition = reference::Edition::Second(reference::Charset::Fsw);
    if let Err(refusal) = reference::read_query(edition, fsw) {
        if refusal.number <= 2 {
            return None;
        }
    }
    let text = std::str::from_utf8(fsw).ok()?;
    let (mut rest, variance) = text.split_at(text.find('V').unwrap_or(text.len()));
    let mut swu = String::new();
    while !rest.is_empty() {
        let length = match rest.as_bytes()[0] {
            b'2'..=b'7' => 7,
            _ => part_length(rest),
        };
        let (part, after) = rest.split_at(length);
        match length {
            1 => swu += part,
            6 => swu += &symbol_in_swu(random, part),
            7 => swu.extend([&part[..3], &part[4..]].map(number_character)),
            _ => {
                swu.push('R');
                swu.extend([&part[1..4], &part[5..]].map(|base| any_of_base(random, base)));
            }
        }
        rest = after;
    }
    Some((swu + variance).into_bytes())
}

fn number_character(number: &str) -> char {
    let number: u32 = number.parse().unwrap();
    char::from_u32(0x1d80c - 250 + number).unwrap()
}

fn symbol_character(key: &str) -> char {
    let code = reference::key_to_code(key.as_bytes()).unwrap();
    char::from_u32(0x40000 + u32::from(code)).unwrap()
}

fn any_of_base(random: &mut Random, base: &str) -> char {
    let (fill, rotation) = (random.below(6), random.below(16));
    symbol_character(&format!("S{base}{fill}{rotation:x}"))
}

/// The character, and a mark for each part that may be anything.
fn symbol_in_swu(random: &mut Random, sought: &str) -> String {
    let mut key = sought.to_string();
    let mut marks = String::new();
    if &sought[4..5] == "u" {
        key.replace_range(4..5, &random.below(6).to_string());
        marks.push('f');
    }
    if &sought[5..] == "u" {
        key.replace_range(5.., &format!("{:x}", random.below(16)));
        marks.push('r');
    }
    format!("{}{marks}", symbol_character(&key))
}
