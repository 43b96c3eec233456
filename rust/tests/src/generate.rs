//! Seeded signs, queries, size lists and dictionaries.

use crate::random::Random;
use halofret::SIZE_LIST_LENGTH;

/// Bases that are sought often: the ends of every class, and a few between.
const WRITING: [u16; 14] = [
    0x100, 0x101, 0x1ff, 0x204, 0x205, 0x2fe, 0x2ff, 0x300, 0x36c, 0x36d, 0x375, 0x376, 0x37d,
    0x37e,
];
const LOCATION: [u16; 4] = [0x37f, 0x380, 0x385, 0x386];
const PUNCTUATION: [u16; 3] = [0x387, 0x38a, 0x38b];

fn writing_base(random: &mut Random) -> u16 {
    if random.once_in(3) {
        return random.between(0x100, 0x37e) as u16;
    }
    *random.pick(&WRITING)
}

fn key(random: &mut Random, base: u16) -> String {
    // Few fills and rotations, so that queries find something.
    let fill = *random.pick(&[0, 0, 0, 1, 5]);
    let rotation = *random.pick(&[0, 0, 0, 8, 15]);
    format!("S{base:03x}{fill}{rotation:x}")
}

fn prefix_key(random: &mut Random) -> String {
    match random.below(8) {
        0 => "S00000".into(),
        1 => {
            let base = *random.pick(&LOCATION);
            key(random, base)
        }
        _ => {
            let base = writing_base(random);
            key(random, base)
        }
    }
}

fn number(random: &mut Random) -> usize {
    match random.below(12) {
        0 => *random.pick(&[250, 251, 299, 300, 699, 700, 748, 749]),
        1 => random.between(250, 749),
        // Near the middle, as real signs are, so that they can be moved.
        _ => random.between(460, 540),
    }
}

fn coordinate(random: &mut Random) -> String {
    format!("{}x{}", number(random), number(random))
}

/// A sign in FSW with so many prefix symbols and signbox symbols.
pub fn sign_of(random: &mut Random, prefix: usize, symbols: usize) -> Vec<u8> {
    let mut text = String::new();
    if prefix > 0 {
        text.push('A');
    }
    for _ in 0..prefix {
        text += &prefix_key(random);
    }
    text.push(*random.pick(&['B', 'L', 'M', 'R']));
    text += &coordinate(random);
    for _ in 0..symbols {
        let base = writing_base(random);
        text += &key(random, base);
        text += &coordinate(random);
    }
    text.into_bytes()
}

/// A count that is mostly small, and sometimes at the limit or one over it.
fn count(random: &mut Random, limit: usize) -> usize {
    match random.below(40) {
        0 => limit,
        1 => limit + 1,
        2 => limit - 1,
        3 => random.between(0, limit + 3),
        _ => random.below(7),
    }
}

/// A sign in FSW, within its limits or a little over.
pub fn sign(random: &mut Random) -> Vec<u8> {
    let prefix = if random.once_in(2) {
        0
    } else {
        count(random, 32)
    };
    let symbols = count(random, 64);
    sign_of(random, prefix, symbols)
}

/// A sign in FSW that reads, short as in a dictionary.
pub fn short_sign(random: &mut Random) -> Vec<u8> {
    let prefix = *random.pick(&[0, 0, 1, 2, 3]);
    let symbols = random.below(6);
    sign_of(random, prefix, symbols)
}

/// The same sign in SWU, if it is well-formed. It may be over the limits, so this goes token
/// by token and not by transcription.
pub fn in_swu(fsw: &[u8]) -> Option<Vec<u8>> {
    if let Err(refusal) = reference::read(reference::Charset::Fsw, fsw) {
        if refusal.number <= 2 {
            return None;
        }
    }
    let mut swu = String::new();
    let mut rest = std::str::from_utf8(fsw).ok()?;
    while let Some(first) = rest.chars().next() {
        let (length, point) = match first {
            'S' => (6, Some(0x40000 + code(&rest[..6]))),
            '2'..='7' => (3, Some(0x1d80c - 250 + rest[..3].parse::<u32>().ok()?)),
            'x' => (1, None),
            mark => (1, Some(0x1d800 + "ABLMR".find(mark)? as u32)),
        };
        swu.extend(point.and_then(char::from_u32));
        rest = &rest[length..];
    }
    Some(swu.into_bytes())
}

fn code(key: &str) -> u32 {
    reference::key_to_code(key.as_bytes()).unwrap().into()
}

fn query_base(random: &mut Random) -> u16 {
    match random.below(10) {
        0 => *random.pick(&LOCATION),
        1 => *random.pick(&PUNCTUATION),
        _ => writing_base(random),
    }
}

/// A symbol or a range, in FSW.
pub(crate) fn query_item(random: &mut Random) -> String {
    let base = query_base(random);
    if random.once_in(3) {
        let mut ends = [base, query_base(random)];
        if !random.once_in(12) {
            ends.sort();
        }
        return format!("R{:03x}t{:03x}", ends[0], ends[1]);
    }
    let mut item = key(random, base);
    if random.once_in(2) {
        item.replace_range(4..5, "u");
    }
    if random.once_in(2) {
        item.replace_range(5..6, "u");
    }
    item
}

/// A query with so many items; without prefix items it may still ask for a prefix.
pub fn query_of(random: &mut Random, prefix: usize, items: usize) -> Vec<u8> {
    let mut text = String::from("Q");
    if prefix > 0 {
        text.push('A');
        for _ in 0..prefix {
            text += &query_item(random);
        }
        text.push('T');
    } else if random.once_in(4) {
        text.push('T');
    }
    for _ in 0..items {
        text += &query_item(random);
        if random.once_in(3) {
            text += &coordinate(random);
        }
    }
    if random.once_in(3) {
        text += &variance(random);
    }
    text.into_bytes()
}

fn variance(random: &mut Random) -> String {
    match random.below(4) {
        0 => format!("V{}", random.below(10)),
        1 => format!("V{:02}", random.below(100)),
        2 => format!("V{:03}", random.below(1_000)),
        _ => format!("V{}", random.pick(&[0, 19, 20, 21, 499, 999])),
    }
}

/// A query, within its limits or a little over.
pub fn query(random: &mut Random) -> Vec<u8> {
    let prefix = if random.once_in(3) {
        count(random, 32)
    } else {
        0
    };
    let items = count(random, 32);
    query_of(random, prefix, items)
}

/// A query that many signs meet: wide ranges, and a coordinate only with a great variance.
pub fn wide_query(random: &mut Random) -> Vec<u8> {
    let mut text = String::from(*random.pick(&["Q", "Q", "Q", "QT", "QAR100t386T"]));
    for _ in 0..random.below(3) {
        let first = writing_base(random);
        let last = random.between(first.into(), 0x38b);
        text += &format!("R{first:03x}t{last:03x}");
        if random.once_in(3) {
            text += &coordinate(random);
        }
    }
    if random.once_in(2) {
        text += &format!("V{}", random.between(30, 300));
    }
    text.into_bytes()
}

/// A query made from the symbols of the sign, so that it is often met or nearly met. Where the
/// sign has null, the first code stands.
pub fn query_about(random: &mut Random, fsw: &[u8]) -> Vec<u8> {
    query_about_from(random, fsw, 1)
}

/// The same with no code below the least.
pub(crate) fn query_about_from(random: &mut Random, fsw: &[u8], least: u16) -> Vec<u8> {
    let Ok(sign) = reference::read(reference::Charset::Fsw, fsw) else {
        return query(random);
    };
    let mut text = String::from("Q");
    let begins = random.below(sign.prefix().len() + 1);
    if begins > 0 && random.once_in(2) {
        text.push('A');
        for &code in &sign.prefix()[..begins] {
            text += &loosened(random, code.max(least));
        }
        text.push('T');
    }
    for _ in 0..random.below(5).min(sign.symbols().len()) {
        let symbol = *random.pick(sign.symbols());
        text += &loosened(random, symbol.code);
        if random.once_in(2) {
            let x = nearby(random, symbol.x);
            let y = nearby(random, symbol.y);
            text += &format!("{x}x{y}");
        }
    }
    if random.once_in(3) {
        text += &variance(random);
    }
    text.into_bytes()
}

/// At the usual variance, just over it, or anywhere within.
fn nearby(random: &mut Random, number: u16) -> i32 {
    let by = *random.pick(&[-21, -20, -19, 0, 0, 5, 19, 20, 21]);
    (i32::from(number) + by).clamp(250, 749)
}

fn loosened(random: &mut Random, code: u16) -> String {
    let mut key = [0; 6];
    reference::code_to_key(code.into(), &mut key).unwrap();
    let mut key = String::from_utf8(key.to_vec()).unwrap();
    if code == 0 {
        return key;
    }
    let base = u16::from_str_radix(&key[1..4], 16).unwrap();
    match random.below(5) {
        0 => key.replace_range(4..6, "uu"),
        1 => key.replace_range(4..5, "u"),
        2 => key.replace_range(5..6, "u"),
        3 => key = format!("R{base:03x}t{:03x}", random.between(base.into(), 0x38b)),
        _ => {}
    }
    key
}

/// A size list in which about one byte in so many is zero; 0 for none.
pub fn sizes(random: &mut Random, zero_once_in: usize) -> Vec<u8> {
    (0..SIZE_LIST_LENGTH)
        .map(|_| {
            let zero = zero_once_in > 0 && random.once_in(zero_once_in);
            let greatest = *random.pick(&[30, 30, 30, 60, 255]);
            if zero {
                0
            } else {
                random.between(1, greatest) as u8
            }
        })
        .collect()
}

/// The lines, each with its byte 10.
pub fn dictionary_of(lines: &[Vec<u8>]) -> Vec<u8> {
    let mut dictionary = lines.join(&10);
    if !lines.is_empty() {
        dictionary.push(10);
    }
    dictionary
}

/// So many short lines that read, in FSW and in SWU.
pub fn dictionary(random: &mut Random, lines: usize) -> [Vec<u8>; 2] {
    let fsw: Vec<Vec<u8>> = (0..lines).map(|_| short_sign(random)).collect();
    let swu: Vec<Vec<u8>> = fsw.iter().map(|line| in_swu(line).unwrap()).collect();
    [dictionary_of(&fsw), dictionary_of(&swu)]
}
