//! A seeded dictionary like the public ones: two to eight symbols a sign near the middle,
//! about every second sign with a prefix, lines of about 84 bytes. For sorting there are others,
//! with prefixes of any length up to eight.

use differential::generate::in_swu;
use differential::Random;
use halofret::SIZE_LIST_LENGTH;
use reference::Charset;

/// Hands and movement are the most frequent, then faces, then bodies.
fn base(random: &mut Random) -> usize {
    match random.between(0, 11) {
        0 => 0x100,
        1..=4 => random.between(0x100, 0x204),
        5 => 0x205,
        6..=8 => random.between(0x205, 0x2f6),
        9 | 10 => random.between(0x2ff, 0x36c),
        _ => random.between(0x36d, 0x37e),
    }
}

fn key(random: &mut Random) -> String {
    let (base, fill) = (base(random), random.between(0, 5));
    format!("S{base:03x}{fill}{:x}", random.between(0, 15))
}

fn sign(random: &mut Random) -> String {
    let keys: Vec<String> = (0..random.between(2, 8)).map(|_| key(random)).collect();
    let mut text = String::new();
    if random.between(0, 1) == 1 {
        text.push('A');
        text += &keys[..random.between(1, keys.len() - 1)].concat();
    }
    text + &signbox(random, keys)
}

fn signbox(random: &mut Random, keys: Vec<String>) -> String {
    let mut text = String::new();
    text.push(['M', 'M', 'M', 'M', 'B', 'L', 'R'][random.between(0, 6)]);
    text += &format!("{}x{}", random.between(520, 580), random.between(520, 580));
    for key in keys {
        text += &key;
        text += &format!("{}x{}", random.between(440, 550), random.between(440, 550));
    }
    text
}

/// Of which codes the prefixes are that a list is sorted by.
#[derive(Clone, Copy, Debug)]
pub enum Codes {
    /// Any that a prefix may have but null.
    Many,
    /// Eight.
    Few,
}

const FEW: [&str; 8] = [
    "S10000", "S14c20", "S18513", "S1f540", "S20500", "S26504", "S2ff00", "S37806",
];

fn prefix_key(random: &mut Random, codes: Codes) -> String {
    match codes {
        Codes::Few => random.pick(&FEW).to_string(),
        Codes::Many => {
            let (base, fill) = (random.between(0x100, 0x386), random.between(0, 5));
            format!("S{base:03x}{fill}{:x}", random.between(0, 15))
        }
    }
}

/// A sign with a prefix of none to eight symbols.
fn prefixed_sign(random: &mut Random, codes: Codes) -> String {
    let prefix: String = (0..random.between(0, 8))
        .map(|_| prefix_key(random, codes))
        .collect();
    let keys = (0..random.between(2, 8)).map(|_| key(random)).collect();
    let mark = if prefix.is_empty() { "" } else { "A" };
    format!("{mark}{prefix}{}", signbox(random, keys))
}

/// What is measured on: a dictionary, where its lines lie, and sizes for all symbols.
pub struct Dictionary {
    pub text: Vec<u8>,
    lines: Vec<(usize, usize)>,
    pub sizes: Vec<u8>,
}

impl Dictionary {
    pub fn new(charset: Charset, count: usize) -> Dictionary {
        Dictionary::of(charset, count, sign)
    }

    /// One whose list is to be sorted.
    pub fn prefixed(charset: Charset, count: usize, codes: Codes) -> Dictionary {
        Dictionary::of(charset, count, |random| prefixed_sign(random, codes))
    }

    fn of(charset: Charset, count: usize, sign: impl Fn(&mut Random) -> String) -> Dictionary {
        let mut random = Random::new(count as u64);
        let mut text = vec![];
        let mut lines = vec![];
        for _ in 0..count {
            let sign = sign(&mut random).into_bytes();
            let start = text.len();
            match charset {
                Charset::Fsw => text.extend_from_slice(&sign),
                Charset::Swu => text.extend(in_swu(&sign).expect("the sign reads")),
            }
            lines.push((start, text.len()));
            text.push(10);
        }
        let sizes = (0..SIZE_LIST_LENGTH)
            .map(|_| random.between(5, 40) as u8)
            .collect();
        Dictionary { text, lines, sizes }
    }

    pub fn count(&self) -> usize {
        self.lines.len()
    }

    pub fn lines(&self) -> impl Iterator<Item = &[u8]> {
        self.lines
            .iter()
            .map(|&(start, end)| &self.text[start..end])
    }
}
