//! Seeded damage to texts.

use crate::random::Random;

/// Bytes that mean something somewhere, so that damage is often nearly right.
const TELLING: &[u8] = b"ABLMRSQTVtuxofr-0123456789abcdefAF\n\r \x00\x7f\x80\xf0\xf1\xff";

/// Characters at and next to the ends of the allowed ranges, and forms that UTF-8 forbids.
const GROUPS: [[u8; 4]; 20] = [
    *b"\xf0\x9d\x9f\xbf", // U+1D7FF, before the marks
    *b"\xf0\x9d\xa0\x80", // A
    *b"\xf0\x9d\xa0\x81", // B
    *b"\xf0\x9d\xa0\x84", // R
    *b"\xf0\x9d\xa0\x85", // after R
    *b"\xf0\x9d\xa0\x8b", // before 250
    *b"\xf0\x9d\xa0\x8c", // 250
    *b"\xf0\x9d\xa7\xbf", // 749
    *b"\xf0\x9d\xa8\x80", // after 749
    *b"\xf0\xbf\xbf\xbf", // U+3FFFF, before null
    *b"\xf1\x80\x80\x80", // null
    *b"\xf1\x80\x80\x81", // code 1
    *b"\xf1\x8e\xbe\xa0", // the last writing symbol
    *b"\xf1\x8e\xbe\xa1", // the first location symbol
    *b"\xf1\x8f\x92\x80", // the last symbol
    *b"\xf1\x8f\x92\x81", // after the last symbol
    *b"\xf0\x80\x80\x80", // an overlong form
    *b"\xf4\x90\x80\x80", // beyond Unicode
    *b"\xf1\xc0\x80\x81", // a wrong second byte
    *b"M500",
];

/// The text with one to three kinds of damage; now and then it is left as it is.
pub fn damaged(random: &mut Random, text: &[u8]) -> Vec<u8> {
    let mut text = text.to_vec();
    for _ in 0..*random.pick(&[0, 1, 1, 1, 1, 2, 3]) {
        damage(random, &mut text);
    }
    text
}

fn damage(random: &mut Random, text: &mut Vec<u8>) {
    let at = random.below(text.len() + 1);
    let inside = at < text.len();
    match random.below(9) {
        0 if inside => text[at] ^= 1 << random.below(8),
        1 if inside => text[at] = *random.pick(TELLING),
        2 if inside => drop(text.remove(at)),
        3 => text.insert(at, *random.pick(TELLING)),
        4 => text.truncate(at),
        5 => splice(random, text, at),
        6 => damage_group(random, text),
        7 => drop(text.splice(at..at, *random.pick(&GROUPS))),
        _ => text.extend(random.pick(&GROUPS)),
    }
}

/// Copies a part of the text to another place in it.
fn splice(random: &mut Random, text: &mut Vec<u8>, to: usize) {
    let from = random.below(text.len() + 1);
    let length = random.below(20).min(text.len() - from);
    let part = text[from..from + length].to_vec();
    text.splice(to..to, part);
}

/// Replaces, inserts or removes four bytes where SWU has a character.
fn damage_group(random: &mut Random, text: &mut Vec<u8>) {
    let at = 4 * random.below(text.len() / 4 + 1);
    let group = *random.pick(&GROUPS);
    let end = (at + 4).min(text.len());
    match random.below(3) {
        0 => drop(text.splice(at..end, group)),
        1 => drop(text.splice(at..at, group)),
        _ => drop(text.drain(at..end)),
    }
}

/// Any bytes at all.
pub fn noise(random: &mut Random, most: usize) -> Vec<u8> {
    let length = random.below(most + 1);
    (0..length)
        .map(|_| {
            if random.once_in(3) {
                random.bits() as u8
            } else {
                *random.pick(TELLING)
            }
        })
        .collect()
}
