//! Seeded stylings, and damage to them.

use crate::generate::{short_sign, sign};
use crate::random::Random;

/// Zooms that are refused: out of range, some only until their bits are cut, or over two decimals.
const ZOOMS_REFUSED: [&str; 16] = [
    "0",
    "0.00",
    "000.0",
    "100",
    "100.00",
    "0099.999",
    "1.500",
    "0.005",
    "0.010",
    "655.37",
    "65537",
    "42949672.97",
    "4294967297",
    "184467440737095516.17",
    "18446744073709551617",
    "99999999999999999999999999999999999999.99",
];

/// What a styling may go over.
#[derive(Clone, Copy, Default)]
struct Over {
    zooms: bool,
    names: bool,
}

/// A zoom of so many hundredths, with zeros that it does not need.
fn spelled_zoom(random: &mut Random, hundredths: usize) -> String {
    let zeros = match random.below(30) {
        0 => random.below(400),
        1..=10 => random.below(4),
        _ => 0,
    };
    let (whole, rest) = (hundredths / 100, hundredths % 100);
    let decimals = match random.below(2) {
        0 if rest == 0 => String::new(),
        _ if rest % 10 == 0 && random.once_in(2) => format!(".{}", rest / 10),
        _ => format!(".{rest:02}"),
    };
    format!("{}{whole}{decimals}", "0".repeat(zeros))
}

fn zoom(random: &mut Random, over: Over) -> String {
    if over.zooms && random.once_in(3) {
        return random.pick(&ZOOMS_REFUSED).to_string();
    }
    let hundredths = match random.below(3) {
        0 => *random.pick(&[1, 5, 9, 10, 50, 90, 99, 100, 101, 110, 1_000, 9_990, 9_999]),
        1 => 10 * random.between(1, 40),
        _ => random.between(1, 9_999),
    };
    spelled_zoom(random, hundredths)
}

fn letters(random: &mut Random, among: &[u8], length: usize) -> String {
    (0..length)
        .map(|_| char::from(*random.pick(among)))
        .collect()
}

/// Letters that are hex digits or not, or hex digits.
fn colour(random: &mut Random, over: Over) -> String {
    if over.names && random.once_in(3) {
        let length = random.between(25, 30);
        return letters(random, b"abcXYZ", length);
    }
    match random.below(4) {
        0 => {
            let length = *random.pick(&[3, 6]);
            letters(random, b"0123456789abcdefABCDEF", length)
        }
        1 => {
            let length = *random.pick(&[1, 2, 3, 4, 5, 6, 7, 24]);
            letters(random, b"abcdefABCDEF", length)
        }
        2 => random
            .pick(&["red", "blue", "lightblue", "G", "Z"])
            .to_string(),
        _ => {
            let length = random.between(1, 24);
            letters(random, b"abcdefghijklmnopqrstuvwxyzACDFGPSZ", length)
        }
    }
}

fn detail(random: &mut Random, over: Over) -> String {
    let line = colour(random, over);
    match random.below(2) {
        0 => format!("_{line}_"),
        _ => format!("_{line},{}_", colour(random, over)),
    }
}

fn two_digits(random: &mut Random) -> String {
    match random.below(4) {
        0 => format!("{:02}", random.below(100)),
        1 => random.pick(&["00", "99"]).to_string(),
        _ => format!("{:02}", random.between(1, 5)),
    }
}

fn whole_sign(random: &mut Random, over: Over) -> String {
    let mut text = String::from("-");
    if random.once_in(2) {
        text.push('C');
    }
    if random.once_in(2) {
        text += &format!("P{}", two_digits(random));
    }
    if random.once_in(2) {
        text += &format!("G_{}_", colour(random, over));
    }
    if random.once_in(2) {
        text += &format!("D{}", detail(random, over));
    }
    if random.once_in(2) {
        text += &format!("Z{}", zoom(random, over));
    }
    text
}

fn each_symbol(random: &mut Random, over: Over, styles: usize) -> String {
    let mut text = String::from("-");
    let details = random.below(styles + 1);
    for _ in 0..details {
        text += &format!("D{}{}", two_digits(random), detail(random, over));
    }
    for _ in details..styles {
        text += &format!("Z{},{}", two_digits(random), zoom(random, over));
    }
    text
}

/// A styling with so many symbol styles, which may go over what else is limited.
fn styling_with(random: &mut Random, styles: usize, over: Over) -> Vec<u8> {
    let mut text = whole_sign(random, over);
    if styles > 0 || random.once_in(4) {
        text += &each_symbol(random, over, styles);
    }
    text.into_bytes()
}

/// A styling with so many symbol styles, all else within its limits.
pub fn styling_of(random: &mut Random, styles: usize) -> Vec<u8> {
    styling_with(random, styles, Over::default())
}

/// A styling that reads, short as those that people write.
pub fn short_styling(random: &mut Random) -> Vec<u8> {
    let styles = random.below(4);
    styling_of(random, styles)
}

/// A styling, within its limits or a little over some of them.
pub fn styling(random: &mut Random) -> Vec<u8> {
    let over = Over {
        zooms: random.once_in(8),
        names: random.once_in(8),
    };
    let styles = match random.below(20) {
        0 => *random.pick(&[63, 64, 65]),
        1 => random.below(71),
        2..=7 => 0,
        _ => random.below(6),
    };
    styling_with(random, styles, over)
}

/// A sign in FSW that is mostly short, for a styling to follow.
pub fn sign_to_style(random: &mut Random) -> Vec<u8> {
    match random.below(5) {
        0 => sign(random),
        _ => short_sign(random),
    }
}

/// Bytes that mean something in a styling, and a few that do not.
pub const TELLING: &[u8] = b"--CPGDZ__,,..0012569aAbFgGzx!S\n \x00\x80\xff";

/// Parts of stylings, whole and unfinished.
const PARTS: [&[u8]; 12] = [
    b"-",
    b"--",
    b"C",
    b"P07",
    b"G_fff_",
    b"D_red_",
    b"D_a,b_",
    b"D01_red_",
    b"Z1.5",
    b"Z01,2",
    b",0f0",
    b"Z00.",
];

/// The styled text with one to three kinds of damage from `start` on; now and then none.
pub fn damaged_from(random: &mut Random, text: &[u8], start: usize) -> Vec<u8> {
    let mut text = text.to_vec();
    for _ in 0..*random.pick(&[0, 1, 1, 1, 1, 2, 3]) {
        damage(random, &mut text, start);
    }
    text
}

fn damage(random: &mut Random, text: &mut Vec<u8>, start: usize) {
    let start = start.min(text.len());
    let at = random.between(start, text.len());
    let inside = at < text.len();
    match random.below(9) {
        0 if inside => text[at] ^= 1 << random.below(8),
        1 if inside => text[at] = *random.pick(TELLING),
        2 if inside => drop(text.remove(at)),
        3 => text.insert(at, *random.pick(TELLING)),
        4 => text.truncate(at),
        5 => drop(text.splice(at..at, random.pick(&PARTS).iter().copied())),
        6 => move_dash(text, start, at),
        7 => repeat_part(random, text, start, at),
        _ if inside => text.swap(at, start),
        _ => text.push(*random.pick(TELLING)),
    }
}

/// Takes the last dash away and puts it elsewhere.
fn move_dash(text: &mut Vec<u8>, start: usize, to: usize) {
    if let Some(dash) = text[start..].iter().rposition(|&byte| byte == b'-') {
        text.remove(start + dash);
        text.insert(to.min(text.len()), b'-');
    }
}

/// Copies a part of the styling to another place in it.
fn repeat_part(random: &mut Random, text: &mut Vec<u8>, start: usize, to: usize) {
    let from = random.between(start, text.len());
    let length = random.below(20).min(text.len() - from);
    let part = text[from..from + length].to_vec();
    text.splice(to..to, part);
}
