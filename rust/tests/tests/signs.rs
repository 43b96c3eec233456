//! Reading and transcribing, in both sets, valid and damaged, at and over the limits.

use differential::both::shown;
use differential::damage::{damaged, noise};
use differential::generate::{in_swu, sign, sign_of};
use differential::interface::{offsets, SignRecord, OFFSETS};
use differential::{cases, Both, Charset, Interface, Random, Tally, BOTH_SETS};
use Charset::{Fsw, Swu};

/// Reads and transcribes a text with every kind of room; answers the refusal number.
fn check(random: &mut Random, set: Charset, text: &[u8]) -> u64 {
    let (record, [number, place]) = Both.read(set, text);
    let mut none = [];
    let answer = Both.transcribe(set, text, &mut none);
    if number != 0 {
        assert_eq!(answer, [number, place, 0]);
        let mut out = noise(random, 60);
        Both.transcribe(set, text, &mut out);
        return number;
    }
    let [6, needed, 0] = answer else {
        panic!("{answer:?} where room was needed");
    };
    let needed = needed as usize;
    for room in [needed - 1, random.below(needed), needed, needed + 7] {
        let mut out = vec![b'?'; room];
        let answer = Both.transcribe(set, text, &mut out);
        assert_eq!(answer[0], if room < needed { 6 } else { 0 });
    }
    check_offsets(set, text, &record);
    there_and_back(set, text, needed);
    number
}

/// At each offset its symbol is found, the offsets are all the places where a symbol begins, in
/// their order, and unused places hold 0.
fn check_offsets(set: Charset, text: &[u8], record: &SignRecord) {
    let (prefix, symbols) = offsets(record);
    let (prefix, unused_prefix) = prefix.split_at(record[3].into());
    let (symbols, unused_symbols) = symbols.split_at(record[4].into());
    let mut unused = unused_prefix.iter().chain(unused_symbols);
    assert!(unused.all(|&offset| offset == 0));

    let offsets = [prefix, symbols].concat();
    assert!(offsets.is_sorted_by(|before, after| before < after));
    let codes = record[5..].iter().take(prefix.len());
    let codes = codes.chain(&record[37..][..symbols.len()]);
    for (&offset, &code) in offsets.iter().zip(codes) {
        let from = &text[offset.into()..];
        let found = match set {
            Fsw => Both.key_to_code(&from[..6]),
            Swu => Both.char_to_code(&from[..4]),
        };
        assert_eq!(found, [0, 0, code.into()], "{offset} in {}", shown(text));
    }
    assert_eq!(offsets, places_of_symbols(set, text));
}

/// The places of the byte that every key or every symbol's character begins with, and that
/// stands nowhere else in a sign.
fn places_of_symbols(set: Charset, text: &[u8]) -> Vec<u16> {
    let first = match set {
        Fsw => b'S',
        Swu => 0xf1,
    };
    let places = (0..).zip(text).filter(|&(_, &byte)| byte == first);
    places.map(|(place, _)| place).collect()
}

/// The transcription reads as a sign equal in all but offsets, equal in these too only if there
/// is no symbol, and transcribes back to the same bytes.
fn there_and_back(set: Charset, text: &[u8], needed: usize) {
    let mut out = vec![0; needed];
    Both.transcribe(set, text, &mut out);
    let other = if set == Fsw { Swu } else { Fsw };
    let (record, answer) = Both.read(set, text);
    let (transcribed, same_answer) = Both.read(other, &out);
    assert_eq!(answer, same_answer);
    assert_eq!(record[..OFFSETS], transcribed[..OFFSETS]);
    let without_symbols = record[3..5] == [0, 0];
    assert_eq!(record == transcribed, without_symbols, "{}", shown(text));
    let mut back = vec![0; text.len()];
    Both.transcribe(other, &out, &mut back);
    assert_eq!(back, text);
}

#[test]
fn good_signs() {
    let mut tally = Tally::default();
    cases(10_000, 30_000, |random| {
        let fsw = sign(random);
        let swu = in_swu(&fsw).unwrap();
        let number = check(random, Fsw, &fsw);
        assert_eq!(number, check(random, Swu, &swu));
        tally.note(number);
        // A text in the other set than is said.
        check(random, Swu, &fsw);
    });
    tally.expect(&[0, 3, 4]);
}

#[test]
fn damaged_signs() {
    for set in BOTH_SETS {
        let mut tally = Tally::default();
        cases(20_000, 120_000, |random| {
            let fsw = sign(random);
            let text = match set {
                Fsw => fsw,
                Swu => in_swu(&fsw).unwrap(),
            };
            let text = damaged(random, &text);
            tally.note(check(random, set, &text));
        });
        tally.expect(&[0, 1, 2, 3, 4]);
    }
}

#[test]
fn noise_as_a_sign() {
    cases(50_000, 60_000, |random| {
        let text = noise(random, 40);
        for set in BOTH_SETS {
            check(random, set, &text);
        }
    });
}

/// Signs with classes' first and last bases and the ends of the numbers.
const EDGES: [&[u8]; 4] = [
    b"AS10000S20500M510x515S10000490x485S20500500x495",
    b"AS38600S37f5fS00000B250x749S37e5f749x250",
    b"R299x300S2ff00700x699",
    b"L500x500",
];

#[test]
fn every_byte_at_every_place() {
    for fsw in EDGES {
        let swu = in_swu(fsw).unwrap();
        for (set, text) in [(Fsw, fsw), (Swu, &swu)] {
            for place in 0..text.len() {
                for byte in 0..=255 {
                    let mut changed = text.to_vec();
                    changed[place] = byte;
                    Both.read(set, &changed);
                    Both.read(set, &changed[..=place]);
                }
            }
        }
    }
}

/// Counts never move a place: the limits at every cut and with damage far beyond them.
#[test]
fn limits() {
    let mut random = Random::new(60_000);
    for prefix in [0, 1, 31, 32, 33, 34, 90] {
        for symbols in [0, 1, 63, 64, 65, 66, 150] {
            let fsw = sign_of(&mut random, prefix, symbols);
            let expected = match (prefix, symbols) {
                (33.., _) => 3,
                (_, 65..) => 4,
                _ => 0,
            };
            assert_eq!(check(&mut random, Fsw, &fsw), expected);
            let swu = in_swu(&fsw).unwrap();
            assert_eq!(check(&mut random, Swu, &swu), expected);
            for _ in 0..60 {
                let text = damaged(&mut random, &fsw);
                check(&mut random, Fsw, &text);
                let text = damaged(&mut random, &swu);
                check(&mut random, Swu, &text);
            }
        }
    }
}

#[test]
fn every_cut_of_the_longest_sign() {
    let mut random = Random::new(70_000);
    let fsw = sign_of(&mut random, 32, 64);
    assert_eq!(fsw.len(), 1_033);
    let swu = in_swu(&fsw).unwrap();
    assert_eq!(swu.len(), 912);
    for (set, text) in [(Fsw, fsw), (Swu, swu)] {
        for cut in 0..=text.len() {
            Both.read(set, &text[..cut]);
            Both.read(set, &[&text[..cut], b"S"].concat());
        }
    }
}
