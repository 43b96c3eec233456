//! Symbol codes, keys and characters: every code, and damaged keys and characters.

use differential::damage::{damaged, noise};
use differential::{cases, Both, Interface, Tally};

const LAST_CODE: u64 = 62_592;

#[test]
fn every_code_there_and_back() {
    let mut out = [0; 6];
    for code in 0..=LAST_CODE {
        assert_eq!(Both.code_to_key(code, &mut out), [0, 0, 6]);
        assert_eq!(Both.key_to_code(&out), [0, 0, code]);
        assert_eq!(Both.code_to_char(code, &mut out[..4]), [0, 0, 4]);
        assert_eq!(Both.char_to_code(&out[..4]), [0, 0, code]);
    }
}

#[test]
fn codes_and_rooms() {
    let mut tally = Tally::default();
    cases(1_000, 20_000, |random| {
        let code = match random.below(4) {
            0 => random.bits(),
            1 => LAST_CODE - 3 + random.below(7) as u64,
            2 => 65_530 + random.below(70_000) as u64,
            _ => random.below(62_593) as u64,
        };
        let mut out = noise(random, 12);
        tally.note(Both.code_to_key(code, &mut out)[0]);
        tally.note(Both.code_to_char(code, &mut out)[0]);
    });
    for room in 0..10 {
        let mut out = vec![b'?'; room];
        Both.code_to_key(26, &mut out);
        Both.code_to_char(26, &mut out);
        Both.code_to_key(LAST_CODE + 1, &mut out);
    }
    tally.expect(&[0, 6, 15]);
}

#[test]
fn every_byte_at_every_place_of_a_key() {
    for key in [b"S10000", b"S38b5f", b"S37e00", b"S00000", b"S2ff58"] {
        for place in 0..key.len() {
            for byte in 0..=255 {
                let mut changed = *key;
                changed[place] = byte;
                Both.key_to_code(&changed);
                Both.key_to_code(&changed[..=place]);
            }
        }
    }
}

#[test]
fn characters_about_every_end() {
    let points = (0x1d7f0..0x1da10)
        .chain(0x3fff0..0x40010)
        .chain(0x4efa0..0x4efb0)
        .chain(0x4f400..0x4f500);
    for point in points {
        let character = char::from_u32(point).unwrap().to_string();
        let text = [character.as_bytes(), b"\xf1\x80\x80\x81\xf1"].concat();
        for length in 0..=text.len() {
            Both.char_to_code(&text[..length]);
        }
    }
}

#[test]
fn damaged_keys_and_characters() {
    let mut tally = Tally::default();
    cases(2_000, 200_000, |random| {
        let code = random.below(62_593) as u64;
        let mut out = [0; 6];
        Both.code_to_key(code, &mut out);
        tally.note(Both.key_to_code(&damaged(random, &out))[0]);
        Both.code_to_char(code, &mut out[..4]);
        tally.note(Both.char_to_code(&damaged(random, &out[..4]))[0]);
        Both.key_to_code(&noise(random, 8));
        Both.char_to_code(&noise(random, 9));
    });
    tally.expect(&[0, 1, 2]);
}
