//! Reading queries of the first edition, and verdicts by them.

use differential::damage::{damaged, noise};
use differential::generate::{in_swu, query, query_about, query_of, short_sign, sign};
use differential::{cases, Both, Charset, Edition, Interface, Random, Tally, BOTH_SETS};
use Edition::First;

#[test]
fn good_and_damaged_queries() {
    let mut tally = Tally::default();
    cases(200_000, 200_000, |random| {
        let text = query(random);
        tally.note(Both.read_query(First, &text)[0]);
        tally.note(Both.read_query(First, &damaged(random, &text))[0]);
        Both.read_query(First, &noise(random, 30));
    });
    tally.expect(&[0, 1, 2, 3, 4, 5]);
}

#[test]
fn every_byte_at_every_place() {
    for text in [
        b"QAS100uuR37ft386TS38b5fS20500250x749R100t38b749x250V999".as_slice(),
        b"QTS2ff0u500x500V0",
        b"QV20",
        b"QR204t205",
    ] {
        assert_eq!(Both.read_query(First, text), [0, 0]);
        for place in 0..text.len() {
            for byte in 0..=255 {
                let mut changed = text.to_vec();
                changed[place] = byte;
                Both.read_query(First, &changed);
                Both.read_query(First, &changed[..=place]);
            }
        }
    }
}

#[test]
fn limits() {
    let mut random = Random::new(300_000);
    for prefix in [0, 1, 31, 32, 33, 34, 80] {
        for items in [0, 1, 31, 32, 33, 34, 80] {
            let text = query_of(&mut random, prefix, items);
            let number = Both.read_query(First, &text)[0];
            match (prefix, items) {
                (33.., _) => assert_eq!(number, 3),
                (_, 33..) => assert_eq!(number, 4),
                _ => assert!(number == 0 || number == 5),
            }
            for _ in 0..60 {
                Both.read_query(First, &damaged(&mut random, &text));
            }
        }
    }
}

#[test]
fn every_variance() {
    let sign = b"M500x500S10000500x500";
    for distance in [0, 1, 19, 20, 21, 100, 249] {
        for digits in 1..=3 {
            for variance in 0..10_usize.pow(digits) {
                let width = digits as usize;
                let query = format!("QS10000500x{}V{variance:0width$}", 500 + distance);
                let answer = Both.verdict(Charset::Fsw, First, query.as_bytes(), sign);
                assert_eq!(answer[2] == 1, distance <= variance, "{query}");
            }
        }
    }
}

/// A verdict, which must be the same for the transcribed sign.
fn verdict(random: &mut Random, query: &[u8], fsw: &[u8]) -> [u64; 36] {
    let answer = Both.verdict(Charset::Fsw, First, query, fsw);
    if let Some(swu) = in_swu(fsw) {
        assert_eq!(answer, Both.verdict(Charset::Swu, First, query, &swu));
        if random.once_in(4) {
            Both.verdict(Charset::Swu, First, query, &damaged(random, &swu));
        }
    }
    answer
}

#[test]
fn verdicts() {
    let mut tally = Tally::default();
    let mut met = 0;
    cases(400_000, 150_000, |random| {
        let fsw = if random.once_in(3) {
            sign(random)
        } else {
            short_sign(random)
        };
        let sought = if random.once_in(3) {
            query(random)
        } else {
            query_about(random, &fsw)
        };
        let answer = verdict(random, &sought, &fsw);
        met += answer[2];
        tally.note(answer[0]);
        let sought = damaged(random, &sought);
        tally.note(verdict(random, &sought, &fsw)[0]);
        let fsw = damaged(random, &fsw);
        tally.note(verdict(random, &sought, &fsw)[0]);
    });
    tally.expect(&[0, 1, 2, 3, 4, 5]);
    assert!(met > 5_000, "only {met} verdicts were met");
}

/// The most items on the longest sign, each item met by one of the last symbols.
#[test]
fn many_items_and_symbols() {
    let mut random = Random::new(500_000);
    for found_at in 0..64 {
        let mut sign = String::from("AS20000S20100M500x500");
        let mut sought = String::from("QAS200uuR201t202T");
        for index in 0..64 {
            let base = if index == found_at { 0x150 } else { 0x160 };
            sign += &format!("S{base:x}00{}x500", 400 + index);
        }
        for _ in 0..32 {
            sought += *random.pick(&["S15000", "R14ft150", "S150u0", "R150t15f"]);
        }
        let answer = verdict(&mut random, sought.as_bytes(), sign.as_bytes());
        assert_eq!(answer[..4], [0, 0, 1, 0]);
        assert!(answer[4..].iter().all(|&symbol| symbol == found_at + 1));
    }
}

#[test]
fn noise_as_query_and_sign() {
    cases(510_000, 40_000, |random| {
        let (sought, text) = (noise(random, 12), noise(random, 12));
        for set in BOTH_SETS {
            Both.verdict(set, First, &sought, &text);
            Both.verdict(set, First, b"Q", &text);
        }
    });
}
