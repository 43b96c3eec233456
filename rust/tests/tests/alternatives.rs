//! Verdicts by queries of the second edition (document 02, Q-9), and by the first beside it.

use differential::both::shown;
use differential::damage::damaged;
use differential::editions::{query_about_in, query_in, query_in_swu};
use differential::generate::{in_swu, query, query_about, short_sign, sign};
use differential::{cases, Both, Charset, Edition, Interface, Random, Tally, BOTH_SETS};
use Charset::{Fsw, Swu};
use Edition::{First, Second};

const K: &str = "AS10000S20500M510x515S10000490x485S20500500x495";
const NULL_FIRST: &str = "AS00000S10000M500x500S20500500x500";

/// Query and sign in either set. The four verdicts must be the same, but for the place of a
/// reversed range.
fn verdict(random: &mut Random, query: &[u8], sign: &[u8]) -> [u64; 36] {
    let queries = [query.to_vec(), query_in_swu(random, query).unwrap()];
    let signs = [sign.to_vec(), in_swu(sign).unwrap()];
    let answer = Both.verdict(Fsw, Second(Fsw), query, sign);
    for (query_set, query) in BOTH_SETS.into_iter().zip(&queries) {
        for (set, sign) in BOTH_SETS.into_iter().zip(&signs) {
            let other = Both.verdict(set, Second(query_set), query, sign);
            let same = if answer[0] == 5 {
                other[0] == 5 && range_at(query, other[1]) == range_at(&queries[0], answer[1])
            } else {
                other == answer
            };
            assert!(same, "{} of {}", shown(query), shown(sign));
        }
    }
    answer
}

/// The how manieth range begins at the offset.
fn range_at(query: &[u8], offset: u64) -> usize {
    assert_eq!(query[offset as usize], b'R');
    let before = &query[..offset as usize];
    before.iter().filter(|&&byte| byte == b'R').count()
}

/// Met, the unmet condition and the first two witnesses.
fn told(query: &str, sign: &str) -> [u64; 4] {
    let answer = verdict(&mut Random::new(2), query.as_bytes(), sign.as_bytes());
    assert_eq!(answer[..2], [0, 0], "{query}");
    answer[2..6].try_into().unwrap()
}

#[test]
fn the_first_symbol_that_any_alternative_fits() {
    assert_eq!(told("QS20500oS10000", K), [1, 0, 1, 0]);
    assert_eq!(told("QS10000oS20500", K), [1, 0, 1, 0]);
    assert_eq!(told("QS2ff00oS20500", K), [1, 0, 2, 0]);
    assert_eq!(told("QS2ff00oS30000", K), [0, 1, 0, 0]);
    assert_eq!(told("QS2ff00oR200t2feS100uuoS20500", K), [1, 0, 2, 1]);
    assert_eq!(told("QS10000oS20500S20500oS10000", K), [1, 0, 1, 1]);
    assert_eq!(told("QS10000S2ff00oS30000S20500", K), [0, 2, 0, 0]);
}

#[test]
fn one_coordinate_for_all_alternatives() {
    assert_eq!(told("QS10000oS20500500x495V10", K), [1, 0, 1, 0]);
    assert_eq!(told("QS10000oS20500500x495V9", K), [1, 0, 2, 0]);
    assert_eq!(told("QS20500oS10000500x495V9", K), [1, 0, 2, 0]);
    assert_eq!(told("QS10000oS2ff00500x495V9", K), [0, 1, 0, 0]);
    assert_eq!(told("QS20500oS10000520x515", K), [1, 0, 2, 0]);
    assert_eq!(told("QS20500oS10000520x516", K), [0, 1, 0, 0]);
}

#[test]
fn alternatives_in_the_prefix() {
    assert_eq!(told("QAS2ff00oS10000T", K), [1, 0, 0, 0]);
    assert_eq!(told("QAS20500oS10000S10000oS20500T", K), [1, 0, 0, 0]);
    assert_eq!(told("QAS2ff00oS20500T", K), [0, 0, 0, 0]);
    assert_eq!(told("QAS10000oS20500S10000oS2ff00T", K), [0, 0, 0, 0]);
    assert_eq!(told("QAS10000S20500S10000oS20500T", K), [0, 0, 0, 0]);
    assert_eq!(told("QAS20500oR100t105TS20500", K), [1, 0, 2, 0]);
}

#[test]
fn null_in_the_prefix() {
    assert_eq!(told("QAS00000T", NULL_FIRST), [1, 0, 0, 0]);
    assert_eq!(told("QAS00000oS10000T", NULL_FIRST), [1, 0, 0, 0]);
    assert_eq!(
        told("QAS20500oS00000S00000oS10000T", NULL_FIRST),
        [1, 0, 0, 0]
    );
    assert_eq!(told("QAS00000TS20500", NULL_FIRST), [1, 0, 1, 0]);
    for unmet in [
        "QAS00000S00000T",
        "QAS10000T",
        "QAS100uuT",
        "QAR100t38bT",
        "QAS10000oR100t38bT",
    ] {
        assert_eq!(told(unmet, NULL_FIRST), [0, 0, 0, 0], "{unmet}");
    }
    assert_eq!(told("QAS00000oS10000T", K), [1, 0, 0, 0]);
    assert_eq!(told("QAS00000T", K), [0, 0, 0, 0]);
    assert_eq!(told("QAS00000T", "M500x500"), [0, 0, 0, 0]);
}

/// The fill and rotation that the marks leave open are any, and the character's own do not count.
#[test]
fn marks_in_swu() {
    let sign = b"M500x500S10a23500x500";
    let met = |query: &str| Both.verdict(Fsw, Second(Swu), query.as_bytes(), sign)[2] == 1;
    let character = |key: &str| {
        let code = Both.key_to_code(key.as_bytes())[2] as u32;
        char::from_u32(0x40000 + code).unwrap()
    };
    for (key, marks) in [
        ("S10a23", ["", "f", "r", "fr"].as_slice()),
        ("S10a53", &["f", "fr"]),
        ("S10a2f", &["r", "fr"]),
        ("S10a00", &["fr"]),
        ("S10b23", &[]),
    ] {
        for mark in ["", "f", "r", "fr"] {
            let query = format!("Q{}{mark}", character(key));
            assert_eq!(met(&query), marks.contains(&mark), "{key} and {mark:?}");
        }
    }
    let range = |first, last| format!("QR{}{}", character(first), character(last));
    assert!(met(&range("S10a5f", "S10a00")));
    assert!(met(&range("S1095f", "S10a00")));
    assert!(!met(&range("S10b00", "S10b5f")));
}

/// Sign and dictionary are wrong as well.
#[test]
fn refusals_of_the_query_come_first() {
    let nine = format!("Q{}", ["S10000"; 9].join("o"));
    for (query, refusal) in [
        (nine.as_str(), [22, 0]),
        ("QS10000oR204t100", [5, 8]),
        ("QS10000o", [2, 8]),
        ("QS10000oo", [1, 8]),
    ] {
        let query = query.as_bytes();
        let answer = Both.verdict(Fsw, Second(Fsw), query, b"x");
        assert_eq!((&answer[..2], &answer[2..]), (&refusal[..], &[0; 34][..]));
        let answer = Both.narrow(Fsw, b"x", &mut [], 9, Second(Fsw), query);
        assert_eq!(answer, [refusal[0], refusal[1], 0, 0]);
    }
    let good = b"QS10000oS20500";
    let answer = Both.verdict(Fsw, Second(Fsw), good, b"x");
    assert_eq!(answer[..2], [1, 0]);
    let answer = Both.narrow(Fsw, b"x", &mut [], 9, Second(Fsw), good);
    assert_eq!(answer, [12, 0, 0, 0]);
}

fn any_sign(random: &mut Random) -> Vec<u8> {
    match random.below(3) {
        0 => sign(random),
        _ => short_sign(random),
    }
}

#[test]
fn verdicts_in_both_sets() {
    let mut tally = Tally::default();
    let (mut met, mut unmet) = (0, [0; 2]);
    cases(420_000, 60_000, |random| {
        let sign = any_sign(random);
        let sought = match random.below(3) {
            0 => query_in(random, Second(Fsw)),
            _ => query_about_in(random, Second(Fsw), &sign),
        };
        let answer = verdict(random, &sought, &sign);
        tally.note(answer[0]);
        met += answer[2];
        if answer[..3] == [0, 0, 0] {
            unmet[usize::from(answer[3] > 0)] += 1;
        }
    });
    tally.expect(&[0, 3, 4, 5, 22]);
    assert!(met > 5_000 && unmet.iter().all(|&times| times > 1_000));
}

#[test]
fn damaged_queries_and_signs() {
    let mut tally = Tally::default();
    cases(430_000, 60_000, |random| {
        let fsw = any_sign(random);
        for query_set in BOTH_SETS {
            let edition = Second(query_set);
            let sought = query_about_in(random, edition, &fsw);
            let signs = [fsw.clone(), in_swu(&fsw).unwrap()];
            for (set, sign) in BOTH_SETS.into_iter().zip(&signs) {
                let sought = damaged(random, &sought);
                tally.note(Both.verdict(set, edition, &sought, sign)[0]);
                let sign = damaged(random, sign);
                tally.note(Both.verdict(set, edition, &sought, &sign)[0]);
            }
        }
    });
    tally.expect(&[0, 1, 2, 3, 4, 5, 22]);
}

/// A text that is well-formed in the first edition has the same verdict in the second as FSW.
#[test]
fn the_first_edition_within_the_second() {
    let mut tally = Tally::default();
    let mut met = 0;
    cases(440_000, 60_000, |random| {
        let fsw = any_sign(random);
        let sought = match random.below(3) {
            0 => query(random),
            _ => query_about(random, &fsw),
        };
        let sought = match random.below(4) {
            0 => damaged(random, &sought),
            _ => sought,
        };
        let swu = in_swu(&fsw).unwrap();
        for (set, sign) in [(Fsw, &fsw), (Swu, &swu)] {
            let first = Both.verdict(set, First, &sought, sign);
            if !matches!(Both.read_query(First, &sought)[0], 1 | 2) {
                let second = Both.verdict(set, Second(Fsw), &sought, sign);
                assert_eq!(first, second, "{} of {}", shown(&sought), shown(sign));
                tally.note(first[0]);
                met += first[2];
            }
        }
    });
    tally.expect(&[0, 3, 4, 5]);
    assert!(met > 5_000, "only {met} verdicts were met");
}

/// The first witness, if the query is met.
fn witness(edition: Edition, query: &str, sign: &[u8]) -> Option<u64> {
    let answer = Both.verdict(Fsw, edition, query.as_bytes(), sign);
    assert_eq!(answer[..2], [0, 0], "{query}");
    (answer[2] == 1).then_some(answer[4])
}

/// The witness of an item is the least of those that its alternatives have by themselves in the
/// first edition; without one it is unmet.
#[test]
fn an_item_is_satisfied_if_one_alternative_is() {
    const KEYS: [&str; 6] = ["S10000", "S10010", "S101uu", "S2ffu0", "S2ff0u", "R204t2fe"];
    let mut counts = [0; 9];
    cases(450_000, 40_000, |random| {
        let sign = short_sign(random);
        let coordinate = *random.pick(&["", "", "500x500", "480x520V30", "V5"]);
        let alternatives: Vec<&str> = (0..random.between(1, 8))
            .map(|_| *random.pick(&KEYS))
            .collect();
        let alone = |key: &&str| witness(First, &format!("Q{key}{coordinate}"), &sign);
        let least = alternatives.iter().filter_map(alone).min();
        let query = format!("Q{}{coordinate}", alternatives.join("o"));
        assert_eq!(witness(Second(Fsw), &query, &sign), least, "{query}");
        counts[least.unwrap_or(0) as usize] += 1;
    });
    assert!(counts[..4].iter().all(|&times| times > 100), "{counts:?}");
}

/// The most items of the most alternatives on the longest sign: of each item one alternative fits
/// one symbol, wherever the two stand.
#[test]
fn many_alternatives_and_symbols() {
    let mut random = Random::new(460_000);
    for found_at in 0..64 {
        for fitting in 0..8 {
            let symbol = |index| {
                if index == found_at {
                    "S15000"
                } else {
                    "S16000"
                }
            };
            let symbols: String = (0..64)
                .map(|index| format!("{}{}x500", symbol(index), 400 + index))
                .collect();
            let alternative = |index| if index == fitting { "S15000" } else { "S17000" };
            let item = [0, 1, 2, 3, 4, 5, 6, 7].map(alternative).join("o");
            let sign = format!("A{}M500x500{symbols}", "S15000".repeat(32));
            let query = format!("QA{}T{}", item.repeat(32), item.repeat(32));
            let answer = verdict(&mut random, query.as_bytes(), sign.as_bytes());
            assert_eq!(answer[..4], [0, 0, 1, 0]);
            assert!(answer[4..].iter().all(|&witness| witness == found_at + 1));
        }
    }
}
