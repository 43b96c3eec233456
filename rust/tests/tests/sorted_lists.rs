//! Narrowing a list in any order (document 02, Q-12), on good and damaged dictionaries and lists.

use differential::both::shown;
use differential::editions::{any_query, query_refusals};
use differential::generate::{dictionary, dictionary_of};
use differential::lists::*;
use differential::{cases, Both, Charset, Edition, Interface, Random, Tally, BOTH_SETS, EDITIONS};
use Edition::{First, Second};

const MOST_LINES: usize = 65_535;

/// Narrows, and holds answer and list to what is stated. Answers how many entries were kept and
/// how many dropped.
fn narrow(
    set: Charset,
    dictionary: &[u8],
    list: &[u16],
    count: usize,
    edition: Edition,
    query: &[u8],
    tally: &mut Tally,
) -> [u64; 2] {
    let refusal = match Both.read_query(edition, query) {
        [0, 0] => stated_refusal(set, dictionary, list, count),
        refusal => Some(refusal),
    };
    let mut expected = list.to_vec();
    let numbers = match refusal {
        Some([number, place]) => [number, place, 0, 0],
        None => {
            let entries = stated_kept(set, dictionary, &list[..count], edition, query);
            let (kept, zeros) = expected[..count].split_at_mut(entries.len());
            kept.copy_from_slice(&entries);
            zeros.fill(0);
            [0, 0, kept.len() as u64, zeros.len() as u64]
        }
    };
    let mut lent = list.to_vec();
    let answer = Both.narrow_sorted(set, dictionary, &mut lent, count, edition, query);
    tally.note(answer[0]);
    let input = || format!("{} of {list:?} over {}", shown(query), shown(dictionary));
    assert_eq!((answer, lent), (numbers, expected), "{}", input());
    [answer[2], answer[3]]
}

fn narrowing_by(set: Charset, edition: Edition) {
    let mut tally = Tally::default();
    let mut some = 0;
    cases(670_000, 15_000, |random| {
        let dictionary = any_dictionary(random, set);
        let (list, count) = any_list(random, lines_of(&dictionary));
        let query = any_query(random, edition);
        let [kept, dropped] = narrow(set, &dictionary, &list, count, edition, &query, &mut tally);
        some += usize::from(kept > 1 && dropped > 0);
    });
    tally.expect(&[&[0, 11, 12, 13], query_refusals(edition)].concat());
    assert!(some > 700, "only {some} calls kept and dropped some");
}

#[test]
fn narrowing() {
    for set in BOTH_SETS {
        for edition in EDITIONS {
            narrowing_by(set, edition);
        }
    }
}

/// All is bad at first, and one part after another is made good.
#[test]
fn narrowing_refuses_in_order() {
    let items = |count| "R204t100".repeat(count);
    let crowded = ["R204t100"; 9].join("o");
    let bad_queries = [
        ("Qx".to_string(), [1, 1]),
        ("QA".to_string(), [2, 2]),
        (format!("QA{}T{}", items(33), items(33)), [3, 0]),
        (format!("Q{}{crowded}", items(32)), [4, 0]),
        (format!("Q{crowded}"), [22, 0]),
        ("QR204t100".to_string(), [5, 1]),
    ];
    let over = vec![10; MOST_LINES + 1];
    let unended = [&over[..], b"x"].concat();
    for set in BOTH_SETS {
        let good = in_set(set, b"M500x500".to_vec());
        let narrow = |dictionary: &[u8], list: &[u16], count, query: &str| {
            let (mut lent, edition) = (list.to_vec(), Second(Charset::Fsw));
            let query = query.as_bytes();
            Both.narrow_sorted(set, dictionary, &mut lent, count, edition, query)
        };
        for (query, [number, place]) in &bad_queries {
            let answer = narrow(&unended, &[0, 3], 3, query);
            assert_eq!(answer, [*number, *place, 0, 0]);
        }
        let bad = dictionary_of(&[b"x".to_vec(), good, b"x".to_vec()]);
        assert_eq!(narrow(&unended, &[0, 3], 3, "Q"), [12, 0, 0, 0]);
        assert_eq!(narrow(&over, &[0, 3], 3, "Q"), [14, 0, 0, 0]);
        assert_eq!(narrow(&bad, &[0, 3], 3, "Q"), [11, 0, 0, 0]);
        assert_eq!(narrow(&bad, &[0, 3], 2, "Q"), [11, 0, 0, 0]);
        assert_eq!(narrow(&bad, &[4, 3], 2, "Q"), [11, 0, 0, 0]);
        assert_eq!(narrow(&bad, &[3, 2, 3], 3, "Q"), [11, 0, 0, 0]);
        // Of two bad lines that which stands first in the list.
        assert_eq!(narrow(&bad, &[2, 3, 1], 3, "Q"), [13, 3, 0, 0]);
        assert_eq!(narrow(&bad, &[2, 1, 3], 3, "QT"), [13, 1, 0, 0]);
        assert_eq!(narrow(&bad, &[2, 1, 3], 1, "Q"), [0, 0, 1, 0]);
        assert_eq!(narrow(&bad, &[2, 1, 3], 1, "QT"), [0, 0, 0, 1]);
        assert_eq!(narrow(&bad, &[0, 3], 0, "Q"), [0, 0, 0, 0]);
        assert_eq!(narrow(b"", &[], 0, "Q"), [0, 0, 0, 0]);
    }
}

/// On a list that rises it does what narrowing does.
#[test]
fn a_rising_list() {
    let mut dropped = 0;
    cases(672_000, 6_000, |random| {
        let lines = random.below(80);
        let dictionaries = dictionary(random, lines);
        let (edition, left_out) = (*random.pick(&EDITIONS), random.between(2, 9));
        let query = any_query(random, edition);
        let list: Vec<u16> = (1..=lines as u16)
            .filter(|_| !random.once_in(left_out))
            .collect();
        for (set, dictionary) in BOTH_SETS.into_iter().zip(&dictionaries) {
            let (mut one, mut other, count) = (list.clone(), list.clone(), list.len());
            let answer = Both.narrow_sorted(set, dictionary, &mut one, count, edition, &query);
            let expected = Both.narrow(set, dictionary, &mut other, count, edition, &query);
            assert_eq!((answer, one), (expected, other));
            dropped += answer[3];
        }
    });
    assert!(dropped > 1_000, "only {dropped} entries were dropped");
}

/// The most lines in any order, sorted and not.
#[test]
fn the_most_lines() {
    let mut random = Random::new(673_000);
    let dictionaries = prefixed_dictionary(&mut random, Prefixes::Few, MOST_LINES);
    for (set, dictionary) in BOTH_SETS.into_iter().zip(&dictionaries) {
        let mut list = shuffled(&mut random, MOST_LINES);
        for _ in 0..2 {
            let mut lent = list.clone();
            let kept = expect_narrowed(set, dictionary, &mut lent, First, b"QT");
            let left = expect_narrowed(set, dictionary, &mut lent[..kept], First, b"QR100t200");
            assert!(0 < left && left < kept && kept < MOST_LINES);
            let over = [&dictionary[..], b"\n"].concat();
            let answer = Both.narrow_sorted(set, &over, &mut lent, 0, First, b"Q");
            assert_eq!(answer, [14, 0, 0, 0]);
            expect_sorted(set, dictionary, &mut list);
        }
        list[MOST_LINES - 1] = list[0];
        let answer = Both.narrow_sorted(set, dictionary, &mut list, MOST_LINES, First, b"Q");
        assert_eq!(answer, [11, 0, 0, 0]);
    }
}
