//! Sorting (document 02, Q-12), on good and damaged dictionaries and lists.

use differential::both::shown;
use differential::generate::{dictionary_of, wide_query};
use differential::lists::*;
use differential::{cases, Both, Charset, Edition, Interface, Random, Tally, BOTH_SETS};
use Edition::First;

const MOST_LINES: usize = 65_535;
/// What a spare list holds before it is lent.
const UNTOUCHED: u16 = 7_777;

/// Sorts with no spare list, one too short, one just long enough and a longer one, and holds the
/// answer and both lists to what is stated. Answers whether it moved an entry.
fn sort_with_each_spare(
    set: Charset,
    dictionary: &[u8],
    list: &[u16],
    count: usize,
    tally: &mut Tally,
) -> bool {
    let refusal = stated_refusal(set, dictionary, list, count);
    let needed = count.min(list.len() + 1);
    let sorted = match refusal {
        None => {
            let start = stated_order(set, dictionary, &list[..count]);
            [&start, &list[count..]].concat()
        }
        Some(_) => list.to_vec(),
    };
    for room in [0, needed.saturating_sub(1), needed, needed + 5] {
        let (mut lent, mut spare) = (list.to_vec(), vec![UNTOUCHED; room]);
        let answer = Both.sort(set, dictionary, &mut lent, count, &mut spare);
        tally.note(answer[0]);
        let mut cleared = vec![UNTOUCHED; room];
        let (numbers, expected) = match (refusal, cleared.get_mut(..count)) {
            (Some(refusal), _) => (refusal, list),
            (None, None) => ([6, count as u64], list),
            (None, Some(start)) => {
                start.fill(0);
                ([0, 0], &sorted[..])
            }
        };
        let input = || format!("{list:?} over {}, n {count}", shown(dictionary));
        assert_eq!(answer, numbers, "{}, spare room {room}", input());
        assert_eq!(lent, expected, "{}", input());
        assert_eq!(spare, cleared, "{}", input());
    }
    sorted != list
}

#[test]
fn sorting() {
    for set in BOTH_SETS {
        let mut tally = Tally::default();
        let mut moved = 0;
        cases(660_000, 15_000, |random| {
            let dictionary = any_dictionary(random, set);
            let (list, count) = any_list(random, lines_of(&dictionary));
            let has_moved = sort_with_each_spare(set, &dictionary, &list, count, &mut tally);
            moved += usize::from(has_moved);
        });
        tally.expect(&[0, 6, 11, 12, 13]);
        assert!(moved > 3_000, "only {moved} lists were rearranged");
    }
}

/// All is bad at first, and one part after another is made good.
#[test]
fn sorting_refuses_in_order() {
    let over = vec![10; MOST_LINES + 1];
    let unended = [&over[..], b"x"].concat();
    for set in BOTH_SETS {
        let good = in_set(set, b"M500x500".to_vec());
        let sort = |dictionary: &[u8], list: &[u16], count, spare_room| {
            let (mut lent, mut spare) = (list.to_vec(), vec![UNTOUCHED; spare_room]);
            let answer = Both.sort(set, dictionary, &mut lent, count, &mut spare);
            assert!(answer == [0, 0] || lent == list && spare == vec![UNTOUCHED; spare_room]);
            answer
        };
        let bad_last = dictionary_of(&[good.clone(), good.clone(), b"x".to_vec()]);
        assert_eq!(sort(&unended, &[0, 3], 3, 0), [12, 0]);
        assert_eq!(sort(&over, &[0, 3], 3, 0), [14, 0]);
        // Beyond the list, none, too great, listed twice; the third line is bad.
        assert_eq!(sort(&bad_last, &[0, 3], 3, 0), [11, 0]);
        assert_eq!(sort(&bad_last, &[0, 3], 2, 0), [11, 0]);
        assert_eq!(sort(&bad_last, &[4, 3], 2, 0), [11, 0]);
        assert_eq!(sort(&bad_last, &[3, 3], 2, 0), [11, 0]);
        assert_eq!(sort(&bad_last, &[3, 2, 1, 3], 4, 0), [11, 0]);
        assert_eq!(sort(&bad_last, &[2, 3, 1], 3, 0), [13, 3]);
        assert_eq!(sort(&bad_last, &[2, 1, 3], 2, 1), [6, 2]);
        assert_eq!(sort(&bad_last, &[2, 1, 3], 2, 2), [0, 0]);
        // None are listed, so none is bad and no room is needed.
        assert_eq!(sort(&bad_last, &[0, 3], 0, 0), [0, 0]);
        assert_eq!(sort(b"", &[], 0, 0), [0, 0]);
        assert_eq!(sort(b"", &[1], 1, 1), [11, 0]);
        assert_eq!(sort(&bad_last, &[2, 1, 3], usize::MAX, 2), [11, 0]);
    }
}

/// Of several bad lines the first in the list's order is told, by its line number; those that are
/// not listed are not noticed. Both lists stay as they were.
#[test]
fn the_first_bad_line_listed() {
    cases(662_000, 1_500, |random| {
        let set = *random.pick(&BOTH_SETS);
        let count = random.between(2, 80);
        let mut lines: Vec<Vec<u8>> = (0..count)
            .map(|_| in_set(set, prefixed_sign(random, Prefixes::Few)))
            .collect();
        let bad: Vec<usize> = (0..random.between(1, 4))
            .map(|_| random.below(count))
            .collect();
        for &line in &bad {
            lines[line].push(b'!');
        }
        let dictionary = dictionary_of(&lines);
        let is_bad = |entry: u16| bad.contains(&(usize::from(entry) - 1));
        let mut list = shuffled(random, count);
        let first = list.iter().copied().find(|&entry| is_bad(entry)).unwrap();
        let (before, mut spare) = (list.clone(), vec![UNTOUCHED; count]);
        let answer = Both.sort(set, &dictionary, &mut list, count, &mut spare);
        assert_eq!(answer, [13, first.into()]);
        assert_eq!((&list, spare), (&before, vec![UNTOUCHED; count]));
        let end = list.iter().position(|&entry| entry == first).unwrap();
        expect_sorted(set, &dictionary, &mut list[..end]);
        list.retain(|&entry| !is_bad(entry));
        expect_sorted(set, &dictionary, &mut list);
    });
}

/// Every number of entries up to 40 and at each power of two, as they rise, as they fall and in
/// other orders.
#[test]
fn every_size() {
    let mut random = Random::new(663_000);
    let powers = (6..=11).flat_map(|power| [(1 << power) - 1, 1 << power, (1 << power) + 1]);
    for count in (0..=40).chain(powers) {
        for prefixes in PREFIXES {
            let dictionaries = prefixed_dictionary(&mut random, prefixes, count);
            for (set, dictionary) in BOTH_SETS.into_iter().zip(&dictionaries) {
                let rising: Vec<u16> = (1..=count as u16).collect();
                let falling = rising.iter().rev().copied().collect();
                for mut list in [rising, falling, shuffled(&mut random, count)] {
                    expect_sorted(set, dictionary, &mut list);
                }
            }
        }
    }
}

/// Every way to give up to six lines no prefix, a short one, one that goes on after it, or null.
#[test]
fn every_choice_of_few_prefixes() {
    let signs = [
        "M500x500",
        "AS10000M500x500",
        "AS10000S10000M500x500",
        "AS00000M500x500",
    ];
    for set in BOTH_SETS {
        let signs = signs.map(|sign| in_set(set, sign.into()));
        for count in 0..=6 {
            for choice in 0..signs.len().pow(count) {
                let digit = |place| choice / signs.len().pow(place) % signs.len();
                let lines: Vec<Vec<u8>> = (0..count).map(|p| signs[digit(p)].clone()).collect();
                let mut list: Vec<u16> = (1..=count as u16).collect();
                expect_sorted(set, &dictionary_of(&lines), &mut list);
            }
        }
    }
}

/// Entries of one prefix stay as they stood, whatever their numbers.
#[test]
fn equal_prefixes() {
    let mut random = Random::new(664_000);
    for set in BOTH_SETS {
        for sign in ["M500x500", "AS00000M500x500", "AS38600S10000M500x500"] {
            let lines = vec![in_set(set, sign.into()); 1_000];
            let dictionary = dictionary_of(&lines);
            let mut list = shuffled(&mut random, 1_000);
            let before = list.clone();
            expect_sorted(set, &dictionary, &mut list);
            assert_eq!(list, before);
        }
    }
}

/// The longest prefixes, which differ in their last symbol or in their length.
#[test]
fn prefixes_that_differ_last() {
    let mut random = Random::new(665_000);
    let codes = [62_112, 512, 511, 257, 256, 255, 96, 2, 1, 0];
    let mut prefixes: Vec<Vec<u16>> = codes.map(|last| [&[9; 31][..], &[last]].concat()).into();
    prefixes.extend([vec![9; 31], vec![9; 30], vec![9], vec![], vec![0; 32]]);
    prefixes.extend([vec![0; 31], vec![0], [&[0; 31][..], &[1]].concat()]);
    // Null comes first, and nothing but null before its extensions.
    let in_order = [
        17, 16, 15, 18, 13, 12, 11, 10, 9, 8, 7, 6, 5, 4, 3, 2, 1, 14,
    ];
    let lines: Vec<Vec<u8>> = prefixes
        .iter()
        .map(|prefix| sign_after(&mut random, prefix))
        .collect();
    for set in BOTH_SETS {
        let lines: Vec<Vec<u8>> = lines.iter().map(|line| in_set(set, line.clone())).collect();
        let dictionary = dictionary_of(&lines);
        for _ in 0..100 {
            let mut list = shuffled(&mut random, lines.len());
            expect_sorted(set, &dictionary, &mut list);
            assert_eq!(list, in_order);
        }
    }
}

/// Sorting again changes nothing, and the transcribed dictionary's list is sorted alike.
#[test]
fn again_and_in_the_other_set() {
    cases(666_000, 600, |random| {
        let (lines, prefixes) = (random.below(200), *random.pick(&PREFIXES));
        let [fsw, swu] = prefixed_dictionary(random, prefixes, lines);
        let list = shuffled(random, lines);
        let [mut sorted, mut in_swu] = [list.clone(), list];
        expect_sorted(Charset::Fsw, &fsw, &mut sorted);
        expect_sorted(Charset::Swu, &swu, &mut in_swu);
        assert_eq!(sorted, in_swu);
        expect_sorted(Charset::Fsw, &fsw, &mut in_swu);
        assert_eq!(sorted, in_swu);
    });
}

/// Sorting and then narrowing in order, and narrowing and then sorting, leave the same list
/// memory. Narrowing a sorted list as one that rises is 11.
#[test]
fn sorting_before_and_after_narrowing() {
    let (mut narrowed, mut refused) = (0, 0);
    cases(667_000, 3_000, |random| {
        let (lines, prefixes) = (random.below(100), *random.pick(&PREFIXES));
        let dictionaries = prefixed_dictionary(random, prefixes, lines);
        let query = wide_query(random);
        for (set, dictionary) in BOTH_SETS.into_iter().zip(&dictionaries) {
            let mut list: Vec<u16> = (1..=lines as u16).collect();
            list.extend([1, 0, 65_535]);
            let mut other = list.clone();
            let mut spare = vec![UNTOUCHED; lines];
            let sorted = Both.sort(set, dictionary, &mut list, lines, &mut spare);
            let answer = Both.narrow_sorted(set, dictionary, &mut list, lines, First, &query);
            let first = Both.narrow(set, dictionary, &mut other, lines, First, &query);
            let kept = first[2] as usize;
            if !other[..kept].is_sorted() || !list[..kept].is_sorted() {
                let answer = Both.narrow(set, dictionary, &mut list, kept, First, b"Q");
                assert_eq!(answer, [11, 0, 0, 0]);
                refused += 1;
            }
            let after = Both.sort(set, dictionary, &mut other, kept, &mut spare);
            assert_eq!((sorted, answer, after), ([0, 0], first, [0, 0]));
            assert_eq!(list, other);
            narrowed += usize::from(kept > 0 && answer[3] > 0);
        }
    });
    assert!(narrowed > 1_000, "only {narrowed} lists were narrowed");
    assert!(refused > 1_000, "only {refused} lists did not rise");
}

/// The most lines, and one line more.
#[test]
fn the_most_lines() {
    let mut random = Random::new(668_000);
    for prefixes in PREFIXES {
        let dictionaries = prefixed_dictionary(&mut random, prefixes, MOST_LINES);
        for (set, dictionary) in BOTH_SETS.into_iter().zip(&dictionaries) {
            let mut list = shuffled(&mut random, MOST_LINES);
            let before = list.clone();
            let mut short = vec![UNTOUCHED; MOST_LINES - 1];
            let answer = Both.sort(set, dictionary, &mut list, MOST_LINES, &mut short);
            assert_eq!(answer, [6, MOST_LINES as u64]);
            assert!(list == before && short == vec![UNTOUCHED; MOST_LINES - 1]);
            expect_sorted(set, dictionary, &mut list);
            let over = [&dictionary[..], b"\n"].concat();
            let answer = Both.sort(set, &over, &mut list, 0, &mut []);
            assert_eq!(answer, [14, 0]);
            list[MOST_LINES - 1] = list[0];
            let answer = Both.sort(set, dictionary, &mut list, MOST_LINES, &mut short);
            assert_eq!(answer, [11, 0]);
        }
    }
}

/// One entry, then two, of a long dictionary, at its ends and between.
#[test]
fn few_of_many_lines() {
    let mut random = Random::new(669_000);
    let dictionaries = prefixed_dictionary(&mut random, Prefixes::Few, 20_000);
    for (set, dictionary) in BOTH_SETS.into_iter().zip(&dictionaries) {
        for list in [[1, 20_000], [20_000, 1], [32, 33], [33, 32], [19_999, 31]] {
            expect_sorted(set, dictionary, &mut { list });
            expect_sorted(set, dictionary, &mut { list }[..1]);
        }
        for _ in 0..20 {
            let mut list = shuffled(&mut random, 20_000);
            list.truncate(random.below(50));
            expect_sorted(set, dictionary, &mut list);
        }
    }
}
