//! Searching, narrowing and fetching, on good and damaged dictionaries and lists.

use differential::both::shown;
use differential::damage::{damaged, noise};
use differential::editions::{any_query, query_in_swu, query_refusals};
use differential::generate::{dictionary, dictionary_of, short_sign};
use differential::lists::{in_set, lines_of};
use differential::{cases, Both, Charset, Edition, Interface, Random, Tally, BOTH_SETS, EDITIONS};
use Edition::{First, Second};

const MOST_LINES: usize = 65_535;
/// What a list holds before it is lent.
const UNTOUCHED: u16 = 7_777;

/// A dictionary, most often good, sometimes with a bad line or other damage.
fn any_dictionary(random: &mut Random, set: Charset) -> Vec<u8> {
    let count = *random.pick(&[0, 1, 2, 5, 12, 30]);
    let mut lines: Vec<Vec<u8>> = (0..count)
        .map(|_| in_set(set, short_sign(random)))
        .collect();
    if count > 0 && random.once_in(3) {
        // First, last or any.
        let any = random.below(count);
        let bad = *random.pick(&[0, count - 1, any]);
        lines[bad] = damaged(random, &lines[bad]);
    }
    let dictionary = dictionary_of(&lines);
    match random.below(10) {
        0 => damaged(random, &dictionary),
        1 => dictionary[..dictionary.len().saturating_sub(1)].to_vec(),
        _ => dictionary,
    }
}

/// A list as a search by `Q` leaves it, some entries dropped, and sometimes spoilt.
fn any_list(random: &mut Random, lines: usize) -> Vec<u16> {
    let dropped_once_in = *random.pick(&[1_000, 4, 2]);
    let mut list: Vec<u16> = (1..=lines as u16)
        .filter(|_| !random.once_in(dropped_once_in))
        .collect();
    if !list.is_empty() && random.once_in(4) {
        let (at, other) = (random.below(list.len()), random.below(list.len()));
        match random.below(5) {
            0 => list[at] = 0,
            1 => list[at] = lines as u16 + 1,
            2 => list.swap(at, other),
            3 => list[at] = list[other],
            _ => list[at] = random.bits() as u16,
        }
    }
    list.extend(noise(random, 3).iter().map(|&byte| u16::from(byte)));
    list
}

/// The entries that a search must write or its refusal, but for 14 and 6, as the readers of query
/// and sign and the verdicts state them.
fn stated_search(
    set: Charset,
    dictionary: &[u8],
    edition: Edition,
    query: &[u8],
) -> Result<Vec<u16>, [u64; 2]> {
    let refusal = Both.read_query(edition, query);
    if refusal[0] != 0 {
        return Err(refusal);
    }
    if dictionary.last().is_some_and(|&last| last != 10) {
        return Err([12, 0]);
    }
    let mut entries = vec![];
    for (line, entry) in dictionary.split_inclusive(|&byte| byte == 10).zip(1..) {
        let line = &line[..line.len() - 1];
        if Both.read(set, line).1[0] != 0 {
            return Err([13, entry.into()]);
        }
        if Both.verdict(set, edition, query, line)[2] == 1 {
            entries.push(entry);
        }
    }
    Ok(entries)
}

/// Searches with no room, one too little, just enough and more, and holds answer and list to what
/// is stated. Answers how many entries there are to be found.
fn search_in_each_room(
    set: Charset,
    dictionary: &[u8],
    edition: Edition,
    query: &[u8],
    tally: &mut Tally,
) -> usize {
    let lines = lines_of(dictionary);
    let stated = stated_search(set, dictionary, edition, query);
    let needed = stated.as_ref().map_or(lines, Vec::len);
    for room in [0, needed.saturating_sub(1), needed, needed + 5] {
        let mut list = vec![UNTOUCHED; room];
        let answer = Both.search(set, dictionary, &mut list, edition, query);
        tally.note(answer[0]);
        let mut expected = vec![UNTOUCHED; room];
        let numbers = match (&stated, expected.get_mut(..needed)) {
            (Err([number, place]), _) => [*number, *place, 0, 0],
            (Ok(_), None) => [6, needed as u64, 0, 0],
            (Ok(entries), Some(start)) => {
                start.copy_from_slice(entries);
                [0, 0, lines as u64, needed as u64]
            }
        };
        let input = || format!("{} over {}, room {room}", shown(query), shown(dictionary));
        assert_eq!((answer, list), (numbers, expected), "{}", input());
    }
    stated.map_or(0, |entries| entries.len())
}

fn searching_by(set: Charset, edition: Edition) {
    let mut tally = Tally::default();
    let mut some = 0;
    cases(600_000, 10_000, |random| {
        let dictionary = any_dictionary(random, set);
        let sought = any_query(random, edition);
        let found = search_in_each_room(set, &dictionary, edition, &sought, &mut tally);
        some += usize::from(0 < found && found < lines_of(&dictionary));
    });
    tally.expect(&[&[0, 6, 12, 13], query_refusals(edition)].concat());
    assert!(some > 1_000, "only {some} searches found some but not all");
}

#[test]
fn searching() {
    for set in BOTH_SETS {
        for edition in EDITIONS {
            searching_by(set, edition);
        }
    }
}

/// Every entry from 1 on, or refusal 6 at the line count.
#[test]
fn a_search_by_q_finds_every_line() {
    let mut random = Random::new(601_000);
    for lines in [0, 1, 2, 63, 64, 65, 1_000] {
        let dictionaries = dictionary(&mut random, lines);
        for (set, dictionary) in BOTH_SETS.into_iter().zip(&dictionaries) {
            for edition in EDITIONS {
                let mut list = vec![UNTOUCHED; lines + 2];
                let answer = Both.search(set, dictionary, &mut list, edition, b"Q");
                assert_eq!(answer, [0, 0, lines as u64, lines as u64]);
                let expected = (1..=lines as u16).chain([UNTOUCHED; 2]);
                assert!(list.iter().copied().eq(expected), "{list:?}");
                if let Some(short) = lines.checked_sub(1) {
                    let answer = Both.search(set, dictionary, &mut list[..short], edition, b"Q");
                    assert_eq!(answer, [6, lines as u64, 0, 0]);
                }
            }
        }
    }
}

/// All is bad at first, and one part after another is made good.
#[test]
fn searching_refuses_in_order() {
    let items = |count| "R204t100".repeat(count);
    let crowded = ["R204t100"; 9].join("o");
    let bad_queries = [
        ("Qx".to_string(), [1, 1]),
        ("QA".to_string(), [2, 2]),
        (format!("QA{}T{}", items(33), items(33)), [3, 0]),
        (format!("Q{}{crowded}", items(32)), [4, 0]),
        (format!("Q{crowded}"), [22, 0]),
        ("QR204t100".to_string(), [5, 1]),
    ];
    let over = vec![10; MOST_LINES + 1];
    let unended = [&over[..], b"x"].concat();
    for set in BOTH_SETS {
        let good = in_set(set, b"M500x500".to_vec());
        let search = |dictionary: &[u8], query: &str| {
            let query = query.as_bytes();
            Both.search(set, dictionary, &mut [], Second(Charset::Fsw), query)
        };
        for (query, [number, place]) in &bad_queries {
            assert_eq!(search(&unended, query), [*number, *place, 0, 0]);
        }
        assert_eq!(search(&unended, "Q"), [12, 0, 0, 0]);
        assert_eq!(search(&over, "Q"), [14, 0, 0, 0]);
        let bad_last = dictionary_of(&[good.clone(), b"x".to_vec()]);
        assert_eq!(search(&bad_last, "Q"), [13, 2, 0, 0]);
        let two = dictionary_of(&[good.clone(), good]);
        assert_eq!(search(&two, "Q"), [6, 2, 0, 0]);
        assert_eq!(search(&two, "QT"), [0, 0, 2, 0]);
    }
}

fn any_count(random: &mut Random, most: usize) -> usize {
    match random.below(12) {
        0 => most + 1,
        1 => *random.pick(&[usize::MAX, 65_536, 1 << 32]),
        2 => 0,
        _ => random.below(most + 1),
    }
}

fn narrowing_by(set: Charset, edition: Edition, refusals: &[usize]) {
    let mut tally = Tally::default();
    let mut dropped = 0;
    cases(610_000, 40_000, |random| {
        let dictionary = any_dictionary(random, set);
        let mut list = any_list(random, lines_of(&dictionary));
        let sought = any_query(random, edition);
        let count = any_count(random, list.len());
        let answer = Both.narrow(set, &dictionary, &mut list, count, edition, &sought);
        tally.note(answer[0]);
        dropped += answer[3];
    });
    tally.expect(refusals);
    assert!(dropped > 1_000, "only {dropped} entries were dropped");
}

#[test]
fn narrowing() {
    let of_dictionaries = [0, 11, 12, 13];
    for set in BOTH_SETS {
        for edition in EDITIONS {
            let refusals = [&of_dictionaries, query_refusals(edition)].concat();
            narrowing_by(set, edition, &refusals);
        }
    }
}

/// A bad line first, in the middle and last: found by searching whatever the query, even one that
/// no line meets, and by narrowing only where it is listed. Nothing is written even if it is the
/// last one. A second bad line changes nothing.
#[test]
fn one_bad_line() {
    let mut random = Random::new(620_000);
    for set in BOTH_SETS {
        for bad in [1, 2, 20, 39, 40] {
            let mut lines: Vec<Vec<u8>> = (0..40)
                .map(|_| in_set(set, short_sign(&mut random)))
                .collect();
            lines[bad - 1].push(b'!');
            for query in [b"Q".as_slice(), b"QS10000", b"QT", b"QS38b00"] {
                find_bad_line(&mut random, set, &lines, bad, query);
            }
            lines[39].push(b'!');
            for query in [b"Q".as_slice(), b"QS38b00"] {
                find_bad_line(&mut random, set, &lines, bad, query);
            }
        }
    }
}

/// Searches and narrows 40 lines of which the `bad` is the first that is no sign.
fn find_bad_line(random: &mut Random, set: Charset, lines: &[Vec<u8>], bad: usize, query: &[u8]) {
    let dictionary = dictionary_of(lines);
    let refused = [13, bad as u64, 0, 0];
    let swu = query_in_swu(random, query).unwrap();
    for (edition, query) in EDITIONS.into_iter().zip([query, query, &swu]) {
        for room in [0, 40] {
            let mut list = vec![UNTOUCHED; room];
            let answer = Both.search(set, &dictionary, &mut list, edition, query);
            assert_eq!(answer, refused);
        }
        let mut list: Vec<u16> = (1..=40).collect();
        let answer = Both.narrow(set, &dictionary, &mut list, 40, edition, query);
        assert_eq!(answer, refused);
        list.retain(|&entry| !lines[usize::from(entry) - 1].ends_with(b"!"));
        let good = list.len();
        let answer = Both.narrow(set, &dictionary, &mut list, good, edition, query);
        assert_eq!(answer[0], 0);
    }
}

/// The most lines, and one line more, each as short as it can be.
#[test]
fn the_most_lines() {
    for set in BOTH_SETS {
        let line = in_set(set, b"M500x500".to_vec());
        let sought = in_set(set, b"B500x500S10000500x500".to_vec());
        let mut lines = vec![line; MOST_LINES];
        for line in lines.iter_mut().skip(2).step_by(3) {
            line.clone_from(&sought);
        }
        let dictionary = dictionary_of(&lines);
        let search = |list: &mut [u16], query| Both.search(set, &dictionary, list, First, query);
        let mut list = vec![9; MOST_LINES + 1];
        let short = search(&mut list[..MOST_LINES - 1], b"Q");
        assert_eq!(short, [6, 65_535, 0, 0]);
        assert_eq!(search(&mut list, b"Q"), [0, 0, 65_535, 65_535]);
        assert_eq!(list[MOST_LINES - 1..], [65_535, 9]);
        let answer = Both.narrow(set, &dictionary, &mut list, MOST_LINES, First, b"QS10000");
        assert_eq!(answer, [0, 0, 21_845, 43_690]);
        assert_eq!((list[0], list[21_844], list[21_845]), (3, 65_535, 0));
        let answer = Both.narrow(set, &dictionary, &mut list, 21_845, First, b"QT");
        assert_eq!(answer, [0, 0, 0, 21_845]);

        let mut found = vec![9; 21_846];
        let short = search(&mut found[..21_844], b"QS10000");
        assert_eq!(short, [6, 21_845, 0, 0]);
        assert_eq!(search(&mut found, b"QS10000"), [0, 0, 65_535, 21_845]);
        assert_eq!((found[0], &found[21_844..]), (3, &[65_535, 9][..]));
        assert_eq!(search(&mut [], b"QT"), [0, 0, 65_535, 0]);
        one_line_over(set, dictionary);
    }
}

/// A line more than the most is 14 whatever it is, and whatever the query.
fn one_line_over(set: Charset, most: Vec<u8>) {
    let mut list = vec![9; MOST_LINES + 1];
    let good = [in_set(set, b"M500x500".to_vec()), vec![10]].concat();
    let bad_first = [b"x\n", &most[..]].concat();
    for over in [
        [&most[..], b"\n"].concat(),
        [&most[..], &good].concat(),
        bad_first,
    ] {
        for query in [b"Q".as_slice(), b"QS10000", b"QT"] {
            let answer = Both.search(set, &over, &mut list, First, query);
            assert_eq!(answer, [14, 0, 0, 0]);
            let answer = Both.narrow(set, &over, &mut list, 0, First, query);
            assert_eq!(answer, [14, 0, 0, 0]);
        }
        let unended = [&over[..], b"x"].concat();
        let answer = Both.search(set, &unended, &mut list, First, b"Q");
        assert_eq!(answer, [12, 0, 0, 0]);
    }
}

#[test]
fn long_lines() {
    let mut random = Random::new(630_000);
    for set in BOTH_SETS {
        for symbols in [64, 65] {
            let prefix = if symbols == 64 { 32 } else { 33 };
            let longest = differential::generate::sign_of(&mut random, prefix, symbols);
            let lines = vec![in_set(set, longest); 5];
            let dictionary = dictionary_of(&lines);
            let mut list = vec![0; 5];
            for (query, found) in [(b"Q".as_slice(), 5), (b"QS38b00", 0)] {
                let answer = Both.search(set, &dictionary, &mut list, First, query);
                let good = symbols == 64;
                let expected = if good {
                    [0, 0, 5, found]
                } else {
                    [13, 1, 0, 0]
                };
                assert_eq!(answer, expected);
            }
        }
    }
}

#[test]
fn noise_as_a_dictionary() {
    cases(640_000, 40_000, |random| {
        let mut dictionary = noise(random, 30);
        if random.once_in(2) {
            dictionary.push(10);
        }
        let mut list = any_list(random, lines_of(&dictionary));
        let count = random.below(list.len() + 2);
        let sought = noise(random, 5);
        for set in BOTH_SETS {
            for query in [b"Q", &sought[..]] {
                Both.search(set, &dictionary, &mut list.clone(), First, query);
                Both.narrow(set, &dictionary, &mut list, count, First, query);
            }
        }
    });
}

#[test]
fn fetching() {
    let mut tally = Tally::default();
    cases(650_000, 40_000, |random| {
        let [first, second] = [0, 1].map(|_| {
            let set = *random.pick(&BOTH_SETS);
            match random.below(3) {
                0 => noise(random, 20),
                _ => any_dictionary(random, set),
            }
        });
        let lines = lines_of(&first) + lines_of(&second);
        let any = random.below(lines + 1);
        for number in [
            0,
            1,
            any,
            lines_of(&first),
            lines_of(&first) + 1,
            lines,
            lines + 1,
        ] {
            tally.note(Both.fetch(&first, &second, number)[0]);
        }
        tally.note(Both.fetch(&first, &second, random.bits() as usize)[0]);
        Both.fetch(&first, &second, usize::MAX);
    });
    tally.expect(&[0, 12, 16]);
}

#[test]
fn fetching_from_the_most_lines() {
    let mut random = Random::new(660_000);
    let most = vec![10; MOST_LINES];
    let over = vec![10; MOST_LINES + 1];
    let [few, _] = dictionary(&mut random, 20);
    let unended = b"M500x500";
    let dictionaries: [&[u8]; 5] = [&most, &over, &few, unended, b""];
    for first in dictionaries {
        for second in dictionaries {
            for number in [0, 1, 20, 21, 65_535, 65_536, 65_555, 131_070, 131_071] {
                Both.fetch(first, second, number);
            }
            Both.fetch(first, second, usize::MAX);
        }
    }
}
