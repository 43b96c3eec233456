//! What the wrapper keeps of a search, held against the plain calls and against the lines that
//! the dictionary splits into.

use differential::both::shown;
use differential::damage::damaged;
use differential::editions::{query_about_in, query_in, wide_query_in};
use differential::generate::{dictionary, short_sign};
use differential::lists::split;
use differential::{cases, Charset, Edition, Random, BOTH_SETS, EDITIONS};
use halofret::{Found, Refusal};
use Edition::First;

const DICTIONARY: &[u8] = b"M500x500\nM510x515S10000490x485S20500500x495\nM515x515S20500500x500\n";

/// Holds all that is told of the entries to what they are.
fn expect_entries(found: &Found, dictionary: &[u8], entries: &[u16]) {
    let input = || shown(dictionary);
    let all = split(dictionary);
    assert_eq!(found.line_count(), all.len(), "{}", input());
    assert_eq!(found.entries().len(), entries.len(), "{}", input());
    assert!(found.entries().eq(entries.iter().copied()), "{}", input());

    let mut lines = found.lines();
    for (passed, &entry) in entries.iter().enumerate() {
        assert_eq!(lines.len(), entries.len() - passed, "{}", input());
        let (told, line) = lines.next().expect("each entry has a line");
        let expected = all[usize::from(entry) - 1];
        assert_eq!((told, line), (entry, expected), "{}", input());
        assert_eq!(line.as_ptr(), expected.as_ptr(), "a part of the dictionary");
    }
    assert_eq!((lines.len(), lines.next()), (0, None), "{}", input());
}

/// A query of any kind, now and then damaged.
fn any_query(random: &mut Random, edition: Edition) -> Vec<u8> {
    match random.below(5) {
        0 => query_in(random, edition),
        1 => {
            let sign = short_sign(random);
            query_about_in(random, edition, &sign)
        }
        2 => {
            let sought = wide_query_in(random, edition);
            damaged(random, &sought)
        }
        _ => wide_query_in(random, edition),
    }
}

fn any_asked(random: &mut Random) -> (Edition, Vec<u8>) {
    let edition = *random.pick(&EDITIONS);
    (edition, any_query(random, edition))
}

/// How often a call was refused, and how often one kept and dropped some entries or put them in
/// another order.
#[derive(Debug, Default)]
struct Seen {
    refused_searches: usize,
    refused_narrowings: usize,
    refused_sorts: usize,
    narrowed: usize,
    narrowed_sorted: usize,
    rearranged: usize,
}

/// The same calls, plain and by what was found, on two lists that hold the same.
fn compare(random: &mut Random, set: Charset, dictionary: &[u8], seen: &mut Seen) {
    let lines = split(dictionary).len();
    let any = random.below(lines + 1);
    let room = *random.pick(&[lines, lines + 2, any]);
    let before: Vec<u16> = (0..room).map(|_| random.bits() as u16).collect();
    let (mut list, mut plain) = (before.clone(), before);
    let (edition, query) = any_asked(random);
    let searched = halofret::search(set, dictionary, &mut plain, edition, &query);
    let found = Found::search(set, dictionary, &mut list, edition, &query);
    let (mut found, searched) = match (found, searched) {
        (Ok(found), Ok(searched)) => (found, searched),
        (found, searched) => {
            assert_eq!(found.map(|_| ()).err(), searched.err());
            assert_eq!(list, plain);
            seen.refused_searches += 1;
            return;
        }
    };
    let mut count = searched.written;
    expect_entries(&found, dictionary, &plain[..count]);
    let mut sorted = false;
    for _ in 0..random.below(5) {
        if random.once_in(3) {
            sorted |= compare_sorting(random, set, &mut found, dictionary, &mut plain, count, seen);
            continue;
        }
        let (edition, query) = any_asked(random);
        let narrow = match sorted {
            false => halofret::narrow,
            true => halofret::narrow_sorted,
        };
        let expected = narrow(set, dictionary, &mut plain, count, edition, &query);
        assert_eq!(found.narrow(edition, &query), expected, "{}", shown(&query));
        match expected {
            Ok(narrowed) => {
                count = narrowed.kept;
                let some = usize::from(narrowed.kept > 0 && narrowed.dropped > 0);
                seen.narrowed += some;
                seen.narrowed_sorted += usize::from(sorted) * some;
            }
            Err(_) => seen.refused_narrowings += 1,
        }
        expect_entries(&found, dictionary, &plain[..count]);
    }
    assert_eq!(list, plain);
}

/// Sorts both, with a spare list that is now and then too short. Answers whether it was done.
fn compare_sorting(
    random: &mut Random,
    set: Charset,
    found: &mut Found,
    dictionary: &[u8],
    plain: &mut [u16],
    count: usize,
    seen: &mut Seen,
) -> bool {
    let any = random.below(count + 1);
    let mut spare = vec![9; *random.pick(&[count, count + 2, any])];
    let (before, mut other) = (plain.to_vec(), spare.clone());
    let expected = halofret::sort(set, dictionary, plain, count, &mut other);
    assert_eq!(found.sort(&mut spare), expected, "{}", shown(dictionary));
    assert_eq!(spare, other);
    seen.rearranged += usize::from(plain != before);
    seen.refused_sorts += usize::from(expected.is_err());
    expect_entries(found, dictionary, &plain[..count]);
    expected.is_ok()
}

#[test]
fn beside_the_plain_calls() {
    let mut seen = Seen::default();
    cases(740_000, 20_000, |random| {
        let lines = *random.pick(&[0, 1, 2, 10, 30]);
        let dictionaries = dictionary(random, lines);
        for (set, dictionary) in BOTH_SETS.into_iter().zip(&dictionaries) {
            compare(random, set, dictionary, &mut seen);
        }
    });
    assert!(seen.refused_searches > 1_000, "{seen:?}");
    assert!(seen.refused_narrowings > 1_000, "{seen:?}");
    assert!(seen.refused_sorts > 1_000, "{seen:?}");
    assert!(seen.narrowed > 1_000, "{seen:?}");
    assert!(seen.narrowed_sorted > 300, "{seen:?}");
    assert!(seen.rearranged > 1_000, "{seen:?}");
}

#[test]
fn the_worked_dictionary() {
    let mut list = [9; 4];
    let set = Charset::Fsw;
    let mut found = Found::search(set, DICTIONARY, &mut list, First, b"QS20500").unwrap();
    expect_entries(&found, DICTIONARY, &[2, 3]);
    let refusal = found.narrow(First, b"Qx").unwrap_err();
    assert_eq!((refusal.number, refusal.place), (1, 1));
    expect_entries(&found, DICTIONARY, &[2, 3]);
    let narrowed = found.narrow(First, b"QS10000").unwrap();
    assert_eq!((narrowed.kept, narrowed.dropped), (1, 1));
    expect_entries(&found, DICTIONARY, &[2]);
    let narrowed = found.narrow(First, b"QT").unwrap();
    assert_eq!((narrowed.kept, narrowed.dropped), (0, 1));
    expect_entries(&found, DICTIONARY, &[]);
    assert_eq!(list, [0, 0, 9, 9]);
}

/// Sorted, narrowed in that order, and sorted again after a refusal.
#[test]
fn in_dictionary_order() {
    let dictionary = b"M500x500\nAS20500M500x500\nAS10000S20500M500x500\nAS10000M500x500\n\
                       AS00000M500x500\nAS10000M500x500\n";
    let (mut list, mut spare) = ([77; 8], [9; 8]);
    let mut found = Found::search(Charset::Fsw, dictionary, &mut list, First, b"Q").unwrap();
    let refusal = found.sort(&mut spare[..5]).unwrap_err();
    assert_eq!((refusal.number, refusal.place), (6, 6));
    expect_entries(&found, dictionary, &[1, 2, 3, 4, 5, 6]);
    found.sort(&mut spare).unwrap();
    assert_eq!(spare, [0, 0, 0, 0, 0, 0, 9, 9]);
    expect_entries(&found, dictionary, &[5, 4, 6, 3, 2, 1]);
    let narrowed = found.narrow(First, b"QT").unwrap();
    assert_eq!((narrowed.kept, narrowed.dropped), (5, 1));
    expect_entries(&found, dictionary, &[5, 4, 6, 3, 2]);
    let refusal = found.sort(&mut spare[..4]).unwrap_err();
    assert_eq!((refusal.number, refusal.place), (6, 5));
    let refusal = found.narrow(First, b"Qx").unwrap_err();
    assert_eq!((refusal.number, refusal.place), (1, 1));
    found.sort(&mut spare[..5]).unwrap();
    found.narrow(First, b"QAS10000T").unwrap();
    expect_entries(&found, dictionary, &[4, 6, 3]);
    assert_eq!(list, [4, 6, 3, 0, 0, 0, 77, 77]);
}

#[test]
fn a_refused_search_finds_nothing() {
    let refused = |dictionary: &[u8], room, query: &[u8]| {
        let mut list = vec![9; room];
        let found = Found::search(Charset::Fsw, dictionary, &mut list, First, query);
        let Refusal { number, place } = found.unwrap_err();
        assert_eq!(list, vec![9; room]);
        (number, place)
    };
    assert_eq!(refused(DICTIONARY, 1, b"QS20500"), (6, 2));
    assert_eq!(refused(DICTIONARY, 4, b"Qx"), (1, 1));
    assert_eq!(refused(b"M500x500", 4, b"Q"), (12, 0));
    assert_eq!(refused(b"M500x500\nx\n", 4, b"QT"), (13, 2));
    assert_eq!(refused(&[10; 65_536], 4, b"Q"), (14, 0));
}

/// Lines are parts of the dictionary, so they live on without what was found, and while the list
/// is lent again.
#[test]
fn lines_outlive_what_was_found() {
    let mut list = [0; 3];
    let lines: Vec<(u16, &[u8])> = {
        let found = Found::search(Charset::Fsw, DICTIONARY, &mut list, First, b"QS20500").unwrap();
        found.lines().collect()
    };
    assert_eq!(list, [2, 3, 0]);
    list.fill(7);
    let all = split(DICTIONARY);
    assert_eq!(lines, [(2, all[1]), (3, all[2])]);
}

/// Lines are found in one walk: a walk from the start for each would make this very slow.
#[test]
fn the_most_lines() {
    let dictionary = b"M500x500\nM500x500S10000500x500\nAS10000M500x500\n".repeat(21_845);
    let mut list = vec![0; 65_535];
    let mut found = Found::search(Charset::Fsw, &dictionary, &mut list, First, b"Q").unwrap();
    let every: Vec<u16> = (1..=65_535).collect();
    expect_entries(&found, &dictionary, &every);
    found.narrow(First, b"QT").unwrap();
    let third: Vec<u16> = (3..=65_535).step_by(3).collect();
    expect_entries(&found, &dictionary, &third);
}

/// The same for lines that are not in the order of the dictionary.
#[test]
fn the_most_lines_sorted() {
    let dictionary = b"M500x500\nAS20500M500x500\nAS10000M500x500\n".repeat(21_845);
    let (mut list, mut spare) = (vec![0; 65_535], vec![0; 65_535]);
    let mut found = Found::search(Charset::Fsw, &dictionary, &mut list, First, b"Q").unwrap();
    found.sort(&mut spare).unwrap();
    let third = |first| (first..=65_535).step_by(3);
    let sorted: Vec<u16> = third(3).chain(third(2)).chain(third(1)).collect();
    expect_entries(&found, &dictionary, &sorted);
    found.narrow(First, b"QT").unwrap();
    expect_entries(&found, &dictionary, &sorted[..43_690]);
}

#[test]
fn shown_without_the_dictionary() {
    let mut list = [9; 4];
    let found = Found::search(Charset::Fsw, DICTIONARY, &mut list, First, b"QS20500").unwrap();
    let shown = format!("{found:?}");
    for part in ["Fsw", "line_count: 3", "entries: [2, 3]"] {
        assert!(shown.contains(part), "{shown}");
    }
}
