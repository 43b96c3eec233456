//! The worked examples of dictionaries, by all sides: those of document 01 and of its open points,
//! searches those of document 02, Q-10, and sorted lists those of its Q-12. Queries are of the first
//! edition.

use differential::generate::in_swu;
use differential::{Both, Charset, Edition, Interface};
use Charset::{Fsw, Swu};
use Edition::First;

type Refusal = (u64, u64);

fn refusal(answer: &[u64]) -> Refusal {
    (answer[0], answer[1])
}

const DICTIONARY: &[u8] = b"M500x500\nM510x515S10000490x485S20500500x495\nM515x515S20500500x500\n";

#[test]
fn searching() {
    let mut list = [9; 4];
    let answer = Both.search(Fsw, DICTIONARY, &mut list, First, b"QS20500");
    assert_eq!((answer, list), ([0, 0, 3, 2], [2, 3, 9, 9]));
    let mut short = [9];
    let answer = Both.search(Fsw, DICTIONARY, &mut short, First, b"QS20500");
    assert_eq!((answer, short), ([6, 2, 0, 0], [9]));
    let mut none = [9; 4];
    let answer = Both.search(Fsw, DICTIONARY, &mut none, First, b"QT");
    assert_eq!((answer, none), ([0, 0, 3, 0], [9; 4]));
    assert_eq!(
        Both.search(Fsw, DICTIONARY, &mut [], First, b"QT"),
        [0, 0, 3, 0]
    );
    assert_eq!(
        Both.search(Fsw, DICTIONARY, &mut list, First, b"Qx"),
        [1, 1, 0, 0]
    );
}

#[test]
fn searching_by_q_and_narrowing() {
    let search =
        |dictionary: &[u8], list: &mut [u16]| Both.search(Fsw, dictionary, list, First, b"Q");
    let mut list = [7; 5];
    assert_eq!(search(DICTIONARY, &mut list), [0, 0, 3, 3]);
    assert_eq!(list, [1, 2, 3, 7, 7]);
    assert_eq!(
        Both.narrow(Fsw, DICTIONARY, &mut list, 3, First, b"QS20500"),
        [0, 0, 2, 1]
    );
    assert_eq!(list, [2, 3, 0, 7, 7]);
    assert_eq!(
        Both.narrow(Fsw, DICTIONARY, &mut list, 2, First, b"Qx"),
        [1, 1, 0, 0]
    );
    assert_eq!(
        Both.narrow(Fsw, DICTIONARY, &mut list, 2, First, b"QS10000"),
        [0, 0, 1, 1]
    );
    assert_eq!(list, [2, 0, 0, 7, 7]);
    assert_eq!(
        Both.narrow(Fsw, DICTIONARY, &mut list, 0, First, b"Q"),
        [0, 0, 0, 0]
    );
    assert_eq!(search(DICTIONARY, &mut list[..2]), [6, 3, 0, 0]);
    assert_eq!(search(b"", &mut []), [0, 0, 0, 0]);
    assert_eq!(search(b"\n", &mut list), [13, 1, 0, 0]);
    assert_eq!(search(b"M500x500\r\n", &mut list), [13, 1, 0, 0]);
    assert_eq!(search(b"M500x500", &mut list), [12, 0, 0, 0]);
}

#[test]
fn narrowing_refuses_in_order() {
    let narrow = |dictionary: &[u8], list: &[u16], count, query: &str| {
        let mut lent = list.to_vec();
        let answer = Both.narrow(Fsw, dictionary, &mut lent, count, First, query.as_bytes());
        refusal(&answer)
    };
    assert_eq!(narrow(b"x", &[], 9, "Qx"), (1, 1));
    assert_eq!(narrow(b"x", &[], 9, "Q"), (12, 0));
    assert_eq!(narrow(&[10; 65_536], &[], 9, "Q"), (14, 0));
    assert_eq!(narrow(b"x\n", &[], 1, "Q"), (11, 0));
    assert_eq!(narrow(b"x\n", &[1], 1, "Q"), (13, 1));
    for list in [[0, 1], [1, 1], [2, 1], [1, 4]] {
        assert_eq!(narrow(DICTIONARY, &list, 2, "Q"), (11, 0), "{list:?}");
    }
    assert_eq!(narrow(DICTIONARY, &[1, 9], 1, "Q"), (0, 0));
    // The place is the line, not the place in the list; lines not listed are not read.
    let bad_third = b"M500x500\nx\nx\nM500x500\n";
    assert_eq!(narrow(bad_third, &[1, 3, 4], 3, "Q"), (13, 3));
    assert_eq!(narrow(bad_third, &[1, 4], 2, "Q"), (0, 0));
}

const PREFIXED: &str = "M500x500\nAS20500M500x500\nAS10000S20500M500x500\nAS10000M500x500\n\
                        AS00000M500x500\nAS10000M500x500\n";

/// The same lines in both sets.
fn prefixed_in_both() -> [(Charset, Vec<u8>); 2] {
    let lines = PREFIXED.lines();
    let swu = lines.flat_map(|line| [in_swu(line.as_bytes()).unwrap(), vec![10]].concat());
    [(Fsw, PREFIXED.into()), (Swu, swu.collect())]
}

#[test]
fn sorting() {
    for (set, dictionary) in prefixed_in_both() {
        let (mut list, mut spare) = ([1, 2, 3, 4, 5, 6, 77], [9; 8]);
        let sorted = [5, 4, 6, 3, 2, 1, 77];
        let answer = Both.sort(set, &dictionary, &mut list, 6, &mut spare);
        assert_eq!((answer, list), ([0, 0], sorted));
        assert_eq!(spare, [0, 0, 0, 0, 0, 0, 9, 9]);
        let answer = Both.sort(set, &dictionary, &mut list, 6, &mut spare);
        assert_eq!((answer, list), ([0, 0], sorted));
        // Equal prefixes stay as they stood, whichever number is the greater.
        let mut list = [6, 1, 4, 3];
        let answer = Both.sort(set, &dictionary, &mut list, 4, &mut spare);
        assert_eq!((answer, list), ([0, 0], [6, 4, 3, 1]));
        for list in [[1, 2, 3, 2], [1, 0, 3, 2], [1, 7, 3, 2]] {
            let (mut lent, mut spare) = (list, [9; 4]);
            let answer = Both.sort(set, &dictionary, &mut lent, 4, &mut spare);
            assert_eq!((answer, lent, spare), ([11, 0], list, [9; 4]));
            let answer = Both.sort(set, &dictionary, &mut lent, 5, &mut spare);
            assert_eq!((answer, lent, spare), ([11, 0], list, [9; 4]));
        }
        let (mut list, mut spare) = ([1, 2, 3], [9; 2]);
        let answer = Both.sort(set, &dictionary, &mut list, 3, &mut spare);
        assert_eq!((answer, list, spare), ([6, 3], [1, 2, 3], [9; 2]));
        let answer = Both.sort(set, &dictionary, &mut list, 0, &mut []);
        assert_eq!((answer, list), ([0, 0], [1, 2, 3]));
    }
}

/// The place is that of the first bad line in the list's order; lines not listed are not read.
#[test]
fn sorting_reads_what_is_listed() {
    // A sign with a styling is no line of a dictionary either.
    let bad = b"M500x500\nx\nM500x500-\nM500x500\n";
    let sort = |list: &[u16], spare: &mut [u16]| {
        let mut lent = list.to_vec();
        let answer = Both.sort(Fsw, bad, &mut lent, list.len(), spare);
        refusal(&answer)
    };
    assert_eq!(sort(&[4, 3, 2, 1], &mut []), (13, 3));
    assert_eq!(sort(&[4, 2, 3, 1], &mut []), (13, 2));
    assert_eq!(sort(&[4, 1], &mut []), (6, 2));
    assert_eq!(sort(&[4, 1], &mut [9; 2]), (0, 0));
}

#[test]
fn narrowing_a_sorted_list() {
    for (set, dictionary) in prefixed_in_both() {
        let mut list = [5, 4, 6, 3, 2, 1, 77];
        let answer = Both.narrow(set, &dictionary, &mut list, 6, First, b"Q");
        assert_eq!((answer, list), ([11, 0, 0, 0], [5, 4, 6, 3, 2, 1, 77]));
        let answer = Both.narrow_sorted(set, &dictionary, &mut list, 6, First, b"Q");
        assert_eq!((answer, list), ([0, 0, 6, 0], [5, 4, 6, 3, 2, 1, 77]));
        let answer = Both.narrow_sorted(set, &dictionary, &mut list, 6, First, b"QAS100uuT");
        assert_eq!((answer, list), ([0, 0, 3, 3], [4, 6, 3, 0, 0, 0, 77]));
        let answer = Both.narrow_sorted(set, &dictionary, &mut list, 3, First, b"Qx");
        assert_eq!(answer, [1, 1, 0, 0]);
        let sought = b"QAS10000S20500T";
        let answer = Both.narrow_sorted(set, &dictionary, &mut list, 3, First, sought);
        assert_eq!((answer, list), ([0, 0, 1, 2], [3, 0, 0, 0, 0, 0, 77]));
        let answer = Both.narrow_sorted(set, &dictionary, &mut list, 2, First, b"Q");
        assert_eq!(answer, [11, 0, 0, 0]);
    }
}

#[test]
fn fetching() {
    let (first, second) = (b"a\n\nbc\n", b"d\n");
    assert_eq!(Both.fetch(first, second, 1), [0, 0, 0, 1]);
    assert_eq!(Both.fetch(first, second, 2), [0, 0, 2, 0]);
    assert_eq!(Both.fetch(first, second, 3), [0, 0, 3, 2]);
    assert_eq!(Both.fetch(first, second, 4), [0, 1, 0, 1]);
    assert_eq!(Both.fetch(first, second, 5), [16, 0, 0, 0]);
    assert_eq!(Both.fetch(first, second, 0), [16, 0, 0, 0]);
    assert_eq!(Both.fetch(first, b"d", 1), [12, 0, 0, 0]);
    assert_eq!(Both.fetch(b"", b"", 1), [16, 0, 0, 0]);
    let (most, over) = ([10; 65_535], [10; 65_536]);
    assert_eq!(Both.fetch(&most, &most, 131_070), [0, 1, 65_534, 0]);
    assert_eq!(Both.fetch(&most, &most, 131_071), [16, 0, 0, 0]);
    assert_eq!(Both.fetch(&over, b"d", 1), [12, 0, 0, 0]);
    assert_eq!(Both.fetch(b"d\n", &over, 1), [14, 0, 0, 0]);
}
