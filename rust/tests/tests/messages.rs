//! What the wrapper says of each refusal, and that each reaches the caller with the number and
//! the place of document 01, "Refusal numbers", and of document 02, Q-1, Q-9, Q-10 and Q-12.

use differential::generate::in_swu;
use halofret::{raw, Charset, Edition, Refusal};
use std::ptr;

static SIZES: [u8; 125_184] = [9; 125_184];

/// What each sentence says, by number from 1; the place is 7.
const SAID: [&[&str]; 19] = [
    &["text is wrong", "byte offset 7"],
    &["stops too early", "7 bytes"],
    &["prefix", "more than 32"],
    &["more than 64 symbols", "more than 32 signbox items"],
    &["range at byte offset 7", "ends below its own start"],
    &["output or list is too short", "7 are needed"],
    &["size list", "125,184 bytes"],
    &["Symbol 7", "has no size"],
    &["without symbols", "no box"],
    &["leave 250 to 749"],
    &[
        "more than the list holds",
        "do not rise",
        "line count",
        "stands twice",
    ],
    &["last line", "not ended by byte 10"],
    &["Line 7", "does not read as a sign"],
    &["over its limits", "65,535 lines"],
    &["code is over 62,592"],
    &["Neither dictionary", "entry"],
    &["zoom", "0.01 to 99.99", "more than two decimals"],
    &["colour name", "more than 24 letters"],
    &["more than 64 symbol styles"],
];

/// Numbers that stand apart, in the same way.
const SAID_APART: [(u8, &[&str]); 1] =
    [(22, &["item of the query", "more than eight alternatives"])];

#[test]
fn each_sentence_says_its_refusal() {
    for (number, said) in (1..).zip(SAID).chain(SAID_APART) {
        let sentence = Refusal { number, place: 7 }.to_string();
        assert!(sentence.ends_with('.'), "{sentence}");
        for part in said {
            assert!(sentence.contains(part), "{number}: {sentence}");
        }
    }
}

/// A text and a styling that is to be written are both refused as 1 at 0.
#[test]
fn a_bad_styling_is_not_called_a_text() {
    let sentence = Refusal {
        number: 1,
        place: 0,
    }
    .to_string();
    for part in ["text is wrong", "first byte", "styling to be written"] {
        assert!(sentence.contains(part), "{sentence}");
    }
}

/// The number and the place of a refused call.
fn refused<T>(answer: Result<T, Refusal>) -> (u8, usize) {
    answer.map_or_else(|refusal| (refusal.number, refusal.place), |_| (0, 0))
}

#[test]
fn each_refusal_reaches_the_caller() {
    let set = Charset::Fsw;
    let read = |text: &str| refused(halofret::read(set, text.as_bytes()));
    let query = |text: &str| refused(halofret::read_query(Edition::First, text.as_bytes()));
    assert_eq!(read("M749x750"), (1, 5));
    assert_eq!(read("M250x25"), (2, 7));
    assert_eq!(read(&format!("A{}M500x500", "S10000".repeat(33))), (3, 0));
    assert_eq!(query(&format!("QA{}T", "S10000".repeat(33))), (3, 0));
    let many = |count| format!("M500x500{}", "S10000500x500".repeat(count));
    assert_eq!((read(&many(64)), read(&many(65))), ((0, 0), (4, 0)));
    assert_eq!(query(&format!("Q{}", "S10000".repeat(33))), (4, 0));
    assert_eq!(query("QS10000R204t100"), (5, 7));
    let sign = b"M500x500S10000500x500";
    assert_eq!(
        refused(halofret::transcribe(set, sign, &mut [0; 23])),
        (6, 24)
    );
    assert_eq!(refused(halofret::boxes(set, sign, &SIZES[1..])), (7, 0));
    let mut unsized_second = SIZES;
    unsized_second[2 * 25_056] = 0;
    let two = b"M500x500S10000500x500S20500500x500";
    assert_eq!(refused(halofret::boxes(set, two, &unsized_second)), (8, 2));
    assert_eq!(refused(halofret::boxes(set, b"M500x500", &SIZES)), (9, 0));
    assert_eq!(
        refused(halofret::shift(set, sign, 250, 0, &mut [0; 21])),
        (10, 0)
    );
    let code = |code| refused(halofret::code_to_key(code, &mut [0; 6]));
    assert_eq!((code(62_592), code(62_593)), ((0, 0), (15, 0)));
}

#[test]
fn each_refusal_of_a_dictionary_reaches_the_caller() {
    let set = Charset::Fsw;
    let search = |dictionary: &[u8], query: &[u8]| {
        let (mut list, edition) = ([0; 2], Edition::First);
        refused(halofret::search(set, dictionary, &mut list, edition, query))
    };
    let narrow = |list: &mut [u16], count, query: &[u8]| {
        let (dictionary, edition) = (b"M500x500\nM\n", Edition::First);
        refused(halofret::narrow(
            set, dictionary, list, count, edition, query,
        ))
    };
    let three = b"M500x500\nM500x500\nM500x500\n";
    assert_eq!(
        (search(three, b"Q"), search(three, b"QT")),
        ((6, 3), (0, 0))
    );
    assert_eq!(search(three, b"QR204t100"), (5, 1));
    assert_eq!(narrow(&mut [1], 2, b"Q"), (11, 0));
    assert_eq!(narrow(&mut [1, 1], 2, b"Q"), (11, 0));
    assert_eq!(narrow(&mut [1, 2], 2, b"Q"), (13, 2));
    assert_eq!(narrow(&mut [1, 2], 1, b"Q"), (0, 0));
    assert_eq!(narrow(&mut [1], 2, b"QR204t100"), (5, 1));
    assert_eq!(search(b"M500x500\nM500x500", b"Q"), (12, 0));
    assert_eq!(search(b"M500x500\nM\n", b"QT"), (13, 2));
    assert_eq!(search(&[10; 65_536], b"Q"), (14, 0));
    let fetch = |number| refused(halofret::fetch(b"M\n", b"M\n", number));
    assert_eq!([0, 1, 2, 3].map(fetch), [(16, 0), (0, 0), (0, 0), (16, 0)]);
    assert_eq!(refused(halofret::fetch(b"M\n", b"M", 1)), (12, 0));
}

#[test]
fn each_refusal_of_a_sorted_list_reaches_the_caller() {
    let set = Charset::Fsw;
    let sort = |dictionary: &[u8], list: &[u16], spare_room| {
        let (mut list, mut spare) = (list.to_vec(), vec![9; spare_room]);
        let count = list.len();
        refused(halofret::sort(
            set, dictionary, &mut list, count, &mut spare,
        ))
    };
    let narrow = |dictionary: &[u8], list: &[u16], query: &[u8]| {
        let (mut list, edition) = (list.to_vec(), Edition::First);
        let count = list.len();
        refused(halofret::narrow_sorted(
            set, dictionary, &mut list, count, edition, query,
        ))
    };
    let bad_third = b"M500x500\nM500x500\nM\n";
    assert_eq!(sort(b"M500x500", &[1], 1), (12, 0));
    assert_eq!(sort(&[10; 65_536], &[1], 1), (14, 0));
    assert_eq!(sort(bad_third, &[2, 1, 2], 3), (11, 0));
    assert_eq!(sort(bad_third, &[2, 3, 1], 3), (13, 3));
    assert_eq!(
        (sort(bad_third, &[2, 1], 1), sort(bad_third, &[2, 1], 2)),
        ((6, 2), (0, 0))
    );
    let refusal = halofret::sort(set, bad_third, &mut [1], 2, &mut [9; 2]).unwrap_err();
    assert_eq!((refusal.number, refusal.place), (11, 0));
    assert_eq!(narrow(bad_third, &[2, 1], b"QR204t100"), (5, 1));
    assert_eq!(narrow(b"M500x500", &[1], b"Q"), (12, 0));
    assert_eq!(narrow(&[10; 65_536], &[1], b"Q"), (14, 0));
    assert_eq!(narrow(bad_third, &[2, 1, 2], b"Q"), (11, 0));
    assert_eq!(narrow(bad_third, &[2, 3, 1], b"Q"), (13, 3));
    assert_eq!(narrow(bad_third, &[2, 1], b"Q"), (0, 0));
}

#[test]
fn crowded_items_reach_the_caller() {
    let set = Charset::Fsw;
    let second = Edition::Second(set);
    let item = |alternatives| format!("Q{}", vec!["S10000"; alternatives].join("o")).into_bytes();
    let (eight, nine) = (item(8), item(9));
    let sign = b"M500x500S10000500x500";
    let line = [&sign[..], b"\n"].concat();
    assert_eq!(refused(halofret::read_query(second, &eight)), (0, 0));
    assert_eq!(refused(halofret::read_query(second, &nine)), (22, 0));
    assert_eq!(
        refused(halofret::verdict(set, second, &eight, sign)),
        (0, 0)
    );
    assert_eq!(
        refused(halofret::verdict(set, second, &nine, sign)),
        (22, 0)
    );
    let narrow = |query| refused(halofret::narrow(set, &line, &mut [1], 1, second, query));
    assert_eq!((narrow(&eight), narrow(&nine)), ((0, 0), (22, 0)));
    let narrow = |query| {
        refused(halofret::narrow_sorted(
            set,
            &line,
            &mut [1],
            1,
            second,
            query,
        ))
    };
    assert_eq!((narrow(&eight), narrow(&nine)), ((0, 0), (22, 0)));
    let search = |query| refused(halofret::search(set, &line, &mut [9], second, query));
    assert_eq!((search(&eight), search(&nine)), ((0, 0), (22, 0)));
    assert_eq!(refused(halofret::read_query(Edition::First, &nine)), (1, 7));
}

#[test]
fn each_refusal_of_a_styling_reaches_the_caller() {
    let set = Charset::Fsw;
    let styled = |styling: &str| {
        let text = format!("M500x500{styling}");
        let mut out = [b'?'; 2_000];
        let transcribed = refused(halofret::transcribe_styled(set, text.as_bytes(), &mut out));
        assert!(transcribed == (0, 0) || out == [b'?'; 2_000]);
        let read = refused(halofret::read_styled(set, text.as_bytes()));
        assert_eq!(read, transcribed);
        read
    };
    assert_eq!(styled("-Zx"), (1, 10));
    assert_eq!(styled("-Z1."), (2, 12));
    assert_eq!((styled("-Z99.99"), styled("-Z100")), ((0, 0), (17, 0)));
    let name = |length| format!("-G_{}_", "n".repeat(length));
    assert_eq!((styled(&name(24)), styled(&name(25))), ((0, 0), (18, 0)));
    let styles = |count| format!("--{}", "Z01,2".repeat(count));
    assert_eq!(
        (styled(&styles(64)), styled(&styles(65))),
        ((0, 0), (19, 0))
    );
    let mut out = [0; 13];
    let text = b"M500x500-C";
    assert_eq!(
        refused(halofret::transcribe_styled(set, text, &mut out)),
        (6, 14)
    );
    let mut record = [0; raw::HALOFRET_STYLING];
    assert_eq!(halofret::write_styling_record(&record, &mut out), Ok(1));
    assert_eq!(
        refused(halofret::write_styling_record(&record, &mut [])),
        (6, 1)
    );
    record[2] = 10_000;
    assert_eq!(
        refused(halofret::write_styling_record(&record, &mut [])),
        (1, 0)
    );
}

#[test]
fn refusals_of_swu_have_their_places_in_bytes() {
    let mut text = in_swu(b"M500x500").unwrap();
    assert_eq!(refused(halofret::read(Charset::Swu, &text)), (0, 0));
    text.extend(b"abcdef");
    assert_eq!(refused(halofret::read(Charset::Swu, &text)), (1, 12));
    assert_eq!(refused(halofret::read(Charset::Swu, &text[..15])), (2, 15));
}

#[test]
fn empty_slices() {
    for set in differential::BOTH_SETS {
        assert_eq!(refused(halofret::read(set, &[])), (2, 0));
        assert_eq!(refused(halofret::transcribe(set, &[], &mut [])), (2, 0));
        assert_eq!(refused(halofret::read_styled(set, &[])), (2, 0));
        assert_eq!(
            refused(halofret::transcribe_styled(set, &[], &mut [])),
            (2, 0)
        );
        assert_eq!(halofret::sort(set, &[], &mut [], 0, &mut []), Ok(()));
        for edition in differential::EDITIONS {
            let verdict = |query, text| refused(halofret::verdict(set, edition, query, text));
            assert_eq!(verdict(b"Q", &[]), (2, 0));
            assert_eq!(verdict(&[], b"x"), (2, 0));
            let narrowed = halofret::narrow(set, &[], &mut [], 0, edition, b"Q").unwrap();
            assert_eq!((narrowed.kept, narrowed.dropped), (0, 0));
            let narrowed = halofret::narrow_sorted(set, &[], &mut [], 0, edition, b"Q").unwrap();
            assert_eq!((narrowed.kept, narrowed.dropped), (0, 0));
            let search = |query| halofret::search(set, &[], &mut [], edition, query);
            let searched = search(b"Q").unwrap();
            assert_eq!((searched.lines, searched.written), (0, 0));
            assert_eq!(refused(search(&[])), (2, 0));
        }
    }
    for edition in differential::EDITIONS {
        assert_eq!(refused(halofret::read_query(edition, &[])), (2, 0));
    }
    assert_eq!(refused(halofret::key_to_code(&[])), (2, 0));
    assert_eq!(refused(halofret::char_to_code(&[])), (2, 0));
    assert_eq!(refused(halofret::code_to_key(26, &mut [])), (6, 6));
    assert_eq!(refused(halofret::code_to_char(26, &mut [])), (6, 4));
    assert_eq!(refused(halofret::fetch(&[], &[], 1)), (16, 0));
}

/// A null pointer of length 0 is an empty slice, as the header says.
#[test]
fn null_pointers() {
    let (none, no_bytes) = (ptr::null(), ptr::null_mut());
    let (mut three, mut four, mut two) = ([9; 3], [9; 4], [9; 2]);
    let (mut sign, mut centre, mut nineteen) = ([9; raw::HALOFRET_SIGN], [9.0; 2], [9; 19]);
    // SAFETY: a null pointer goes with length 0, every other with its own length.
    unsafe {
        raw::halofret_key_to_code(none, 0, &mut three);
        assert_eq!(three, [2, 0, 0]);
        raw::halofret_code_to_key(26, no_bytes, 0, &mut three);
        assert_eq!(three, [6, 6, 0]);
        raw::halofret_transcribe(false, none, 0, no_bytes, 0, &mut three);
        assert_eq!(three, [2, 0, 0]);
        raw::halofret_read(true, none, 0, &mut sign, &mut two);
        assert_eq!((two, sign), ([2, 0], [9; raw::HALOFRET_SIGN]));
        raw::halofret_boxes(
            false,
            b"M500x500".as_ptr(),
            8,
            none,
            0,
            &mut centre,
            &mut nineteen,
        );
        assert_eq!((nineteen[0], centre), (7, [9.0; 2]));
        raw::halofret_fetch(none, 0, b"M\n".as_ptr(), 2, 1, &mut four);
        assert_eq!(four, [0, 1, 0, 1]);
    }
}

#[test]
fn null_pointers_of_queries() {
    let (none, no_list, query) = (ptr::null(), ptr::null_mut(), b"Q".as_ptr());
    let (mut two, mut four, mut verdict) = ([9; 2], [9; 4], [9; 36]);
    for (second, query_swu) in [(false, false), (false, true), (true, false), (true, true)] {
        // SAFETY: as above.
        unsafe {
            raw::halofret_read_query(second, query_swu, none, 0, &mut two);
            assert_eq!(two, [2, 0]);
            let (swu, answer) = (false, &mut verdict);
            raw::halofret_verdict(swu, second, query_swu, query, 1, none, 0, answer);
            assert_eq!(verdict[..4], [2, 0, 0, 0]);
            let (dict, list, answer) = (none, no_list, &mut four);
            raw::halofret_narrow(
                swu, dict, 0, list, 0, 0, second, query_swu, query, 1, answer,
            );
            assert_eq!(four, [0, 0, 0, 0]);
        }
    }
}

/// No dictionary, no query, and no list where one entry is needed.
#[test]
fn null_pointers_of_searches() {
    let (none, list, query) = (ptr::null(), ptr::null_mut(), b"Q".as_ptr());
    let line = b"M500x500\n";
    let mut answer = [9; 4];
    for (second, query_swu) in [(false, false), (false, true), (true, false), (true, true)] {
        let mut search = |dict, dict_len, query, query_len| {
            // SAFETY: as above.
            unsafe {
                let (swu, room, answer) = (false, 0, &mut answer);
                raw::halofret_search(
                    swu, dict, dict_len, list, room, second, query_swu, query, query_len, answer,
                );
            }
            answer
        };
        assert_eq!(search(none, 0, query, 1), [0, 0, 0, 0]);
        assert_eq!(search(none, 0, none, 0), [2, 0, 0, 0]);
        assert_eq!(search(line.as_ptr(), 9, query, 1), [6, 1, 0, 0]);
    }
}

/// No dictionary, no list and no spare list, and no spare list where one entry is sorted.
#[test]
fn null_pointers_of_sorted_lists() {
    let (none, no_list, query) = (ptr::null(), ptr::null_mut(), b"Q".as_ptr());
    let line = b"M500x500\n";
    let (mut two, mut four, mut list) = ([9; 2], [9; 4], [1]);
    for swu in [false, true] {
        // SAFETY: as above.
        unsafe {
            raw::halofret_sort(swu, none, 0, no_list, 0, 0, no_list, 0, &mut two);
            assert_eq!(two, [0, 0]);
            raw::halofret_sort(swu, none, 0, no_list, 0, 1, no_list, 0, &mut two);
            assert_eq!(two, [11, 0]);
            let (dict, answer) = (none, &mut four);
            raw::halofret_narrow_sorted(swu, dict, 0, no_list, 0, 0, false, swu, query, 1, answer);
            assert_eq!(four, [0, 0, 0, 0]);
        }
    }
    let (dict, start) = (line.as_ptr(), list.as_mut_ptr());
    // SAFETY: as above.
    unsafe { raw::halofret_sort(false, dict, 9, start, 1, 1, no_list, 0, &mut two) };
    assert_eq!((two, list), ([6, 1], [1]));
}

#[test]
fn null_pointers_of_stylings() {
    let (none, no_bytes) = (ptr::null(), ptr::null_mut());
    let (mut three, mut two) = ([9; 3], [9; 2]);
    let (mut sign, mut styling) = ([9; raw::HALOFRET_SIGN], [0; raw::HALOFRET_STYLING]);
    // SAFETY: as above.
    unsafe {
        raw::halofret_read_styled(true, none, 0, &mut sign, &mut styling, &mut two);
        assert_eq!((two, sign), ([2, 0], [9; raw::HALOFRET_SIGN]));
        assert_eq!(styling, [0; raw::HALOFRET_STYLING]);
        raw::halofret_transcribe_styled(false, none, 0, no_bytes, 0, &mut three);
        assert_eq!(three, [2, 0, 0]);
        raw::halofret_write_styling(&styling, no_bytes, 0, &mut three);
        assert_eq!(three, [6, 1, 0]);
    }
}
