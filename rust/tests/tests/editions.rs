//! Reading queries of the second edition (document 02, Q-9), and of the first beside it.

use differential::both::shown;
use differential::damage::{damaged, noise};
use differential::editions::{query_in, query_in_swu, query_of_in};
use differential::generate::query;
use differential::{cases, Both, Charset, Edition, Interface, Random, Tally};
use Charset::{Fsw, Swu};
use Edition::{First, Second};

const SECONDS: [Edition; 2] = [Second(Fsw), Second(Swu)];

/// Fails unless reading the text answers so.
fn expect(edition: Edition, text: impl AsRef<[u8]>, answer: [u64; 2]) {
    let text = text.as_ref();
    let read = Both.read_query(edition, text);
    assert_eq!(read, answer, "{} in {edition:?}", shown(text));
}

/// The query in SWU, where a part that does not count is any.
fn in_swu(fsw: &str) -> Vec<u8> {
    query_in_swu(&mut Random::new(1), fsw.as_bytes()).expect("the query is well-formed")
}

#[test]
fn places_in_fsw() {
    for (text, answer) in [
        ("QS10000oS20500500x500", [0, 0]),
        ("QS10000500x500oS20500", [1, 14]),
        ("QS10000o", [2, 8]),
        ("QoS10000", [1, 1]),
        ("QS10000ooS20500", [1, 8]),
        ("QAS10000oT", [1, 9]),
        ("QAS10000oR100t204T", [0, 0]),
        ("QAS10000500x500T", [1, 8]),
        ("QS10000oS20500750x500", [1, 14]),
        ("QS10000oS2050074", [2, 16]),
        ("QV1234", [1, 5]),
        ("QS10000oS20500V", [2, 15]),
        ("Q-", [1, 1]),
        ("QS10000-", [1, 7]),
        // The other set's spelling.
        ("Q\u{40001}", [1, 1]),
        ("QS10000f", [1, 7]),
    ] {
        expect(Second(Fsw), text, answer);
    }
}

#[test]
fn places_of_null_in_fsw() {
    for (text, answer) in [
        ("QAS00000T", [0, 0]),
        ("QAS00000oS10000T", [0, 0]),
        ("QAS10000oS00000S00000T", [0, 0]),
        ("QS00000", [1, 2]),
        ("QS10000oS00000", [1, 9]),
        ("QAS00000TS00000", [1, 10]),
        ("QAS0", [2, 4]),
        ("QAS00000", [2, 8]),
        ("QAS0u000T", [1, 4]),
        ("QAS000uuT", [1, 6]),
        ("QAS0000uT", [1, 7]),
        ("QAS00001T", [1, 7]),
        ("QAR000t100T", [1, 3]),
        ("QAR100t000T", [1, 7]),
    ] {
        expect(Second(Fsw), text, answer);
    }
    expect(First, "QAS00000T", [1, 3]);
    expect(First, "QAS10000oS20500T", [1, 8]);
}

#[test]
fn places_in_swu() {
    for (text, answer) in [
        ("Q\u{40001}", [0, 0]),
        ("Q\u{40001}f", [0, 0]),
        ("Q\u{40001}r", [0, 0]),
        ("Q\u{40001}fr", [0, 0]),
        ("Q\u{40001}rf", [1, 6]),
        ("Q\u{40001}ff", [1, 6]),
        ("Q\u{4f480}", [0, 0]),
        ("Q\u{4f481}", [1, 4]),
        ("Q\u{40001}\u{1d80c}", [2, 9]),
        ("Q\u{40001}\u{1d80c}\u{1d9ff}", [0, 0]),
        ("Q\u{40001}\u{1d80b}", [1, 8]),
        ("Q\u{40001}\u{1da00}", [1, 7]),
        ("Q\u{40001}\u{1d80c}x\u{1d80c}", [1, 9]),
        ("Q\u{40001}o", [2, 6]),
        ("Q\u{40001}fo\u{40001}\u{1d80c}\u{1d80c}", [0, 0]),
        ("Q\u{40001}\u{1d80c}\u{1d80c}o\u{40001}", [1, 13]),
        ("QV20", [0, 0]),
        ("QV1234", [1, 5]),
        ("Q-", [1, 1]),
        // The other set's spelling, and the marks of a sign.
        ("QS10000", [1, 1]),
        ("Q\u{40001}500x500", [1, 5]),
        ("Q\u{1d800}\u{40001}T", [1, 1]),
    ] {
        expect(Second(Swu), text, answer);
    }
    expect(Second(Swu), b"Q\xf1\x80", [2, 3]);
    expect(Second(Swu), b"Q\xf1\x90", [1, 2]);
    expect(Second(Swu), b"Q\xf1\x80\x80\x80", [1, 4]);
}

#[test]
fn places_of_null_and_ranges_in_swu() {
    for (text, answer) in [
        ("QA\u{40000}T", [0, 0]),
        ("QA\u{40000}o\u{40001}frT", [0, 0]),
        ("QA\u{40000}", [2, 6]),
        ("Q\u{40000}", [1, 4]),
        ("Q\u{40001}o\u{40000}", [1, 9]),
        ("QA\u{40000}fT", [1, 6]),
        ("QA\u{40000}rT", [1, 6]),
        ("QAR\u{40000}\u{40001}T", [1, 6]),
        ("QAR\u{40001}\u{40000}T", [1, 10]),
        ("QR\u{40001}f\u{40001}", [1, 6]),
        ("QR\u{40001}\u{40001}r", [1, 10]),
        ("QR\u{40001}t\u{40001}", [1, 6]),
        ("QR\u{40001}", [2, 6]),
        // Bases are compared: these two are both 100, then 101 and 100.
        ("QR\u{40060}\u{40001}", [0, 0]),
        ("QR\u{40061}\u{40060}", [5, 1]),
        ("Q\u{40001}oR\u{40061}\u{40060}", [5, 6]),
    ] {
        expect(Second(Swu), text, answer);
    }
}

/// So many alternatives of one item.
fn item_of(alternatives: usize) -> String {
    vec!["S10000"; alternatives].join("o")
}

/// Each refusal stands before those after it, and a wrong or short text before all of them.
#[test]
fn refusals_in_order() {
    let (eight, nine, reversed) = (item_of(8), item_of(9), "R204t100");
    let all = format!("{nine}{reversed}");
    let many = "S10000".repeat(32);
    for (text, number) in [
        (format!("QA{many}{all}T{many}{all}"), 3),
        (format!("QA{all}T{many}{all}"), 4),
        (format!("QA{all}T{many}"), 22),
        (format!("Q{reversed}{nine}"), 22),
        (format!("Q{eight}{nine}500x500"), 22),
        (format!("QA{eight}{nine}T"), 22),
        (format!("QAR100t204{eight}T{eight}{reversed}"), 5),
        (format!("QA{eight}oR204t100T"), 22),
        (format!("QA{eight}R100t100T{eight}"), 0),
    ] {
        for (edition, text) in [
            (Second(Fsw), text.clone().into_bytes()),
            (Second(Swu), in_swu(&text)),
        ] {
            let place = match number {
                5 => text.iter().rposition(|&byte| byte == b'R').unwrap() as u64,
                _ => 0,
            };
            expect(edition, &text, [number, place]);
            let length = text.len() as u64;
            expect(edition, [&text[..], b"V"].concat(), [2, length + 1]);
            expect(edition, [&text[..], b"V1x"].concat(), [1, length + 2]);
        }
    }
}

/// Items are counted and not their alternatives.
#[test]
fn limits() {
    for prefix in [0, 1, 32, 33, 70] {
        for items in [0, 1, 32, 33, 70] {
            for alternatives in [1, 2, 8, 9, 300] {
                let crowded = item_of(alternatives);
                let begins = match prefix {
                    0 => String::new(),
                    _ => format!("A{}T", crowded.repeat(prefix)),
                };
                let text = format!("Q{begins}{}", crowded.repeat(items));
                let number = match (prefix, items, alternatives) {
                    (33.., _, _) => 3,
                    (_, 33.., _) => 4,
                    (0, 0, _) => 0,
                    (_, _, 9..) => 22,
                    _ => 0,
                };
                expect(Second(Fsw), &text, [number, 0]);
                expect(Second(Swu), in_swu(&text), [number, 0]);
            }
        }
    }
}

/// The offset of the first range in text order counts, whichever item it is in.
#[test]
fn the_first_reversed_range() {
    cases(320_000, 2_000, |random| {
        let good = *random.pick(&["R100t204", "R204t204", "S10000oR100t101"]);
        let mut items: Vec<&str> = vec![good; random.between(2, 8)];
        for _ in 0..2 {
            let at = random.below(items.len());
            items[at] = *random.pick(&["R204t100", "S205uuoR2fft2fe", "R38bt37foR204t100"]);
        }
        let prefix = random.below(items.len());
        let text = match prefix {
            0 => format!("Q{}", items.concat()),
            _ => format!(
                "QA{}T{}",
                items[..prefix].concat(),
                items[prefix..].concat()
            ),
        };
        let starts: Vec<usize> = text.match_indices('R').map(|(at, _)| at).collect();
        let is_reversed = |&at: &usize| text[at + 1..at + 4] > text[at + 5..at + 8];
        let first = starts.iter().position(is_reversed).unwrap();
        expect(Second(Fsw), &text, [5, starts[first] as u64]);
        let swu = in_swu(&text);
        let mut starts = (0..swu.len()).filter(|&at| swu[at] == b'R');
        expect(Second(Swu), &swu, [5, starts.nth(first).unwrap() as u64]);
    });
}

#[test]
fn good_and_damaged_queries() {
    for edition in SECONDS {
        let mut tally = Tally::default();
        cases(330_000, 100_000, |random| {
            let text = query_in(random, edition);
            tally.note(Both.read_query(edition, &text)[0]);
            tally.note(Both.read_query(edition, &damaged(random, &text))[0]);
            Both.read_query(edition, &noise(random, 30));
        });
        tally.expect(&[0, 1, 2, 3, 4, 5, 22]);
    }
}

/// The text with each byte in turn replaced, dropped and given a neighbour, and what is left
/// when it is cut off behind that.
#[test]
fn every_byte_at_every_place() {
    for fsw in [
        "QAS00000oS100uuoS1005uR37ft386TS38b5foS205u0250x749R100t38b749x250V999",
        "QTS2ff0uoR100t204500x500V0",
        "QAR204t205S00000T",
    ] {
        for (edition, text) in [
            (First, fsw.as_bytes().to_vec()),
            (Second(Fsw), fsw.as_bytes().to_vec()),
            (Second(Swu), in_swu(fsw)),
        ] {
            for place in 0..text.len() {
                let mut dropped = text.clone();
                dropped.remove(place);
                Both.read_query(edition, &dropped);
                for byte in 0..=255 {
                    let (mut replaced, mut widened) = (text.clone(), text.clone());
                    replaced[place] = byte;
                    widened.insert(place, byte);
                    for changed in [replaced, widened] {
                        Both.read_query(edition, &changed);
                        Both.read_query(edition, &changed[..=place]);
                    }
                }
            }
        }
    }
}

/// What may be left of a character, and what may be left of a query after it.
const REST_OF_CHARACTER: [&[u8]; 8] = [
    b"",
    b"\x80\x80\x81",
    b"\x80\x81",
    b"\x81",
    b"\x80",
    b"\x9d\xa1\x80",
    b"\xa1\x80",
    b"\xbf",
];
const REST_OF_QUERY: [&str; 9] = [
    "",
    "T",
    "0",
    "Q",
    "\u{1d9ff}",
    "\u{40001}",
    "\u{40001}T",
    "\u{40001}\u{40001}",
    "\u{40001}\u{40001}T",
];

fn is_formed(text: &[u8]) -> bool {
    !matches!(Both.read_query(Second(Swu), text)[0], 1 | 2)
}

/// Whether one of the rests makes the text well-formed, as one does if any does.
fn begins_query(text: &[u8]) -> bool {
    REST_OF_CHARACTER.iter().any(|character| {
        let mut rests = REST_OF_QUERY.iter();
        rests.any(|rest| is_formed(&[text, character, rest.as_bytes()].concat()))
    })
}

/// The place of 1 in SWU is the longest beginning that some well-formed query shares.
#[test]
fn places_in_swu_go_byte_by_byte() {
    let mut inside_characters = 0;
    cases(340_000, 6_000, |random| {
        let (prefix, items) = (random.below(3), random.below(4));
        let text = query_of_in(random, Second(Swu), prefix, items);
        let text = damaged(random, &text);
        let [number, place] = Both.read_query(Second(Swu), &text);
        let place = place as usize;
        if number == 1 {
            assert!(begins_query(&text[..place]), "{}", shown(&text));
            assert!(!begins_query(&text[..=place]), "{}", shown(&text));
            inside_characters += usize::from(!is_formed(&text[..place]));
        }
        if number == 2 {
            assert_eq!(place, text.len());
            assert!(begins_query(&text), "{}", shown(&text));
        }
    });
    assert!(inside_characters > 500, "only {inside_characters}");
}

/// A text that the first edition does not refuse as 1 is answered alike by the second. Where they
/// differ, the first refuses what only the second has: `o` or a null symbol.
#[test]
fn the_first_edition_within_the_second() {
    let mut tally = Tally::default();
    let mut differ = 0;
    cases(350_000, 150_000, |random| {
        let text = match random.below(3) {
            0 => query_in(random, Second(Fsw)),
            _ => query(random),
        };
        let text = match random.below(2) {
            0 => damaged(random, &text),
            _ => text,
        };
        let [first, second] = [First, Second(Fsw)].map(|e| Both.read_query(e, &text));
        tally.note(first[0]);
        if first != second {
            let place = first[1] as usize;
            let null = place > 0 && &text[place - 1..=place] == b"S0";
            assert!(
                first[0] == 1 && (null || text[place] == b'o'),
                "{}",
                shown(&text)
            );
            differ += 1;
        }
    });
    tally.expect(&[0, 1, 2, 3, 4, 5]);
    assert!(differ > 5_000, "only {differ} texts were answered apart");
}
