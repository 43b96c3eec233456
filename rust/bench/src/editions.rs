//! Rows for queries of the second edition.

use crate::entries::*;
use crate::Bench;
use differential::editions::query_in_swu;
use differential::Random;
use reference::{Charset, Edition};

/// Well-formed in both editions.
const PLAIN: &str = "QS100uuR2fft36c";
const JOINED: &str = "QS100uuoS205uuR2fft36coS36d00oR376t37e";
/// Symbols that no sign of the dictionary has.
const ABSENT: [&str; 7] = [
    "S2f700", "S2f800", "S2f900", "S2fa00", "S2fb00", "S2fc00", "S2fd00",
];

/// The query in the second edition, in both sets, with its name.
fn in_second(fsw: &str) -> [(String, Edition, Vec<u8>); 2] {
    let swu = query_in_swu(&mut Random::new(1), fsw.as_bytes()).expect("the query is well-formed");
    [(Charset::Fsw, fsw.as_bytes().to_vec()), (Charset::Swu, swu)].map(|(set, query)| {
        let name = format!("`{fsw}`, second edition as {set:?}");
        (name, Edition::Second(set), query)
    })
}

/// A query for one item, of whose alternatives only the last is ever found: whatever their
/// number, the same lines meet it, and each alternative is held against every symbol up to that.
fn item_of(alternatives: usize) -> String {
    let absent = &ABSENT[..alternatives - 1];
    format!("Q{}", [absent, &["S100uu"]].concat().join("o"))
}

pub fn edition_rows(bench: &Bench, set: Charset) {
    read_query_rows(bench);
    for (name, edition, query) in [PLAIN, JOINED].into_iter().flat_map(in_second) {
        let asked = Asked {
            edition,
            query: &query,
        };
        verdict_row(bench, set, &format!("verdict by {name}"), asked);
    }
    for alternatives in [1, 2, 4, 8] {
        let query = item_of(alternatives);
        let asked = Asked {
            edition: Edition::Second(Charset::Fsw),
            query: query.as_bytes(),
        };
        let name = format!("by one item, alternatives: {alternatives}");
        verdict_row(bench, set, &format!("verdict {name}"), asked);
        let b = &bench.dictionary;
        bench.row(
            &format!("search {name}"),
            || search_library(b, set, asked),
            || search_reference(b, set, asked),
        );
        bench.row(
            &format!("narrow {name}"),
            || narrow_library(b, set, asked),
            || narrow_reference(b, set, asked),
        );
    }
}

fn verdict_row(bench: &Bench, set: Charset, name: &str, asked: Asked) {
    let b = &bench.dictionary;
    bench.row(
        name,
        || verdict_library(b, set, asked),
        || verdict_reference(b, set, asked),
    );
}

/// A call for each line, though it reads no line.
fn read_query_rows(bench: &Bench) {
    let b = &bench.dictionary;
    let plain = (format!("`{PLAIN}`"), Edition::First, PLAIN.into());
    let second = [PLAIN, JOINED].into_iter().flat_map(in_second);
    for (name, edition, query) in std::iter::once(plain).chain(second) {
        let asked = Asked {
            edition,
            query: &query,
        };
        bench.row(
            &format!("read_query of {name}"),
            || read_query_library(b, asked),
            || read_query_reference(b, asked),
        );
    }
}
