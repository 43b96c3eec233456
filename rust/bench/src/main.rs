//! Nanoseconds a line for the library and for the plain reference, as a Markdown table, and then
//! one for sorting.
//!
//! `cargo run --release -p bench [-- [--quick] [--swu] [--sorting]]`: the two sides take turns over
//! the same dictionary, and each line of a table has the best pass of many. With `--sorting` there
//! is only the table for that.

mod dictionary;
mod editions;
mod entries;
mod sorting;
mod styled;

use dictionary::Dictionary;
use editions::edition_rows;
use entries::*;
use reference::{Charset, Edition};
use sorting::sorting_table;
use std::time::{Duration, Instant};
use styled::*;

const LINE_COUNTS: [usize; 3] = [1_000, 10_000, 65_535];
const VERDICT_QUERY: &str = "QS100uuR2fft36c";
const FEW_MEET: &str = "QS20500";
/// Searched and narrowed by.
const QUERIES: [&str; 5] = [
    "Q",
    FEW_MEET,
    "QS100uuR2fft36c",
    "QS100uu480x480",
    "QAS100uuT",
];

fn main() {
    let words: Vec<String> = std::env::args().skip(1).collect();
    let has = |word: &str| words.iter().any(|given| given == word);
    let known = ["--quick", "--swu", "--sorting"];
    if let Some(word) = words.iter().find(|word| !known.contains(&word.as_str())) {
        eprintln!("{word} is not known here: only {} are.", known.join(", "));
        std::process::exit(2);
    }
    let time = Duration::from_millis(if has("--quick") { 40 } else { 800 });
    let set = if has("--swu") {
        Charset::Swu
    } else {
        Charset::Fsw
    };
    if !has("--sorting") {
        println!("| {set:?} entry | lines | library ns/line | reference ns/line | ratio |");
        println!("|---|--:|--:|--:|--:|");
        for count in LINE_COUNTS {
            let dictionary = Dictionary::new(set, count);
            rows(&Bench { dictionary, time }, set);
        }
        println!();
    }
    sorting_table(set, time);
}

fn rows(bench: &Bench, set: Charset) {
    let b = &bench.dictionary;
    bench.row("read", || read_library(b, set), || read_reference(b, set));
    bench.row(
        "transcribe",
        || transcribe_library(b, set),
        || transcribe_reference(b, set),
    );
    styled_rows(bench, set);
    bench.row(
        &format!("verdict by `{VERDICT_QUERY}`"),
        || verdict_library(b, set, in_first(VERDICT_QUERY)),
        || verdict_reference(b, set, in_first(VERDICT_QUERY)),
    );
    bench.row(
        "centred",
        || centred_library(b, set),
        || centred_reference(b, set),
    );
    dictionary_rows(bench, set);
    edition_rows(bench, set);
}

/// Rows that stay inside the library tell so by their names.
fn dictionary_rows(bench: &Bench, set: Charset) {
    let b = &bench.dictionary;
    for query in QUERIES {
        bench.row(
            &format!("search by `{query}`"),
            || search_library(b, set, in_first(query)),
            || search_reference(b, set, in_first(query)),
        );
    }
    bench.row(
        &format!("search by `{FEW_MEET}`, beside search by `Q` and narrow by it"),
        || search_library(b, set, in_first(FEW_MEET)),
        || search_and_narrow(b, set, in_first(FEW_MEET)),
    );
    for query in QUERIES {
        bench.row(
            &format!("narrow by `{query}`"),
            || narrow_library(b, set, in_first(query)),
            || narrow_reference(b, set, in_first(query)),
        );
    }
    for query in ["Q", FEW_MEET] {
        bench.row(
            &format!("narrow_sorted by `{query}`, beside narrow of the same list"),
            || narrow_sorted_library(b, set, in_first(query)),
            || narrow_library(b, set, in_first(query)),
        );
    }
}

fn in_first(query: &str) -> Asked<'_> {
    Asked {
        edition: Edition::First,
        query: query.as_bytes(),
    }
}

/// The rows after the first have other yardsticks than the reference, which their names tell.
fn styled_rows(bench: &Bench, set: Charset) {
    let signs = &StyledSigns::new(&bench.dictionary);
    bench.row(
        "read_styled",
        || read_styled_library(signs, set),
        || read_styled_reference(signs, set),
    );
    bench.row(
        "read_styled, beside the library's read and a walk by the grammar",
        || read_styled_library(signs, set),
        || read_and_follow(signs, set),
    );
    bench.row(
        "read_styled, beside the library's read and the class of each byte",
        || read_styled_library(signs, set),
        || read_and_classify(signs, set),
    );
}

struct Bench {
    dictionary: Dictionary,
    /// How long the passes of one row may take.
    time: Duration,
}

impl Bench {
    /// Prints the best of both.
    fn row(&self, name: &str, library: impl Fn() -> Pass, reference: impl Fn() -> Pass) {
        let lines = self.dictionary.count();
        let [library, reference] = self.best(name, library, reference);
        let ratio = library / reference;
        println!("| {name} | {lines} | {library:.1} | {reference:.1} | {ratio:.2} |");
    }

    /// Runs both in turn until the time is up, at least three times: the best in nanoseconds a
    /// line.
    fn best(
        &self,
        name: &str,
        library: impl Fn() -> Pass,
        reference: impl Fn() -> Pass,
    ) -> [f64; 2] {
        let start = Instant::now();
        let mut best = [Duration::MAX; 2];
        let mut rounds = 0;
        while rounds < 3 || start.elapsed() < self.time {
            let (library_time, library_sum) = library();
            let (reference_time, reference_sum) = reference();
            assert_eq!(library_sum, reference_sum, "{name}: the two sides differ");
            best = [best[0].min(library_time), best[1].min(reference_time)];
            rounds += 1;
        }
        let lines = self.dictionary.count() as f64;
        best.map(|time| time.as_nanos() as f64 / lines)
    }
}
