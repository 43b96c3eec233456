//! A table for sorting: the library beside the reference, which finds the lines once, reads each of
//! those listed once, keeps its prefix, and sorts the entries by std's stable sort.
//!
//! Every line is listed, in a seeded random order. Beside nanoseconds an entry stands what that is
//! for each step of the base-two logarithm of their number.

use crate::dictionary::{Codes, Dictionary};
use crate::entries::{timed, Pass};
use crate::{Bench, LINE_COUNTS};
use differential::Random;
use halofret::raw;
use reference::Charset;
use std::hint::black_box;
use std::time::Duration;

pub fn sorting_table(set: Charset, time: Duration) {
    // The reference asks for memory. Once a large block was freed the allocator keeps what later
    // ones need, so that no row pays for fetching it anew, whatever ran before.
    drop(black_box(vec![1_u8; 16 << 20]));
    println!(
        "| {set:?} sort | entries | library ns/entry | by log2 n | reference ns/entry | by log2 n \
         | ratio |"
    );
    println!("|---|--:|--:|--:|--:|--:|--:|");
    for count in LINE_COUNTS {
        for codes in [Codes::Many, Codes::Few] {
            let dictionary = Dictionary::prefixed(set, count, codes);
            sorting_row(&Bench { dictionary, time }, set, codes);
        }
    }
}

fn sorting_row(bench: &Bench, set: Charset, codes: Codes) {
    let name = match codes {
        Codes::Many => "many codes",
        Codes::Few => "eight codes",
    };
    let (dictionary, count) = (&bench.dictionary, bench.dictionary.count());
    let mut list: Vec<u16> = (1..=count as u16).collect();
    Random::new(count as u64).shuffle(&mut list);
    let [library, reference] = bench.best(
        name,
        || sort_library(dictionary, set, &list),
        || sort_reference(dictionary, set, &list),
    );
    let ratio = library / reference;
    let [library_step, reference_step] = [library, reference].map(|ns| ns / (count as f64).log2());
    println!(
        "| {name} | {count} | {library:.1} | {library_step:.2} | {reference:.1} \
         | {reference_step:.2} | {ratio:.2} |"
    );
}

fn sort_library(dictionary: &Dictionary, set: Charset, list: &[u16]) -> Pass {
    sorted(list, |list, spare| {
        let (swu, n, mut answer) = (set == Charset::Swu, list.len(), [0; 2]);
        let (dict, dict_len) = (dictionary.text.as_ptr(), dictionary.text.len());
        let (room, list) = (list.len(), list.as_mut_ptr());
        let (spare_room, spare) = (spare.len(), spare.as_mut_ptr());
        // SAFETY: each pointer goes with its slice's own length, and all of them live through the
        // call and do not overlap.
        unsafe {
            let answer = &mut answer;
            raw::halofret_sort(
                swu, dict, dict_len, list, room, n, spare, spare_room, answer,
            )
        };
        answer == [0, 0]
    })
}

fn sort_reference(dictionary: &Dictionary, set: Charset, list: &[u16]) -> Pass {
    sorted(list, |list, spare| {
        reference::sort(set, &dictionary.text, list, list.len(), spare).is_ok()
    })
}

/// Sorts a copy of the list. The sum tells the order of its entries.
fn sorted(list: &[u16], sort: impl Fn(&mut [u16], &mut [u16]) -> bool) -> Pass {
    let (mut list, mut spare) = (list.to_vec(), vec![9; list.len()]);
    let (time, done) = timed(|| {
        let done = sort(&mut list, &mut spare);
        black_box((&list, &spare));
        done.into()
    });
    assert!(done == 1 && spare.iter().all(|&place| place == 0));
    let sum = list.iter().fold(0, |sum: u64, &entry| {
        sum.wrapping_mul(31).wrapping_add(entry.into())
    });
    (time, sum)
}
