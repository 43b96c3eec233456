//! One pass over a whole dictionary for each entry, by the library and by the reference.
//!
//! Both sides are given the same lines and lent the same kinds of memory, which is made and
//! filled before the clock starts. Each answers a sum that must be equal on both sides.

use crate::dictionary::Dictionary;
use halofret::raw;
use reference::{Charset, Edition, Query, Sign, Verdict};
use std::hint::black_box;
use std::time::{Duration, Instant};

/// The longest FSW sign; no SWU sign is longer.
const LONGEST: usize = 1_033;

/// How long a pass took, and a sum of what it answered.
pub type Pass = (Duration, u64);

/// A query and its edition.
#[derive(Clone, Copy)]
pub struct Asked<'a> {
    pub edition: Edition,
    pub query: &'a [u8],
}

impl Asked<'_> {
    /// Whether the edition is the second, and whether the query is SWU.
    fn flags(self) -> (bool, bool) {
        let second = self.edition != Edition::First;
        (second, self.edition == Edition::Second(Charset::Swu))
    }
}

pub fn timed(work: impl FnOnce() -> u64) -> Pass {
    let start = Instant::now();
    let sum = work();
    (start.elapsed(), sum)
}

pub fn read_library(dictionary: &Dictionary, set: Charset) -> Pass {
    let swu = set == Charset::Swu;
    let (mut sign, mut answer) = ([0; raw::HALOFRET_SIGN], [0; 2]);
    timed(|| {
        let mut sum = 0;
        for line in dictionary.lines() {
            // SAFETY: here and below, each pointer goes with its slice's own length, and all
            // of them live through the call and do not overlap.
            unsafe { raw::halofret_read(swu, line.as_ptr(), line.len(), &mut sign, &mut answer) };
            black_box((&sign, &answer));
            sum += u64::from(sign[4]);
        }
        sum
    })
}

/// The library leaves zeros in all unused places of the record, so it is cleared here too.
pub fn read_reference(dictionary: &Dictionary, set: Charset) -> Pass {
    let mut sign = Sign::EMPTY;
    timed(|| {
        let mut sum = 0;
        for line in dictionary.lines() {
            sign = Sign::EMPTY;
            let answer = reference::read_into(set, line, &mut sign);
            black_box((&sign, &answer));
            sum += sign.symbols().len() as u64;
        }
        sum
    })
}

pub fn transcribe_library(dictionary: &Dictionary, set: Charset) -> Pass {
    let swu = set == Charset::Swu;
    let (mut out, mut answer) = ([0; LONGEST], [0; 3]);
    timed(|| {
        let mut sum = 0;
        for line in dictionary.lines() {
            let (text, len) = (line.as_ptr(), line.len());
            let (room, out) = (out.len(), out.as_mut_ptr());
            unsafe { raw::halofret_transcribe(swu, text, len, out, room, &mut answer) };
            black_box((out, &answer));
            sum += answer[2];
        }
        sum
    })
}

pub fn transcribe_reference(dictionary: &Dictionary, set: Charset) -> Pass {
    let mut out = [0; LONGEST];
    timed(|| {
        let mut sum = 0;
        for line in dictionary.lines() {
            let answer = reference::transcribe(set, line, &mut out);
            black_box((&out, &answer));
            sum += answer.unwrap_or(0) as u64;
        }
        sum
    })
}

/// One query is read for each line of the dictionary.
pub fn read_query_library(dictionary: &Dictionary, asked: Asked) -> Pass {
    let (second, query_swu) = asked.flags();
    let mut answer = [0; 2];
    timed(|| {
        let mut sum = 0;
        for _ in 0..dictionary.count() {
            let (query, len) = (black_box(asked.query).as_ptr(), asked.query.len());
            unsafe { raw::halofret_read_query(second, query_swu, query, len, &mut answer) };
            black_box(&answer);
            sum += u64::from(answer == [0, 0]);
        }
        sum
    })
}

pub fn read_query_reference(dictionary: &Dictionary, asked: Asked) -> Pass {
    let mut query = Query::EMPTY;
    timed(|| {
        let mut sum = 0;
        for _ in 0..dictionary.count() {
            let text = black_box(asked.query);
            let answer = reference::read_query_into(asked.edition, text, &mut query);
            black_box((&query, &answer));
            sum += u64::from(answer.is_ok());
        }
        sum
    })
}

pub fn verdict_library(dictionary: &Dictionary, set: Charset, asked: Asked) -> Pass {
    let swu = set == Charset::Swu;
    let (second, query_swu) = asked.flags();
    let mut answer = [0; 36];
    timed(|| {
        let mut sum = 0;
        for line in dictionary.lines() {
            let (query, query_len) = (asked.query.as_ptr(), asked.query.len());
            let (text, len) = (line.as_ptr(), line.len());
            unsafe {
                let answer = &mut answer;
                raw::halofret_verdict(swu, second, query_swu, query, query_len, text, len, answer)
            };
            black_box(&answer);
            sum += answer[2];
        }
        sum
    })
}

pub fn verdict_reference(dictionary: &Dictionary, set: Charset, asked: Asked) -> Pass {
    timed(|| {
        let mut sum = 0;
        for line in dictionary.lines() {
            let answer = reference::verdict(set, asked.edition, asked.query, line);
            black_box(&answer);
            sum += u64::from(matches!(answer, Ok(Verdict::Met(_))));
        }
        sum
    })
}

pub fn centred_library(dictionary: &Dictionary, set: Charset) -> Pass {
    let swu = set == Charset::Swu;
    let (mut out, mut answer) = ([0; LONGEST], [0; 3]);
    timed(|| {
        let mut sum = 0;
        for line in dictionary.lines() {
            let (text, len) = (line.as_ptr(), line.len());
            let (sizes, sizes_len) = (dictionary.sizes.as_ptr(), dictionary.sizes.len());
            let (room, out) = (out.len(), out.as_mut_ptr());
            unsafe {
                raw::halofret_centred(swu, text, len, sizes, sizes_len, out, room, &mut answer)
            };
            black_box((out, &answer));
            sum += answer[2];
        }
        sum
    })
}

pub fn centred_reference(dictionary: &Dictionary, set: Charset) -> Pass {
    let mut out = [0; LONGEST];
    timed(|| {
        let mut sum = 0;
        for line in dictionary.lines() {
            let answer = reference::centred(set, line, &dictionary.sizes, &mut out);
            black_box((&out, &answer));
            sum += answer.unwrap_or(0) as u64;
        }
        sum
    })
}

pub fn search_library(dictionary: &Dictionary, set: Charset, asked: Asked) -> Pass {
    let mut list = vec![0; dictionary.count()];
    timed(|| search(dictionary, set, asked, &mut list))
}

pub fn search_reference(dictionary: &Dictionary, set: Charset, asked: Asked) -> Pass {
    let mut list = vec![0; dictionary.count()];
    timed(|| {
        let Asked { edition, query } = asked;
        let answer = reference::search(set, &dictionary.text, &mut list, edition, query);
        black_box((&list, &answer));
        answer.map_or(0, |searched| searched.written as u64)
    })
}

/// The library searches by `Q`, and then narrows by the query.
pub fn search_and_narrow(dictionary: &Dictionary, set: Charset, asked: Asked) -> Pass {
    let all = Asked {
        edition: Edition::First,
        query: b"Q",
    };
    let mut list = vec![0; dictionary.count()];
    timed(|| {
        let written = search(dictionary, set, all, &mut list);
        narrow(dictionary, set, asked, &mut list, written as usize)
    })
}

/// The library's search: how many entries it wrote.
fn search(dictionary: &Dictionary, set: Charset, asked: Asked, list: &mut [u16]) -> u64 {
    let swu = set == Charset::Swu;
    let (second, query_swu) = asked.flags();
    let mut answer = [0; 4];
    let (dict, dict_len) = (dictionary.text.as_ptr(), dictionary.text.len());
    let (query, query_len) = (asked.query.as_ptr(), asked.query.len());
    let (room, start) = (list.len(), list.as_mut_ptr());
    unsafe {
        let answer = &mut answer;
        raw::halofret_search(
            swu, dict, dict_len, start, room, second, query_swu, query, query_len, answer,
        )
    };
    black_box((&list, &answer));
    answer[3]
}

/// The list as a search by `Q` leaves it: each narrowing starts from all entries.
fn full_list(dictionary: &Dictionary) -> Vec<u16> {
    (1..=dictionary.count() as u16).collect()
}

pub fn narrow_library(dictionary: &Dictionary, set: Charset, asked: Asked) -> Pass {
    let mut list = full_list(dictionary);
    timed(|| narrow(dictionary, set, asked, &mut list, dictionary.count()))
}

/// The library narrows the first `n` entries: how many it kept.
fn narrow(dictionary: &Dictionary, set: Charset, asked: Asked, list: &mut [u16], n: usize) -> u64 {
    let swu = set == Charset::Swu;
    let (second, query_swu) = asked.flags();
    let mut answer = [0; 4];
    let (dict, dict_len) = (dictionary.text.as_ptr(), dictionary.text.len());
    let (query, query_len) = (asked.query.as_ptr(), asked.query.len());
    let (room, start) = (list.len(), list.as_mut_ptr());
    unsafe {
        let answer = &mut answer;
        raw::halofret_narrow(
            swu, dict, dict_len, start, room, n, second, query_swu, query, query_len, answer,
        )
    };
    black_box((&list, &answer));
    answer[2]
}

/// The library narrows the same list, which rises, as one in any order.
pub fn narrow_sorted_library(dictionary: &Dictionary, set: Charset, asked: Asked) -> Pass {
    let swu = set == Charset::Swu;
    let (second, query_swu) = asked.flags();
    let mut list = full_list(dictionary);
    timed(|| {
        let mut answer = [0; 4];
        let (dict, dict_len) = (dictionary.text.as_ptr(), dictionary.text.len());
        let (query, query_len) = (asked.query.as_ptr(), asked.query.len());
        let (room, start) = (list.len(), list.as_mut_ptr());
        unsafe {
            let (n, answer) = (room, &mut answer);
            raw::halofret_narrow_sorted(
                swu, dict, dict_len, start, room, n, second, query_swu, query, query_len, answer,
            )
        };
        black_box((&list, &answer));
        answer[2]
    })
}

pub fn narrow_reference(dictionary: &Dictionary, set: Charset, asked: Asked) -> Pass {
    let mut list = full_list(dictionary);
    timed(|| {
        let (text, count) = (&dictionary.text, list.len());
        let Asked { edition, query } = asked;
        let answer = reference::narrow(set, text, &mut list, count, edition, query);
        black_box((&list, &answer));
        answer.map_or(0, |narrowed| narrowed.kept as u64)
    })
}
