//! Library, wrapper and reference at once: each call fails where they differ, and
//! otherwise answers what they agree on.

use crate::interface::{Interface, SignRecord, StyledAnswer, StylingNumbers};
use crate::library::Library;
use crate::sides::{Reference, Wrapper};
use halofret::{Charset, Edition, StylingRecord};

pub struct Both;

/// A text as it is shown when a comparison fails.
pub fn shown(text: &[u8]) -> String {
    const MOST: usize = 1_200;
    let start = text[..text.len().min(MOST)].escape_ascii();
    match text.len() {
        0..=MOST => format!("\"{start}\""),
        length => format!("\"{start}..\" of {length} bytes"),
    }
}

/// The start of a list as it is shown then.
fn shown_list(list: &[u16]) -> String {
    const MOST: usize = 100;
    let start = &list[..list.len().min(MOST)];
    format!("{start:?} of {} entries", list.len())
}

/// Calls all three and compares them.
fn agreed<T: PartialEq + std::fmt::Debug>(
    call: impl Fn(&dyn Interface) -> T,
    input: impl Fn() -> String,
) -> T {
    let expected = call(&Reference);
    let library = call(&Library);
    assert!(
        library == expected,
        "on {}:\n the library answers {library:?}\n the reference     {expected:?}",
        input()
    );
    let wrapper = call(&Wrapper);
    assert!(
        wrapper == expected,
        "on {}:\n the wrapper answers {wrapper:?}\n the reference     {expected:?}",
        input()
    );
    expected
}

/// The same for calls that write: what they wrote is compared too, and handed on.
fn agreed_writing<T, W>(
    out: &mut [W],
    call: impl Fn(&dyn Interface, &mut [W]) -> T,
    input: impl Fn() -> String,
) -> T
where
    T: PartialEq + std::fmt::Debug,
    W: Clone + PartialEq + std::fmt::Debug,
{
    let called = |side: &dyn Interface| {
        let mut lent = out.to_vec();
        let answer = call(side, &mut lent);
        (answer, lent)
    };
    let (answer, written) = agreed(called, input);
    out.clone_from_slice(&written);
    answer
}

impl Interface for Both {
    fn key_to_code(&self, key: &[u8]) -> [u64; 3] {
        agreed(|side| side.key_to_code(key), || shown(key))
    }

    fn char_to_code(&self, character: &[u8]) -> [u64; 3] {
        agreed(|side| side.char_to_code(character), || shown(character))
    }

    fn code_to_key(&self, code: u64, out: &mut [u8]) -> [u64; 3] {
        let call = |side: &dyn Interface, out: &mut [u8]| side.code_to_key(code, out);
        agreed_writing(out, call, || format!("code {code}"))
    }

    fn code_to_char(&self, code: u64, out: &mut [u8]) -> [u64; 3] {
        let call = |side: &dyn Interface, out: &mut [u8]| side.code_to_char(code, out);
        agreed_writing(out, call, || format!("code {code}"))
    }

    fn read(&self, set: Charset, text: &[u8]) -> (SignRecord, [u64; 2]) {
        agreed(|side| side.read(set, text), || shown(text))
    }

    fn transcribe(&self, set: Charset, text: &[u8], out: &mut [u8]) -> [u64; 3] {
        let room = out.len();
        let call = |side: &dyn Interface, out: &mut [u8]| side.transcribe(set, text, out);
        agreed_writing(out, call, || format!("{} with room {room}", shown(text)))
    }

    fn read_styled(&self, set: Charset, text: &[u8]) -> StyledAnswer {
        agreed(|side| side.read_styled(set, text), || shown(text))
    }

    fn transcribe_styled(&self, set: Charset, text: &[u8], out: &mut [u8]) -> [u64; 3] {
        let room = out.len();
        let call = |side: &dyn Interface, out: &mut [u8]| side.transcribe_styled(set, text, out);
        agreed_writing(out, call, || format!("{} with room {room}", shown(text)))
    }

    fn write_styling(&self, styling: &StylingRecord, out: &mut [u8]) -> [u64; 3] {
        let room = out.len();
        let call = |side: &dyn Interface, out: &mut [u8]| side.write_styling(styling, out);
        let input = || format!("{:?} with room {room}", StylingNumbers(*styling));
        agreed_writing(out, call, input)
    }

    fn boxes(&self, set: Charset, text: &[u8], sizes: &[u8]) -> ([f32; 2], [u64; 19]) {
        agreed(|side| side.boxes(set, text, sizes), || shown(text))
    }

    fn shift(&self, set: Charset, text: &[u8], by: (i32, i32), out: &mut [u8]) -> [u64; 3] {
        let room = out.len();
        let call = |side: &dyn Interface, out: &mut [u8]| side.shift(set, text, by, out);
        let input = || format!("{} by {by:?} with room {room}", shown(text));
        agreed_writing(out, call, input)
    }

    fn centred(&self, set: Charset, text: &[u8], sizes: &[u8], out: &mut [u8]) -> [u64; 3] {
        let room = out.len();
        let call = |side: &dyn Interface, out: &mut [u8]| side.centred(set, text, sizes, out);
        agreed_writing(out, call, || format!("{} with room {room}", shown(text)))
    }

    fn read_query(&self, edition: Edition, query: &[u8]) -> [u64; 2] {
        let input = || format!("{} in {edition:?}", shown(query));
        agreed(|side| side.read_query(edition, query), input)
    }

    fn verdict(&self, set: Charset, edition: Edition, query: &[u8], text: &[u8]) -> [u64; 36] {
        let input = || format!("{} in {edition:?} of {}", shown(query), shown(text));
        agreed(|side| side.verdict(set, edition, query, text), input)
    }

    fn search(
        &self,
        set: Charset,
        dictionary: &[u8],
        list: &mut [u16],
        edition: Edition,
        query: &[u8],
    ) -> [u64; 4] {
        let room = list.len();
        let call = |side: &dyn Interface, list: &mut [u16]| {
            side.search(set, dictionary, list, edition, query)
        };
        let input = || {
            let (query, dictionary) = (shown(query), shown(dictionary));
            format!("{query} in {edition:?} over {dictionary}, room {room}")
        };
        agreed_writing(list, call, input)
    }

    fn narrow(
        &self,
        set: Charset,
        dictionary: &[u8],
        list: &mut [u16],
        count: usize,
        edition: Edition,
        query: &[u8],
    ) -> [u64; 4] {
        let room = list.len();
        let call = |side: &dyn Interface, list: &mut [u16]| {
            side.narrow(set, dictionary, list, count, edition, query)
        };
        let input = || {
            let (query, dictionary) = (shown(query), shown(dictionary));
            format!("{query} in {edition:?} over {dictionary}, n {count}, room {room}")
        };
        agreed_writing(list, call, input)
    }

    fn sort(
        &self,
        set: Charset,
        dictionary: &[u8],
        list: &mut [u16],
        count: usize,
        spare: &mut [u16],
    ) -> [u64; 2] {
        let (room, spare_room) = (list.len(), spare.len());
        // Both lists are lent as one, of which each call takes the two parts.
        let mut lent = [&*list, &*spare].concat();
        let call = |side: &dyn Interface, lent: &mut [u16]| {
            let (list, spare) = lent.split_at_mut(room);
            side.sort(set, dictionary, list, count, spare)
        };
        let input = || {
            let (listed, dictionary) = (shown_list(list), shown(dictionary));
            format!("{listed} over {dictionary}, n {count}, spare room {spare_room}")
        };
        let answer = agreed_writing(&mut lent, call, input);
        list.copy_from_slice(&lent[..room]);
        spare.copy_from_slice(&lent[room..]);
        answer
    }

    fn narrow_sorted(
        &self,
        set: Charset,
        dictionary: &[u8],
        list: &mut [u16],
        count: usize,
        edition: Edition,
        query: &[u8],
    ) -> [u64; 4] {
        let before = list.to_vec();
        let call = |side: &dyn Interface, list: &mut [u16]| {
            side.narrow_sorted(set, dictionary, list, count, edition, query)
        };
        let input = || {
            let (query, dictionary) = (shown(query), shown(dictionary));
            let listed = shown_list(&before);
            format!("{query} in {edition:?}, {listed} over {dictionary}, n {count}")
        };
        agreed_writing(list, call, input)
    }

    fn fetch(&self, first: &[u8], second: &[u8], number: usize) -> [u64; 4] {
        let input = || format!("{number} of {} and {}", shown(first), shown(second));
        agreed(|side| side.fetch(first, second, number), input)
    }
}
