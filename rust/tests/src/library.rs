//! The C interface itself, called on guarded memory.
//!
//! Every buffer that is lent, the answers too, is the middle of a larger one. Texts must
//! come back unchanged, the edges as well, and on refusal all that was lent to be written.

use crate::interface::{Interface, SignRecord, StyledAnswer, StylingNumbers};
use crate::lent::Lent;
use halofret::{raw, Charset, Edition, StylingRecord};

pub struct Library;

/// Bytes around a lent text: some that would go on a sign, a query or a styling, should a call
/// read beyond the end.
const EDGES: [u8; 10] = [0xa5, b'5', b'S', b'0', b'-', b'_', 10, 0x80, b'f', b'o'];

/// A text that is lent to be read.
struct Text<'a> {
    content: &'a [u8],
    lent: Lent<u8>,
}

impl Text<'_> {
    fn new(content: &[u8]) -> Text<'_> {
        let edge = EDGES[content.len() % EDGES.len()];
        let lent = Lent::new(content, edge);
        Text { content, lent }
    }

    fn start(&mut self) -> *const u8 {
        self.lent.middle().as_ptr()
    }

    fn len(&self) -> usize {
        self.content.len()
    }
}

impl Drop for Text<'_> {
    fn drop(&mut self) {
        if !std::thread::panicking() {
            self.lent.expect_unchanged(self.content);
        }
    }
}

/// Lends an answer, of which every number must be written: it starts as junk.
fn answer<const N: usize>(call: impl FnOnce(*mut [u64; N])) -> [u64; N] {
    let mut lent = Lent::new(&[0xdead_dead_dead_dead; N], 0x5555_5555_5555_5555);
    call(lent.middle().as_mut_ptr().cast());
    lent.returned().try_into().unwrap()
}

/// Lends `out` to be written, and holds a refusal to leaving it as it was.
fn writing<T, const N: usize>(
    out: &mut [T],
    edge: T,
    call: impl FnOnce(*mut T, *mut [u64; N]),
) -> [u64; N]
where
    T: Copy + PartialEq + std::fmt::Debug,
{
    let mut lent = Lent::new(out, edge);
    let numbers = answer(|numbers| call(lent.middle().as_mut_ptr(), numbers));
    if numbers[0] != 0 {
        lent.expect_unchanged(out);
    }
    out.copy_from_slice(lent.returned());
    numbers
}

/// The same for two that are lent: each is guarded and, on refusal, held to be as it was.
fn writing_both<const N: usize>(
    one: &mut [u16],
    other: &mut [u16],
    call: impl FnOnce(*mut u16, *mut u16, *mut [u64; N]),
) -> [u64; N] {
    writing(one, 0x5555, |one, a| {
        let inner = writing(other, 0x5555, |other, a| call(one, other, a));
        // SAFETY: `a` is the answer that `writing` lends.
        unsafe { *a = inner };
    })
}

/// What was written, or zeros if the call was refused: then it was left as it was.
fn if_done<T: Copy + Default, const N: usize>(written: [T; N], numbers: &[u64]) -> [T; N] {
    match numbers[0] {
        0 => written,
        _ => [T::default(); N],
    }
}

fn is_swu(set: Charset) -> bool {
    set == Charset::Swu
}

/// Whether the edition is the second, and whether its set is SWU. In the first the set says
/// nothing, so it is now one and now the other.
fn flags(edition: Edition, query: &Text) -> (bool, bool) {
    match edition {
        Edition::First => (false, query.len() % 2 == 1),
        Edition::Second(set) => (true, is_swu(set)),
    }
}

impl Interface for Library {
    fn key_to_code(&self, key: &[u8]) -> [u64; 3] {
        let mut key = Text::new(key);
        answer(|a| unsafe { raw::halofret_key_to_code(key.start(), key.len(), a) })
    }

    fn char_to_code(&self, character: &[u8]) -> [u64; 3] {
        let mut text = Text::new(character);
        answer(|a| unsafe { raw::halofret_char_to_code(text.start(), text.len(), a) })
    }

    fn code_to_key(&self, code: u64, out: &mut [u8]) -> [u64; 3] {
        let room = out.len();
        writing(out, 0xa5, |out, a| unsafe {
            raw::halofret_code_to_key(code, out, room, a)
        })
    }

    fn code_to_char(&self, code: u64, out: &mut [u8]) -> [u64; 3] {
        let room = out.len();
        writing(out, 0xa5, |out, a| unsafe {
            raw::halofret_code_to_char(code, out, room, a)
        })
    }

    fn read(&self, set: Charset, text: &[u8]) -> (SignRecord, [u64; 2]) {
        let mut text = Text::new(text);
        let mut record = [0xdead; raw::HALOFRET_SIGN];
        let numbers = writing(&mut record, 0x5555, |sign, a| unsafe {
            raw::halofret_read(is_swu(set), text.start(), text.len(), sign.cast(), a)
        });
        (if_done(record, &numbers), numbers)
    }

    fn transcribe(&self, set: Charset, text: &[u8], out: &mut [u8]) -> [u64; 3] {
        let mut text = Text::new(text);
        let room = out.len();
        writing(out, 0xa5, |out, a| unsafe {
            raw::halofret_transcribe(is_swu(set), text.start(), text.len(), out, room, a)
        })
    }

    fn read_styled(&self, set: Charset, text: &[u8]) -> StyledAnswer {
        let mut text = Text::new(text);
        let mut sign = [0xdead; raw::HALOFRET_SIGN];
        let mut styling = [0xdead; raw::HALOFRET_STYLING];
        let numbers = writing_both(&mut sign, &mut styling, |sign, styling, a| unsafe {
            let (sign, styling) = (sign.cast(), styling.cast());
            raw::halofret_read_styled(is_swu(set), text.start(), text.len(), sign, styling, a)
        });
        let styling = StylingNumbers(if_done(styling, &numbers));
        (if_done(sign, &numbers), styling, numbers)
    }

    fn transcribe_styled(&self, set: Charset, text: &[u8], out: &mut [u8]) -> [u64; 3] {
        let mut text = Text::new(text);
        let room = out.len();
        writing(out, 0xa5, |out, a| unsafe {
            raw::halofret_transcribe_styled(is_swu(set), text.start(), text.len(), out, room, a)
        })
    }

    fn write_styling(&self, styling: &StylingRecord, out: &mut [u8]) -> [u64; 3] {
        let mut lent = Lent::new(styling, 0x5555);
        let room = out.len();
        let numbers = writing(out, 0xa5, |out, a| unsafe {
            raw::halofret_write_styling(lent.middle().as_ptr().cast(), out, room, a)
        });
        lent.expect_unchanged(styling);
        numbers
    }

    fn boxes(&self, set: Charset, text: &[u8], sizes: &[u8]) -> ([f32; 2], [u64; 19]) {
        let (mut text, mut sizes) = (Text::new(text), Text::new(sizes));
        let mut centre = [-1.5; 2];
        let numbers = writing(&mut centre, -2.5, |centre, a| unsafe {
            let (text, len) = (text.start(), text.len());
            let (sizes, sizes_len) = (sizes.start(), sizes.len());
            raw::halofret_boxes(is_swu(set), text, len, sizes, sizes_len, centre.cast(), a)
        });
        (if_done(centre, &numbers), numbers)
    }

    fn shift(&self, set: Charset, text: &[u8], by: (i32, i32), out: &mut [u8]) -> [u64; 3] {
        let mut text = Text::new(text);
        let room = out.len();
        writing(out, 0xa5, |out, a| unsafe {
            let (text, len) = (text.start(), text.len());
            raw::halofret_shift(is_swu(set), text, len, by.0, by.1, out, room, a)
        })
    }

    fn centred(&self, set: Charset, text: &[u8], sizes: &[u8], out: &mut [u8]) -> [u64; 3] {
        let (mut text, mut sizes) = (Text::new(text), Text::new(sizes));
        let room = out.len();
        writing(out, 0xa5, |out, a| unsafe {
            let (text, len) = (text.start(), text.len());
            let (sizes, sizes_len) = (sizes.start(), sizes.len());
            raw::halofret_centred(is_swu(set), text, len, sizes, sizes_len, out, room, a)
        })
    }

    fn read_query(&self, edition: Edition, query: &[u8]) -> [u64; 2] {
        let mut query = Text::new(query);
        let (second, query_swu) = flags(edition, &query);
        answer(|a| unsafe {
            raw::halofret_read_query(second, query_swu, query.start(), query.len(), a)
        })
    }

    fn verdict(&self, set: Charset, edition: Edition, query: &[u8], text: &[u8]) -> [u64; 36] {
        let (mut query, mut text) = (Text::new(query), Text::new(text));
        let (swu, (second, query_swu)) = (is_swu(set), flags(edition, &query));
        answer(|a| unsafe {
            let (query, query_len) = (query.start(), query.len());
            let (text, len) = (text.start(), text.len());
            raw::halofret_verdict(swu, second, query_swu, query, query_len, text, len, a)
        })
    }

    fn search(
        &self,
        set: Charset,
        dictionary: &[u8],
        list: &mut [u16],
        edition: Edition,
        query: &[u8],
    ) -> [u64; 4] {
        let (mut dict, mut query) = (Text::new(dictionary), Text::new(query));
        let (swu, (second, query_swu)) = (is_swu(set), flags(edition, &query));
        let room = list.len();
        writing(list, 0x5555, |list, a| unsafe {
            let (dict, dict_len) = (dict.start(), dict.len());
            let (query, query_len) = (query.start(), query.len());
            raw::halofret_search(
                swu, dict, dict_len, list, room, second, query_swu, query, query_len, a,
            )
        })
    }

    fn narrow(
        &self,
        set: Charset,
        dictionary: &[u8],
        list: &mut [u16],
        count: usize,
        edition: Edition,
        query: &[u8],
    ) -> [u64; 4] {
        let (mut dict, mut query) = (Text::new(dictionary), Text::new(query));
        let (swu, (second, query_swu)) = (is_swu(set), flags(edition, &query));
        let room = list.len();
        writing(list, 0x5555, |list, a| unsafe {
            let (dict, dict_len) = (dict.start(), dict.len());
            let (query, query_len) = (query.start(), query.len());
            raw::halofret_narrow(
                swu, dict, dict_len, list, room, count, second, query_swu, query, query_len, a,
            )
        })
    }

    fn sort(
        &self,
        set: Charset,
        dictionary: &[u8],
        list: &mut [u16],
        count: usize,
        spare: &mut [u16],
    ) -> [u64; 2] {
        let mut dict = Text::new(dictionary);
        let (room, spare_room) = (list.len(), spare.len());
        writing_both(list, spare, |list, spare, a| unsafe {
            let (swu, dict, dict_len) = (is_swu(set), dict.start(), dict.len());
            raw::halofret_sort(swu, dict, dict_len, list, room, count, spare, spare_room, a)
        })
    }

    fn narrow_sorted(
        &self,
        set: Charset,
        dictionary: &[u8],
        list: &mut [u16],
        count: usize,
        edition: Edition,
        query: &[u8],
    ) -> [u64; 4] {
        let (mut dict, mut query) = (Text::new(dictionary), Text::new(query));
        let (swu, (second, query_swu)) = (is_swu(set), flags(edition, &query));
        let room = list.len();
        writing(list, 0x5555, |list, a| unsafe {
            let (dict, dict_len) = (dict.start(), dict.len());
            let (query, query_len) = (query.start(), query.len());
            raw::halofret_narrow_sorted(
                swu, dict, dict_len, list, room, count, second, query_swu, query, query_len, a,
            )
        })
    }

    fn fetch(&self, first: &[u8], second: &[u8], number: usize) -> [u64; 4] {
        let (mut first, mut second) = (Text::new(first), Text::new(second));
        answer(|a| unsafe {
            let (first, first_len) = (first.start(), first.len());
            raw::halofret_fetch(first, first_len, second.start(), second.len(), number, a)
        })
    }
}
