//! The C interface as `include/halofret.h` declares it.
//!
//! Nothing compares these lines with the library, so they are kept in the header's
//! order and in its names; the header says what each function writes. Lent memory must
//! not overlap, and a pointer may be null only where its length is 0.

/// How many numbers a sign has.
pub const HALOFRET_SIGN: usize = 325;

/// How many numbers a styling has.
pub const HALOFRET_STYLING: usize = 3_472;

extern "C" {
    /// The code of a symbol key.
    pub fn halofret_key_to_code(key: *const u8, key_len: usize, answer: *mut [u64; 3]);

    /// The code of a symbol character.
    pub fn halofret_char_to_code(chr: *const u8, chr_len: usize, answer: *mut [u64; 3]);

    /// Writes the key of a code.
    pub fn halofret_code_to_key(code: u64, out: *mut u8, room: usize, answer: *mut [u64; 3]);

    /// Writes the character of a code.
    pub fn halofret_code_to_char(code: u64, out: *mut u8, room: usize, answer: *mut [u64; 3]);

    /// Reads a sign.
    pub fn halofret_read(
        swu: bool,
        text: *const u8,
        len: usize,
        sign: *mut [u16; HALOFRET_SIGN],
        answer: *mut [u64; 2],
    );

    /// Writes a sign in the other character set.
    pub fn halofret_transcribe(
        swu: bool,
        text: *const u8,
        len: usize,
        out: *mut u8,
        room: usize,
        answer: *mut [u64; 3],
    );

    /// Reads a sign with a styling.
    pub fn halofret_read_styled(
        swu: bool,
        text: *const u8,
        len: usize,
        sign: *mut [u16; HALOFRET_SIGN],
        styling: *mut [u16; HALOFRET_STYLING],
        answer: *mut [u64; 2],
    );

    /// Writes a sign with a styling in the other character set.
    pub fn halofret_transcribe_styled(
        swu: bool,
        text: *const u8,
        len: usize,
        out: *mut u8,
        room: usize,
        answer: *mut [u64; 3],
    );

    /// Writes a styling.
    pub fn halofret_write_styling(
        styling: *const [u16; HALOFRET_STYLING],
        out: *mut u8,
        room: usize,
        answer: *mut [u64; 3],
    );

    /// The boxes and the centre of a sign.
    pub fn halofret_boxes(
        swu: bool,
        text: *const u8,
        len: usize,
        sizes: *const u8,
        sizes_len: usize,
        centre: *mut [f32; 2],
        answer: *mut [u64; 19],
    );

    /// Writes a sign moved by a pair.
    pub fn halofret_shift(
        swu: bool,
        text: *const u8,
        len: usize,
        dx: i32,
        dy: i32,
        out: *mut u8,
        room: usize,
        answer: *mut [u64; 3],
    );

    /// Writes a sign with its centre, rounded down, moved to 500 by 500.
    pub fn halofret_centred(
        swu: bool,
        text: *const u8,
        len: usize,
        sizes: *const u8,
        sizes_len: usize,
        out: *mut u8,
        room: usize,
        answer: *mut [u64; 3],
    );

    /// Says whether a query can be read.
    pub fn halofret_read_query(
        second: bool,
        query_swu: bool,
        query: *const u8,
        query_len: usize,
        answer: *mut [u64; 2],
    );

    /// Says whether a sign meets a query.
    pub fn halofret_verdict(
        swu: bool,
        second: bool,
        query_swu: bool,
        query: *const u8,
        query_len: usize,
        text: *const u8,
        len: usize,
        answer: *mut [u64; 36],
    );

    /// Fills a list with the entries of a dictionary that meet a query.
    pub fn halofret_search(
        swu: bool,
        dict: *const u8,
        dict_len: usize,
        list: *mut u16,
        room: usize,
        second: bool,
        query_swu: bool,
        query: *const u8,
        query_len: usize,
        answer: *mut [u64; 4],
    );

    /// Keeps the entries of a list that meet a query.
    pub fn halofret_narrow(
        swu: bool,
        dict: *const u8,
        dict_len: usize,
        list: *mut u16,
        room: usize,
        n: usize,
        second: bool,
        query_swu: bool,
        query: *const u8,
        query_len: usize,
        answer: *mut [u64; 4],
    );

    /// Puts the entries of a list in the order of the prefixes of their signs.
    pub fn halofret_sort(
        swu: bool,
        dict: *const u8,
        dict_len: usize,
        list: *mut u16,
        room: usize,
        n: usize,
        spare: *mut u16,
        spare_room: usize,
        answer: *mut [u64; 2],
    );

    /// Keeps the entries of a list in any order that meet a query.
    pub fn halofret_narrow_sorted(
        swu: bool,
        dict: *const u8,
        dict_len: usize,
        list: *mut u16,
        room: usize,
        n: usize,
        second: bool,
        query_swu: bool,
        query: *const u8,
        query_len: usize,
        answer: *mut [u64; 4],
    );

    /// Finds a line in two dictionaries.
    pub fn halofret_fetch(
        first: *const u8,
        first_len: usize,
        second: *const u8,
        second_len: usize,
        number: usize,
        answer: *mut [u64; 4],
    );
}
