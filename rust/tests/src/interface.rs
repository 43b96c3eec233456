//! The entries of `include/halofret.h`, each answering the numbers that C is given.

use halofret::{raw, Charset, Edition, StylingRecord};

pub type SignRecord = [u16; raw::HALOFRET_SIGN];

/// The record of a refused sign.
pub const NO_SIGN: SignRecord = [0; raw::HALOFRET_SIGN];

/// Where the offsets begin in a record, those of the prefix first.
pub const OFFSETS: usize = 229;
const SYMBOL_OFFSETS: usize = OFFSETS + 32;

/// The numbers of a styling. Only those that are not 0 are shown, with their places.
#[derive(Clone, PartialEq)]
pub struct StylingNumbers(pub StylingRecord);

/// The record of a refused styling.
pub const NO_STYLING: StylingNumbers = StylingNumbers([0; raw::HALOFRET_STYLING]);

impl std::fmt::Debug for StylingNumbers {
    fn fmt(&self, f: &mut std::fmt::Formatter) -> std::fmt::Result {
        let places = self.0.iter().enumerate();
        f.debug_map()
            .entries(places.filter(|(_, &number)| number != 0))
            .finish()
    }
}

/// What reading a sign with a styling answers.
pub type StyledAnswer = (SignRecord, StylingNumbers, [u64; 2]);

pub trait Interface {
    fn key_to_code(&self, key: &[u8]) -> [u64; 3];
    fn char_to_code(&self, character: &[u8]) -> [u64; 3];
    fn code_to_key(&self, code: u64, out: &mut [u8]) -> [u64; 3];
    fn code_to_char(&self, code: u64, out: &mut [u8]) -> [u64; 3];
    fn read(&self, set: Charset, text: &[u8]) -> (SignRecord, [u64; 2]);
    fn transcribe(&self, set: Charset, text: &[u8], out: &mut [u8]) -> [u64; 3];
    fn read_styled(&self, set: Charset, text: &[u8]) -> StyledAnswer;
    fn transcribe_styled(&self, set: Charset, text: &[u8], out: &mut [u8]) -> [u64; 3];
    fn write_styling(&self, styling: &StylingRecord, out: &mut [u8]) -> [u64; 3];
    fn boxes(&self, set: Charset, text: &[u8], sizes: &[u8]) -> ([f32; 2], [u64; 19]);
    fn shift(&self, set: Charset, text: &[u8], by: (i32, i32), out: &mut [u8]) -> [u64; 3];
    fn centred(&self, set: Charset, text: &[u8], sizes: &[u8], out: &mut [u8]) -> [u64; 3];
    fn read_query(&self, edition: Edition, query: &[u8]) -> [u64; 2];
    fn verdict(&self, set: Charset, edition: Edition, query: &[u8], text: &[u8]) -> [u64; 36];
    fn search(
        &self,
        set: Charset,
        dictionary: &[u8],
        list: &mut [u16],
        edition: Edition,
        query: &[u8],
    ) -> [u64; 4];
    fn narrow(
        &self,
        set: Charset,
        dictionary: &[u8],
        list: &mut [u16],
        count: usize,
        edition: Edition,
        query: &[u8],
    ) -> [u64; 4];
    fn sort(
        &self,
        set: Charset,
        dictionary: &[u8],
        list: &mut [u16],
        count: usize,
        spare: &mut [u16],
    ) -> [u64; 2];
    fn narrow_sorted(
        &self,
        set: Charset,
        dictionary: &[u8],
        list: &mut [u16],
        count: usize,
        edition: Edition,
        query: &[u8],
    ) -> [u64; 4];
    fn fetch(&self, first: &[u8], second: &[u8], number: usize) -> [u64; 4];
}

/// The numbers of an answer: the refusal and zeros, or 0, 0 and the values.
pub fn numbers<const N: usize>(answer: Result<Vec<u64>, (u8, usize)>) -> [u64; N] {
    let mut numbers = [0; N];
    match answer {
        Ok(values) => numbers[2..2 + values.len()].copy_from_slice(&values),
        Err((number, place)) => {
            numbers[0] = number.into();
            numbers[1] = place as u64;
        }
    }
    numbers
}

/// The record of a sign from its parts: codes and offsets of the prefix, and code, x, y and
/// offset of each signbox symbol.
pub fn sign_record(
    marker: char,
    maximum: (u16, u16),
    prefix: [&[u16]; 2],
    symbols: impl ExactSizeIterator<Item = [u16; 4]>,
) -> SignRecord {
    let mut record = NO_SIGN;
    record[0] = "-BLMR".find(marker).expect("a marker") as u16;
    record[1] = maximum.0;
    record[2] = maximum.1;
    record[3] = prefix[0].len() as u16;
    record[4] = symbols.len() as u16;
    for (part, numbers) in [5, OFFSETS].into_iter().zip(prefix) {
        record[part..part + numbers.len()].copy_from_slice(numbers);
    }
    for (index, symbol) in symbols.enumerate() {
        for (part, number) in [37, 101, 165, SYMBOL_OFFSETS].into_iter().zip(symbol) {
            record[part + index] = number;
        }
    }
    record
}

/// The 32 offsets of the prefix symbols and the 64 of the signbox symbols, unused ones too.
pub fn offsets(record: &SignRecord) -> (&[u16], &[u16]) {
    record[OFFSETS..].split_at(SYMBOL_OFFSETS - OFFSETS)
}
