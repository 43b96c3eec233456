//! Holds the library against the reference on seeded inputs.
//!
//! - `interface`: the C interface as a trait, each entry with its numbers laid out as in C
//! - `library`: the C interface itself, called on guarded memory
//! - `sides`: the reference and the safe wrapper in the same layout
//! - `both`: all of them at once; it fails where they differ
//! - `generate`, `damage`, `random`: seeded signs, queries and dictionaries, and their damage
//! - `editions`: seeded queries of every edition, and the spelling of the second in SWU
//! - `lists`: seeded dictionaries and lists to be sorted, and what is stated of both
//! - `stylings`: seeded stylings, and their damage

pub mod both;
pub mod damage;
pub mod editions;
pub mod generate;
pub mod interface;
mod lent;
pub mod library;
pub mod lists;
pub mod random;
mod sides;
pub mod stylings;

pub use both::Both;
pub use interface::Interface;
pub use random::{cases, Random, Tally};

pub use halofret::{Charset, Edition};

pub const BOTH_SETS: [Charset; 2] = [Charset::Fsw, Charset::Swu];

pub const EDITIONS: [Edition; 3] = [
    Edition::First,
    Edition::Second(Charset::Fsw),
    Edition::Second(Charset::Swu),
];
