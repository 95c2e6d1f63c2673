//! A register of families written from `docs/RULES.md` and `docs/NUMBERS.md`, to be run beside the proved one.
//!
//! It goes another way wherever there is one. Persons are a vector with each one's children in a vector of their own. Which lines live is found upward, from those who
//! live to their forebears, and for each estate anew. An estate is divided by tallies, how many parts of each number reach somebody, which are handed down from the
//! oldest to the youngest, and never by a row of parts; shares are sums of fractions in lowest terms. The words of the proved register's memory are made from the family.
#![forbid(unsafe_code)]

mod bytes;
mod estate;
mod fault;
mod fraction;
mod register;
mod words;

pub use bytes::{Answer, Call, Refusal, Share};
pub use fault::Fault;
pub use register::{Person, Register};
pub use words::{asked_bytes, asked_words, is_register, write_words};

/// The most persons that a register can have room for.
pub const MOST_PERSONS: u32 = 4096;
