//! Questions as SMT-LIB 2.6, both ways. Its strings are finite ones over the characters 0 to 196,607, and its `str.to_code` is −1 unless there is one
//! character: so a question over all of them needs no words on the alphabet.

mod conditions;
mod read;
mod sums;
mod symbols;
mod terms;
mod tokens;
mod write;

pub use read::read;
pub use write::{write, Unfit};
