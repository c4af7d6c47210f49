//! A simple reference for the operations on solver tickets, written from documents 01 and 02 and from nothing else.
//!
//! It is meant to be read beside these: lists, `i128` and no cleverness. Quoted words are theirs.

pub mod answer;
pub mod checking;
pub mod classes;
pub mod cores;
pub mod derivation;
pub mod extended;
pub mod facts;
pub mod judging;
pub mod leaf;
pub mod need;
pub mod program;
pub mod question;
pub mod records;
pub mod rules;
pub mod same;
pub mod steps;

pub use checking::{check, Outcome};
pub use judging::{judge, Judgement, Part, Side};
pub use need::{need, Needs};
pub use program::program;
pub use same::{same, Which};

/// The number of a refusal, 1 to 16.
pub type Refusal = u64;

/// Passes when `good`, else refuses with `number`.
pub fn demand(good: bool, number: Refusal) -> Result<(), Refusal> {
    if good {
        Ok(())
    } else {
        Err(number)
    }
}
