//! Finds a derivation or a model for a question and writes it as a ticket, or gives up. Nothing here is proved and nothing it says is to be believed:
//! the library decides about every ticket.

mod arithmetic;
mod bounds;
mod branch;
mod calls;
mod candidate;
mod cards;
mod clock;
mod demand;
mod facts;
mod lattice;
mod limbs;
mod rational;
mod reduction;
mod scores;
mod search;
mod simplex;
mod strings;
mod sums;
mod tree;
mod whole;
mod writer;

mod attempts;
mod fewer;
mod freedom;

pub use attempts::{solve, Answer, Options, Reason};
pub use demand::{demand, Demand};
pub use fewer::{smaller, Smaller};
pub use freedom::{shown, Shown};
