//! A plain implementation, as a good engineer writes it from documents 01 and 02 without a proof. It keeps what the input needs and no more: rows as wide as
//! the question's columns, of 32-bit numbers whose sums have 64 bits, and the classes of the branch, changed as ≈ facts come and saved by each
//! pending split.

mod branch;
mod checking;
mod forms;
mod judging;
mod leaf;
mod need;
mod question;
mod records;
mod same;
mod splits;
mod steps;

use compare::operation::{Buffers, Call, Entry, Reply};

/// The plain implementation in the place of an entry.
pub fn entry(entry: &Entry) -> Option<Call> {
    match entry.name {
        "check" => Some(|parts: &[Vec<u8>], lent: &mut Buffers| checking::check(&parts[0], &mut lent.answer)),
        "judge" => Some(|parts: &[Vec<u8>], _: &mut Buffers| judging::judge(&parts[0], &parts[1])),
        "need" => Some(|parts: &[Vec<u8>], _: &mut Buffers| need::need(&parts[0])),
        "same" => Some(|parts: &[Vec<u8>], _: &mut Buffers| same::same(&parts[0], &parts[1])),
        _ => None,
    }
}

/// Passes, or refuses with a number.
type Checked = Result<(), u64>;

/// Passes when `good`, else refuses with `number`.
fn demand(good: bool, number: u64) -> Checked {
    if good {
        Ok(())
    } else {
        Err(number)
    }
}

/// A number of a verdict or refusal, and the record that it is about.
fn reply(number: u64, record: u64) -> Reply {
    [number, record, 0, 0, 0]
}
