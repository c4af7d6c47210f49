//! What an operation is to the comparison. A new one is a module of its own and a line in `OPERATIONS`.

use crate::check::Check;
use crate::judge::Judge;
use crate::need::Need;
use crate::random::Random;
use crate::report::Report;
use crate::same::Same;
use crate::vectors::Vector;
use std::path::Path;

/// All operations.
pub const OPERATIONS: &[&dyn Operation] = &[&Check, &Judge, &Need, &Same];

/// The operation of a name.
pub fn operation(name: &str) -> Option<&'static dyn Operation> {
    OPERATIONS.iter().copied().find(|operation| operation.name() == name)
}

/// What is lent to an operation: the bytes of each of its slices, and how large its buffers are.
#[derive(Clone, Debug, Default, PartialEq)]
pub struct Input {
    pub parts: Vec<Vec<u8>>,
    pub sizes: Sizes,
    /// How it was made, in words to count by; an operation that does not count so has none.
    pub made: Vec<&'static str>,
}

/// Numbers in the work area and bytes in the answer buffer; 0 where an operation has none.
#[derive(Clone, Copy, Debug, Default, PartialEq)]
pub struct Sizes {
    pub work: usize,
    pub answer: usize,
}

/// The buffers that an entry may write.
#[derive(Clone, PartialEq)]
pub struct Buffers {
    pub work: Vec<i64>,
    pub answer: Vec<u8>,
}

impl Buffers {
    /// Buffers that are not clean.
    pub fn dirty(random: &mut Random, sizes: &Sizes) -> Buffers {
        let mut answer: Vec<u8> = (0..sizes.answer / 8 + 1).flat_map(|_| random.bits().to_le_bytes()).collect();
        answer.truncate(sizes.answer);
        Buffers { work: (0..sizes.work).map(|_| random.bits() as i64).collect(), answer }
    }
}

/// What an entry returns: the numbers of its struct in `nuldwich.h`, in their order, and 0 behind them.
pub type Reply = [u64; 5];

/// An entry of the library, or what stands in its place.
pub type Call = fn(&[Vec<u8>], &mut Buffers) -> Reply;

/// An entry, with what the reference gives in its place.
pub struct Entry {
    /// By which `library.rs` finds it.
    pub name: &'static str,
    /// Whether the caller lends the work area; else the entry brings its own.
    pub lends_work: bool,
    pub reference: Call,
}

/// Inputs with what is due of each, and how many are due to have which outcome.
pub struct Series {
    pub title: String,
    pub vectors: Vec<Vector>,
    pub outcomes: Vec<(String, usize)>,
}

pub trait Operation: Sync {
    /// By which it is asked for.
    fn name(&self) -> &'static str;

    /// What it does, in a word.
    fn title(&self) -> &'static str;

    /// The entries that do it.
    fn entries(&self) -> &'static [Entry];

    /// The endings of a vector's files, one for each slice.
    fn endings(&self) -> &'static [&'static str];

    /// The folders of a level that hold its vectors.
    fn folders(&self) -> Vec<&'static str> {
        vec![self.name()]
    }

    /// The sizes of the buffers lent with a vector that has these columns.
    fn sizes(&self, columns: &[String]) -> Sizes;

    /// Vectors of other tables than `expected.tsv`.
    fn more_vectors(&self, _root: &Path) -> Vec<Vector> {
        Vec::new()
    }

    /// Inputs of which it is stated what is due, with reports of their own.
    fn series(&self) -> Vec<Series> {
        Vec::new()
    }

    /// What the reference gives, as the columns of the vectors word it.
    fn columns(&self, input: &Input) -> Vec<String>;

    /// Whether those columns are what is expected of a vector; an older one may expect fewer.
    fn fits(&self, expected: &[String], columns: &[String]) -> bool {
        columns.starts_with(expected)
    }

    /// The outcome to count by, where the reference gives `due`.
    fn label(&self, parts: &[Vec<u8>], due: &Reply) -> String;

    /// What is wrong with an entry's reply, whatever the reference gives in its place.
    fn fault(&self, _parts: &[Vec<u8>], _reply: &Reply) -> Option<String> {
        None
    }

    /// Counts what an input reaches besides its outcome; a failure where the reference contradicts itself.
    fn examine(&self, _input: &Input, _report: &mut Report) {}

    /// How many seeds inputs are grown from.
    fn seeds(&self) -> u64;

    /// Grows and damages the inputs of one seed and hands on each.
    fn grow(&self, random: &mut Random, hand_on: &mut dyn FnMut(&mut Random, Input));

    /// The run itself is at fault when it does not reach what it is meant to.
    fn demand_coverage(&self, report: &mut Report);
}
