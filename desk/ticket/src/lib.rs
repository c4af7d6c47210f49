//! Questions and tickets as values, with the names of docs/FORMAT.md. Nothing here is proved, and no verdict is given.

mod read;
mod write;

pub use read::Fault;
pub use write::{answer_bytes, END};

/// The greatest size of a ticket or question, in bytes.
pub const MOST_BYTES: usize = 32_768;
/// "n (1 to 196,608)"
pub const MOST_CHARACTERS: u32 = 196_608;
/// "p string variables, q integer variables (each 0 to 16)"
pub const MOST_VARIABLES: usize = 16;
/// "literal, 0 to 15 of them: 1 to 64 characters"
pub const MOST_LITERALS: usize = 15;
pub const LONGEST_STRING: usize = 64;
/// "Coefficients, constants and multipliers lie within ±1,000,000,000, ends included."
pub const NUMBER_LIMIT: i64 = 1_000_000_000;
/// What a model and an answer may hold: "within ±100,000,000".
pub const VALUE_LIMIT: i64 = 100_000_000;
/// "At most 128 facts stand on a branch and at most 64 splits have children pending."
pub const MOST_FACTS: usize = 128;
pub const MOST_PENDING: usize = 64;

/// A question: n characters, p string and q integer variables; literal 0 is the empty string and is not in the list. In bytes the
/// constraints on strings stand before the arithmetic ones.
#[derive(Clone, Debug, PartialEq, Eq)]
pub struct Question {
    pub n: u32,
    pub p: usize,
    pub q: usize,
    pub literals: Vec<Vec<u32>>,
    pub constraints: Vec<Constraint>,
    pub extended: Vec<Extended>,
}

/// e >= 0, e = 0, e != 0
#[derive(Clone, Copy, Debug, PartialEq, Eq)]
pub enum Relation {
    Ge,
    Eq,
    Ne,
}

/// A linear form: columns rising strictly, coefficients nonzero.
#[derive(Clone, Debug, PartialEq, Eq)]
pub struct Form {
    pub constant: i64,
    pub terms: Vec<(usize, i64)>,
}

#[derive(Clone, Debug, PartialEq, Eq)]
pub enum Constraint {
    Same(usize, usize),
    NotSame(usize, usize),
    IsLiteral(usize, usize),
    Arithmetic(Relation, Form),
}

/// Kind 11, functions 0 to 4, in judging and comparing alone.
#[derive(Clone, Debug, PartialEq, Eq)]
pub enum Extended {
    Upper(usize, usize),
    Lower(usize, usize),
    Value(usize, usize),
    Decimal(usize, usize),
    InOrder(usize, usize),
}

#[derive(Clone, Copy, Debug, PartialEq, Eq)]
pub enum Function {
    Len,
    Code,
}

/// The thirteen rules with their operands.
#[derive(Clone, Debug, PartialEq, Eq)]
pub enum Step {
    Sum { divisor: u32, pairs: Vec<(usize, i64)> },
    Branch(Form),
    Apart(usize),
    AConf(usize),
    SConf,
    SProp(Function, usize, usize),
    LIntro(usize),
    LValid(usize),
    CCollapse(usize),
    CValid(usize),
    CInj(usize, usize),
    Card(Vec<usize>),
    Join(usize, usize),
}

/// A step with its child field.
#[derive(Clone, Debug, PartialEq, Eq)]
pub struct Placed {
    pub step: Step,
    pub child: u16,
}

#[derive(Clone, Debug, PartialEq, Eq)]
pub enum Claim {
    NoSolution(Vec<Placed>),
    Strings { steps: Vec<Placed>, model: Vec<i64> },
}

#[derive(Clone, Debug, PartialEq, Eq)]
pub struct Ticket {
    pub question: Question,
    pub claim: Claim,
}

impl Question {
    /// "Columns: the q integer variables, then len of each string variable, then code of each."
    pub fn columns(&self) -> usize {
        self.q + 2 * self.p
    }

    pub fn len_column(&self, x: usize) -> usize {
        self.q + x
    }

    pub fn code_column(&self, x: usize) -> usize {
        self.q + self.p + x
    }

    /// A literal by its number, 0 among them.
    pub fn literal(&self, number: usize) -> Option<&[u32]> {
        match number.checked_sub(1) {
            None => Some(&[]),
            Some(place) => self.literals.get(place).map(Vec::as_slice),
        }
    }
}

impl Step {
    /// Whether the rule has several children; Card over one character with two variables has one, and is counted here too.
    pub fn splits(&self) -> bool {
        use Step::{Apart, Branch, CInj, CValid, Card, LValid};
        matches!(self, Branch(_) | Apart(_) | LValid(_) | CValid(_) | CInj(..) | Card(_))
    }

    /// Whether the rule closes a branch.
    pub fn closes(&self) -> bool {
        matches!(self, Step::AConf(_) | Step::SConf)
    }
}
