//! The operations of the proved library, with the words of include/nuldwich.h. Every verdict of the desk is one of these.

mod entries;
mod words;

pub use words::refusal;

/// The size of the answer buffer: NULDWICH_ANSWER_BYTES.
const ANSWER_BYTES: usize = 4_268;
/// NULDWICH_UNMET
const UNMET: u64 = 255;
/// From this number on a refusal is about the answer: NULDWICH_REFUSED_ANSWER_FORM.
const ANSWER_FORM: u64 = 15;

/// What `check` returned.
pub struct Checked {
    pub number: u64,
    pub record: u64,
    /// The constraints that took part in a "no solution", rising.
    pub core: Vec<usize>,
    /// The answer buffer; what stands in it counts with strings alone.
    pub answer: Vec<u8>,
}

/// What a ticket comes to.
#[derive(Debug, PartialEq, Eq)]
pub enum Verdict {
    NoSolution { core: Vec<usize> },
    Strings { strings: Vec<Vec<u32>>, integers: Vec<i32> },
    Refused(Refusal),
}

/// A refusal by its number and the first faulty record.
#[derive(Clone, Copy, Debug, PartialEq, Eq)]
pub struct Refusal {
    pub number: u64,
    pub record: u64,
}

/// What checking a ticket needs.
#[derive(Clone, Copy, Debug, PartialEq, Eq)]
pub struct Needs {
    pub steps: u64,
    pub facts: u64,
    pub pending: u64,
}

/// What an answer comes to. The part shown of the question or the answer is `length` bytes from `offset` on.
#[derive(Clone, Copy, Debug, PartialEq, Eq)]
pub enum Judgement {
    Met,
    Unmet { constraint: usize, offset: usize, length: usize },
    QuestionRefused(Refusal),
    AnswerRefused { refusal: Refusal, offset: usize, length: usize },
}

/// The version of the library: its major and its minor number.
pub fn version() -> (u64, u64) {
    let version = entries::version();
    (version / 1000, version % 1000)
}

/// Checks a ticket.
pub fn check(ticket: &[u8]) -> Checked {
    let mut answer = vec![0; ANSWER_BYTES];
    let replied = entries::check(ticket, &mut answer);
    let words = [replied.core_low, replied.core_high];
    let core = (0..128).filter(|constraint| words[constraint / 64] >> (constraint % 64) & 1 == 1).collect();
    Checked { number: replied.number, record: replied.record, core, answer }
}

/// Says how much checking a ticket needs.
pub fn need(ticket: &[u8]) -> Result<Needs, Refusal> {
    let needed = entries::need(ticket);
    match needed.number {
        0 => Ok(Needs { steps: needed.steps, facts: needed.facts, pending: needed.pending }),
        number => Err(Refusal { number, record: needed.record }),
    }
}

/// Judges an answer by a question, which a claim or end record closes.
pub fn judge(question: &[u8], answer: &[u8]) -> Judgement {
    let judged = entries::judge(question, answer);
    let refusal = Refusal { number: judged.number, record: judged.record };
    let (offset, length) = (judged.offset as usize, judged.length as usize);
    match judged.number {
        0 => Judgement::Met,
        UNMET => Judgement::Unmet { constraint: judged.record as usize, offset, length },
        number if number >= ANSWER_FORM => Judgement::AnswerRefused { refusal, offset, length },
        _ => Judgement::QuestionRefused(refusal),
    }
}

/// Says whether two questions are the same; of one that is refused, whether it is the first or the second, from 1.
pub fn same(first: &[u8], second: &[u8]) -> Result<bool, (u64, Refusal)> {
    let compared = entries::same(first, second);
    match compared.number {
        0 => Ok(compared.same == 1),
        number => Err((compared.which, Refusal { number, record: compared.record })),
    }
}

impl Checked {
    pub fn verdict(&self) -> Verdict {
        match (self.number, self.record) {
            (0, 1) => Verdict::NoSolution { core: self.core.clone() },
            (0, _) => self.strings(),
            (number, record) => Verdict::Refused(Refusal { number, record }),
        }
    }

    /// The values of the answer: records of kind 9, then one of kind 10.
    fn strings(&self) -> Verdict {
        let (mut strings, mut integers, mut rest) = (Vec::new(), Vec::new(), &self.answer[..]);
        while let [a, b, c, d, kind @ (9 | 10), 0, behind @ ..] = rest {
            let length = u32::from_le_bytes([*a, *b, *c, *d]) as usize;
            let Some((body, after)) = behind.split_at_checked(length) else { break };
            let fields = body.chunks_exact(4).map(|field| [field[0], field[1], field[2], field[3]]);
            match kind {
                9 => strings.push(fields.map(u32::from_le_bytes).collect()),
                _ => integers = fields.map(i32::from_le_bytes).collect(),
            }
            rest = after;
        }
        Verdict::Strings { strings, integers }
    }
}
