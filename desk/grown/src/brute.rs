//! A brute force over small strings and integers. What it finds is a solution; that there is none it knows only where nothing but these values can be one.

use ticket::{Constraint, Form, Question, Relation};

/// What the brute force comes to.
#[derive(Clone, Copy, Debug, PartialEq, Eq)]
pub enum Decision {
    Solution,
    NoSolution,
    Open,
}

/// Assignments that are tried.
const MOST_TRIED: usize = 40_000;
/// A question is decided where texts are no longer, characters no more and integers no larger.
const LONGEST: i64 = 2;
const MOST_CHARACTERS: u32 = 3;
const LEAST: i64 = -2;
const MOST: i64 = 3;

struct Brute<'q> {
    question: &'q Question,
    pool: Vec<Vec<u32>>,
    strings: Vec<Vec<u32>>,
    integers: Vec<i64>,
    tried: usize,
}

pub fn decide(question: &Question) -> Decision {
    let mut brute = Brute { question, pool: pool(question), strings: Vec::new(), integers: Vec::new(), tried: 0 };
    match brute.search() {
        true => Decision::Solution,
        false if brute.tried <= MOST_TRIED && is_small(question) => Decision::NoSolution,
        false => Decision::Open,
    }
}

/// The strings tried: all short ones over the first characters, and those named.
fn pool(question: &Question) -> Vec<Vec<u32>> {
    let characters: Vec<u32> = (0..question.n.min(MOST_CHARACTERS)).collect();
    let mut out: Vec<Vec<u32>> = vec![Vec::new()];
    out.extend(characters.iter().map(|a| vec![*a]));
    out.extend(characters.iter().flat_map(|a| characters.iter().map(move |b| vec![*a, *b])));
    out.extend(question.literals.iter().filter(|literal| literal.len() as i64 > LONGEST).cloned());
    if question.n > MOST_CHARACTERS {
        out.extend([48, 65, 66, 67, 68].into_iter().filter(|code| *code < question.n).map(|code| vec![code]));
        out.extend([7, 8, 9, 12].map(|length| vec![0; length]));
    }
    out
}

/// Whether the constraints themselves keep all values among those tried.
fn is_small(question: &Question) -> bool {
    let bounded = |column: usize, at: i64, sign: i64| {
        question.constraints.iter().any(|constraint| match constraint {
            Constraint::Arithmetic(Relation::Ge, Form { constant, terms }) => {
                terms.len() == 1 && terms[0] == (column, sign) && *constant <= at
            }
            _ => false,
        })
    };
    question.n <= MOST_CHARACTERS
        && (0..question.p).all(|x| bounded(question.len_column(x), LONGEST, -1))
        && (0..question.q).all(|k| bounded(k, MOST, -1) && bounded(k, -LEAST, 1))
}

impl Brute<'_> {
    fn search(&mut self) -> bool {
        self.tried += 1;
        if self.tried > MOST_TRIED || !self.holds_so_far() {
            return false;
        }
        if self.integers.len() < self.question.q {
            return (LEAST..=MOST).any(|value| {
                self.integers.push(value);
                let found = self.search();
                self.integers.pop();
                found
            });
        }
        if self.strings.len() < self.question.p {
            return (0..self.pool.len()).any(|place| {
                self.strings.push(self.pool[place].clone());
                let found = self.search();
                self.strings.pop();
                found
            });
        }
        true
    }

    /// Whether no constraint over the values chosen so far is broken.
    fn holds_so_far(&self) -> bool {
        self.question
            .constraints
            .iter()
            .all(|constraint| meets(self.question, constraint, &self.strings, &self.integers) != Some(false))
    }
}

/// Whether values meet a constraint; nothing where a value is not there.
pub fn meets(question: &Question, constraint: &Constraint, strings: &[Vec<u32>], integers: &[i64]) -> Option<bool> {
    match constraint {
        Constraint::Same(a, b) => Some(strings.get(*a)? == strings.get(*b)?),
        Constraint::NotSame(a, b) => Some(strings.get(*a)? != strings.get(*b)?),
        Constraint::IsLiteral(a, number) => Some(strings.get(*a)?.as_slice() == question.literal(*number)?),
        Constraint::Arithmetic(relation, form) => {
            let mut sum = i128::from(form.constant);
            for (column, factor) in &form.terms {
                sum += i128::from(*factor) * i128::from(value(question, *column, strings, integers)?);
            }
            Some(match relation {
                Relation::Ge => sum >= 0,
                Relation::Eq => sum == 0,
                Relation::Ne => sum != 0,
            })
        }
    }
}

fn value(question: &Question, column: usize, strings: &[Vec<u32>], integers: &[i64]) -> Option<i64> {
    if column < question.q {
        return integers.get(column).copied();
    }
    let string = strings.get((column - question.q) % question.p)?;
    Some(match string.as_slice() {
        _ if column < question.code_column(0) => string.len() as i64,
        [character] => i64::from(*character),
        _ => -1,
    })
}
