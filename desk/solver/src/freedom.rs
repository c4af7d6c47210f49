//! Texts of an answer that nothing but their length determines.

use ticket::{Constraint, Question};

/// How a text is shown.
#[derive(Debug, PartialEq, Eq)]
pub enum Shown {
    Text,
    /// The question makes it the same as this variable, which is free.
    Same(usize),
    /// Every string of its length will do, if it differs from those of these variables.
    Free {
        unlike: Vec<usize>,
    },
}

/// How each text of an answer is shown. One is free when the question makes it no literal, no condition is on its code or it has not one character, and it
/// is not empty: then len and code, and with them all arithmetic conditions, are the same for every string of that length. It remains to differ from the
/// texts that a != names and that have this length too. There must be more strings of the length than those, so that every choice for some free texts
/// leaves one for the others.
pub fn shown(question: &Question, strings: &[Vec<u32>]) -> Vec<Shown> {
    let first = firsts(question);
    let one = |x: usize| {
        let unlike = unlike(question, &first, strings, first[x]);
        match strings[x].len() {
            length if length == 0 || !is_free(question, &first, x, length) => Shown::Text,
            length if !has_room(question.n, length, unlike.len()) => Shown::Text,
            _ if first[x] != x => Shown::Same(first[x]),
            _ => Shown::Free { unlike },
        }
    };
    (0..question.p.min(strings.len())).map(one).collect()
}

/// Whether there are more strings of a length than so many.
fn has_room(n: u32, length: usize, others: usize) -> bool {
    u64::from(n).saturating_pow(length as u32) > others as u64
}

/// Of each variable the first one that ≈ constraints make the same.
fn firsts(question: &Question) -> Vec<usize> {
    let mut first: Vec<usize> = (0..question.p).collect();
    for constraint in &question.constraints {
        if let Constraint::Same(a, b) = constraint {
            let (keep, drop) = (first[*a].min(first[*b]), first[*a].max(first[*b]));
            first.iter_mut().filter(|one| **one == drop).for_each(|one| *one = keep);
        }
    }
    first
}

fn is_free(question: &Question, first: &[usize], x: usize, length: usize) -> bool {
    let same = |y: usize| first[y] == first[x];
    let is_code = |column: usize| (0..question.p).any(|y| same(y) && question.code_column(y) == column);
    question.constraints.iter().all(|constraint| match constraint {
        Constraint::IsLiteral(y, _) => !same(*y),
        Constraint::Arithmetic(_, form) => length != 1 || !form.terms.iter().any(|term| is_code(term.0)),
        _ => true,
    })
}

/// The first variables of those that ≉ constraints name beside this text, where their texts have its length.
fn unlike(question: &Question, first: &[usize], strings: &[Vec<u32>], x: usize) -> Vec<usize> {
    let beside = |constraint: &Constraint| match constraint {
        Constraint::NotSame(a, b) if first[*a] == x => Some(first[*b]),
        Constraint::NotSame(a, b) if first[*b] == x => Some(first[*a]),
        _ => None,
    };
    let mut out: Vec<usize> = question.constraints.iter().filter_map(beside).collect();
    out.retain(|y| strings.get(*y).is_some_and(|other| other.len() == strings[x].len()));
    out.sort_unstable();
    out.dedup();
    out
}
