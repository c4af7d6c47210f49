//! Sameness: whether two questions have the same constraints.

use super::judging::{read_question, Constraint};
use super::question::Question;
use super::records::{i32_at, index_at, pair, words, LONGEST_TICKET};
use compare::operation::Reply;

/// The constraints of a question, each as a run of numbers by which it is compared.
struct Forms {
    numbers: Vec<i32>,
    ends: Vec<usize>,
}

pub fn same(first: &[u8], second: &[u8]) -> Reply {
    let mut constraints = [Vec::new(), Vec::new()];
    let [of_first, of_second] = &mut constraints;
    let first = match read_question(first, of_first) {
        Ok(question) => question,
        Err([number, record, ..]) => return [number, record, 1, 0, 0],
    };
    let second = match read_question(second, of_second) {
        Ok(question) => question,
        Err([number, record, ..]) => return [number, record, 2, 0, 0],
    };
    let heads_agree = (first.n, first.p, first.q) == (second.n, second.p, second.q);
    let same = heads_agree && {
        let (first, second) = (Forms::of(&first, of_first), Forms::of(&second, of_second));
        first.sorted() == second.sorted()
    };
    [0, 0, 0, u64::from(same), 0]
}

impl Forms {
    fn of(question: &Question, constraints: &[Constraint]) -> Forms {
        let mut forms = Forms { numbers: Vec::with_capacity(LONGEST_TICKET / 4), ends: Vec::with_capacity(128) };
        for constraint in constraints {
            forms.numbers.push(i32::from(constraint.kind));
            match constraint.kind {
                3 => forms.add_string(question, constraint.body),
                4 => forms.add_row(constraint.body),
                _ => forms.numbers.extend([0, 2, 4].map(|at| index_at(constraint.body, at) as i32)),
            }
            forms.ends.push(forms.numbers.len());
        }
        forms
    }

    /// The relation and the two variables, the lower one first, or the variable and the literal's characters.
    fn add_string(&mut self, question: &Question, body: &[u8]) {
        let (relation, a, b) = (index_at(body, 0), index_at(body, 2), index_at(body, 4));
        if relation == 2 {
            self.numbers.extend([2, a as i32]);
            self.numbers.extend(words(question.literals[b]).map(|character| character as i32));
        } else {
            self.numbers.extend([relation as i32, a.min(b) as i32, a.max(b) as i32]);
        }
    }

    /// The relation, the constant, and columns with their coefficients, divided and turned.
    fn add_row(&mut self, body: &[u8]) {
        let (relation, constant) = (index_at(body, 0), i32_at(body, 2));
        let pairs = || body[6..].as_chunks().0.iter().map(pair);
        let mut divisor = constant.unsigned_abs();
        for (_, coefficient) in pairs() {
            if divisor == 1 {
                break;
            }
            divisor = common_divisor(coefficient.unsigned_abs(), divisor);
        }
        let first = pairs().next().map_or(constant, |(_, coefficient)| coefficient);
        let sign = if relation > 0 && first < 0 { -1 } else { 1 };
        let divisor = sign * divisor.max(1) as i32;
        self.numbers.extend([relation as i32, constant / divisor]);
        self.numbers.extend(pairs().flat_map(|(column, coefficient)| [column as i32, coefficient / divisor]));
    }

    /// The constraints in order, each once.
    fn sorted(&self) -> Vec<&[i32]> {
        let starts = [0].into_iter().chain(self.ends.iter().copied());
        let mut forms: Vec<&[i32]> = starts.zip(&self.ends).map(|(start, end)| &self.numbers[start..*end]).collect();
        forms.sort_unstable();
        forms.dedup();
        forms
    }
}

/// The greatest common divisor; that of a number and 0 is the number.
fn common_divisor(mut a: u32, mut b: u32) -> u32 {
    while b != 0 {
        (a, b) = (b, a % b);
    }
    a
}
