//! The rules: whether a step fits, and what it adds.

use crate::classes::Classes;
use crate::facts::Relation::{AtLeast, Equal, NotEqual};
use crate::facts::{Fact, Relation, Row};
use crate::question::Question;
use crate::steps::Rule;

/// What a step that fits does: it closes the branch, or it has children, each a list of new facts.
#[derive(Clone, Debug, PartialEq)]
pub enum Conclusion {
    Closes,
    Children(Vec<Vec<Fact>>),
}

/// Which rules are followed: those before request L4, "Sums that remain equations", or those of now.
#[derive(Clone, Copy, Debug, Default, PartialEq)]
pub enum Rules {
    Before,
    #[default]
    Now,
}

/// A branch on which a rule is tried.
pub struct Place<'a> {
    pub question: &'a Question,
    pub branch: &'a [Fact],
    pub classes: &'a Classes,
}

impl Place<'_> {
    /// What the rule does on this branch; nothing "when a step does not fit".
    pub fn conclude(&self, rule: &Rule) -> Option<Conclusion> {
        match rule {
            Rule::Sum { divisor, pairs } => one(vec![self.sum(*divisor, pairs)?]),
            Rule::Branch(form) => self.branch_on(form),
            Rule::Apart(fact) => self.apart(*fact),
            Rule::AConf(fact) => self.arithmetic_conflict(*fact),
            Rule::SConf => self.classes.conflict(self.branch).then_some(Conclusion::Closes),
            Rule::SProp { function, x, y } => self.propagate(*function, *x, *y),
            Rule::LIntro(x) => self.introduce_length(*x),
            Rule::LValid(x) => self.valid_length(*x),
            Rule::CCollapse(x) => self.collapse_code(*x),
            Rule::CValid(x) => self.valid_code(*x),
            Rule::CInj(x, y) => self.injective_code(*x, *y),
            Rule::Card(variables) => self.cardinality(variables),
            Rule::Join(first, second) => self.join(*first, *second),
        }
    }

    /// What the rule does before L4: Sum always "Adds a ≥ fact", and Join takes "two ≥ facts".
    pub fn conclude_before(&self, rule: &Rule) -> Option<Conclusion> {
        let is_at_least = |fact: usize| self.relation(fact) == Some(AtLeast);
        match rule {
            Rule::Sum { divisor, pairs } => one(vec![Fact::Arithmetic(AtLeast, self.divided(*divisor, pairs)?)]),
            Rule::Join(first, second) if !(is_at_least(*first) && is_at_least(*second)) => None,
            _ => self.conclude(rule),
        }
    }

    /// A row with one number in the column of len(x) or code(x), and a constant.
    fn row(&self, constant: i128, column: usize, coefficient: i128) -> Row {
        Row::constant(self.question.columns(), constant).with(column, coefficient)
    }

    /// The arithmetic fact of a number; nothing for a string fact or "a fact not on the branch".
    pub fn arithmetic(&self, number: usize) -> Option<(Relation, &Row)> {
        match self.branch.get(number) {
            Some(Fact::Arithmetic(relation, row)) => Some((*relation, row)),
            _ => None,
        }
    }

    /// The relation of an arithmetic fact.
    pub fn relation(&self, number: usize) -> Option<Relation> {
        self.arithmetic(number).map(|(relation, _)| relation)
    }

    /// "Multipliers are at least 1 on a ≥ fact, nonzero on an equation; ≠ facts and string facts do not fit."
    pub fn multiplier_fits(relation: Relation, multiplier: i128) -> bool {
        match relation {
            AtLeast => multiplier >= 1,
            Equal => multiplier != 0,
            NotEqual => false,
        }
    }

    /// The sum before it is divided; nothing where a fact or its multiplier does not fit.
    pub fn total(&self, pairs: &[(usize, i128)]) -> Option<Row> {
        let mut total = Row::constant(self.question.columns(), 0);
        for (fact, multiplier) in pairs {
            let (relation, row) = self.arithmetic(*fact)?;
            if !Self::multiplier_fits(relation, *multiplier) {
                return None;
            }
            total = total.plus(*multiplier, row);
        }
        Some(total)
    }

    /// "Column sums must divide exactly; the constant is divided rounding down."
    fn divided(&self, divisor: i128, pairs: &[(usize, i128)]) -> Option<Row> {
        let total = self.total(pairs)?;
        if total.coefficients.iter().any(|sum| sum % divisor != 0) {
            return None;
        }
        let constant = total.constant.div_euclid(divisor);
        let coefficients = total.coefficients.iter().map(|sum| sum / divisor).collect();
        Some(Row { constant, coefficients })
    }

    /// "When every fact named by a Sum is an equation and the constant also divides exactly, the new fact shall be an equation";
    /// else it "Adds a ≥ fact".
    fn sum(&self, divisor: i128, pairs: &[(usize, i128)]) -> Option<Fact> {
        let exact = self.total(pairs)?.constant % divisor == 0;
        let relation = if self.are_equations(pairs) && exact { Equal } else { AtLeast };
        Some(Fact::Arithmetic(relation, self.divided(divisor, pairs)?))
    }

    /// Whether "every fact named by a Sum is an equation".
    pub fn are_equations(&self, pairs: &[(usize, i128)]) -> bool {
        pairs.iter().all(|(fact, _)| self.relation(*fact) == Some(Equal))
    }

    /// "Branch: form e. Children e ≥ 0; −e−1 ≥ 0."
    fn branch_on(&self, form: &Row) -> Option<Conclusion> {
        split(vec![
            vec![Fact::Arithmetic(AtLeast, form.clone())],
            vec![Fact::Arithmetic(AtLeast, form.negative().raised(-1))],
        ])
    }

    /// "Apart: a fact e ≠ 0. Children e−1 ≥ 0; −e−1 ≥ 0."
    fn apart(&self, fact: usize) -> Option<Conclusion> {
        match self.arithmetic(fact)? {
            (NotEqual, row) => split(vec![
                vec![Fact::Arithmetic(AtLeast, row.clone().raised(-1))],
                vec![Fact::Arithmetic(AtLeast, row.negative().raised(-1))],
            ]),
            _ => None,
        }
    }

    /// "A-Conf: an arithmetic fact without coefficients and false. Closes."
    fn arithmetic_conflict(&self, fact: usize) -> Option<Conclusion> {
        let (relation, row) = self.arithmetic(fact)?;
        let closes = row.is_constant() && !relation.holds(row.constant);
        closes.then_some(Conclusion::Closes)
    }

    /// "S-Prop: function (0 len, 1 code), different variables x, y of one class. Adds f(x) − f(y) = 0."
    fn propagate(&self, function: usize, x: usize, y: usize) -> Option<Conclusion> {
        if x == y || !self.classes.together(x, y) {
            return None;
        }
        let column = |variable| match function {
            0 => self.question.len_column(variable),
            _ => self.question.code_column(variable),
        };
        one(vec![Fact::Arithmetic(Equal, self.row(0, column(x), 1).with(column(y), -1))])
    }

    /// "L-Intro: x, whose class holds a literal l. Adds len(x) = length of l."
    fn introduce_length(&self, x: usize) -> Option<Conclusion> {
        let literal = &self.question.literals[self.classes.literal(x)?];
        let row = self.row(-(literal.len() as i128), self.question.len_column(x), 1);
        one(vec![Fact::Arithmetic(Equal, row)])
    }

    /// "L-Valid: x. Children x ≈ literal 0; len(x) − 1 ≥ 0."
    fn valid_length(&self, x: usize) -> Option<Conclusion> {
        let row = self.row(-1, self.question.len_column(x), 1);
        split(vec![vec![Fact::IsLiteral(x, 0)], vec![Fact::Arithmetic(AtLeast, row)]])
    }

    /// "C-Collapse: x, likewise. Adds code(x) = code of l, or −1."
    fn collapse_code(&self, x: usize) -> Option<Conclusion> {
        let code = code_of(&self.question.literals[self.classes.literal(x)?]);
        let row = self.row(-code, self.question.code_column(x), 1);
        one(vec![Fact::Arithmetic(Equal, row)])
    }

    /// "C-Valid: x. Children len(x) ≠ 1 and code(x) = −1; len(x) = 1, code(x) ≥ 0 and n−1−code(x) ≥ 0."
    fn valid_code(&self, x: usize) -> Option<Conclusion> {
        let (len, code) = (self.question.len_column(x), self.question.code_column(x));
        let greatest = i128::from(self.question.n) - 1;
        split(vec![
            vec![Fact::Arithmetic(NotEqual, self.row(-1, len, 1)), Fact::Arithmetic(Equal, self.row(1, code, 1))],
            vec![
                Fact::Arithmetic(Equal, self.row(-1, len, 1)),
                Fact::Arithmetic(AtLeast, self.row(0, code, 1)),
                Fact::Arithmetic(AtLeast, self.row(greatest, code, -1)),
            ],
        ])
    }

    /// "C-Inj: different x, y. Children code(x) = −1; code(x) − code(y) ≠ 0; x ≈ y."
    fn injective_code(&self, x: usize, y: usize) -> Option<Conclusion> {
        if x == y {
            return None;
        }
        let (code_x, code_y) = (self.question.code_column(x), self.question.code_column(y));
        split(vec![
            vec![Fact::Arithmetic(Equal, self.row(1, code_x, 1))],
            vec![Fact::Arithmetic(NotEqual, self.row(0, code_x, 1).with(code_y, -1))],
            vec![Fact::Same(x, y)],
        ])
    }

    /// "Card: 2 to 16 different variables; for each neighbouring pair a fact states their lengths' difference = 0."
    fn cardinality(&self, variables: &[usize]) -> Option<Conclusion> {
        let repeats = (0..variables.len()).any(|j| variables[..j].contains(&variables[j]));
        let equal = variables.windows(2).all(|pair| self.equal_lengths(pair[0], pair[1]).is_some());
        if repeats || !equal {
            return None;
        }
        split(self.card_children(variables))
    }

    /// "a fact states their lengths' difference = 0, coefficients 1 and −1 in either order": the number of the first one.
    pub fn equal_lengths(&self, x: usize, y: usize) -> Option<usize> {
        let (len_x, len_y) = (self.question.len_column(x), self.question.len_column(y));
        let row = self.row(0, len_x, 1).with(len_y, -1);
        let facts = [Fact::Arithmetic(Equal, row.negative()), Fact::Arithmetic(Equal, row)];
        self.branch.iter().position(|fact| facts.contains(fact))
    }

    /// "Children, for each pair i < j in lexicographic order, x_i ≈ x_j; last, len(x_1) ≥ L"; "With n = 1 the last child is left out."
    pub fn card_children(&self, variables: &[usize]) -> Vec<Vec<Fact>> {
        let mut children = Vec::new();
        for i in 0..variables.len() {
            for j in i + 1..variables.len() {
                children.push(vec![Fact::Same(variables[i], variables[j])]);
            }
        }
        if self.question.n > 1 {
            let length = least_length(self.question.n, variables.len());
            let row = self.row(-length, self.question.len_column(variables[0]), 1);
            children.push(vec![Fact::Arithmetic(AtLeast, row)]);
        }
        children
    }

    /// "one the negative of the other. Adds the first as an equation."; "Join takes equations as well as ≥ facts."
    fn join(&self, first: usize, second: usize) -> Option<Conclusion> {
        match (self.arithmetic(first)?, self.arithmetic(second)?) {
            ((AtLeast | Equal, row), (AtLeast | Equal, other)) if *other == row.negative() => {
                one(vec![Fact::Arithmetic(Equal, row.clone())])
            }
            _ => None,
        }
    }
}

/// "code (the code point of a one-character string, else −1)"
pub fn code_of(text: &[u32]) -> i128 {
    match text {
        [character] => i128::from(*character),
        _ => -1,
    }
}

/// "L the smallest number such that n to the power L is at least m", for n over 1.
pub fn least_length(n: u32, m: usize) -> i128 {
    let mut length = 0;
    let mut power = 1;
    while power < m as i128 {
        power *= i128::from(n);
        length += 1;
    }
    length
}

/// A rule with one conclusion.
fn one(facts: Vec<Fact>) -> Option<Conclusion> {
    Some(Conclusion::Children(vec![facts]))
}

/// A rule with several children.
fn split(children: Vec<Vec<Fact>>) -> Option<Conclusion> {
    Some(Conclusion::Children(children))
}
