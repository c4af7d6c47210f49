//! Contradictory questions, one for each way to contradict, with the steps that bring it out.

use crate::assignments::{arithmetic_fact, grow_variables, random_row, string_fact};
use crate::random::Random;
use nuldwich_reference::facts::Relation::{AtLeast, Equal, NotEqual};
use nuldwich_reference::facts::{Fact, Relation, Row};
use nuldwich_reference::question::Question;
use nuldwich_reference::rules::{code_of, least_length};
use nuldwich_reference::steps::Rule;

/// A question in the making; the plan's fact numbers count in `arithmetic`.
pub struct Draft {
    frame: Question,
    strings: Vec<Fact>,
    arithmetic: Vec<Fact>,
    plan: Vec<Rule>,
}

/// All ways to contradict.
const TEMPLATES: [fn(&mut Draft, &mut Random); 17] = [
    false_constant,
    opposite_bounds,
    rounded_bounds,
    combination,
    share_of_a_sum,
    difference_of_nothing,
    literals_clash,
    variables_differ,
    length_of_literal,
    code_of_literal,
    lengths_of_a_class,
    example_1,
    one_code_for_two,
    code_without_length,
    code_beyond_alphabet,
    length_below_one,
    too_many_for_their_length,
];

/// A contradictory question with a plan, and with constraints that have nothing to do with it.
pub fn draft(random: &mut Random) -> Draft {
    let mut grown = grow_variables(random, 64);
    while grown.question.p < 3 {
        grown.question.p += 1;
        grown.strings.push(vec![0]);
    }
    if grown.question.q == 0 {
        grown.question.q = 1;
        grown.integers.push(0);
    }
    let frame = grown.question.clone();
    let mut draft = Draft { frame, strings: Vec::new(), arithmetic: Vec::new(), plan: Vec::new() };
    let noise = random.pick(&[0, 1, 2, 5, 20]);
    for number in 0..noise {
        let truth = random.chance(90);
        if number == noise / 2 {
            random.pick(&TEMPLATES)(&mut draft, random);
        }
        match string_fact(random, &grown, truth) {
            Some(fact) if random.chance(40) => draft.strings.push(fact),
            _ => draft.arithmetic.push(arithmetic_fact(random, &grown.values(), truth)),
        }
    }
    if noise == 0 || random.chance(10) {
        random.pick(&TEMPLATES)(&mut draft, random);
    }
    draft
}

impl Draft {
    /// The question: string constraints before arithmetic ones.
    pub fn question(&self) -> Question {
        let constraints = [self.strings.clone(), self.arithmetic.clone()].concat();
        Question { constraints, ..self.frame.clone() }
    }

    /// The plan with the numbers of the facts on the branch.
    pub fn plan(&self) -> Vec<Rule> {
        let shift = self.strings.len();
        let shifted = |rule: &Rule| match rule {
            Rule::Sum { divisor, pairs } => {
                let pairs = pairs.iter().map(|(fact, multiplier)| (fact + shift, *multiplier)).collect();
                Rule::Sum { divisor: *divisor, pairs }
            }
            Rule::Join(first, second) => Rule::Join(first + shift, second + shift),
            other => other.clone(),
        };
        self.plan.iter().map(shifted).collect()
    }

    /// Adds an arithmetic constraint and gives its number.
    fn add(&mut self, relation: Relation, row: Row) -> usize {
        self.arithmetic.push(Fact::Arithmetic(relation, row));
        self.arithmetic.len() - 1
    }

    /// A constant.
    fn number(&self, constant: i128) -> Row {
        Row::constant(self.frame.columns(), constant)
    }

    /// `coefficient` · len(x) + `constant`.
    fn len(&self, coefficient: i128, x: usize, constant: i128) -> Row {
        self.number(constant).with(self.frame.len_column(x), coefficient)
    }

    /// `coefficient` · code(x) + `constant`.
    fn code(&self, coefficient: i128, x: usize, constant: i128) -> Row {
        self.number(constant).with(self.frame.code_column(x), coefficient)
    }

    /// A form with some coefficient and no constant.
    fn form(&self, random: &mut Random) -> Row {
        let row = random_row(random, self.frame.columns());
        if row.is_constant() {
            row.with(random.below(self.frame.columns()), random.pick(&[1, -1, 3]))
        } else {
            row
        }
    }

    /// Variables that are all different.
    fn variables(&self, random: &mut Random, count: usize) -> Vec<usize> {
        let mut variables: Vec<usize> = (0..self.frame.p).collect();
        random.shuffle(&mut variables);
        variables.truncate(count);
        variables
    }

    /// The number of some literal that is written, one being added where there is none.
    fn literal(&mut self, random: &mut Random) -> usize {
        if self.frame.literals.len() == 1 {
            self.frame.literals.push(vec![0; 1 + random.below(3)]);
        }
        1 + random.below(self.frame.literals.len() - 1)
    }

    /// Adds e and −e, each as a ≥ fact or as an equation, and plans their Join.
    fn add_joined(&mut self, random: &mut Random, row: Row) {
        let [first, second] = [row.negative(), row].map(|row| self.add(random.pick(&[AtLeast, Equal]), row));
        let (first, second) = if random.chance(50) { (first, second) } else { (second, first) };
        self.plan.push(Rule::Join(first, second));
    }

    /// Joins x and y by ≈ facts: directly, through a variable or through a literal.
    fn join(&mut self, random: &mut Random, x: usize, y: usize) {
        match random.below(3) {
            0 => self.strings.push(Fact::Same(x, y)),
            1 => {
                let z = random.below(self.frame.p);
                self.strings.extend([Fact::Same(z, x), Fact::Same(y, z)]);
            }
            _ => {
                let literal = random.below(self.frame.literals.len());
                self.strings.extend([Fact::IsLiteral(x, literal), Fact::IsLiteral(y, literal)]);
            }
        }
    }
}

/// A constraint without coefficients that is false.
fn false_constant(draft: &mut Draft, random: &mut Random) {
    let (relation, constant) =
        random.pick(&[(AtLeast, -1), (AtLeast, -1_000_000_000), (Equal, 5), (Equal, -5), (NotEqual, 0)]);
    let row = draft.number(constant);
    draft.add(relation, row);
}

/// e − c ≥ 0 and d − e ≥ 0 with d below c, or an equation on one side.
fn opposite_bounds(draft: &mut Draft, random: &mut Random) {
    let form = draft.form(random);
    let least = random.between(-9, 9);
    let greatest = least - random.between(1, 3);
    let relation = random.pick(&[AtLeast, AtLeast, Equal]);
    draft.add(relation, form.clone().raised(-least));
    draft.add(AtLeast, form.negative().raised(greatest));
}

/// k·a − 1 ≥ 0 and k−1 − k·a ≥ 0: there is no integer between, as rounding shows.
fn rounded_bounds(draft: &mut Draft, random: &mut Random) {
    let divisor = random.between(2, 9);
    let column = random.below(draft.frame.columns());
    let shift = divisor * random.between(-3, 3);
    let row = draft.number(-1 - shift).with(column, divisor);
    let low = draft.add(AtLeast, row);
    let row = draft.number(divisor - 1 + shift).with(column, -divisor);
    let high = draft.add(AtLeast, row);
    for bound in [low, high] {
        draft.plan.push(Rule::Sum { divisor, pairs: vec![(bound, 1)] });
    }
}

/// Up to eight facts, and multipliers whose Sum is a false constant.
fn combination(draft: &mut Draft, random: &mut Random) {
    let mut total = draft.number(random.between(1, 5));
    let mut pairs = Vec::new();
    for _ in 0..1 + random.below(7) {
        let relation = random.pick(&[AtLeast, AtLeast, Equal]);
        let sign = if relation == Equal { random.pick(&[1, -1]) } else { 1 };
        let multiplier = sign * random.between(1, 4);
        let mut row = draft.number(random.between(-9, 9));
        for _ in 0..1 + random.below(4) {
            row = row.with(random.below(draft.frame.columns()), random.between(-3, 3));
        }
        total = total.plus(multiplier, &row);
        pairs.push((draft.add(relation, row), multiplier));
    }
    let last = draft.add(AtLeast, total.negative());
    pairs.push((last, 1));
    random.shuffle(&mut pairs);
    draft.plan.push(Rule::Sum { divisor: random.pick(&[1, 1, 3]), pairs });
}

/// Equations e + f − a = 0 and (k−1)·e − f − b = 0, whose Sum over k is about e alone: where k divides a + b it is an equation and
/// another fact is against it, else no integer e meets both.
fn share_of_a_sum(draft: &mut Draft, random: &mut Random) {
    let (form, other) = (draft.form(random), draft.form(random));
    let divisor = random.between(2, 6);
    let (share, remainder) = (random.between(-5, 5), random.pick(&[0, 0, 1, divisor - 1]));
    let a = random.between(-9, 9);
    let b = divisor * share + remainder - a;
    let rows = [form.plus(1, &other).raised(-a), form.plus(divisor - 2, &form).plus(-1, &other).raised(-b)];
    let pairs = rows.map(|row| match random.chance(50) {
        true => (draft.add(Equal, row), 1),
        false => (draft.add(Equal, row.negative()), -1),
    });
    draft.plan.push(Rule::Sum { divisor, pairs: pairs.to_vec() });
    if remainder != 0 {
        let turned = pairs.map(|(fact, multiplier)| (fact, -multiplier));
        draft.plan.push(Rule::Sum { divisor, pairs: turned.to_vec() });
        return;
    }
    let difference = form.raised(-share);
    let (relation, row) = match random.below(4) {
        0 => (AtLeast, difference.raised(-1)),
        1 => (AtLeast, difference.negative().raised(-1)),
        2 => (Equal, difference.raised(random.pick(&[2, -2]))),
        _ => (NotEqual, difference),
    };
    draft.add(relation, row);
}

/// e ≠ 0 beside e = 0, or beside e and −e with a Join.
fn difference_of_nothing(draft: &mut Draft, random: &mut Random) {
    let form = draft.form(random).raised(random.between(-3, 3));
    draft.add(NotEqual, form.clone());
    if random.chance(50) {
        draft.add(Equal, form);
    } else {
        draft.add_joined(random, form);
    }
}

/// Two different literals in one class.
fn literals_clash(draft: &mut Draft, random: &mut Random) {
    let variables = draft.variables(random, 2);
    let literal = draft.literal(random);
    let other = random.below(literal);
    draft.strings.push(Fact::IsLiteral(variables[0], literal));
    draft.strings.push(Fact::IsLiteral(variables[1], other));
    draft.join(random, variables[0], variables[1]);
}

/// A ≉ fact with both sides in one class.
fn variables_differ(draft: &mut Draft, random: &mut Random) {
    let variables = draft.variables(random, 3);
    let last = random.below(3);
    draft.join(random, variables[0], variables[1]);
    draft.join(random, variables[1], variables[2]);
    draft.strings.push(Fact::Differ(variables[last], variables[0]));
}

/// A literal and another length than its own.
fn length_of_literal(draft: &mut Draft, random: &mut Random) {
    let variables = draft.variables(random, 2);
    let literal = draft.literal(random);
    let literal = random.pick(&[0, literal]);
    let length = draft.frame.literals[literal].len() as i128;
    draft.strings.push(Fact::IsLiteral(variables[0], literal));
    draft.join(random, variables[0], variables[1]);
    let (relation, row) = match random.below(4) {
        0 => (AtLeast, draft.len(1, variables[1], -length - 1)),
        1 => (AtLeast, draft.len(-1, variables[1], length - 1)),
        2 => (Equal, draft.len(2, variables[1], -2 * length - 1)),
        _ => (NotEqual, draft.len(-1, variables[1], length)),
    };
    draft.add(relation, row);
    draft.plan.push(Rule::LIntro(variables[1]));
}

/// A literal and another code than its own.
fn code_of_literal(draft: &mut Draft, random: &mut Random) {
    let variables = draft.variables(random, 2);
    let literal = draft.literal(random);
    let code = code_of(&draft.frame.literals[literal]);
    draft.strings.push(Fact::IsLiteral(variables[0], literal));
    draft.join(random, variables[0], variables[1]);
    let (relation, row) = match random.below(3) {
        0 => (AtLeast, draft.code(1, variables[1], -code - 1)),
        1 => (Equal, draft.code(1, variables[1], -code + random.pick(&[1, -1]))),
        _ => (NotEqual, draft.code(1, variables[1], -code)),
    };
    draft.add(relation, row);
    draft.plan.push(Rule::CCollapse(variables[1]));
}

/// Different lengths or codes within a class.
fn lengths_of_a_class(draft: &mut Draft, random: &mut Random) {
    let variables = draft.variables(random, 2);
    let (x, y) = (variables[0], variables[1]);
    draft.join(random, x, y);
    let function = random.below(2);
    let row = match function {
        0 => draft.len(1, x, -1).with(draft.frame.len_column(y), -1),
        _ => draft.code(1, x, -1).with(draft.frame.code_column(y), -1),
    };
    let relation = random.pick(&[AtLeast, Equal]);
    draft.add(relation, row);
    let (x, y) = if random.chance(50) { (x, y) } else { (y, x) };
    draft.plan.push(Rule::SProp { function, x, y });
}

/// Document 000, example 1: len(x) > len(y), code(x) = code(y), code(x) ≥ 0.
fn example_1(draft: &mut Draft, random: &mut Random) {
    let variables = draft.variables(random, 2);
    let (x, y) = (variables[0], variables[1]);
    let row = draft.len(1, x, -1).with(draft.frame.len_column(y), -1);
    draft.add(AtLeast, row);
    let row = draft.code(1, x, 0).with(draft.frame.code_column(y), -1);
    draft.add(Equal, row);
    let row = draft.code(1, x, 0);
    draft.add(AtLeast, row);
    draft.plan.push(Rule::CInj(x, y));
    draft.plan.push(Rule::SProp { function: 0, x, y });
}

/// x ≉ y with one code, which is not −1.
fn one_code_for_two(draft: &mut Draft, random: &mut Random) {
    let variables = draft.variables(random, 2);
    let (x, y) = (variables[0], variables[1]);
    let code = random.between(0, 300);
    draft.strings.push(Fact::Differ(x, y));
    let row = draft.code(1, x, -code);
    let first = draft.add(Equal, row);
    let row = draft.code(1, y, -code);
    let second = draft.add(Equal, row);
    draft.plan.push(Rule::Sum { divisor: 1, pairs: vec![(first, 1), (second, -1)] });
    draft.plan.push(Rule::Sum { divisor: 1, pairs: vec![(first, -1), (second, 1)] });
    draft.plan.push(Rule::CInj(x, y));
}

/// Document 000, example 3: a code of at least 0 and a length that is not 1.
fn code_without_length(draft: &mut Draft, random: &mut Random) {
    let x = random.below(draft.frame.p);
    let low = random.between(0, 48);
    let row = draft.code(1, x, -low);
    draft.add(AtLeast, row);
    let row = if random.chance(50) { draft.len(-1, x, 0) } else { draft.len(1, x, -2) };
    draft.add(AtLeast, row);
    draft.plan.push(Rule::CValid(x));
}

/// A code of n or more, or below −1.
fn code_beyond_alphabet(draft: &mut Draft, random: &mut Random) {
    let x = random.below(draft.frame.p);
    let n = i128::from(draft.frame.n);
    let row = if random.chance(50) { draft.code(1, x, -n) } else { draft.code(-1, x, -2) };
    draft.add(AtLeast, row);
    draft.plan.push(Rule::CValid(x));
}

/// A length below 1 of a string that is not the empty one, or a length below 0.
fn length_below_one(draft: &mut Draft, random: &mut Random) {
    let variables = draft.variables(random, 2);
    let (x, y) = (variables[0], variables[1]);
    draft.plan.push(Rule::LValid(x));
    if random.chance(50) {
        draft.strings.push(Fact::Differ(y, x));
        draft.strings.push(Fact::IsLiteral(y, 0));
        let row = draft.len(-1, x, 0);
        draft.add(AtLeast, row);
    } else {
        let row = draft.len(-1, x, -1);
        draft.add(AtLeast, row);
        draft.plan.push(Rule::LIntro(x));
    }
}

/// More strings of one length, all different, than there are.
fn too_many_for_their_length(draft: &mut Draft, random: &mut Random) {
    let count = random.pick(&[2, 2, 3, 3, 4, 5]);
    let variables = draft.variables(random, count);
    for (j, y) in variables.iter().enumerate() {
        draft.strings.extend(variables[..j].iter().map(|x| Fact::Differ(*x, *y)));
    }
    for pair in variables.windows(2) {
        let row = draft.len(1, pair[0], 0).with(draft.frame.len_column(pair[1]), -1);
        let row = if random.chance(50) { row.negative() } else { row };
        match random.below(3) {
            0 => {
                draft.add(Equal, row);
            }
            1 => draft.add_joined(random, row),
            _ => {
                let divisor = random.between(1, 3);
                let multiple = draft.add(Equal, row.plus(divisor - 1, &row));
                draft.plan.push(Rule::Sum { divisor, pairs: vec![(multiple, random.pick(&[1, -1]))] });
            }
        }
    }
    if draft.frame.n > 1 {
        let length = least_length(draft.frame.n, variables.len());
        let row = draft.len(-1, variables[0], length - 1);
        draft.add(AtLeast, row);
    }
    draft.plan.push(Rule::Card(variables));
}
