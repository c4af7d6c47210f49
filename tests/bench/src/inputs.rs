//! The inputs that are measured: kinds of ticket and of question, each at several sizes.

use compare::{proofs, writer};
use nuldwich_reference::answer::{write_answer, Answer};
use nuldwich_reference::derivation::Derivation;
use nuldwich_reference::extended::Extended::{self, Before, Lower, Read, Upper, Written};
use nuldwich_reference::extended::{decimal, lower, upper};
use nuldwich_reference::facts::Relation::{AtLeast, Equal};
use nuldwich_reference::facts::{Fact, Relation, Row};
use nuldwich_reference::leaf::VALUE_LIMIT;
use nuldwich_reference::question::{Question, MOST_FACTS};
use nuldwich_reference::same;
use nuldwich_reference::steps::{Rule, Step};

/// A kind of input. `make` takes a wished size; the size itself is the number of records of the kinds counted.
pub struct Kind {
    pub name: &'static str,
    pub sizes: &'static [usize],
    pub counted: &'static [u16],
    pub accepted: bool,
    pub make: fn(usize) -> Vec<Vec<u8>>,
}

const STEPS: &[u16] = &[6];
const CONSTRAINTS: &[u16] = &[3, 4, 11];

/// How many constraints of kind 11 a measured question has.
const EXTENDED: &[usize] = &[32, 128];

/// A kind whose size is a number of steps.
const fn steps(name: &'static str, sizes: &'static [usize], make: fn(usize) -> Vec<Vec<u8>>) -> Kind {
    Kind { name, sizes, counted: STEPS, accepted: true, make }
}

/// A kind whose size is a number of constraints.
const fn constraints(name: &'static str, sizes: &'static [usize], make: fn(usize) -> Vec<Vec<u8>>) -> Kind {
    Kind { name, sizes, counted: CONSTRAINTS, accepted: true, make }
}

/// No bytes at all.
const SMALLEST_REFUSAL: Kind =
    Kind { name: "smallest refusal", sizes: &[0], counted: STEPS, accepted: false, make: |_| vec![Vec::new(); 2] };

/// What is measured of checking.
pub const TO_CHECK: [Kind; 14] = [
    steps("small steps", &[100, 400, 1_600], small_steps),
    steps("8-pair Sums, 48 columns", &[50, 100, 200, 490], eight_pair_sums),
    steps("2-pair Sums, divisor 2", &[80, 160, 320, 640], two_pair_sums),
    steps("8-pair Sums of equations", &[50, 490], eight_pair_equations),
    steps("2-pair Sums of equations", &[80, 640], two_pair_equations),
    steps("S-Props over 44 ≈ constraints", &[80, 160, 320, 640], propagations),
    steps("S-Confs over 88 string facts", &[3, 5, 7, 9], conflicts),
    steps("Joins, far columns", &[120, 240, 480, 960], joins),
    steps("C-Valid and L-Valid, a tree", &[3, 5, 7, 9], tree),
    steps("Card behind 90 facts", &[4, 8, 12, 16], card),
    constraints("strings by literals", &[4, 8, 16], strings),
    constraints("model, 16 strings of 64", &[15, 30, 60, 120], long_model),
    SMALLEST_REFUSAL,
    constraints("smallest acceptance", &[0], smallest_acceptance),
];

/// What is measured of the need of a ticket, besides all that is measured of checking.
pub const TO_NEED: [Kind; 1] = [steps("L-Valids, all pending", &[185, 371, 743, 1_487], pending)];

/// What is measured of judging.
pub const TO_JUDGE: [Kind; 9] = [
    constraints("rows of 40 columns", &[16, 32, 64, 128], judged_rows),
    constraints("upper case of 64 characters", EXTENDED, |count| judged_extended(count, |a, b| Upper { a, b })),
    constraints("lower case of 64 characters", EXTENDED, |count| judged_extended(count, |a, b| Lower { a, b })),
    constraints("9 digits read", EXTENDED, |count| judged_digits(count, |string, integer| Read { integer, string })),
    constraints("64 characters read", EXTENDED, judged_long_numerals),
    constraints("9 digits written", EXTENDED, |count| {
        judged_digits(count, |string, integer| Written { string, integer })
    }),
    constraints("order of 64 characters", EXTENDED, |count| judged_extended(count, |a, b| Before { a, b })),
    SMALLEST_REFUSAL,
    constraints("smallest acceptance", &[0], smallest_judged),
];

/// What is measured of sameness: a question beside the same one in the opposite order, written in another way where there is one.
pub const TO_COMPARE: [Kind; 10] = [
    constraints("usual questions", &[12], usual_pair),
    constraints("rows of 5 columns", &[16, 32, 64, 128], |count| compared_rows(count, 5)),
    constraints("rows of 48 columns", &[27, 54, 109], |count| compared_rows(count, 48)),
    constraints("≈ and ≉, sides turned", &[16, 32, 64, 128], compared_strings),
    constraints("literals of 64 characters", &[16, 32, 64, 128], compared_literals),
    constraints("one literal of 64 characters, repeated", &[32, 128], compared_repeated_literal),
    constraints("kind 11", EXTENDED, compared_extended),
    constraints("one against 128 repeats", &[1], compared_repeats),
    SMALLEST_REFUSAL,
    constraints("smallest acceptance", &[0], |_| compared(&frame(1, 0, 0), &frame(1, 0, 0))),
];

/// A derivation that grows to a wished number of steps.
struct Growing {
    question: Question,
    derivation: Derivation,
    steps: Vec<Rule>,
}

impl Growing {
    fn new(question: Question) -> Growing {
        Growing { derivation: Derivation::new(&question), question, steps: Vec::new() }
    }

    /// A derivation whose last constraint is without coefficients and false.
    fn with_falsehood(mut question: Question) -> Growing {
        let falsehood = Row::constant(question.columns(), -1);
        question.constraints.push(Fact::Arithmetic(AtLeast, falsehood));
        Growing::new(question)
    }

    fn take(&mut self, rule: Rule) {
        let step = Step { rule: rule.clone(), child: 0 };
        self.derivation.take(&self.question, 1, &step).expect("a measured step fits");
        self.steps.push(rule);
    }

    /// Closes the branch by the last constraint.
    fn close(&mut self) {
        self.take(Rule::AConf(self.question.constraints.len() - 1));
    }

    /// How many branches are open.
    fn open(&self) -> usize {
        self.derivation.pending.len() + 1
    }

    fn facts(&self) -> usize {
        self.derivation.branch.len()
    }

    fn ticket(self) -> Vec<Vec<u8>> {
        let mut bytes = writer::question(&self.question);
        bytes.extend(writer::claim(1));
        self.steps.iter().for_each(|rule| bytes.extend(writer::step(rule, 0)));
        bytes.extend(writer::end());
        vec![bytes]
    }
}

/// A question without literals.
fn frame(n: u32, p: usize, q: usize) -> Question {
    Question { n, p, q, literals: vec![Vec::new()], ..Question::default() }
}

/// A Branch on the first column.
fn branch_on_first(columns: usize, number: usize) -> Rule {
    Rule::Branch(Row::constant(columns, -(number as i128)).with(0, 1))
}

/// About `steps` steps of one rule: as many splits first as there must be branches for them, then on each branch the rule as often as facts have room.
fn repeated(question: Question, steps: usize, rule: impl Fn(usize) -> Rule) -> Vec<Vec<u8>> {
    let mut growing = Growing::with_falsehood(question);
    let room = MOST_FACTS - growing.facts();
    let splits = (0..64).find(|splits| (splits + 1) * (room - splits) >= steps).expect("there is room for the steps");
    for number in 0..splits {
        growing.take(branch_on_first(growing.question.columns(), number));
    }
    while growing.steps.len() + growing.open() < steps {
        if growing.facts() < MOST_FACTS {
            growing.take(rule(growing.steps.len()));
        } else {
            growing.close();
        }
    }
    while !growing.derivation.closed {
        growing.close();
    }
    growing.ticket()
}

/// About `steps` small steps: a Branch on a − k, its first child closed by a Sum and A-Conf, and so on in the second.
fn small_steps(steps: usize) -> Vec<Vec<u8>> {
    let mut question = frame(128, 1, 2);
    let row = |constant, coefficient| Fact::Arithmetic(AtLeast, Row::constant(4, constant).with(0, coefficient));
    question.constraints = vec![row(0, 1), row(-1, -1)];
    let mut growing = Growing::new(question);
    for number in 0..(steps / 20).min(40) {
        growing.take(branch_on_first(4, number));
    }
    while !growing.derivation.closed {
        if growing.steps.len() + 2 * growing.open() < steps && growing.facts() < 100 {
            growing.take(branch_on_first(4, growing.steps.len()));
        }
        let new = growing.facts();
        growing.take(Rule::Sum { divisor: 1, pairs: vec![(0, 1), (1, 1)] });
        growing.take(Rule::AConf(new));
    }
    growing.ticket()
}

/// A fact with a coefficient in each of 48 columns, odd ones alone or not.
fn wide_fact(relation: Relation, number: i128, odd: bool) -> Fact {
    let mut row = Row::constant(48, number);
    for (column, coefficient) in row.coefficients.iter_mut().enumerate() {
        let any = 1 + (number * 7 + column as i128 * 5) % 11;
        *coefficient = if odd { 2 * any + 1 } else { any };
    }
    Fact::Arithmetic(relation, row)
}

fn eight_pair_sums(steps: usize) -> Vec<Vec<u8>> {
    eight_pairs(AtLeast, steps)
}

fn eight_pair_equations(steps: usize) -> Vec<Vec<u8>> {
    eight_pairs(Equal, steps)
}

/// Sums of eight pairs over 48 columns, of facts of one relation.
fn eight_pairs(relation: Relation, steps: usize) -> Vec<Vec<u8>> {
    let mut question = frame(128, 16, 16);
    question.constraints = (0..8).map(|number| wide_fact(relation, number, false)).collect();
    repeated(question, steps, |number| {
        let pairs = (0..8).map(|fact| (fact, 1 + ((fact + number) % 5) as i128)).collect();
        Rule::Sum { divisor: 1, pairs }
    })
}

fn two_pair_sums(steps: usize) -> Vec<Vec<u8>> {
    two_pairs(|number| wide_fact(AtLeast, number, true), steps)
}

/// The sums of the constants are even too, so that the new facts are equations.
fn two_pair_equations(steps: usize) -> Vec<Vec<u8>> {
    two_pairs(|number| wide_fact(Equal, 2 * number, true), steps)
}

/// Sums of two pairs over 48 columns, all of whose column sums are even.
fn two_pairs(fact: fn(i128) -> Fact, steps: usize) -> Vec<Vec<u8>> {
    let mut question = frame(128, 16, 16);
    question.constraints = (0..8).map(fact).collect();
    repeated(question, steps, |number| Rule::Sum { divisor: 2, pairs: vec![(number % 8, 1), ((number + 3) % 8, 3)] })
}

/// S-Props between all pairs of 16 variables that 44 ≈ constraints join in a chain.
fn propagations(steps: usize) -> Vec<Vec<u8>> {
    let mut question = frame(128, 16, 0);
    question.constraints = (0..44).map(|number| Fact::Same(number % 15, number % 15 + 1)).collect();
    repeated(question, steps, |number| Rule::SProp {
        function: number % 2,
        x: number % 16,
        y: (number + 1 + number / 16 % 15) % 16,
    })
}

/// All branches of a tree of Branches, so many deep, closed by S-Conf: 44 ≈ constraints join eight variables, and of 44 ≉ constraints the
/// last is against them.
fn conflicts(depth: usize) -> Vec<Vec<u8>> {
    let mut question = frame(128, 16, 1);
    question.constraints = (0..44).map(|number| Fact::Same(number % 7, number % 7 + 1)).collect();
    question.constraints.extend((0..43).map(|number| Fact::Differ(number % 8, 8 + number % 8)));
    question.constraints.push(Fact::Differ(0, 7));
    let mut growing = Growing::new(question);
    grow_tree(&mut growing, depth, |depth| branch_on_first(33, depth), |growing| growing.take(Rule::SConf));
    growing.ticket()
}

/// Joins of facts with coefficients in the first and the last columns.
fn joins(steps: usize) -> Vec<Vec<u8>> {
    let mut question = frame(128, 16, 16);
    for number in 0..8 {
        let row = Row::constant(48, number as i128).with(number, 3).with(47 - number, -2);
        question.constraints.push(Fact::Arithmetic(AtLeast, row.negative()));
        question.constraints.push(Fact::Arithmetic(AtLeast, row));
    }
    repeated(question, steps, |number| Rule::Join(2 * (number % 8), 2 * (number % 8) + 1))
}

/// All branches of a tree of C-Valid and L-Valid by turns, so many deep.
fn tree(depth: usize) -> Vec<Vec<u8>> {
    let mut growing = Growing::with_falsehood(frame(128, 16, 16));
    let split = |depth| if depth % 2 == 1 { Rule::CValid(depth) } else { Rule::LValid(depth) };
    grow_tree(&mut growing, depth, split, Growing::close);
    growing.ticket()
}

/// A tree of splits with two children, so many deep, whose branches are all closed.
fn grow_tree(growing: &mut Growing, depth: usize, split: fn(usize) -> Rule, close: fn(&mut Growing)) {
    if depth == 0 {
        return close(growing);
    }
    growing.take(split(depth));
    grow_tree(growing, depth - 1, split, close);
    grow_tree(growing, depth - 1, split, close);
}

/// Card over so many variables, whose length equations stand behind other equations, 90 facts in all, and all its children.
fn card(variables: usize) -> Vec<Vec<u8>> {
    let mut question = frame(128, 16, 16);
    let difference = |x, y| Fact::Arithmetic(Equal, Row::constant(48, 0).with(x, 1).with(y, -1));
    question.constraints = (variables..90).map(|number| difference(number % 15, 15)).collect();
    for x in 1..variables {
        question.constraints.push(difference(question.len_column(x - 1), question.len_column(x)));
    }
    let mut growing = Growing::with_falsehood(question);
    growing.take(Rule::Card((0..variables).collect()));
    while !growing.derivation.closed {
        growing.close();
    }
    growing.ticket()
}

/// So many pending splits, more than checking takes, and all their children closed; 1,487 are the most that a ticket holds.
fn pending(splits: usize) -> Vec<Vec<u8>> {
    let steps = [vec![Rule::LValid(0); splits], vec![Rule::SConf; splits + 1]].concat();
    vec![proofs::ticket(&frame(128, 1, 0), &steps)]
}

/// The bytes of a ticket that claims strings without steps.
fn strings_ticket(question: &Question, model: &[i128]) -> Vec<Vec<u8>> {
    vec![[writer::question(question), writer::claim(2), writer::model(model), writer::end()].concat()]
}

/// So many variables, for all but one a literal of 64 characters, ≉ and equal lengths between neighbours.
fn strings(variables: usize) -> Vec<Vec<u8>> {
    let mut question = frame(128, variables, 16);
    for x in 0..variables - 1 {
        question.literals.push(long_literal(x as u32));
        question.constraints.push(Fact::IsLiteral(x, 1 + x));
    }
    question.constraints.extend((1..variables).map(|x| Fact::Differ(x - 1, x)));
    for x in 1..variables {
        let row = Row::constant(question.columns(), 0);
        let row = row.with(question.len_column(x - 1), 1).with(question.len_column(x), -1);
        question.constraints.push(Fact::Arithmetic(Equal, row));
    }
    strings_ticket(&question, &[vec![7; 16], vec![64; variables], vec![-1; variables]].concat())
}

/// A question of so many constraints with 40 columns each, which integers of 7 and 16 strings of 64 characters meet.
fn rows_of_40(constraints: usize) -> Question {
    let mut question = frame(128, 16, 16);
    for number in 0..constraints as i128 {
        let mut row = Row::constant(48, number);
        (0..40).for_each(|column| row.coefficients[column] = 1 + (number + column as i128) % 7);
        question.constraints.push(Fact::Arithmetic(AtLeast, row));
    }
    question
}

/// A model of 16 strings of 64 characters, none of them given.
fn long_model(constraints: usize) -> Vec<Vec<u8>> {
    strings_ticket(&rows_of_40(constraints), &[[7; 16], [64; 16], [-1; 16]].concat())
}

/// No variables, no constraints, an empty model.
fn smallest_acceptance(_: usize) -> Vec<Vec<u8>> {
    strings_ticket(&frame(1, 0, 0), &[])
}

/// A question and an answer that meets it.
fn judged(question: &Question, strings: Vec<Vec<u32>>, integers: Vec<i128>) -> Vec<Vec<u8>> {
    vec![[writer::question(question), writer::end()].concat(), write_answer(&Answer { strings, integers })]
}

/// Rows of 40 columns and an answer of 16 strings of 64 characters.
fn judged_rows(constraints: usize) -> Vec<Vec<u8>> {
    judged(&rows_of_40(constraints), vec![vec![5; 64]; 16], vec![7; 16])
}

/// A question of so many constraints of kind 11.
fn extended(count: usize, constraint: impl Fn(usize) -> Extended) -> Question {
    Question { extended: (0..count).map(constraint).collect(), ..frame(128, 16, 16) }
}

/// Constraints of one function between eight strings of 64 characters and the eight of both cases that they are made of, all met; in
/// the order they are equal, so that every character is looked at.
fn judged_extended(count: usize, constraint: fn(usize, usize) -> Extended) -> Vec<Vec<u8>> {
    let question = extended(count, |number| constraint(number % 8, 8 + number % 8));
    let turned = match question.extended[0] {
        Upper { .. } => upper,
        Lower { .. } => lower,
        _ => <[u32]>::to_vec,
    };
    let mixed = |x: u32| (0..64).map(|place| 65 + 32 * (place % 2) + (place + x) % 26).collect::<Vec<u32>>();
    let strings = (0..16).map(|x| if x < 8 { turned(&mixed(x)) } else { mixed(x - 8) }).collect();
    judged(&question, strings, vec![0; 16])
}

/// Constraints of one function between 16 numerals of nine digits and their values; the greatest value is the only one of nine.
fn judged_digits(count: usize, constraint: fn(usize, usize) -> Extended) -> Vec<Vec<u8>> {
    let question = extended(count, |number| constraint(number % 16, number % 16));
    judged(&question, vec![decimal(VALUE_LIMIT); 16], vec![VALUE_LIMIT; 16])
}

/// Texts of 64 characters that are not numeric by their last.
fn judged_long_numerals(count: usize) -> Vec<Vec<u8>> {
    let question = extended(count, |number| Read { integer: number % 16, string: number % 16 });
    let text: Vec<u32> = (0..64).map(|place| if place < 63 { 57 } else { 58 }).collect();
    judged(&question, vec![text; 16], vec![-1; 16])
}

/// No variables, no constraints, an answer without values.
fn smallest_judged(_: usize) -> Vec<Vec<u8>> {
    judged(&frame(1, 0, 0), Vec::new(), Vec::new())
}

/// Two questions that are the same, the second with its constraints in the opposite order.
fn compared(first: &Question, second: &Question) -> Vec<Vec<u8>> {
    let mut second = second.clone();
    let strings = second.constraints.iter().filter(|fact| !matches!(fact, Fact::Arithmetic(..))).count();
    second.constraints[..strings].reverse();
    second.constraints[strings..].reverse();
    second.extended.reverse();
    let [first, second] = [first, &second].map(|question| [writer::question(question), writer::end()].concat());
    assert_eq!(same(&first, &second), Ok(true));
    vec![first, second]
}

/// So many numbers, each of which is the sum of the two behind it, from the greatest whose double is within the limit: the greatest common
/// divisor of two neighbours takes as many divisions as that of any two numbers of their size.
fn sums_of_two(count: usize) -> Vec<i128> {
    let pairs = std::iter::successors(Some((433_494_437, 267_914_296)), |(high, low)| Some((*low, high - low)));
    pairs.map(|(high, _)| high).take(count).collect()
}

/// So many equations, each with so many columns, at least 5, beside their doubles with the sign turned. They differ in the last column but
/// two alone, so that most of a row is compared, and at both ends stand neighbours among the sums of two: the greatest common divisor takes
/// many divisions from whichever end it is taken.
fn compared_rows(count: usize, columns: usize) -> Vec<Vec<u8>> {
    let sums = sums_of_two(columns / 2 + 1);
    let mut question = frame(128, 16, 16);
    for number in 0..count as i128 {
        let mut row = Row::constant(48, sums[0]);
        for column in 0..columns {
            row.coefficients[column] = sums[(column + 1).min(columns - 1 - column)];
        }
        row.coefficients[columns - 3] = 1_000 + number;
        question.constraints.push(Fact::Arithmetic(Equal, row));
    }
    let mut doubled = question.clone();
    for fact in &mut doubled.constraints {
        if let Fact::Arithmetic(_, row) = fact {
            *row = Row::constant(48, 0).plus(-2, row);
        }
    }
    compared(&question, &doubled)
}

/// So many different ≈ and ≉ constraints between 16 variables, beside those with sides turned.
fn compared_strings(count: usize) -> Vec<Vec<u8>> {
    let pairs: Vec<(usize, usize)> = (0..16).flat_map(|a| (0..a).map(move |b| (a, b))).collect();
    let fact = |number: usize, (a, b): (usize, usize)| match number % 2 {
        0 => Fact::Same(a, b),
        _ => Fact::Differ(a, b),
    };
    let (mut first, mut second) = (frame(128, 16, 0), frame(128, 16, 0));
    for number in 0..count {
        let (a, b) = pairs[number % pairs.len()];
        first.constraints.push(fact(number + number / pairs.len(), (a, b)));
        second.constraints.push(fact(number + number / pairs.len(), (b, a)));
    }
    compared(&first, &second)
}

/// A literal of 64 characters, all but the last the same.
fn long_literal(last: u32) -> Vec<u32> {
    (0..64).map(|place| if place == 63 { last } else { 0 }).collect()
}

/// So many constraints between 16 variables and 15 literals that differ in the last of 64 characters, and are numbered in the opposite
/// order in the second question.
fn compared_literals(count: usize) -> Vec<Vec<u8>> {
    let (mut first, mut second) = (frame(128, 16, 0), frame(128, 16, 0));
    first.literals.extend((1..16).map(long_literal));
    second.literals.extend((1..16).rev().map(long_literal));
    for number in 0..count {
        let (variable, literal) = (number % 16, 1 + number / 16 % 15);
        first.constraints.push(Fact::IsLiteral(variable, literal));
        second.constraints.push(Fact::IsLiteral(variable, 16 - literal));
    }
    compared(&first, &second)
}

/// One constraint, so many times on both sides, with the last of 15 literals: it is looked for behind the others, and its 64 characters are
/// compared, for each pair of constraints. Of all pairs of questions here the library takes the longest over this one.
fn compared_repeated_literal(count: usize) -> Vec<Vec<u8>> {
    let mut question = frame(128, 1, 0);
    question.literals.extend((1..16).map(long_literal));
    question.constraints = vec![Fact::IsLiteral(0, 15); count];
    compared(&question, &question)
}

/// So many different constraints of kind 11.
fn compared_extended(count: usize) -> Vec<Vec<u8>> {
    let question = extended(count, |number| Before { a: number % 16, b: number / 16 });
    compared(&question, &question)
}

/// One constraint, beside as many repeats of it as a question may have.
fn compared_repeats(_: usize) -> Vec<Vec<u8>> {
    let mut question = frame(128, 2, 0);
    question.constraints.push(Fact::Same(0, 1));
    let repeated = Question { constraints: vec![Fact::Same(1, 0); MOST_FACTS], ..question.clone() };
    compared(&question, &repeated)
}

/// Twelve constraints of all kinds, as a rule writer has them, beside them in another order and written in another way.
fn usual_pair(_: usize) -> Vec<Vec<u8>> {
    let text = |words: &str| words.chars().map(u32::from).collect::<Vec<u32>>();
    let (mut first, mut second) = (frame(128, 4, 2), frame(128, 4, 2));
    first.literals.extend(["WARD", "A", "archive"].map(text));
    second.literals.extend(["A", "archive", "WARD"].map(text));
    let row = |constant, pairs: &[(usize, i128)]| {
        pairs.iter().fold(Row::constant(10, constant), |row, (column, coefficient)| row.with(*column, *coefficient))
    };
    let rows = [
        (AtLeast, row(-1, &[(2, 1)])),
        (AtLeast, row(24, &[(3, -2)])),
        (Equal, row(0, &[(2, 1), (3, -1)])),
        (Equal, row(-8, &[(0, 1), (4, -4)])),
        (Relation::NotEqual, row(-65, &[(6, 1)])),
    ];
    first.constraints = vec![Fact::Same(0, 1), Fact::Differ(1, 2), Fact::IsLiteral(0, 1), Fact::IsLiteral(2, 2)];
    second.constraints = vec![Fact::Same(1, 0), Fact::Differ(2, 1), Fact::IsLiteral(0, 3), Fact::IsLiteral(2, 1)];
    for (relation, row) in rows {
        let factor = if relation == AtLeast { 3 } else { -1 };
        second.constraints.push(Fact::Arithmetic(relation, Row::constant(10, 0).plus(factor, &row)));
        first.constraints.push(Fact::Arithmetic(relation, row));
    }
    first.extended = vec![Upper { a: 0, b: 3 }, Read { integer: 1, string: 3 }, Before { a: 0, b: 2 }];
    second.extended = first.extended.clone();
    compared(&first, &second)
}
