//! Changes a question in one place.

use crate::assignments::{random_row, small_or_edge};
use crate::extended;
use crate::random::Random;
use crate::rewriting::{add, any_factor, constraint_count, greatest, is_named, is_row, times, turned, Doing};
use nuldwich_reference::extended::Extended;
use nuldwich_reference::facts::{within_limit, Fact, Relation, Row};
use nuldwich_reference::question::{Question, MOST_FACTS};

/// All changes; some leave a question the same now and then.
pub const CHANGES: [(&str, Doing); 22] = [
    ("changed: n", change_n),
    ("changed: p", |_, question| raise(&mut question.p)),
    ("changed: q", |_, question| raise(&mut question.q)),
    ("changed: relation of kind 3", change_string_relation),
    ("changed: operand of kind 3", change_operand),
    ("changed: literal named", change_literal),
    ("changed: character of a literal", change_character),
    ("changed: length of a literal", change_length),
    ("changed: relation of kind 4", change_relation),
    ("changed: coefficient", change_coefficient),
    ("changed: column", change_column),
    ("changed: constant", change_constant),
    ("changed: multiple of the coefficients", multiply_coefficients),
    ("changed: sign of the coefficients", turn_coefficients),
    ("changed: sign of ≥", turn_at_least),
    ("changed: function of kind 11", change_function),
    ("changed: operand of kind 11", change_extended),
    ("changed: sides of kind 11", turn_extended),
    ("changed: kind 3 or 4 left out", leave_out_fact),
    ("changed: kind 11 left out", leave_out_extended),
    ("changed: kind 3 or 4 added", add_fact),
    ("changed: kind 11 added", add_extended),
];

/// Changes a question in one place, and says in which; nothing when a few tries find none.
pub fn change(random: &mut Random, question: &mut Question) -> Option<&'static str> {
    (0..8).find_map(|_| {
        let (label, change) = random.pick(&CHANGES);
        change(random, question).then_some(label)
    })
}

/// A constraint of kind 3 or 4 with any operands that the question has.
pub fn any_fact(random: &mut Random, question: &Question) -> Fact {
    let (p, literals) = (question.p, question.literals.len());
    if p == 0 || random.chance(50) {
        let relation = random.pick(&[Relation::AtLeast, Relation::Equal, Relation::NotEqual]);
        let row = random_row(random, question.columns());
        return Fact::Arithmetic(relation, row.raised(small_or_edge(random, 1_000_000_000)));
    }
    let (a, b) = (random.below(p), random.below(p));
    match random.below(3) {
        0 => Fact::Same(a, b),
        1 => Fact::Differ(a, b),
        _ => Fact::IsLiteral(a, random.below(literals)),
    }
}

/// Another n, over every character of a literal.
fn change_n(random: &mut Random, question: &mut Question) -> bool {
    let least = question.literals.iter().flatten().max().map_or(1, |character| character + 1);
    let before = question.n;
    question.n = random.pick(&[before + 1, before - 1, before ^ 65_536, least, 196_608]).clamp(least, 196_608);
    question.n != before
}

/// One variable more. The numbers of columns stay as they are written.
fn raise(variables: &mut usize) -> bool {
    *variables += 1;
    *variables <= 16 || {
        *variables -= 1;
        false
    }
}

/// Any constraint of kind 3 or 4 that is wanted.
fn one_fact<'a>(random: &mut Random, question: &'a mut Question, wanted: fn(&Fact) -> bool) -> Option<&'a mut Fact> {
    let places: Vec<usize> = (0..question.constraints.len()).filter(|at| wanted(&question.constraints[*at])).collect();
    (!places.is_empty()).then(|| random.pick(&places)).map(|at| &mut question.constraints[at])
}

/// Any row, with its relation.
fn one_row<'a>(random: &mut Random, question: &'a mut Question) -> Option<(&'a mut Relation, &'a mut Row)> {
    match one_fact(random, question, is_row) {
        Some(Fact::Arithmetic(relation, row)) => Some((relation, row)),
        _ => None,
    }
}

/// ≈ for ≉, and x ≈ literal for x ≈ y with one number.
fn change_string_relation(random: &mut Random, question: &mut Question) -> bool {
    let (p, literals, to_literal) = (question.p, question.literals.len(), random.chance(50));
    let Some(fact) = one_fact(random, question, |fact| !is_row(fact)) else { return false };
    let other = match *fact {
        Fact::Same(a, b) if to_literal && b < literals => Fact::IsLiteral(a, b),
        Fact::Same(a, b) => Fact::Differ(a, b),
        Fact::IsLiteral(a, b) if b < p => Fact::Same(a, b),
        Fact::Differ(a, b) => Fact::Same(a, b),
        _ => return false,
    };
    *fact = other;
    true
}

fn change_operand(random: &mut Random, question: &mut Question) -> bool {
    let variable = if question.p == 0 { return false } else { random.below(question.p) };
    let first = random.chance(50);
    let Some(fact) = one_fact(random, question, |fact| !is_row(fact)) else { return false };
    let operand = match fact {
        Fact::Same(_, b) | Fact::Differ(_, b) if !first => b,
        Fact::Same(a, _) | Fact::Differ(a, _) | Fact::IsLiteral(a, _) => a,
        Fact::Arithmetic(..) => return false,
    };
    std::mem::replace(operand, variable) != variable
}

fn change_literal(random: &mut Random, question: &mut Question) -> bool {
    let other = random.below(question.literals.len());
    match one_fact(random, question, |fact| matches!(fact, Fact::IsLiteral(..))) {
        Some(Fact::IsLiteral(_, literal)) => std::mem::replace(literal, other) != other,
        _ => false,
    }
}

/// Gives a literal that is named another text, if no other literal has it.
fn change_text(random: &mut Random, question: &mut Question, other: impl Fn(&mut Random, &mut Vec<u32>)) -> bool {
    let named: Vec<usize> = (1..question.literals.len()).filter(|literal| is_named(question, *literal)).collect();
    if named.is_empty() {
        return false;
    }
    let literal = random.pick(&named);
    let mut text = question.literals[literal].clone();
    other(random, &mut text);
    if text.len() > 64 || question.literals.contains(&text) {
        return false;
    }
    question.literals[literal] = text;
    true
}

/// Another character in any place of a literal, or in its last one.
fn change_character(random: &mut Random, question: &mut Question) -> bool {
    let n = question.n;
    change_text(random, question, |random, text| {
        let at = if random.chance(50) { text.len() - 1 } else { random.below(text.len()) };
        text[at] = random.pick(&[(text[at] + 1) % n, (text[at] ^ 256) % n, (text[at] ^ 65_536) % n]);
    })
}

/// One character more or less at a literal's end; 0 may stand there.
fn change_length(random: &mut Random, question: &mut Question) -> bool {
    change_text(random, question, |random, text| match random.chance(50) {
        true => text.push(0),
        false => drop(text.pop()),
    })
}

fn change_relation(random: &mut Random, question: &mut Question) -> bool {
    let other = random.pick(&[Relation::AtLeast, Relation::Equal, Relation::NotEqual]);
    one_row(random, question).is_some_and(|(relation, _)| std::mem::replace(relation, other) != other)
}

/// Adds a little to a number, or turns its sign; false where it stays or leaves its range.
fn move_number(random: &mut Random, number: &mut i128) -> bool {
    let before = *number;
    let moved = random.pick(&[before + 1, before - 1, before + 2, before ^ 65_536, -before]);
    *number = if within_limit(moved) { moved } else { before };
    *number != before
}

/// The columns of a row whose coefficient is 0, or those where it is not.
fn columns_of(row: &Row, zero: bool) -> Vec<usize> {
    (0..row.coefficients.len()).filter(|column| (row.coefficients[*column] == 0) == zero).collect()
}

fn change_coefficient(random: &mut Random, question: &mut Question) -> bool {
    let Some((_, row)) = one_row(random, question) else { return false };
    let columns = columns_of(row, false);
    !columns.is_empty() && {
        let column = random.pick(&columns);
        move_number(random, &mut row.coefficients[column])
    }
}

/// Moves a coefficient to another column.
fn change_column(random: &mut Random, question: &mut Question) -> bool {
    let Some((_, row)) = one_row(random, question) else { return false };
    let (from, to) = (columns_of(row, false), columns_of(row, true));
    !from.is_empty() && !to.is_empty() && {
        row.coefficients.swap(random.pick(&from), random.pick(&to));
        true
    }
}

fn change_constant(random: &mut Random, question: &mut Question) -> bool {
    one_row(random, question).is_some_and(|(_, row)| move_number(random, &mut row.constant))
}

/// Multiplies all but the constant.
fn multiply_coefficients(random: &mut Random, question: &mut Question) -> bool {
    let Some((_, row)) = one_row(random, question) else { return false };
    let coefficients = Row { constant: 0, coefficients: row.coefficients.clone() };
    let factor = any_factor(random, greatest(&coefficients));
    row.coefficients = times(&coefficients, factor).coefficients;
    factor > 1
}

/// Turns the sign of all but the constant.
fn turn_coefficients(random: &mut Random, question: &mut Question) -> bool {
    let Some((_, row)) = one_row(random, question) else { return false };
    row.coefficients = row.negative().coefficients;
    !row.is_constant()
}

fn turn_at_least(random: &mut Random, question: &mut Question) -> bool {
    match one_fact(random, question, |fact| matches!(fact, Fact::Arithmetic(Relation::AtLeast, _))) {
        Some(Fact::Arithmetic(_, row)) => {
            *row = row.negative();
            greatest(row) > 0
        }
        _ => false,
    }
}

/// Any constraint of kind 11.
fn one_extended<'a>(random: &mut Random, question: &'a mut Question) -> Option<&'a mut Extended> {
    let count = question.extended.len();
    (count > 0).then(|| &mut question.extended[random.below(count)])
}

/// Another function of two strings, or of an integer and a string where the operands allow it.
fn change_function(random: &mut Random, question: &mut Question) -> bool {
    let (p, q, step) = (question.p, question.q, random.below(2));
    let Some(extended) = one_extended(random, question) else { return false };
    let before = *extended;
    *extended = match before {
        Extended::Upper { a, b } => [Extended::Lower { a, b }, Extended::Before { a, b }][step],
        Extended::Lower { a, b } => [Extended::Upper { a, b }, Extended::Before { a, b }][step],
        Extended::Before { a, b } => [Extended::Upper { a, b }, Extended::Lower { a, b }][step],
        Extended::Read { integer: a, string: b } if a < p && b < q => Extended::Written { string: a, integer: b },
        Extended::Written { string: a, integer: b } if a < q && b < p => Extended::Read { integer: a, string: b },
        other => other,
    };
    *extended != before
}

/// Another constraint of the same function.
fn change_extended(random: &mut Random, question: &mut Question) -> bool {
    let Some(other) = extended::any(random, question) else { return false };
    let Some(extended) = one_extended(random, question) else { return false };
    let before = std::mem::replace(extended, other);
    let alike = std::mem::discriminant(&before) == std::mem::discriminant(&other);
    if !alike {
        *extended = before;
    }
    alike && before != other
}

fn turn_extended(random: &mut Random, question: &mut Question) -> bool {
    match one_extended(random, question) {
        Some(Extended::Upper { a, b } | Extended::Lower { a, b } | Extended::Before { a, b }) => turned(a, b),
        _ => false,
    }
}

fn leave_out_fact(random: &mut Random, question: &mut Question) -> bool {
    let count = question.constraints.len();
    count > 0 && {
        question.constraints.remove(random.below(count));
        true
    }
}

fn leave_out_extended(random: &mut Random, question: &mut Question) -> bool {
    let count = question.extended.len();
    count > 0 && {
        question.extended.remove(random.below(count));
        true
    }
}

fn add_fact(random: &mut Random, question: &mut Question) -> bool {
    constraint_count(question) < MOST_FACTS && {
        let fact = any_fact(random, question);
        add(question, fact);
        true
    }
}

fn add_extended(random: &mut Random, question: &mut Question) -> bool {
    let Some(extended) = extended::any(random, question) else { return false };
    constraint_count(question) < MOST_FACTS && {
        question.extended.push(extended);
        true
    }
}
