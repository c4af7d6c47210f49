//! Questions, tickets and answers as text.

use crate::{Names, Written};
use ticket::{Claim, Constraint, Extended, Form, Function, Placed, Question, Relation, Step, Ticket};

/// A text in double quotes. What a terminal does not show as itself is written as a code point.
pub fn quoted(text: &[u32]) -> String {
    let shown: String = text.iter().map(|character| written(*character)).collect();
    format!("\"{shown}\"")
}

fn written(character: u32) -> String {
    match char::from_u32(character) {
        Some(quote @ ('"' | '\\')) => format!("\\{quote}"),
        Some(plain) if plain == ' ' || plain.is_ascii_graphic() => plain.to_string(),
        Some(letter) if !letter.is_ascii() && letter.is_alphanumeric() => letter.to_string(),
        _ => format!("\\u{{{character:x}}}"),
    }
}

/// `k`, `len(x)` or `code(x)`
pub fn column_text(question: &Question, names: &Names, column: usize) -> String {
    let (p, q) = (question.p, question.q);
    match column {
        column if column < q => names.integers[column].clone(),
        column if column < q + p => format!("len({})", names.strings[column - q]),
        column => format!("code({})", names.strings[column - q - p]),
    }
}

/// `2*len(x) - k + 3`
pub fn form_text(question: &Question, names: &Names, form: &Form) -> String {
    let mut text = String::new();
    for (column, coefficient) in &form.terms {
        let times = if coefficient.abs() == 1 { String::new() } else { format!("{}*", coefficient.abs()) };
        add_term(&mut text, *coefficient < 0, &format!("{times}{}", column_text(question, names, *column)));
    }
    if form.constant != 0 || text.is_empty() {
        add_term(&mut text, form.constant < 0, &form.constant.unsigned_abs().to_string());
    }
    text
}

/// Puts a term behind others with its sign; the first has no `+`.
fn add_term(text: &mut String, negative: bool, term: &str) {
    *text += match (text.is_empty(), negative) {
        (true, false) => "",
        (true, true) => "-",
        (false, false) => " + ",
        (false, true) => " - ",
    };
    *text += term;
}

/// A constraint by its number over kinds 3, 4 and 11; empty for a number that none has.
pub fn constraint_text(question: &Question, names: &Names, number: usize) -> String {
    let behind = number.checked_sub(question.constraints.len());
    match (question.constraints.get(number), behind.and_then(|place| question.extended.get(place))) {
        (Some(constraint), _) => plain_text(question, names, constraint),
        (_, Some(constraint)) => extended_text(names, constraint),
        _ => String::new(),
    }
}

fn plain_text(question: &Question, names: &Names, constraint: &Constraint) -> String {
    let name = |x: &usize| &names.strings[*x];
    match constraint {
        Constraint::Same(x, y) => format!("{} = {}", name(x), name(y)),
        Constraint::NotSame(x, y) => format!("{} != {}", name(x), name(y)),
        Constraint::IsLiteral(x, number) => {
            format!("{} = {}", name(x), quoted(question.literal(*number).unwrap_or_default()))
        }
        Constraint::Arithmetic(relation, form) => {
            let relation = match relation {
                Relation::Ge => ">=",
                Relation::Eq => "=",
                Relation::Ne => "!=",
            };
            format!("{} {relation} 0", form_text(question, names, form))
        }
    }
}

fn extended_text(names: &Names, constraint: &Extended) -> String {
    let (string, integer) = (|x: &usize| &names.strings[*x], |i: &usize| &names.integers[*i]);
    match constraint {
        Extended::Upper(x, y) => format!("{} = upper({})", string(x), string(y)),
        Extended::Lower(x, y) => format!("{} = lower({})", string(x), string(y)),
        Extended::Value(i, y) => format!("{} = number({})", integer(i), string(y)),
        Extended::Decimal(x, i) => format!("{} = decimal({})", string(x), integer(i)),
        Extended::InOrder(x, y) => format!("{} <= {}", string(x), string(y)),
    }
}

/// Whether the literals are those that the constraints name, in the order in which they are named first.
fn are_literals_named(question: &Question) -> bool {
    let mut named = 0;
    for constraint in &question.constraints {
        match constraint {
            Constraint::IsLiteral(_, number) if *number == named + 1 => named += 1,
            Constraint::IsLiteral(_, number) if *number > named => return false,
            _ => {}
        }
    }
    named == question.literals.len()
}

/// A question, a declaration or condition on each line. Literals are declared where the conditions do not give them in their order.
pub fn question_text(question: &Question, names: &Names) -> String {
    let mut lines = vec![format!("alphabet {}", question.n)];
    for (what, named) in [("strings", &names.strings), ("integers", &names.integers)] {
        if !named.is_empty() {
            lines.push(format!("{what} {}", named.join(" ")));
        }
    }
    if !are_literals_named(question) {
        lines.extend(question.literals.iter().map(|literal| format!("literal {}", quoted(literal))));
    }
    let constraints = question.constraints.len() + question.extended.len();
    lines.extend((0..constraints).map(|number| constraint_text(question, names, number)));
    lines.join("\n") + "\n"
}

/// A whole ticket.
pub fn ticket_text(ticket: &Ticket, names: &Names) -> String {
    let question = &ticket.question;
    let (claim, steps, usual) = match &ticket.claim {
        Claim::NoSolution(steps) => ("claim no solution", steps, 0),
        Claim::Strings { steps, .. } => ("claim strings", steps, 1),
    };
    let mut lines = vec![claim.to_string()];
    lines.extend(steps.iter().map(|placed| placed_text(question, names, placed, usual)));
    if let Claim::Strings { model, .. } = &ticket.claim {
        lines.push("model".to_string());
        let values = model.iter().enumerate();
        lines.extend(values.map(|(column, value)| format!("{} = {value}", column_text(question, names, column))));
    }
    format!("{}{}\n", question_text(question, names), lines.join("\n"))
}

/// A step, with its child where that is not the one that goes without saying.
fn placed_text(question: &Question, names: &Names, placed: &Placed, usual: u16) -> String {
    let step = step_text(question, names, &placed.step);
    let taken = usual == 1 && placed.step.splits();
    match placed.child {
        child if child != usual || taken => format!("{step}: child {child}"),
        _ => step,
    }
}

fn step_text(question: &Question, names: &Names, step: &Step) -> String {
    let name = |x: &usize| &names.strings[*x];
    match step {
        Step::Sum { divisor, pairs } => sum_text(*divisor, pairs),
        Step::Branch(form) => format!("Branch {}", form_text(question, names, form)),
        Step::Apart(fact) => format!("Apart [{fact}]"),
        Step::AConf(fact) => format!("A-Conf [{fact}]"),
        Step::SConf => "S-Conf".to_string(),
        Step::SProp(Function::Len, x, y) => format!("S-Prop len {} {}", name(x), name(y)),
        Step::SProp(Function::Code, x, y) => format!("S-Prop code {} {}", name(x), name(y)),
        Step::LIntro(x) => format!("L-Intro {}", name(x)),
        Step::LValid(x) => format!("L-Valid {}", name(x)),
        Step::CCollapse(x) => format!("C-Collapse {}", name(x)),
        Step::CValid(x) => format!("C-Valid {}", name(x)),
        Step::CInj(x, y) => format!("C-Inj {} {}", name(x), name(y)),
        Step::Card(variables) => {
            let named: Vec<&str> = variables.iter().map(|x| name(x).as_str()).collect();
            format!("Card {}", named.join(" "))
        }
        Step::Join(first, second) => format!("Join [{first}] [{second}]"),
    }
}

fn sum_text(divisor: u32, pairs: &[(usize, i64)]) -> String {
    let mut sum = String::new();
    for (fact, multiplier) in pairs {
        add_term(&mut sum, *multiplier < 0, &format!("{}*[{fact}]", multiplier.abs()));
    }
    let over = if divisor == 1 { String::new() } else { format!(" over {divisor}") };
    format!("Sum {sum}{over}")
}

/// The values of the declared variables: `donor = "AB12345"`, `k = 3`, a line for each.
pub fn answer_text(written: &Written, strings: &[Vec<u32>], integers: &[i64]) -> String {
    let strings = strings.iter().take(written.declared).enumerate();
    let strings = strings.map(|(x, value)| format!("{} = {}\n", written.names.strings[x], quoted(value)));
    let integers = integers.iter().enumerate();
    let integers = integers.map(|(i, value)| format!("{} = {value}\n", written.names.integers[i]));
    strings.chain(integers).collect()
}
