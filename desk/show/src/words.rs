//! Numbers, strings, columns, facts and classes in words.

use nuldwich_reference::classes::Classes;
use nuldwich_reference::facts::{Fact, Relation, Row};
use nuldwich_reference::question::Question;
use std::cell::RefCell;

/// A literal is shown in full up to this many characters where it stands within a fact.
const SHORT: usize = 24;

/// How many terms of a form are shown where it stands in full elsewhere.
const MANY: usize = 12;

/// A number; one over 9,999 with its thousands apart.
pub fn number(value: i128) -> String {
    let digits = value.unsigned_abs().to_string();
    let mut words = if value < 0 { "−".to_string() } else { String::new() };
    for (place, digit) in digits.chars().enumerate() {
        if place > 0 && digits.len() > 4 && (digits.len() - place) % 3 == 0 {
            words.push(',');
        }
        words.push(digit);
    }
    words
}

/// A count and what is counted: `1 byte`, `7 bytes`.
pub fn count(number_of: usize, noun: &str) -> String {
    let ending = if number_of == 1 { "" } else { "s" };
    format!("{} {noun}{ending}", number(number_of as i128))
}

/// Things by number: `fact 3`, `facts 3 to 7`.
pub fn range(noun: &str, first: usize, last: usize) -> String {
    match last {
        _ if last == first => format!("{noun} {first}"),
        _ => format!("{noun}s {first} to {last}"),
    }
}

/// `1 more field is`, `2 more fields are`
pub fn more(number: usize, noun: &str) -> String {
    let (ending, verb) = if number == 1 { ("", "is") } else { ("s", "are") };
    format!("{number} more {noun}{ending} {verb}")
}

/// Items in a sentence: `a`, `a or b`, `a, b or c`.
pub fn listed(items: &[String], word: &str) -> String {
    match items {
        [] => "none".to_string(),
        [only] => only.clone(),
        [first @ .., last] => format!("{} {word} {last}", first.join(", ")),
    }
}

thread_local! {
    /// Names of string and integer variables that stand for the program's own while an account is given.
    static NAMES: RefCell<[Vec<String>; 2]> = const { RefCell::new([Vec::new(), Vec::new()]) };
}

/// Gives an account with the names of a question's writer.
pub fn with_names<T>(strings: &[String], integers: &[String], account: impl FnOnce() -> T) -> T {
    let before = NAMES.replace([strings.to_vec(), integers.to_vec()]);
    let given = account();
    NAMES.set(before);
    given
}

/// A string variable: by its writer's name, or as the program prints it.
pub fn variable(x: usize) -> String {
    NAMES.with_borrow(|[strings, _]| strings.get(x).cloned().unwrap_or_else(|| format!("x{x}")))
}

/// An integer variable likewise.
pub fn integer(i: usize) -> String {
    NAMES.with_borrow(|[_, integers]| integers.get(i).cloned().unwrap_or_else(|| format!("i{i}")))
}

/// String variables in a sentence.
pub fn variables(numbers: &[usize]) -> String {
    listed(&numbers.iter().map(|x| variable(*x)).collect::<Vec<_>>(), "and")
}

/// Bytes in hexadecimal, a space between any two.
pub fn hex(bytes: &[u8]) -> String {
    bytes.iter().map(|byte| format!("{byte:02x}")).collect::<Vec<_>>().join(" ")
}

/// A string as text where all its characters are printable, else as code points.
pub fn text(characters: &[u32]) -> String {
    match characters.iter().map(|character| printable(*character)).collect::<Option<String>>() {
        _ if characters.is_empty() => "the empty string".to_string(),
        Some(text) => format!("\"{text}\""),
        None => {
            let points: Vec<String> = characters.iter().map(|character| number(i128::from(*character))).collect();
            format!("code point{} {}", if points.len() == 1 { "" } else { "s" }, points.join(" "))
        }
    }
}

/// A string that may be too long to stand in full within a fact.
fn brief(characters: &[u32]) -> String {
    if characters.len() <= SHORT {
        return text(characters);
    }
    format!("{} .. ({} characters)", text(&characters[..SHORT]), characters.len())
}

/// A character that a terminal shows as itself; the quotation mark and the backslash are escaped.
fn printable(character: u32) -> Option<String> {
    match char::from_u32(character)? {
        '"' => Some("\\\"".to_string()),
        '\\' => Some("\\\\".to_string()),
        shown if shown == ' ' || shown.is_ascii_graphic() => Some(shown.to_string()),
        shown if !shown.is_ascii() && shown.is_alphanumeric() => Some(shown.to_string()),
        _ => None,
    }
}

/// `≥ 0`, `= 0`, `≠ 0`
pub fn relation(relation: Relation) -> &'static str {
    match relation {
        Relation::AtLeast => "≥ 0",
        Relation::Equal => "= 0",
        Relation::NotEqual => "≠ 0",
    }
}

/// "Columns: the q integer variables, then len of each string variable, then code of each."
pub fn column(question: &Question, column: usize) -> String {
    let (p, q) = (question.p, question.q);
    match column {
        column if column < q => integer(column),
        column if column < q + p => format!("len({})", variable(column - q)),
        column => format!("code({})", variable(column - q - p)),
    }
}

/// A linear form: `2·len(x0) − code(x1) + 3`.
pub fn form(question: &Question, row: &Row) -> String {
    form_up_to(question, row, usize::MAX)
}

/// A linear form with its first terms, as many as are asked for, and how many more there are.
fn form_up_to(question: &Question, row: &Row, most: usize) -> String {
    let mut words = String::new();
    let places: Vec<usize> = (0..row.coefficients.len()).filter(|place| row.coefficients[*place] != 0).collect();
    for place in places.iter().take(most) {
        let coefficient = row.coefficients[*place];
        let size = match coefficient.abs() {
            1 => String::new(),
            size => format!("{}·", number(size)),
        };
        add_term(&mut words, coefficient, &format!("{size}{}", column(question, *place)));
    }
    if places.len() > most {
        add_term(&mut words, 1, &format!("({} more terms)", places.len() - most));
    }
    if words.is_empty() {
        return number(row.constant);
    }
    if row.constant != 0 {
        add_term(&mut words, row.constant, &number(row.constant.abs()));
    }
    words
}

/// Puts a term behind a form with its sign; the first term has no `+`.
fn add_term(words: &mut String, sign: i128, term: &str) {
    *words += match (words.is_empty(), sign < 0) {
        (true, true) => "−",
        (true, false) => "",
        (false, true) => " − ",
        (false, false) => " + ",
    };
    *words += term;
}

/// A fact: `len(x0) − 1 ≥ 0`, `x0 ≈ x1`, `x0 ≉ x1`, `x0 ≈ literal 1 "abc"`.
pub fn fact(question: &Question, fact: &Fact) -> String {
    match fact {
        Fact::Same(a, b) => format!("{} ≈ {}", variable(*a), variable(*b)),
        Fact::Differ(a, b) => format!("{} ≉ {}", variable(*a), variable(*b)),
        Fact::IsLiteral(a, number) => format!("{} ≈ {}", variable(*a), literal(question, *number)),
        Fact::Arithmetic(of, row) => format!("{} {}", form(question, row), relation(*of)),
    }
}

/// A fact that was written out before: of a long one the first terms alone.
pub fn known_fact(question: &Question, known: &Fact) -> String {
    match known {
        Fact::Arithmetic(of, row) => format!("{} {}", form_up_to(question, row, MANY), relation(*of)),
        _ => fact(question, known),
    }
}

/// The facts of a child.
pub fn facts(question: &Question, child: &[Fact]) -> String {
    listed(&child.iter().map(|one| fact(question, one)).collect::<Vec<_>>(), "and")
}

/// A literal by number: `literal 1 "abc"`.
pub fn literal(question: &Question, number: usize) -> String {
    match brief(&question.literals[number]) {
        quoted if quoted.starts_with('"') => format!("literal {number} {quoted}"),
        other => format!("literal {number} ({other})"),
    }
}

/// What is in one class with a variable: `{x0, x2, literal 1 "a"}`.
pub fn class(question: &Question, classes: &Classes, x: usize) -> String {
    let members = (0..question.p).filter(|y| classes.together(x, *y)).map(variable);
    let literals = (0..question.literals.len()).filter(|number| classes.holds(x, *number));
    let all: Vec<String> = members.chain(literals.map(|number| literal(question, number))).collect();
    format!("{{{}}}", all.join(", "))
}
