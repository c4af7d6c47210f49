//! Names and texts of a question as symbols and string literals of SMT-LIB, and symbols as names.

/// Words of the language itself: as symbols they stand between bars.
pub const RESERVED: [&str; 19] = [
    "BINARY", "DECIMAL", "HEXADECIMAL", "NUMERAL", "STRING", "_", "!", "as", "exists", "forall", "let", "match", "par",
    "assert", "echo", "exit", "pop", "push", "reset",
];

/// Names that theories or the two solvers have taken, between bars or not.
const TAKEN: [&str; 54] = [
    "true", "false", "not", "and", "or", "xor", "ite", "if", "implies", "iff", "distinct", "div", "mod", "rem", "abs",
    "divisible", "is_int", "to_int", "to_real", "Bool", "Int", "Real", "String", "RegLan", "Seq", "Array", "BitVec",
    "Set", "Bag", "Unicode", "select", "store", "const", "map", "default", "union", "intersect", "difference",
    "complement", "subset", "concat", "extract", "repeat", "is", "fp", "pi", "euler", "lambda", "sin", "cos", "tan",
    "exp", "sqrt", "char",
];

/// The beginnings of names of theories and of the solvers' own ones.
const FAMILIES: [&str; 12] =
    ["str.", "re.", "seq.", "int.", "set.", "bag.", "rel.", "tuple.", "fp.", "char.", "ff.", "table."];

/// The characters of plain symbols besides letters and digits.
const MARKS: &str = "~!@$%^&*_-+=<>.?/";

/// Whether a symbol stands without bars.
fn is_plain(name: &str) -> bool {
    let fits = |one: char| one.is_ascii_alphanumeric() || MARKS.contains(one);
    !name.is_empty()
        && name.chars().all(fits)
        && !name.starts_with(|one: char| one.is_ascii_digit())
        && !RESERVED.contains(&name)
}

/// A name as a symbol. One that is taken gets a mark that no name of a question has.
pub fn symbol(name: &str) -> String {
    let taken = TAKEN.contains(&name) || FAMILIES.iter().any(|family| name.starts_with(family));
    match taken {
        true => format!("|{name}'|"),
        false if is_plain(name) => name.to_string(),
        false => format!("|{name}|"),
    }
}

/// A text as a string literal: what is not plain in every reader is written by its number.
pub fn literal(text: &[u32]) -> String {
    let shown: String = text.iter().map(|character| written(*character)).collect();
    format!("\"{shown}\"")
}

fn written(character: u32) -> String {
    match char::from_u32(character) {
        Some(plain) if (plain == ' ' || plain.is_ascii_graphic()) && !"\"\\".contains(plain) => plain.to_string(),
        _ => format!("\\u{{{character:x}}}"),
    }
}

/// A whole number; a negative one is an application.
pub fn number(value: i64) -> String {
    match value < 0 {
        true => format!("(- {})", value.unsigned_abs()),
        false => value.to_string(),
    }
}

/// A symbol as a name of the text form that none has yet.
pub fn name(symbol: &str, is_free: impl Fn(&str) -> bool) -> String {
    let within = |one: char| if one.is_alphanumeric() || one == '.' { one } else { '_' };
    let mut name: String = symbol.trim_matches('|').chars().map(within).collect();
    if !name.starts_with(|one: char| one.is_alphabetic() || one == '_') {
        name.insert(0, '_');
    }
    let numbered = (2..).map(|number| format!("{name}_{number}"));
    [name.clone()].into_iter().chain(numbered).find(|name| is_free(name)).unwrap_or(name)
}
