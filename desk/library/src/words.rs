//! The refusals in the header's words.

/// The header, which stands beside the library.
const HEADER: &str = include_str!("../../../include/nuldwich.h");

/// A refusal in words, also for a number that is none.
pub fn refusal(number: u64) -> &'static str {
    name_of(number).and_then(words_of).unwrap_or("refused for a reason that this version has no words for")
}

/// The name that the header gives to a number: `#define NULDWICH_REFUSED_CUT 3`.
fn name_of(number: u64) -> Option<&'static str> {
    HEADER.lines().find_map(|line| {
        let (name, value) = line.strip_prefix("#define ")?.split_once(' ')?;
        (name.starts_with("NULDWICH_REFUSED_") && value.parse() == Ok(number)).then_some(name)
    })
}

/// The words that stand behind `case NAME: return`.
fn words_of(name: &str) -> Option<&'static str> {
    let start = format!("case {name}: return \"");
    HEADER.lines().find_map(|line| line.trim_start().strip_prefix(&start)?.strip_suffix("\";"))
}
