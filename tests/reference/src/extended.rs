//! Kind 11: case, digits and order. Judging and sameness alone take it.

use crate::answer::Answer;

/// "u16 function, u16 a, u16 b", by the function. "Functions: 0, string a is b in upper case ..; 1, string a is b in lower
/// case; 2, integer a is b read in decimal ..; 3, string a is integer b in decimal ..; 4, string a is equal to or before
/// string b".
#[derive(Clone, Copy, Debug, PartialEq, Eq, PartialOrd, Ord)]
pub enum Extended {
    Upper { a: usize, b: usize },
    Lower { a: usize, b: usize },
    Read { integer: usize, string: usize },
    Written { string: usize, integer: usize },
    Before { a: usize, b: usize },
}

impl Extended {
    /// Whether an answer meets it.
    pub fn holds(&self, answer: &Answer) -> bool {
        let string = |number: usize| &answer.strings[number];
        match *self {
            Extended::Upper { a, b } => *string(a) == upper(string(b)),
            Extended::Lower { a, b } => *string(a) == lower(string(b)),
            Extended::Read { integer, string: b } => reads_as(string(b), answer.integers[integer]),
            Extended::Written { string: a, integer } => *string(a) == decimal(answer.integers[integer]),
            Extended::Before { a, b } => equal_or_before(string(a), string(b)),
        }
    }
}

/// "in upper case (97 to 122 become 65 to 90)"
pub fn upper(text: &[u32]) -> Vec<u32> {
    text.iter().map(|character| if (97..=122).contains(character) { character - 32 } else { *character }).collect()
}

/// "in lower case": document 000, section 4, "maps upper case letters (code points 65 to 90) to their lower case version".
pub fn lower(text: &[u32]) -> Vec<u32> {
    text.iter().map(|character| if (65..=90).contains(character) { character + 32 } else { *character }).collect()
}

/// "not empty, digits only, a leading 0 only when alone"
pub fn is_numeric(text: &[u32]) -> bool {
    let leading_0 = text.first() == Some(&48) && text.len() > 1;
    !text.is_empty() && text.iter().all(|character| (48..=57).contains(character)) && !leading_0
}

/// "integer a is b read in decimal, −1 if b is not numeric". A numeric text is the decimal of one integer alone, so that no
/// value has to be worked out of "a recipient's numeral of 64 digits .. although no answer integer can hold it".
fn reads_as(text: &[u32], integer: i128) -> bool {
    if is_numeric(text) {
        decimal(integer) == text
    } else {
        integer == -1
    }
}

/// An integer "in decimal, empty for negatives".
pub fn decimal(integer: i128) -> Vec<u32> {
    match integer {
        0.. => integer.to_string().chars().map(u32::from).collect(),
        _ => Vec::new(),
    }
}

/// "equal to or before string b by code points": the first place where they differ decides, and else the end that comes first.
fn equal_or_before(a: &[u32], b: &[u32]) -> bool {
    match a.iter().zip(b).find(|(mine, theirs)| mine != theirs) {
        Some((mine, theirs)) => mine < theirs,
        None => a.len() <= b.len(),
    }
}

#[cfg(test)]
mod tests {
    use super::*;

    fn text(words: &str) -> Vec<u32> {
        words.chars().map(u32::from).collect()
    }

    #[test]
    fn case_turns_the_letters_of_basic_latin_alone() {
        assert_eq!(upper(&text("`az{@AZ[ß")), text("`AZ{@AZ[ß"));
        assert_eq!(lower(&text("`az{@AZ[Ä")), text("`az{@az[Ä"));
        assert_eq!((upper(&[]), lower(&[])), (text(""), text("")));
    }

    #[test]
    fn case_turns_b_alone() {
        let answer = Answer { strings: vec![text("AB"), text("ab")], integers: vec![] };
        assert!(Extended::Upper { a: 0, b: 1 }.holds(&answer) && !Extended::Upper { a: 1, b: 0 }.holds(&answer));
        assert!(Extended::Lower { a: 1, b: 0 }.holds(&answer) && !Extended::Lower { a: 0, b: 1 }.holds(&answer));
    }

    #[test]
    fn numeric_is_not_empty_digits_only_and_without_a_leading_0() {
        for words in ["0", "7", "10", "99999999999", &"9".repeat(64)] {
            assert!(is_numeric(&text(words)), "{words}");
        }
        for words in ["", "00", "07", "-1", "+1", " 1", "1 ", "1/", ":1", "1a", "٣"] {
            assert!(!is_numeric(&text(words)), "{words}");
        }
    }

    #[test]
    fn a_numeral_has_its_full_value() {
        for value in [0, 1, 9, 10, 99_999_999, 100_000_000, 1 << 32, (1 << 64) + 7, i128::MAX] {
            let numeral = text(&value.to_string());
            let others = [-1, value - 1, value / 10, -value - 1];
            assert!(
                reads_as(&numeral, value) && !others.iter().any(|other| *other != value && reads_as(&numeral, *other))
            );
        }
        let wraps = text(&((1i128 << 64) + 7).to_string());
        assert!(!reads_as(&wraps, 7) && !reads_as(&text(&"9".repeat(64)), -1));
        assert!(reads_as(&text("007"), -1) && !reads_as(&text("007"), 7) && !reads_as(&text(""), 0));
    }

    #[test]
    fn the_decimal_of_a_negative_is_empty() {
        assert_eq!((decimal(0), decimal(100_000_000)), (text("0"), text("100000000")));
        assert_eq!((decimal(-1), decimal(-100_000_000)), (text(""), text("")));
    }

    #[test]
    fn order_is_by_code_points_and_a_prefix_stands_first() {
        let before = |a: &str, b: &str| equal_or_before(&text(a), &text(b));
        assert!(before("", "") && before("", "a") && before("ab", "ab") && before("ab", "abc") && before("Z", "a"));
        assert!(
            !before("a", "")
                && !before("abc", "ab")
                && !before("b", "ab")
                && before("ab", "b")
                && before("\u{ffff}", "\u{10000}")
        );
    }
}
