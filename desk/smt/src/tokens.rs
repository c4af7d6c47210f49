//! The terms of a file, each with its place.

use crate::symbols::RESERVED;
use text::{Mistake, Place};
use ticket::{LONGEST_STRING, MOST_CHARACTERS};

/// How deep terms may stand within each other.
const DEEPEST: usize = 400;

#[derive(Clone, Debug, PartialEq, Eq)]
pub enum Node {
    /// A word of the language that stands between bars keeps them.
    Symbol(String),
    Number(i64),
    Text(Vec<u32>),
    /// A keyword, a decimal or a bit vector.
    Other(String),
    List(Vec<Term>),
}

#[derive(Clone, Debug, PartialEq, Eq)]
pub struct Term {
    pub place: Place,
    pub node: Node,
}

impl Term {
    pub fn symbol(&self) -> Option<&str> {
        match &self.node {
            Node::Symbol(name) => Some(name),
            _ => None,
        }
    }

    pub fn list(&self) -> Option<&[Term]> {
        match &self.node {
            Node::List(items) => Some(items),
            _ => None,
        }
    }

    /// What an application applies, and to what.
    pub fn applied(&self) -> Option<(&str, &[Term])> {
        let (head, rest) = self.list()?.split_first()?;
        Some((head.symbol()?, rest))
    }

    /// A term in short: an application by what it applies.
    pub fn short(&self) -> String {
        match &self.node {
            Node::Symbol(word) | Node::Other(word) => word.clone(),
            Node::Number(number) => number.to_string(),
            Node::Text(text) => crate::symbols::literal(text),
            Node::List(_) => match self.applied() {
                Some((head, [])) => format!("({head})"),
                Some((head, _)) => format!("({head} ..)"),
                None => "( .. )".to_string(),
            },
        }
    }

    pub fn mistake(&self, reason: impl Into<String>) -> Mistake {
        self.place.mistake(reason)
    }
}

/// What is left of a file.
struct Rest<'a> {
    characters: std::iter::Peekable<std::str::Chars<'a>>,
    place: Place,
}

/// A list whose closing parenthesis is not read yet.
type Open = (Place, Vec<Term>);

/// The terms of a file one after another.
pub fn terms(text: &str) -> Result<Vec<Term>, Mistake> {
    let text = text.strip_prefix('\u{feff}').unwrap_or(text);
    let mut rest = Rest { characters: text.chars().peekable(), place: Place { line: 1, column: 1 } };
    let (mut open, mut found): (Vec<Open>, Vec<Term>) = (Vec::new(), Vec::new());
    while let Some((place, first)) = rest.start() {
        let node = match first {
            '(' if open.len() == DEEPEST => return Err(place.mistake(format!("terms stand over {DEEPEST} deep here"))),
            '(' => {
                open.push((place, std::mem::take(&mut found)));
                continue;
            }
            ')' => {
                let (start, before) = open.pop().ok_or_else(|| place.mistake("this ) closes nothing"))?;
                let list = Node::List(std::mem::replace(&mut found, before));
                found.push(Term { place: start, node: list });
                continue;
            }
            '"' => rest.string(place)?,
            '|' => rest.quoted(place)?,
            first => rest.word(place, first)?,
        };
        found.push(Term { place, node });
    }
    match open.last() {
        Some((place, _)) => Err(place.mistake("this ( is not closed")),
        None => Ok(found),
    }
}

/// Whether a character ends a word.
fn ends(one: char) -> bool {
    one.is_whitespace() || "()\";|".contains(one)
}

impl Rest<'_> {
    fn take(&mut self) -> Option<char> {
        let one = self.characters.next()?;
        let Place { line, column } = self.place;
        self.place = if one == '\n' { Place { line: line + 1, column: 1 } } else { Place { line, column: column + 1 } };
        Some(one)
    }

    /// The first character that is neither white space nor within a remark, taken.
    fn start(&mut self) -> Option<(Place, char)> {
        loop {
            let place = self.place;
            match self.take()? {
                ';' => while self.take().is_some_and(|one| !"\n\r".contains(one)) {},
                space if space.is_whitespace() => {}
                first => return Some((place, first)),
            }
        }
    }

    /// A numeral, a symbol, or what is neither.
    fn word(&mut self, place: Place, first: char) -> Result<Node, Mistake> {
        let mut word = String::from(first);
        while let Some(one) = self.characters.peek().copied().filter(|one| !ends(*one)) {
            word.push(one);
            self.take();
        }
        match first {
            '0'..='9' if word.chars().all(|one| one.is_ascii_digit()) => {
                word.parse().map(Node::Number).map_err(|_| place.mistake("this number is too large"))
            }
            '0'..='9' | '#' | ':' => Ok(Node::Other(word)),
            _ => Ok(Node::Symbol(word)),
        }
    }

    /// `|a symbol|`
    fn quoted(&mut self, place: Place) -> Result<Node, Mistake> {
        let mut name = String::new();
        loop {
            match self.take() {
                None => return Err(place.mistake("this symbol has no closing |")),
                Some('|') => break,
                Some(one) => name.push(one),
            }
        }
        let is_word = RESERVED.contains(&&name[..]);
        Ok(Node::Symbol(if is_word { format!("|{name}|") } else { name }))
    }

    /// `"a string"`, in which `""` is a quotation mark.
    fn string(&mut self, place: Place) -> Result<Node, Mistake> {
        let mut characters = Vec::new();
        loop {
            let here = self.place;
            match self.take() {
                None => return Err(place.mistake("this string has no closing \"")),
                Some('"') if self.characters.peek() != Some(&'"') => break,
                Some('"') => characters.extend(self.take()),
                Some(one) if one == ' ' || one.is_ascii_graphic() || one.is_ascii_whitespace() => characters.push(one),
                Some(_) => return Err(here.mistake("in SMT-LIB this character is written as \\u{..}")),
            }
        }
        match unescaped(&characters) {
            text if text.len() > LONGEST_STRING => {
                Err(place.mistake(format!("a text has at most {LONGEST_STRING} characters")))
            }
            text => Ok(Node::Text(text)),
        }
    }
}

/// The characters that a string literal stands for.
fn unescaped(mut characters: &[char]) -> Vec<u32> {
    let mut text = Vec::new();
    while let [first, behind @ ..] = characters {
        let (code, rest) = escape(characters).unwrap_or((u32::from(*first), behind));
        text.push(code);
        characters = rest;
    }
    text
}

/// `\u17f0` or `\u{17f}` at the front, of one to five digits; nothing where there is none, and the backslash stands for itself.
fn escape(characters: &[char]) -> Option<(u32, &[char])> {
    let ['\\', 'u', behind @ ..] = characters else { return None };
    let (digits, rest) = match behind {
        ['{', inner @ ..] => {
            let end = inner.iter().take(6).position(|one| *one == '}')?;
            (&inner[..end], &inner[end + 1..])
        }
        _ => behind.split_at_checked(4)?,
    };
    let digits: String = digits.iter().collect::<String>();
    let is_number = !digits.is_empty() && digits.chars().all(|one| one.is_ascii_hexdigit());
    let code = u32::from_str_radix(&digits, 16).ok().filter(|code| is_number && *code < MOST_CHARACTERS)?;
    Some((code, rest))
}
