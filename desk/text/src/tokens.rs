//! The words of a line.

use crate::strays::behind_number;
use crate::Mistake;

/// What a line is made of. A character in single quotes is its number.
#[derive(Clone, Debug, PartialEq, Eq)]
pub enum Word {
    Name(String),
    Number(i64),
    Text(Vec<u32>),
    Sign(&'static str),
}

/// A word and the columns where it begins and where the last of it stands, from 1.
#[derive(Clone, Debug)]
struct Token {
    word: Word,
    column: usize,
    last: usize,
}

/// Characters at which other programs end a line. What stands behind one could be taken for a part of a remark.
const BREAKS: [char; 6] = ['\r', '\u{b}', '\u{c}', '\u{85}', '\u{2028}', '\u{2029}'];

/// The signs, longer ones before those that they begin with. The last two and `||` fit nowhere, and are told where they stand.
const SIGNS: [&str; 17] = ["<=", ">=", "!=", "||", "<", ">", "=", "+", "-", "*", "(", ")", "[", "]", ":", ",", "|"];

/// What is written elsewhere, and what is written for it here.
const STRANGE: [(&str, &str); 19] = [
    ("==", "write ="),
    ("=>", "write >="),
    ("=<", "write <="),
    ("<>", "write !="),
    ("≤", "write <="),
    ("≥", "write >="),
    ("≠", "write !="),
    ("≈", "write ="),
    ("≉", "write !="),
    ("−", "write -"),
    ("·", "write *"),
    ("×", "write *"),
    ("“", "write \""),
    ("”", "write \""),
    ("‘", "write '"),
    ("’", "write '"),
    (".", "numbers are whole"),
    ("&", "a further condition goes on a line of its own"),
    ("//", "a remark begins with #"),
];

/// The signs that compare.
const RELATIONS: [&str; 6] = ["<=", ">=", "!=", "<", ">", "="];

/// A place in a text, for what is wrong there: line and column, both from 1.
#[derive(Clone, Copy, Debug, PartialEq, Eq)]
pub struct Place {
    pub line: usize,
    pub column: usize,
}

impl Place {
    pub fn mistake(self, reason: impl Into<String>) -> Mistake {
        Mistake { line: self.line, column: self.column, reason: reason.into() }
    }
}

/// Takes the words of a line from the front.
pub struct Line {
    number: usize,
    tokens: Vec<Token>,
    at: usize,
    /// The column behind the line.
    end: usize,
}

impl Line {
    /// The words of a line from a character on.
    pub fn of(number: usize, characters: &[char], from: usize) -> Result<Line, Mistake> {
        if let Some(at) = characters.iter().position(|one| BREAKS.contains(one)) {
            let place = Place { line: number, column: at + 1 };
            return Err(place.mistake("a line ends here for some programs: end it by a line feed"));
        }
        let tokens = tokens(number, characters, from)?;
        Ok(Line { number, tokens, at: 0, end: characters.len() + 1 })
    }

    /// Where the next word stands.
    pub fn place(&self) -> Place {
        Place { line: self.number, column: self.tokens.get(self.at).map_or(self.end, |token| token.column) }
    }

    pub fn mistake(&self, reason: impl Into<String>) -> Mistake {
        self.place().mistake(reason)
    }

    pub fn next(&self) -> Option<&Word> {
        self.tokens.get(self.at).map(|token| &token.word)
    }

    /// The columns of each relation with its two sides: their first and their last.
    pub fn relations(&self) -> Vec<(usize, usize)> {
        let compares = |token: &Token| matches!(token.word, Word::Sign(sign) if RELATIONS.contains(&sign));
        let sides = self.tokens.split(compares).filter_map(|side| Some((side.first()?.column, side.last()?.last)));
        sides.collect::<Vec<_>>().windows(2).map(|pair| (pair[0].0, pair[1].1)).collect()
    }

    /// Takes the next word.
    pub fn take(&mut self) -> Option<Word> {
        let word = self.next().cloned();
        self.at += 1;
        word
    }

    pub fn is_done(&self) -> bool {
        self.at >= self.tokens.len()
    }

    /// Whether a comma between two numbers stands next.
    pub fn is_separator(&self) -> bool {
        let number = |at: Option<usize>| {
            matches!(at.and_then(|at| self.tokens.get(at)), Some(Token { word: Word::Number(_), .. }))
        };
        matches!(self.next(), Some(Word::Sign(","))) && number(self.at.checked_sub(1)) && number(Some(self.at + 1))
    }

    /// Demands that nothing is left.
    pub fn done(&self) -> Result<(), Mistake> {
        if self.is_done() {
            Ok(())
        } else {
            Err(behind_number(self, "nothing more stands in this line"))
        }
    }

    /// Takes a sign where it stands next.
    pub fn sign(&mut self, sign: &str) -> bool {
        let stands = matches!(self.next(), Some(Word::Sign(found)) if *found == sign);
        self.at += usize::from(stands);
        stands
    }

    pub fn due(&mut self, sign: &str) -> Result<(), Mistake> {
        if self.sign(sign) {
            Ok(())
        } else {
            Err(self.mistake(format!("{sign} is due here")))
        }
    }

    /// Takes a sign that compares, where one stands next.
    pub fn relation(&mut self) -> Option<&'static str> {
        RELATIONS.into_iter().find(|relation| self.sign(relation))
    }

    /// The name that stands next, and whether it is that of a function.
    pub fn named(&self) -> Option<(&str, bool)> {
        let opens = matches!(self.tokens.get(self.at + 1).map(|token| &token.word), Some(Word::Sign("(")));
        match self.next() {
            Some(Word::Name(name)) => Some((name, opens)),
            _ => None,
        }
    }

    /// Takes a word where it stands next.
    pub fn word(&mut self, word: &str) -> bool {
        let stands = self.named().is_some_and(|(name, _)| name == word);
        self.at += usize::from(stands);
        stands
    }

    /// Takes a whole number with its sign.
    pub fn integer(&mut self) -> Result<i64, Mistake> {
        let sign = if self.sign("-") { -1 } else { 1 };
        match self.next() {
            Some(Word::Number(number)) => {
                let value = sign * number;
                self.at += 1;
                Ok(value)
            }
            _ => Err(self.mistake("a number is due here")),
        }
    }
}

/// What is left of a line.
struct Rest<'a> {
    line: usize,
    characters: &'a [char],
    at: usize,
}

/// The words of a line from a character on, up to a remark.
fn tokens(line: usize, characters: &[char], from: usize) -> Result<Vec<Token>, Mistake> {
    let mut rest = Rest { line, characters, at: from };
    let mut found = Vec::new();
    loop {
        while rest.next().is_some_and(char::is_whitespace) {
            rest.at += 1;
        }
        let column = rest.at + 1;
        match rest.next() {
            None | Some('#') => return Ok(found),
            Some(first) => {
                let word = rest.word(first)?;
                found.push(Token { word, column, last: rest.at });
            }
        }
    }
}

impl Rest<'_> {
    fn next(&self) -> Option<char> {
        self.characters.get(self.at).copied()
    }

    fn mistake(&self, reason: impl Into<String>) -> Mistake {
        Mistake { line: self.line, column: self.at + 1, reason: reason.into() }
    }

    fn word(&mut self, first: char) -> Result<Word, Mistake> {
        match first {
            '"' => self.text(),
            '\'' => self.code(),
            _ if first.is_ascii_digit() => self.number(),
            _ if is_initial(first) => Ok(Word::Name(self.run(is_within))),
            _ => self.sign(first),
        }
    }

    /// The characters up to the first that does not fit.
    fn run(&mut self, fits: fn(char) -> bool) -> String {
        let run: String = self.characters[self.at..].iter().take_while(|one| fits(**one)).collect();
        self.at += run.chars().count();
        run
    }

    fn number(&mut self) -> Result<Word, Mistake> {
        let start = self.mistake("this number is too large");
        let number = self.run(|one| one.is_ascii_digit()).parse().map(Word::Number).map_err(|_| start)?;
        match self.next() {
            Some(letter) if is_initial(letter) => Err(self
                .mistake("a letter stands behind a number; a product has *, as 2*k, and a name begins with a letter")),
            _ => Ok(number),
        }
    }

    fn sign(&mut self, first: char) -> Result<Word, Mistake> {
        let behind = &self.characters[self.at..];
        let stands = |sign: &str| {
            behind.len() >= sign.chars().count() && sign.chars().zip(behind).all(|(due, found)| due == *found)
        };
        if let Some((strange, hint)) = STRANGE.iter().find(|(strange, _)| stands(strange)) {
            return Err(self.mistake(format!("{strange} has no meaning here: {hint}")));
        }
        let sign = SIGNS.iter().find(|sign| stands(sign));
        let sign = sign.ok_or_else(|| self.mistake(format!("{first:?} has no meaning here")))?;
        self.at += sign.len();
        Ok(Word::Sign(sign))
    }

    /// `"AB"`
    fn text(&mut self) -> Result<Word, Mistake> {
        let open = self.mistake("this text has no closing \"");
        self.at += 1;
        let mut characters = Vec::new();
        loop {
            match self.next() {
                None => return Err(open),
                Some('"') => break,
                Some(_) => characters.push(self.character()?),
            }
        }
        self.at += 1;
        Ok(Word::Text(characters))
    }

    /// `'A'`
    fn code(&mut self) -> Result<Word, Mistake> {
        let open = self.mistake("one character stands between ' and '");
        self.at += 1;
        let code = match self.next() {
            None | Some('\'') => return Err(open),
            Some(_) => self.character()?,
        };
        if self.next() != Some('\'') {
            return Err(open);
        }
        self.at += 1;
        Ok(Word::Number(i64::from(code)))
    }

    /// A character, or `\"`, `\'`, `\\` or `\u{17f}`.
    fn character(&mut self) -> Result<u32, Mistake> {
        let start = self.mistake("behind \\ stands one of \" ' \\ or u{..} with a code point in hexadecimal");
        let behind = &self.characters[self.at..];
        let (code, length) = match behind {
            ['\\', quoted @ ('"' | '\'' | '\\'), ..] => (u32::from(*quoted), 2),
            ['\\', 'u', '{', digits @ ..] => {
                let digits: String = digits.iter().take_while(|digit| digit.is_ascii_hexdigit()).collect();
                let closed = behind.get(3 + digits.len()) == Some(&'}');
                let code = u32::from_str_radix(&digits, 16).ok().filter(|_| closed).ok_or(start)?;
                (code, digits.len() + 4)
            }
            ['\\', ..] | [] => return Err(start),
            [plain, ..] => (u32::from(*plain), 1),
        };
        self.at += length;
        Ok(code)
    }
}

fn is_initial(character: char) -> bool {
    character.is_alphabetic() || character == '_'
}

fn is_within(character: char) -> bool {
    character.is_alphanumeric() || character == '_' || character == '.'
}
