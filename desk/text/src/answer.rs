//! Answers as text: a value for each variable.

use crate::read::lines;
use crate::tokens::{Line, Word};
use crate::{Mistake, Names, Written};

/// The values of all variables, those of helpers among them.
#[derive(Clone, Debug, PartialEq, Eq)]
pub struct Answer {
    pub strings: Vec<Vec<u32>>,
    pub integers: Vec<i64>,
}

impl Answer {
    /// "one record of kind 9 for each string variable, one of kind 10, one of kind 8"
    pub fn to_bytes(&self) -> Vec<u8> {
        ticket::answer_bytes(&self.strings, &self.integers)
    }

    /// The values of records that the library does not refuse.
    pub fn from_bytes(mut bytes: &[u8]) -> Option<Answer> {
        let mut answer = Answer { strings: Vec::new(), integers: Vec::new() };
        loop {
            let (head, rest) = bytes.split_first_chunk::<6>()?;
            let [a, b, c, d, kind, _] = *head;
            let body = rest.get(..u32::from_le_bytes([a, b, c, d]) as usize)?;
            let numbers = body.chunks_exact(4).map(|four| [four[0], four[1], four[2], four[3]]);
            match kind {
                9 => answer.strings.push(numbers.map(u32::from_le_bytes).collect()),
                10 => answer.integers.extend(numbers.map(|four| i64::from(i32::from_le_bytes(four)))),
                _ => return Some(answer),
            }
            bytes = &rest[body.len()..];
        }
    }
}

/// What is given so far.
struct Given<'a> {
    written: &'a Written,
    strings: Vec<Option<Vec<u32>>>,
    integers: Vec<Option<i64>>,
}

/// Reads an answer to a question: `donor = "AB12345"`, `k = 3`.
pub fn read_answer(text: &str, written: &Written) -> Result<Answer, Mistake> {
    let (p, q) = (written.question.p, written.question.q);
    let mut given = Given { written, strings: vec![None; p], integers: vec![None; q] };
    for (x, text) in written.helpers() {
        given.strings[x] = Some(text);
    }
    let mut last = 1;
    for (number, characters) in lines(text) {
        let mut line = Line::of(number, &characters, 0)?;
        last = number;
        if !line.is_done() {
            given.value(&mut line)?;
        }
    }
    match given.missing() {
        Some(name) => Err(Mistake { line: last, column: 1, reason: format!("no value is given for {name}") }),
        None => Ok(Answer {
            strings: given.strings.into_iter().flatten().collect(),
            integers: given.integers.into_iter().flatten().collect(),
        }),
    }
}

impl Given<'_> {
    fn value(&mut self, line: &mut Line) -> Result<(), Mistake> {
        let place = line.place();
        let Some(Word::Name(name)) = line.take() else {
            return Err(place.mistake("the name of a variable is due here"));
        };
        line.due("=")?;
        let names = &self.written.names;
        let (string, integer) = (of(&names.strings, &name), of(&names.integers, &name));
        let again = match (string, integer) {
            (Some(x), _) => self.strings[x].replace(text(line)?).is_some(),
            (_, Some(i)) => self.integers[i].replace(line.integer()?).is_some(),
            _ => return Err(place.mistake(self.unknown(&name))),
        };
        if again {
            return Err(place.mistake(format!("{name} has a value already")));
        }
        line.done()
    }

    /// What is said of a name that the question has not. Records have no names of a writer's choosing.
    fn unknown(&self, name: &str) -> String {
        let plain = Names::plain(&self.written.question);
        let hint = match self.written.names == plain {
            true => "; the fields of a ticket are x0, x1, .. and i0, i1, .., in the order of its question's names",
            false => "",
        };
        format!("the question has no variable {name}{hint}")
    }

    /// The first variable without a value.
    fn missing(&self) -> Option<&String> {
        let string = self.strings.iter().position(Option::is_none).map(|x| &self.written.names.strings[x]);
        string.or_else(|| self.integers.iter().position(Option::is_none).map(|i| &self.written.names.integers[i]))
    }
}

fn of(names: &[String], name: &str) -> Option<usize> {
    names.iter().position(|known| known == name)
}

fn text(line: &mut Line) -> Result<Vec<u32>, Mistake> {
    let place = line.place();
    match line.take() {
        Some(Word::Text(text)) => Ok(text),
        _ => Err(place.mistake("a text is due here")),
    }
}
