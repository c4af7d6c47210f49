//! Terms as conditions of a question.

use crate::conditions::{compare, opposite, unfit, Condition, Side};
use crate::sums::{Column, Sum};
use crate::tokens::{Node, Term};
use std::collections::HashMap;
use std::rc::Rc;
use text::{Mistake, Place};
use ticket::MOST_FACTS;

/// What a term stands for; conditions hold all at once.
pub enum Value {
    Side(Side),
    Truth(Vec<Condition>),
}

/// The variables by their symbols, and what `let` binds, the innermost last.
#[derive(Default)]
pub struct Scope {
    pub strings: Vec<String>,
    pub integers: Vec<String>,
    bound: HashMap<String, Vec<Rc<Value>>>,
}

type Found<T> = Result<T, Mistake>;

/// So many conditions at once are more than a question has.
fn bounded(place: Place, conditions: Vec<Condition>) -> Found<Value> {
    match conditions.len() > MOST_FACTS {
        true => Err(place.mistake(format!("a question has at most {MOST_FACTS} conditions"))),
        false => Ok(Value::Truth(conditions)),
    }
}

impl Scope {
    /// The conditions that a term asserts.
    pub fn conditions(&mut self, term: &Term) -> Found<Vec<Condition>> {
        match &*self.value(term)? {
            Value::Truth(conditions) => Ok(conditions.clone()),
            Value::Side(_) => Err(term.mistake("a condition is due here")),
        }
    }

    fn value(&mut self, term: &Term) -> Found<Rc<Value>> {
        let side = |side: Side| Ok(Rc::new(Value::Side(side)));
        match &term.node {
            Node::Number(number) => side(Side::Sum(Sum::constant(*number))),
            Node::Text(text) => side(Side::Text(text.clone())),
            Node::Symbol(name) => self.named(term, name),
            Node::Other(_) => Err(unfit(term, "")),
            Node::List(_) => match term.applied() {
                Some(("let", rest)) => self.bindings(term, rest),
                Some((head, rest)) => self.application(term, head, rest).map(Rc::new),
                None => Err(unfit(term, "")),
            },
        }
    }

    fn named(&self, term: &Term, name: &str) -> Found<Rc<Value>> {
        if let Some(value) = self.bound.get(name).and_then(|values| values.last()) {
            return Ok(value.clone());
        }
        let at = |names: &[String]| names.iter().position(|known| known == name);
        let value = match (at(&self.strings), at(&self.integers), name) {
            (Some(x), ..) => Value::Side(Side::Variable(x)),
            (_, Some(i), _) => Value::Side(Side::Sum(Sum::column(Column::Integer(i)))),
            (.., "true") => Value::Truth(Vec::new()),
            (.., "false") => Value::Truth(vec![Condition::False(term.place)]),
            _ => return Err(term.mistake(format!("{name} is not declared"))),
        };
        Ok(Rc::new(value))
    }

    /// `(let ((name term) ..) term)`: all terms are read before any name is bound.
    fn bindings(&mut self, term: &Term, rest: &[Term]) -> Found<Rc<Value>> {
        let [bindings, body] = rest else { return Err(unfit(term, "")) };
        let mut bound = Vec::new();
        for binding in bindings.list().ok_or_else(|| unfit(bindings, ""))? {
            let Some((name, [meant])) = binding.applied() else { return Err(unfit(binding, "")) };
            bound.push((name.to_string(), self.value(meant)?));
        }
        for (name, value) in &bound {
            self.bound.entry(name.clone()).or_default().push(value.clone());
        }
        let value = self.value(body);
        for (name, _) in &bound {
            self.bound.get_mut(name).map(Vec::pop);
        }
        value
    }

    fn application(&mut self, term: &Term, head: &str, rest: &[Term]) -> Found<Value> {
        match (head, rest) {
            ("and", _) => self.all(term, rest),
            ("not", [of]) => self.negated(term, of),
            ("!", [of, ..]) => Ok(Value::Truth(self.conditions(of)?)),
            ("=", [_, _, ..]) => self.chain(term, "=", rest),
            ("<=", [_, _, ..]) => self.chain(term, "<=", rest),
            ("<", [_, _, ..]) => self.chain(term, "<", rest),
            (">=", [_, _, ..]) => self.chain(term, ">=", rest),
            (">", [_, _, ..]) => self.chain(term, ">", rest),
            ("distinct", [_, _, ..]) => self.distinct(term, rest),
            ("str.<=", [_, _, ..]) => self.ordered(term, rest),
            ("str.in_re", [string, expression]) => self.within(term, string, expression),
            _ => self.side_of(term, head, rest).map(Value::Side),
        }
    }

    /// The applications that are numbers or strings.
    fn side_of(&mut self, term: &Term, head: &str, rest: &[Term]) -> Found<Side> {
        match (head, rest) {
            ("+", [_, ..]) => self.sum(term, rest, 1),
            ("-", [_, _, ..]) => self.sum(term, rest, -1),
            ("-", [of]) => Sum::default().add(&self.number(of)?, -1).map(Side::Sum).ok_or_else(|| too_large(term)),
            ("*", [_, ..]) => self.product(term, rest),
            ("str.len", [of]) => self.measured(of, Column::Len, |text| text.len() as i64),
            ("str.to_code", [of]) => self.measured(of, Column::Code, code_of),
            ("str.from_int", [of]) => match self.number(of)?.integer() {
                Some(i) => Ok(Side::Decimal(i)),
                None => Err(unfit(of, ": str.from_int is taken of an integer variable alone")),
            },
            ("ite", _) => self.reading(term, rest),
            ("or" | "=>" | "xor", _) => Err(unfit(term, ": its conditions hold all at once")),
            ("str.to_int", _) => Err(unfit(term, ": it takes leading zeros, which number(..) does not")),
            _ => Err(unfit(term, "")),
        }
    }

    fn all(&mut self, term: &Term, rest: &[Term]) -> Found<Value> {
        let mut all = Vec::new();
        for one in rest {
            all.extend(self.conditions(one)?);
            if all.len() > MOST_FACTS {
                break;
            }
        }
        bounded(term.place, all)
    }

    /// One condition has an opposite, and so has one that is always or never met.
    fn negated(&mut self, term: &Term, of: &Term) -> Found<Value> {
        let conditions = self.conditions(of)?;
        match &conditions[..] {
            [] => Ok(Value::Truth(vec![Condition::False(term.place)])),
            [Condition::False(_)] => Ok(Value::Truth(Vec::new())),
            [Condition::Compare { left, relation, right, .. }] => match opposite(left, relation, right) {
                Some(relation) => compare(term, left.clone(), relation, right.clone()).map(Value::Truth),
                None => Err(unfit(term, ": this condition has no opposite in a question")),
            },
            [_] => Err(unfit(term, ": this condition has no opposite in a question")),
            _ => Err(unfit(term, ": the opposite of several conditions is that one of them fails")),
        }
    }

    fn side(&mut self, term: &Term) -> Found<Side> {
        match &*self.value(term)? {
            Value::Side(side) => Ok(side.clone()),
            Value::Truth(_) => Err(unfit(term, ": a number or a string is due here")),
        }
    }

    fn sides(&mut self, rest: &[Term]) -> Found<Vec<Side>> {
        rest.iter().map(|one| self.side(one)).collect()
    }

    /// `(<= a b c)` is a condition for each two neighbours.
    fn chain(&mut self, term: &Term, relation: &'static str, rest: &[Term]) -> Found<Value> {
        let sides = self.sides(rest)?;
        let mut all = Vec::new();
        for pair in sides.windows(2).take(MOST_FACTS + 1) {
            all.extend(compare(term, pair[0].clone(), relation, pair[1].clone())?);
        }
        bounded(term.place, all)
    }

    /// `(distinct a b c)` is a condition for each pair.
    fn distinct(&mut self, term: &Term, rest: &[Term]) -> Found<Value> {
        let sides = self.sides(rest)?;
        let pairs = sides.iter().enumerate().flat_map(|(place, a)| sides[place + 1..].iter().map(move |b| (a, b)));
        let mut all = Vec::new();
        for (a, b) in pairs.take(MOST_FACTS + 1) {
            all.extend(compare(term, a.clone(), "!=", b.clone())?);
        }
        bounded(term.place, all)
    }

    /// `(str.<= x y)`
    fn ordered(&mut self, term: &Term, rest: &[Term]) -> Found<Value> {
        let sides = self.sides(rest)?;
        let mut all = Vec::new();
        for pair in sides.windows(2).take(MOST_FACTS + 1) {
            match (&pair[0], &pair[1]) {
                (Side::Variable(_), Side::Variable(_) | Side::Text(_)) | (Side::Text(_), Side::Variable(_)) => {
                    let (left, right) = (pair[0].clone(), pair[1].clone());
                    all.push(Condition::Compare { place: term.place, left, relation: "<=", right });
                }
                _ => return Err(unfit(term, ": string variables and texts are ordered alone")),
            }
        }
        bounded(term.place, all)
    }

    /// `(str.in_re x (re.* (re.range "\u{0}" "\u{7f}")))`: the characters of x are those of an alphabet.
    fn within(&mut self, term: &Term, string: &Term, expression: &Term) -> Found<Value> {
        let Side::Variable(x) = self.side(string)? else {
            return Err(unfit(string, ": a string variable is due here"));
        };
        let last = last_of_range(expression);
        let n =
            last.ok_or_else(|| unfit(expression, ": it has (re.* (re.range \"\\u{0}\" ..)) for the alphabet alone"))?;
        Ok(Value::Truth(vec![Condition::Within { place: term.place, string: x, n: n + 1 }]))
    }

    fn number(&mut self, term: &Term) -> Found<Sum> {
        match self.side(term)? {
            Side::Sum(sum) => Ok(sum),
            _ => Err(unfit(term, ": a sum of numbers, integers, lengths and codes is due here")),
        }
    }

    /// The first, and a multiple of each other one.
    fn sum(&mut self, term: &Term, rest: &[Term], factor: i64) -> Found<Side> {
        let mut total = Sum::default();
        for (place, one) in rest.iter().enumerate() {
            let factor = if place == 0 { 1 } else { factor };
            total = total.add(&self.number(one)?, factor).ok_or_else(|| too_large(term))?;
        }
        Ok(Side::Sum(total))
    }

    /// All factors but one are numbers.
    fn product(&mut self, term: &Term, rest: &[Term]) -> Found<Side> {
        let mut total = Sum::constant(1);
        for one in rest {
            let factor = self.number(one)?;
            let (sum, times) = match (factor.value(), total.value()) {
                (Some(times), _) => (&total, times),
                (_, Some(times)) => (&factor, times),
                _ => return Err(unfit(term, ": a product has one variable at most")),
            };
            total = Sum::default().add(sum, times).ok_or_else(|| too_large(term))?;
        }
        Ok(Side::Sum(total))
    }

    /// `str.len` or `str.to_code` of a variable or a text.
    fn measured(&mut self, of: &Term, column: fn(usize) -> Column, value: fn(&[u32]) -> i64) -> Found<Side> {
        match self.side(of)? {
            Side::Variable(x) => Ok(Side::Sum(Sum::column(column(x)))),
            Side::Text(text) => Ok(Side::Sum(Sum::constant(value(&text)))),
            _ => Err(unfit(of, ": a string variable or a text is due here")),
        }
    }

    /// The one use of `ite`: a string read in decimal.
    fn reading(&mut self, term: &Term, rest: &[Term]) -> Found<Side> {
        let string = read_in_decimal(rest).ok_or_else(|| unfit(term, ""))?;
        match self.side(string)? {
            Side::Variable(x) => Ok(Side::Reading(x)),
            _ => Err(unfit(term, "")),
        }
    }
}

/// The string of `(ite (= x (str.from_int (str.to_int x))) (str.to_int x) (- 1))`, which is −1 for a string that is no numeral or has leading zeros.
fn read_in_decimal(rest: &[Term]) -> Option<&Term> {
    let [condition, value, otherwise] = rest else { return None };
    let ("str.to_int", [string]) = value.applied()? else { return None };
    let ("=", [same, written]) = condition.applied()? else { return None };
    let ("str.from_int", [of]) = written.applied()? else { return None };
    let ("str.to_int", [again]) = of.applied()? else { return None };
    let ("-", [one]) = otherwise.applied()? else { return None };
    let name = string.symbol()?;
    let holds = [same, again].iter().all(|term| term.symbol() == Some(name)) && one.node == Node::Number(1);
    holds.then_some(string)
}

/// The last character of `(re.* (re.range "\u{0}" ..))`.
fn last_of_range(expression: &Term) -> Option<u32> {
    let ("re.*", [range]) = expression.applied()? else { return None };
    let ("re.range", [first, last]) = range.applied()? else { return None };
    match (&first.node, &last.node) {
        (Node::Text(first), Node::Text(last)) if first[..] == [0] && last.len() == 1 => last.first().copied(),
        _ => None,
    }
}

fn too_large(term: &Term) -> Mistake {
    term.mistake("a number becomes too large here")
}

/// "code (the code point of a one-character string, else −1)"
fn code_of(text: &[u32]) -> i64 {
    match text {
        [only] => i64::from(*only),
        _ => -1,
    }
}
