//! Why a leaf is not settled by its model (13).

use crate::account::Scene;
use crate::broken::{hopeless, model_values};
use crate::layout::rule_words;
use crate::{steps, words};
use nuldwich_reference::facts::Fact;
use nuldwich_reference::leaf::{read_model, Leaf};
use nuldwich_reference::question::Question;
use nuldwich_reference::rules::{code_of, Conclusion, Place};
use nuldwich_reference::steps::Rule;

/// Rule 5 where it fits, else the first choice of operands without a child that holds, and why each child fails.
pub fn reasons(scene: &Scene, body: &[u8]) -> (String, Vec<String>) {
    let question = &scene.ticket.question;
    let model = read_model(question, body).unwrap_or_default();
    steps::on_branch(scene.ticket, scene.branch(), |place| {
        if let Some(conflict) = steps::conflict(scene, place) {
            return ("no strings meet the ≈ and ≉ facts of the leaf".to_string(), clash(scene, conflict));
        }
        let place = Place { question, branch: place.branch, classes: place.classes };
        let unsettled = Unsettled { question, leaf: Leaf { place, model: model.clone() } };
        ("the model does not settle the leaf".to_string(), unsettled.reasons())
    })
}

/// "S-Conf fitting (a clash of literals, ≉ within a class) is 13": no model helps.
fn clash(scene: &Scene, conflict: String) -> Vec<String> {
    let constraints = &scene.ticket.question.constraints;
    let fits =
        |place: &Place| place.classes.clash().is_some() || place.classes.broken_difference(constraints).is_some();
    let by_the_question = steps::on_branch(scene.ticket, constraints, fits);
    vec![format!("{} fits: {conflict}", rule_words(5)), hopeless(scene, by_the_question)]
}

struct Unsettled<'a> {
    question: &'a Question,
    leaf: Leaf<'a>,
}

impl Unsettled<'_> {
    fn reasons(&self) -> Vec<String> {
        let rules = self.leaf.choices().into_iter().filter(|rule| !self.leaf.choice_is_settled(rule));
        let cards = (0..self.question.p).map(|x| self.leaf.card_choice(x));
        let cards = cards.filter(|choice| !self.leaf.card_choice_is_settled(choice)).map(Rule::Card);
        let Some(first) = rules.chain(cards).next() else {
            return Vec::new();
        };
        let mut reasons = vec![self.gist(&first), format!("so {} has no child that holds:", named(&first))];
        reasons.extend(self.children(&first));
        reasons
    }

    /// Why each child fails; Card's pairs in one line.
    fn children(&self, rule: &Rule) -> Vec<String> {
        let (children, first) = match rule {
            Rule::Card(variables) => (self.leaf.place.card_children(variables), steps::pairs(variables.len())),
            _ => match self.leaf.place.conclude(rule) {
                Some(Conclusion::Children(children)) => (children, 0),
                _ => (Vec::new(), 0),
            },
        };
        let mut reasons = Vec::new();
        if first > 0 {
            let children =
                if first == 1 { "child 1, ≈".to_string() } else { format!("children 1 to {first}, each an ≈") };
            reasons.push(format!("{children} between two of them: no two of them are in one class"));
        }
        let others = children.iter().enumerate().skip(first);
        reasons.extend(others.map(|(place, child)| format!("child {}, {}", place + 1, self.failing(child))));
        reasons
    }

    /// The first fact of a child that does not hold.
    fn failing(&self, child: &[Fact]) -> String {
        let Some(fact) = child.iter().find(|fact| !self.leaf.holds(fact)) else {
            return String::new();
        };
        let why = match fact {
            Fact::Arithmetic(_, row) => {
                let value = words::number(row.value(&self.leaf.model));
                format!("its left side is {value}{}", model_values(self.question, row, &self.leaf.model))
            }
            Fact::IsLiteral(x, _) => format!("the class {} does not hold it", self.class(*x)),
            Fact::Same(x, y) | Fact::Differ(x, y) => {
                format!("they are in the classes {} and {}", self.class(*x), self.class(*y))
            }
        };
        format!("{}: {why}", words::fact(self.question, fact))
    }

    fn class(&self, x: usize) -> String {
        words::class(self.question, self.leaf.place.classes, x)
    }

    /// The fault by the model's values: what strings it asks for that do not exist.
    fn gist(&self, rule: &Rule) -> String {
        let length = |x: &usize| words::number(self.leaf.length(*x));
        let code = |x: &usize| words::number(self.leaf.code(*x));
        match rule {
            Rule::SProp { function, x, y } => {
                let (name, of_x, of_y) =
                    if *function == 0 { ("len", length(x), length(y)) } else { ("code", code(x), code(y)) };
                let both = words::variables(&[*x, *y]);
                format!("{both} are in one class, but the model gives them {name} {of_x} and {of_y}")
            }
            Rule::LIntro(x) => format!("{}, but the model gives it length {}", self.held(*x), length(x)),
            Rule::CCollapse(x) => format!("{}, but the model gives it code {}", self.held(*x), code(x)),
            Rule::LValid(x) if self.leaf.length(*x) < 0 => {
                format!("the model gives {} the length {}, below 0", words::variable(*x), length(x))
            }
            Rule::LValid(x) => {
                format!(
                    "the model gives {} length 0, but its class does not hold literal 0 (the empty string)",
                    words::variable(*x)
                )
            }
            Rule::CValid(x) => {
                let greatest = words::number(i128::from(self.question.n) - 1);
                let given =
                    format!("the model gives {} length {} and code {}", words::variable(*x), length(x), code(x));
                format!("{given}; a string of length 1 has a code from 0 to {greatest}, any other has code −1")
            }
            Rule::CInj(x, y) => {
                let both = words::variables(&[*x, *y]);
                format!("{both} are in different classes, but the model gives both the code {}", code(x))
            }
            Rule::Card(variables) => self.too_many(variables),
            _ => String::new(),
        }
    }

    /// The literal that counts in the class of a variable.
    fn held(&self, x: usize) -> String {
        let Some(number) = self.leaf.place.classes.literal(x) else {
            return String::new();
        };
        let text = &self.question.literals[number];
        let (literal, code) = (words::literal(self.question, number), words::number(code_of(text)));
        format!("the class of {} holds {literal} of length {} and code {code}", words::variable(x), text.len())
    }

    /// More classes of one length than there are strings of it: fewer than 16, so the power is small.
    fn too_many(&self, variables: &[usize]) -> String {
        let (n, length) = (self.question.n, self.leaf.length(variables[0]));
        let strings = if n == 1 { 1 } else { i128::from(n).pow(length.clamp(0, 4) as u32) };
        let named = words::variables(variables);
        let all = variables.len();
        let strings = words::count(strings as usize, "string");
        let (n, length) = (words::number(i128::from(n)), words::number(length));
        format!("{named}, {all} variables in different classes, have length {length}, but with n = {n} that length has {strings} in all")
    }
}

/// A choice of operands.
fn named(rule: &Rule) -> String {
    let on = |number: u16, variables: &[usize]| format!("{} on {}", rule_words(number), words::variables(variables));
    match rule {
        Rule::SProp { function, x, y } => {
            let function = if *function == 0 { "len" } else { "code" };
            format!("{} for {function} on {}", rule_words(6), words::variables(&[*x, *y]))
        }
        Rule::LIntro(x) => on(7, &[*x]),
        Rule::LValid(x) => on(8, &[*x]),
        Rule::CCollapse(x) => on(9, &[*x]),
        Rule::CValid(x) => on(10, &[*x]),
        Rule::CInj(x, y) => on(11, &[*x, *y]),
        Rule::Card(variables) => on(12, variables),
        _ => "the rule".to_string(),
    }
}
